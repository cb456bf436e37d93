//! The box as document 01 says it, in plain Rust: a second opinion, written from the document and shared with nothing.
//!
//! A command is first decided, on what it may only look at (`Sight`): that gives a Unit Check row or what is to be done
//! (`Done`). Then one place does it (`Machine::settle`). Clear before fast.
pub mod areas;
mod control;
pub mod events;
pub mod held;
mod reads;
mod searches;
mod writes;

use areas::TRACK;
use events::{End, Event, Length, Program, Row};
use held::{Held, Selection};

/// The faults that document 01 has seen in other boxes, and two of our own, to show that a comparison finds them.
#[derive(Clone, Copy, PartialEq, Debug)]
pub enum Wrong {
    HighByStorage,
    RoomUnsigned,
    ModifierEight,
    ShortLicence,
    CountR0,
    BadCountUsed,
    KeptTally,
    UnwipedTrack,
}

pub const WRONGS: [(&str, Wrong); 8] = [
    ("high-by-storage", Wrong::HighByStorage),
    ("room-unsigned", Wrong::RoomUnsigned),
    ("modifier-eight", Wrong::ModifierEight),
    ("short-licence", Wrong::ShortLicence),
    ("count-r0", Wrong::CountR0),
    ("bad-count-used", Wrong::BadCountUsed),
    ("kept-tally", Wrong::KeptTally),
    ("unwiped-track", Wrong::UnwipedTrack),
];

/// What the host lends for a call.
pub struct Lent<'a> {
    pub held: &'a mut [u8],
    pub storage: &'a mut [u8],
    pub cells: &'a mut [u16],
    pub cylinders: u32,
    pub heads: u32,
}

/// A command word.
#[derive(Clone, Copy)]
pub struct Word {
    pub code: u8,
    pub address: usize,
    pub flags: u8,
    pub count: usize,
}

/// What a command may look at.
pub struct Sight<'a> {
    pub word: Word,
    pub held: &'a Held,
    pub storage: &'a [u8],
    pub track: &'a [u16],
    pub cylinders: u32,
    pub heads: u32,
    pub wrong: Option<Wrong>,
}

/// What a command that meets no Unit Check does. `wanted` None: its length is never incorrect.
pub struct Done {
    pub moved: usize,
    pub wanted: Option<usize>,
    pub stored: Vec<u8>,
    pub laid: Vec<(usize, Vec<u16>)>,
    pub place: usize,
    pub stand: (u16, u16),
    pub mask: Option<u8>,
    pub selection: Selection,
    pub tally: u8,
    pub satisfied: bool,
    pub whole: bool,
    pub exception: bool,
}

/// A Unit Check: its row, and the bytes moved.
pub type Checked<T> = Result<T, (Row, usize)>;

impl Sight<'_> {
    /// Nothing moved, nothing selected, the head where it was.
    pub fn nothing(&self) -> Done {
        Done {
            moved: 0,
            wanted: Some(0),
            stored: Vec::new(),
            laid: Vec::new(),
            place: self.held.place,
            stand: (self.held.cylinder, self.held.head),
            mask: None,
            selection: Selection::None,
            tally: if self.wrong == Some(Wrong::KeptTally) { self.held.tally } else { 0 },
            satisfied: false,
            whole: false,
            exception: false,
        }
    }

    /// The bytes that the word lends a command which takes at most `most`.
    pub fn fetched(&self, most: usize) -> &[u8] {
        let Word { address, count, .. } = self.word;
        &self.storage[address..address + count.min(most)]
    }

    fn decide(&self) -> Checked<Done> {
        match self.word.code {
            0x03 => Ok(Done { wanted: None, ..self.nothing() }),
            0x04 => Ok(self.sense()),
            0x07 | 0x0B | 0x1B => self.seek(),
            0x1F => self.set_file_mask(),
            0x0F => self.space_record(),
            0x39 => self.search_ha(),
            0x31 | 0x51 | 0x71 => self.search_id(),
            0x29 | 0x49 | 0x69 => self.search_key(),
            0x1A => self.read_ha(),
            0x16 | 0x12 | 0x06 | 0x0E | 0x1E => self.read_record(),
            0x19 => self.write_ha(),
            0x15 => self.write_r0(),
            0x1D => self.write_record(),
            0x05 | 0x0D => self.update(),
            _ => Err((Row::Unknown, 0)),
        }
    }
}

/// A call's machine: the held values, what is lent, and a note of everything that happened.
struct Machine<'a, 'n> {
    held: Held,
    storage: &'a mut [u8],
    cells: &'a mut [u16],
    cylinders: u32,
    heads: u32,
    wrong: Option<Wrong>,
    notes: &'n mut Vec<Event>,
}

const ADDRESSES: usize = 1 << 24;

fn is_tic(code: u8) -> bool {
    code & 0x0F == 8
}

/// The command word at `at`, or the program check that it gets.
fn fetch(storage: &[u8], at: usize, after_tic: bool) -> Result<Word, Program> {
    if at % 8 != 0 {
        return Err(Program::Misaligned);
    }
    let Some(b) = storage.get(at..at + 8) else { return Err(Program::Outside) };
    let word = Word {
        code: b[0],
        address: usize::from(b[1]) << 16 | usize::from(b[2]) << 8 | usize::from(b[3]),
        flags: b[4],
        count: usize::from(b[6]) << 8 | usize::from(b[7]),
    };
    if is_tic(word.code) {
        return if after_tic { Err(Program::TicAfterTic) } else { Ok(word) };
    }
    match () {
        _ if word.flags & !0x60 != 0 => Err(Program::Flags),
        _ if word.count == 0 => Err(Program::CountZero),
        _ if word.code & 0x0F == 0 => Err(Program::CodeDigit),
        _ if word.address + word.count > storage.len() => Err(Program::Beyond),
        _ => Ok(word),
    }
}

impl Machine<'_, '_> {
    /// The status word at 64, and the chain's end.
    fn end(&mut self, unit: u8, channel: u8, left: usize) {
        let address = (self.held.next + 8) % ADDRESSES;
        let [_, high, middle, low] = (address as u32).to_be_bytes();
        let [left_high, left_low] = (left as u16).to_be_bytes();
        let status = [self.held.key << 4, high, middle, low, unit, channel, left_high, left_low];
        self.storage[64..72].copy_from_slice(&status);
        self.held = self.held.rested();
    }

    fn track(&self) -> std::ops::Range<usize> {
        let number = usize::from(self.held.cylinder) * self.heads as usize + usize::from(self.held.head);
        number * TRACK..(number + 1) * TRACK
    }

    /// Runs the next word. Whether the chain ended.
    fn step(&mut self) -> bool {
        let word = match fetch(self.storage, self.held.next, self.held.after_tic) {
            Ok(word) => word,
            Err(program) => {
                self.notes.push(Event::Program(program));
                self.end(0x00, 0x20, 0);
                return true;
            }
        };
        if is_tic(word.code) {
            self.notes.push(Event::Tic(word.code));
            self.held.next = word.address;
            self.held.after_tic = true;
            return false;
        }
        let track = self.track();
        let sight = Sight {
            word,
            held: &self.held,
            storage: self.storage,
            track: &self.cells[track],
            cylinders: self.cylinders,
            heads: self.heads,
            wrong: self.wrong,
        };
        match sight.decide() {
            Err((row, moved)) => self.unit_check(word, row, moved),
            Ok(done) => self.settle(word, done),
        }
    }

    fn unit_check(&mut self, word: Word, row: Row, moved: usize) -> bool {
        self.notes.push(Event::Check(word.code, row));
        self.held.sense = row.sense();
        self.end(0x0E, 0x00, word.count - moved);
        true
    }

    /// Does what was decided, tests the length, and goes to the next word or ends the chain.
    fn settle(&mut self, word: Word, done: Done) -> bool {
        let base = self.track().start;
        for (at, cells) in &done.laid {
            self.cells[base + at..base + at + cells.len()].copy_from_slice(cells);
        }
        self.storage[word.address..word.address + done.stored.len()].copy_from_slice(&done.stored);
        let left = word.count - done.moved;
        let length = match done.wanted {
            Some(wanted) if wanted > done.moved => Length::Short,
            Some(_) if left != 0 => Length::Over,
            _ => Length::Exact,
        };
        let incorrect = length != Length::Exact && word.flags & 0x20 == 0;
        self.hold(word, &done);
        self.notes.push(Event::End(
            word.code,
            End { satisfied: done.satisfied, exception: done.exception, length, incorrect },
        ));
        if incorrect || done.exception || word.flags & 0x40 == 0 {
            let unit = 0x0C | u8::from(done.exception) | if done.satisfied { 0x40 } else { 0 };
            self.end(unit, if incorrect { 0x40 } else { 0 }, left);
            return true;
        }
        let skips = done.satisfied && self.wrong != Some(Wrong::ModifierEight);
        self.held.next = (self.held.next + if skips { 16 } else { 8 }) % ADDRESSES;
        false
    }

    /// What a command without Unit Check leaves in the held state, but for the next address.
    fn hold(&mut self, word: Word, done: &Done) {
        let held = &mut self.held;
        if !matches!(word.code, 0x03 | 0x04) {
            held.sense = [0, 0];
        }
        if let Some(mask) = done.mask {
            held.mask = mask;
            held.mask_set = true;
        }
        (held.cylinder, held.head) = done.stand;
        held.place = done.place;
        held.selection = done.selection;
        held.tally = done.tally;
        held.whole = done.whole;
        held.before = word.code;
        held.after_tic = false;
    }
}

/// The refusals that come before any other: 2, 3, 4. Otherwise the held values.
fn admit(lent: &Lent) -> Result<Held, u8> {
    if !(80..=ADDRESSES).contains(&lent.storage.len()) {
        return Err(2);
    }
    let shaped = (1..=203).contains(&lent.cylinders) && (1..=10).contains(&lent.heads);
    if !shaped || lent.cells.len() != lent.cylinders as usize * lent.heads as usize * TRACK {
        return Err(3);
    }
    let held = Held::of_bytes(lent.held).filter(Held::legal).ok_or(4)?;
    if u32::from(held.cylinder) >= lent.cylinders || u32::from(held.head) >= lent.heads {
        return Err(4);
    }
    let first = (usize::from(held.cylinder) * lent.heads as usize + usize::from(held.head)) * TRACK;
    if held.selection_wrong(&lent.cells[first..first + TRACK]) {
        return Err(4);
    }
    Ok(held)
}

/// Starts the chain of the address word at 72.
pub fn start(lent: &mut Lent, notes: &mut Vec<Event>) -> u8 {
    let answer = try_start(lent, notes).unwrap_or_else(|refusal| refusal);
    notes.push(Event::Start(answer));
    answer
}

fn try_start(lent: &mut Lent, notes: &mut Vec<Event>) -> Result<u8, u8> {
    let held = admit(lent)?;
    if held.going {
        return Err(7);
    }
    let word = &lent.storage[72..76];
    let next = usize::from(word[1]) << 16 | usize::from(word[2]) << 8 | usize::from(word[3]);
    let bad = if word[0] & 0x0F != 0 {
        Some(Program::AddressWord)
    } else {
        match fetch(lent.storage, next, false) {
            Ok(first) => is_tic(first.code).then_some(Program::FirstTic),
            Err(program) => Some(program),
        }
    };
    if let Some(program) = bad {
        notes.push(Event::NotStarted(program));
        lent.storage[68..70].copy_from_slice(&[0x00, 0x20]);
        return Err(5);
    }
    let held = Held { going: true, key: lent.storage[72] >> 4, next, ..held.rested() };
    lent.held.copy_from_slice(&held.bytes());
    Ok(1)
}

/// Runs the chain on, for at most `allowance` command words.
pub fn go(lent: &mut Lent, allowance: u16, wrong: Option<Wrong>, notes: &mut Vec<Event>) -> u8 {
    let answer = try_go(lent, allowance, wrong, notes).unwrap_or_else(|refusal| refusal);
    notes.push(Event::Go(answer));
    answer
}

fn try_go(lent: &mut Lent, allowance: u16, wrong: Option<Wrong>, notes: &mut Vec<Event>) -> Result<u8, u8> {
    let held = admit(lent)?;
    if !held.going {
        return Err(6);
    }
    let Lent { storage, cells, cylinders, heads, .. } = lent;
    let mut machine = Machine { held, storage, cells, cylinders: *cylinders, heads: *heads, wrong, notes };
    let ended = (0..allowance).any(|_| machine.step());
    let bytes = machine.held.bytes();
    lent.held.copy_from_slice(&bytes);
    Ok(if ended { 0 } else { 1 })
}
