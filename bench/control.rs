// A chain of control commands that goes round until its allowance is used up, against a plain loop in Rust.
use crate::chain::{Chain, Command};
use crate::common::{
    in_turn, storage_with, thousands, timed, word, Lent, Started, FIRST, FLAG_CHAIN, FLAG_LENGTH, FULL, ONE, SEEK, TIC,
    WORDS,
};
use crate::library::{Library, NOW};
use crate::pack::{same_cells, same_left, SEEK_BYTES};
use crate::part::{Part, Side};
use poplar::{Answer, Shape, HELD_SIZE, TRACK_CELLS};
use std::hint::black_box;

const SENSE: u8 = 0x04;
const SEEK_HEAD: u8 = 0x1B;
const SET_MASK: u8 = 0x1F;

// As many as a seek takes.
const SENSE_BYTES: usize = SEEK_BYTES;

pub const PART: Part = Part {
    name: "control",
    what,
    rounds: 201,
    loops: 1,
    wanted: None,
    wanted_before: None,
    compare,
    times,
    chains: || vec![Lent { storage: laid(), cells: pack(FULL), shape: FULL }, every_command()],
    besides: || Ok(()),
};

fn what() -> String {
    format!("a chain of {} control commands: Set File Mask, then Seek, Seek Head, Sense and TIC in turn", thousands(WORDS))
}

// ---- the chain

// A Set File Mask; then turns of Seek, Seek Head, Sense and a TIC, to the Seek of the next turn or, in the last, back to that of the
// first. A Seek goes to another cylinder and head than the turn before it left, and Seek Head to another head.
const TURNS: [Turn; 2] = [Turn { cylinder: 202, head: 9, then: 4 }, Turn { cylinder: 1, head: 3, then: 8 }];

struct Turn {
    cylinder: u16,
    head: u16,
    then: u16,
}

// Behind the words lie the mask and, for each turn, the addresses of Seek and of Seek Head and a place for Sense.
const TURN_WORDS: usize = 4;
const MASK_AT: usize = FIRST + 8 * (1 + TURN_WORDS * TURNS.len());
const TURN_BYTES: usize = 2 * SEEK_BYTES + SENSE_BYTES;
const BYTES: usize = MASK_AT + 1 + TURN_BYTES * TURNS.len();

fn area_of(turn: usize) -> usize {
    MASK_AT + 1 + TURN_BYTES * turn
}

fn turn_words(turn: usize) -> [[u8; 8]; TURN_WORDS] {
    let next = FIRST + 8 * (1 + TURN_WORDS * ((turn + 1) % TURNS.len()));
    let at = area_of(turn);
    let command = |code: u8, at: usize, bytes: usize| word(code, at as u32, FLAG_CHAIN, bytes as u16);
    [
        command(SEEK, at, SEEK_BYTES),
        command(SEEK_HEAD, at + SEEK_BYTES, SEEK_BYTES),
        command(SENSE, at + 2 * SEEK_BYTES, SENSE_BYTES),
        word(TIC, next as u32, 0, 0),
    ]
}

fn address(bin: u16, cylinder: u16, head: u16) -> [u8; SEEK_BYTES] {
    let ([a, b], [c, d], [e, f]) = (bin.to_be_bytes(), cylinder.to_be_bytes(), head.to_be_bytes());
    [a, b, c, d, e, f]
}

// The mask lets all seeks through. Of Seek Head's address only the head counts; the rest is on no pack.
fn laid() -> Vec<u8> {
    let first = word(SET_MASK, MASK_AT as u32, FLAG_CHAIN, 1);
    let mut storage = storage_with(BYTES, std::iter::once(first).chain((0..TURNS.len()).flat_map(turn_words)));
    storage[MASK_AT] = 0;
    for (i, turn) in TURNS.iter().enumerate() {
        let addresses = [address(0, turn.cylinder, turn.head), address(0xFFFF, 0xFFFF, turn.then)];
        storage[area_of(i)..][..2 * SEEK_BYTES].copy_from_slice(&addresses.concat());
    }
    storage
}

// Any cells: no control command looks at them.
fn pack(shape: Shape) -> Vec<u16> {
    (0..shape.cells()).map(|i| i as u16).collect()
}

// The chain started, and then a place and sense bytes put in held, so that it shows whether a seek changes them.
fn started(library: &'static Library, storage: Vec<u8>, cells: &mut [u16], shape: Shape) -> Result<Started, String> {
    let mut begun = library.started(storage, cells, shape)?;
    begun.held[4..6].copy_from_slice(&[0x81, 0x42]);
    begun.held[18..20].copy_from_slice(&100u16.to_be_bytes());
    Ok(begun)
}

// ---- the plain loop

// What these commands change in a held state, beside the chain, and the pack's shape.
struct Drive {
    shape: Shape,
    mask: u8,
    mask_set: bool,
    sense: [u8; 2],
    cylinder: u16,
    head: u16,
    place: u16,
}

// Done, or a Unit Check: the sense bytes, and how many bytes were moved.
type Done = Result<(), ([u8; 2], usize)>;

// The bits that a mask may not have, and those that bar seeks.
const NO_MASK_BITS: u8 = 0x27;
const SEEK_BITS: u8 = 0x18;

const BAD_MASK: [u8; 2] = [0x80, 0x00];
const SECOND_MASK: [u8; 2] = [0x80, 0x10];
const BARRED: [u8; 2] = [0x00, 0x04];
const BAD_ADDRESS: [u8; 2] = [0x81, 0x00];

impl Drive {
    fn of(held: &[u8; HELD_SIZE], shape: Shape) -> Drive {
        let pair = |at: usize| u16::from_be_bytes([held[at], held[at + 1]]);
        Drive {
            shape,
            mask: held[2],
            mask_set: held[3] == 1,
            sense: [held[4], held[5]],
            cylinder: pair(14),
            head: pair(16),
            place: pair(18),
        }
    }

    fn put(&self, held: &mut [u8; HELD_SIZE]) {
        held[2] = self.mask;
        held[3] = u8::from(self.mask_set);
        held[4..6].copy_from_slice(&self.sense);
        held[14..16].copy_from_slice(&self.cylinder.to_be_bytes());
        held[16..18].copy_from_slice(&self.head.to_be_bytes());
        held[18..20].copy_from_slice(&self.place.to_be_bytes());
    }

    fn set_mask(&mut self, mask: u8) -> Done {
        self.sense = [0, 0];
        if mask & NO_MASK_BITS != 0 {
            return Err((BAD_MASK, 1));
        }
        if self.mask_set {
            return Err((SECOND_MASK, 0));
        }
        self.mask = mask;
        self.mask_set = true;
        Ok(())
    }

    fn seek(&mut self, sent: &[u8]) -> Done {
        self.sense = [0, 0];
        if self.mask & SEEK_BITS != 0 {
            return Err((BARRED, 0));
        }
        let &[0, 0, a, b, c, d] = sent else {
            return Err((BAD_ADDRESS, sent.len()));
        };
        let (cylinder, head) = (u16::from_be_bytes([a, b]), u16::from_be_bytes([c, d]));
        if u32::from(cylinder) >= self.shape.cylinders || u32::from(head) >= self.shape.heads {
            return Err((BAD_ADDRESS, SEEK_BYTES));
        }
        (self.cylinder, self.head, self.place) = (cylinder, head, 0);
        Ok(())
    }

    fn seek_head(&mut self, sent: &[u8]) -> Done {
        self.sense = [0, 0];
        if self.mask & SEEK_BITS == SEEK_BITS {
            return Err((BARRED, 0));
        }
        let &[_, _, _, _, c, d] = sent else {
            return Err((BAD_ADDRESS, sent.len()));
        };
        let head = u16::from_be_bytes([c, d]);
        if u32::from(head) >= self.shape.heads {
            return Err((BAD_ADDRESS, SEEK_BYTES));
        }
        (self.head, self.place) = (head, 0);
        Ok(())
    }

    fn store_sense(&self, into: &mut [u8]) -> Done {
        let [a, b] = self.sense;
        into.copy_from_slice(&[a, b, 0, 0, 0, 0][..into.len()]);
        Ok(())
    }

    // One command; false for one that is not built here.
    #[inline(always)]
    fn command(&mut self, chain: &mut Chain, storage: &mut [u8], command: Command) -> bool {
        let Command { code, address, flags, count } = command;
        let count = usize::from(count);
        let wanted = if code == SET_MASK { 1 } else { SEEK_BYTES };
        let moved = count.min(wanted);
        let area = &mut storage[address..address + moved];
        let done = match code {
            SET_MASK => self.set_mask(area[0]),
            SEEK => self.seek(area),
            SEEK_HEAD => self.seek_head(area),
            SENSE => self.store_sense(area),
            _ => return false,
        };
        let left = (count - moved) as u16;
        match done {
            Err((sense, moved)) => {
                self.sense = sense;
                chain.end(storage, 0x0E, 0, (count - moved) as u16);
            }
            Ok(()) if count != wanted && flags & FLAG_LENGTH == 0 => chain.end(storage, 0x0C, 0x40, left),
            Ok(()) => chain.done(storage, code, flags, left),
        }
        true
    }
}

// None where it met a command that is not built here.
#[inline(never)]
fn plain(held: &mut [u8; HELD_SIZE], storage: &mut [u8], shape: Shape, allowance: u16) -> Option<Answer> {
    let mut drive = Drive::of(held, shape);
    let mut chain = Chain::of(held);
    let mut left = allowance;
    while left > 0 && chain.going {
        if let Some(command) = chain.step(storage) {
            if !drive.command(&mut chain, storage, command) {
                return None;
            }
        }
        left -= 1;
    }
    drive.put(held);
    chain.put(held);
    Some(if chain.going { Answer::NotEnded } else { Answer::Ended })
}

// ---- the box against it

// So many words on, by the box and by the plain loop: the same answer, storage and held.
fn agreed(what: &str, begun: &mut Started, cells: &mut [u16], shape: Shape, words: u16) -> Result<Answer, String> {
    let mut other = begun.clone();
    let answer = begun.go(cells, shape, words);
    let by_plain = plain(&mut other.held, &mut other.storage, shape, words);
    if by_plain != Some(answer) {
        return Err(format!("{what}: proved answers {answer:?}, plain {by_plain:?}"));
    }
    same_left(what, begun, &(other.storage, other.held))?;
    Ok(answer)
}

// Commands as they are laid for a comparison: code, flags, count, and the six bytes that its area begins with.
type Sent = (u8, u8, u16, [u8; SEEK_BYTES]);

const ON: u8 = FLAG_CHAIN;

fn laid_as(commands: &[Sent]) -> Vec<u8> {
    const AREA: usize = 512;
    let words = commands.iter().enumerate();
    let words = words.map(|(i, &(code, flags, count, _))| word(code, (AREA + 16 * i) as u32, flags, count));
    let mut storage = storage_with(AREA + 16 * commands.len(), words);
    for (i, (_, _, _, bytes)) in commands.iter().enumerate() {
        storage[AREA + 16 * i..][..SEEK_BYTES].copy_from_slice(bytes);
    }
    storage
}

// Every mask, alone and before each seek; and two masks.
fn masks() -> Vec<Vec<Sent>> {
    let set = |mask: u8| (SET_MASK, ON, 1, [mask; SEEK_BYTES]);
    let seek = |code: u8| (code, ON, 6, address(0, 1, 1));
    let mut all = Vec::new();
    for mask in 0..=255 {
        all.push(vec![set(mask), (SENSE, 0, 6, [0xE7; 6])]);
        all.push(vec![set(mask), seek(SEEK), (SENSE, 0, 6, [0xE7; 6])]);
        all.push(vec![set(mask), seek(SEEK_HEAD), (SENSE, 0, 6, [0xE7; 6])]);
        all.push(vec![set(0xC0), set(mask), seek(SEEK)]);
    }
    all
}

// Addresses on each side of every bound, for both seeks.
fn addresses(shape: Shape) -> Vec<Vec<Sent>> {
    let (cylinders, heads) = (shape.cylinders as u16, shape.heads as u16);
    let mut all = Vec::new();
    for code in [SEEK, SEEK_HEAD] {
        for bin in [0, 1, 0x0100] {
            for cylinder in [0, 1, cylinders - 1, cylinders, 0x0100, 0xFFFF] {
                for head in [0, 1, heads - 1, heads, 0x0100, 0xFFFF] {
                    let seek = (code, ON, 6, address(bin, cylinder, head));
                    all.push(vec![seek, (SENSE, 0, 6, [0xE7; 6])]);
                }
            }
        }
    }
    all
}

// Every command with counts on each side of what it wants, and with every flag.
fn lengths() -> Vec<Vec<Sent>> {
    let mut all = Vec::new();
    for code in [SET_MASK, SEEK, SEEK_HEAD, SENSE] {
        for count in [0, 1, 2, 5, 6, 7, 16] {
            for flags in [0, FLAG_LENGTH, ON, ON | FLAG_LENGTH, 0x80, 0x10, 0x08] {
                let first = (SENSE, ON, 6, [0xE7; 6]);
                let one = (code, flags, count, address(0, 0, 1));
                all.push(vec![first, one, (SENSE, 0, 6, [0xE7; 6])]);
            }
        }
    }
    all
}

// Each of these chains in one go, and word by word to its end: how many.
fn compare_commands(shape: Shape) -> Result<usize, String> {
    let mut cells = pack(shape);
    let as_lent = cells.clone();
    let chains = [masks(), addresses(shape), lengths()].concat();
    for commands in &chains {
        let what = &format!("control, {commands:02X?}");
        let begun = started(&NOW, laid_as(commands), &mut cells, shape)?;
        if agreed(what, &mut begun.clone(), &mut cells, shape, WORDS as u16)? != Answer::Ended {
            return Err(format!("{what}: it does not end"));
        }
        let mut by_word = begun;
        while agreed(what, &mut by_word, &mut cells, shape, 1)? == Answer::NotEnded {}
    }
    same_cells("control", &cells, &as_lent)?;
    Ok(chains.len())
}

const SMALL: Shape = Shape { cylinders: 3, heads: 2 };

fn compare() -> Result<(), String> {
    let mut cells = pack(FULL);
    let as_lent = cells.clone();
    let mut begun = started(&NOW, laid(), &mut cells, FULL)?;
    let allowances = [0, 1, 1, 1, 1, 1, 1, 1, 1, 1, 1, 2, 3, 1000, 65_534, 65_535];
    for words in allowances {
        let what = &format!("control, {words} words more");
        let answer = agreed(what, &mut begun, &mut cells, FULL, words)?;
        if answer != Answer::NotEnded {
            return Err(format!("{what}: the answer is {answer:?}"));
        }
    }
    same_cells("control", &cells, &as_lent)?;
    let chains = compare_commands(SMALL)? + compare_commands(FULL)?;
    println!("control: {} results of proved and plain compared: all the same", allowances.len() + chains);
    Ok(())
}

// All the words by one side: milliseconds, the answer, and what it leaves.
fn one(side: Side, cells: &mut [u16]) -> Result<(f64, Option<Answer>, Started), String> {
    let library = if let Side::Proved(library) = side { library } else { &NOW };
    let mut begun = started(library, laid(), cells, FULL)?;
    let (ms, answer) = match side {
        Side::Proved(_) => {
            let (ms, answer) = begun.timed(cells, FULL, WORDS as u16);
            (ms, Some(answer))
        }
        Side::Plain(_) => {
            let (held, lent) = black_box((&mut begun.held, &mut begun.storage[..]));
            timed(|| plain(held, lent, FULL, WORDS as u16))
        }
    };
    Ok((ms, answer, begun))
}

fn times(rounds: usize, sides: &[Side]) -> Result<Vec<f64>, String> {
    let mut cells = pack(FULL);
    let as_lent = cells.clone();
    let mut begun = started(&NOW, laid(), &mut cells, FULL)?;
    agreed("control", &mut begun, &mut cells, FULL, WORDS as u16)?;
    let should = (begun.storage, begun.held);
    let medians = in_turn(rounds, sides, |&side| {
        let (ms, answer, left) = one(side, &mut cells)?;
        same_left("control", &left, &should)?;
        (answer == Some(Answer::NotEnded)).then_some(ms).ok_or(format!("control: the answer is {answer:?}"))
    })?;
    same_cells("control", &cells, &as_lent)?;
    Ok(medians)
}

// ---- besides

// Every control command once. The six bytes at 160 are a seek's address and a mask; the last ends in a Unit Check.
fn every_command() -> Lent {
    const AREA: u32 = 160;
    let words = [(0x03, 1), (SENSE, 6), (SET_MASK, 1), (SEEK, 6), (0x0B, 6), (SEEK_HEAD, 6), (0x0F, 1)];
    let words = words.map(|(code, count)| {
        let at = if code == SENSE { AREA + 8 } else { AREA };
        word(code, at, FLAG_CHAIN, count)
    });
    let mut storage = storage_with(1024, words.into_iter());
    storage[AREA as usize..][..6].fill(0);
    Lent { storage, cells: vec![0; TRACK_CELLS], shape: ONE }
}
