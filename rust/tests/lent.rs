// The memory that the checks lend, how it is made, and what is checked of every call.
use poplar::{go_raw, start_raw, Answer, Held, Shape, HELD_LAYOUT, HELD_SIZE, TRACK_CELLS};
use std::fmt::Debug;

// How many failures of a group are printed.
pub const SHOWN: usize = 10;

#[derive(Default)]
pub struct Tally {
    pub made: usize,
    pub failed: usize,
}

impl Tally {
    pub fn holds(&mut self, what: &str, holds: bool) {
        self.made += 1;
        if !holds {
            self.failed += 1;
            if self.failed <= SHOWN {
                println!("tests: failed: {what}");
            }
        }
    }

    pub fn same<T: PartialEq + Debug>(&mut self, what: &str, is: T, should: T) {
        let holds = is == should;
        self.holds(what, holds);
        if !holds && self.failed <= SHOWN {
            println!("tests:   it is {is:?}, not {should:?}");
        }
    }

    // Two memories, whole; of a difference the first place is printed.
    pub fn worlds(&mut self, what: &str, is: &World, should: &World) {
        self.holds(what, is == should);
        if is != should && self.failed <= SHOWN {
            println!("tests:   {}", first_difference(is, should));
        }
    }
}

// All that is lent.
#[derive(Clone, PartialEq)]
pub struct World {
    pub held: Vec<u8>,
    pub storage: Vec<u8>,
    pub cells: Vec<u16>,
    pub shape: Shape,
}

fn first_difference(is: &World, should: &World) -> String {
    fn first<T: PartialEq + Debug>(what: &str, is: &[T], should: &[T]) -> Option<String> {
        let at = (0..is.len().min(should.len())).find(|&i| is[i] != should[i])?;
        Some(format!("{what} {at} is {:?}, not {:?}", is[at], should[at]))
    }
    first("held byte", &is.held, &should.held)
        .or_else(|| first("storage byte", &is.storage, &should.storage))
        .or_else(|| first("cell", &is.cells, &should.cells))
        .unwrap_or("the lengths differ".to_string())
}

pub const SHAPE: Shape = Shape { cylinders: 3, heads: 2 };
pub const STORAGE: usize = 512;

// Where a world's chain begins, and the key of its address word.
pub const AT: usize = 128;
pub const KEY: u8 = 5;

// Where a command's bytes lie.
pub const DATA: usize = 256;

pub const CHAIN: u8 = 0x40;
pub const LONG_OR_SHORT: u8 = 0x20;
pub const BOTH: u8 = CHAIN | LONG_OR_SHORT;

// A command word. The byte that is ignored is not zero.
pub fn word(code: u8, address: u32, flags: u8, count: u16) -> [u8; 8] {
    let [_, a, b, c] = address.to_be_bytes();
    let [high, low] = count.to_be_bytes();
    [code, a, b, c, flags, 0x5A, high, low]
}

pub fn no_op(flags: u8) -> [u8; 8] {
    word(0x03, 0, flags, 1)
}

pub fn tic(target: u32) -> [u8; 8] {
    word(0x08, target, 0, 0)
}

// No byte of storage is 0 and no cell is a marker or a gap, so that a store shows.
pub fn filled_storage(len: usize) -> Vec<u8> {
    (0..len).map(|i| (i % 255) as u8 + 1).collect()
}

pub fn filled_cells(len: usize) -> Vec<u16> {
    (0..len).map(|i| 256 + (i % 251) as u16).collect()
}

// A fresh box whose address word names a chain of these words.
pub fn world(words: &[[u8; 8]]) -> World {
    let mut held = vec![0; HELD_SIZE];
    held[11] = HELD_LAYOUT;
    let mut world =
        World { held, storage: filled_storage(STORAGE), cells: filled_cells(SHAPE.cells() as usize), shape: SHAPE };
    world.store(72, &[KEY << 4, 0, 0, AT as u8]);
    world.store(AT, &words.concat());
    world
}

impl World {
    pub fn store(&mut self, at: usize, bytes: &[u8]) {
        self.storage[at..at + bytes.len()].copy_from_slice(bytes);
    }

    pub fn hold(&mut self, at: usize, bytes: &[u8]) {
        self.held[at..at + bytes.len()].copy_from_slice(bytes);
    }

    pub fn storing(mut self, at: usize, bytes: &[u8]) -> World {
        self.store(at, bytes);
        self
    }

    pub fn holding(mut self, at: usize, bytes: &[u8]) -> World {
        self.hold(at, bytes);
        self
    }

    // The chain is going, and the word at AT is next.
    pub fn going(self) -> World {
        self.holding(0, &[1, KEY]).holding(20, &(AT as u32).to_be_bytes())
    }

    pub fn standing(self, cylinder: u16, head: u16, place: u16) -> World {
        self.holding(14, &cylinder.to_be_bytes()).holding(16, &head.to_be_bytes()).holding(18, &place.to_be_bytes())
    }

    pub fn marking(mut self, track: usize, cells: &[usize]) -> World {
        for cell in cells {
            self.cells[track * TRACK_CELLS + cell] = 512;
        }
        self
    }

    pub fn start(&mut self) -> Answer {
        start_raw(&mut self.held, &mut self.storage, &mut self.cells, self.shape)
    }

    pub fn go(&mut self, allowance: u16) -> Answer {
        go_raw(&mut self.held, &mut self.storage, &mut self.cells, self.shape, allowance)
    }

    pub fn run(&mut self, call: Call) -> Answer {
        match call {
            Call::Start => self.start(),
            Call::Go(allowance) => self.go(allowance),
        }
    }

    pub fn view(&self) -> Held {
        let mut bytes = [0; HELD_SIZE];
        bytes.copy_from_slice(&self.held);
        Held::from_bytes(bytes)
    }
}

#[derive(Clone, Copy, Debug)]
pub enum Call {
    Start,
    Go(u16),
}

// The call is refused with this answer, and nothing changed.
pub fn refused(tally: &mut Tally, what: &str, world: &World, call: Call, answer: Answer) {
    let mut after = world.clone();
    let heard = after.run(call);
    tally.same(&format!("{what}: {call:?}"), heard, answer);
    tally.worlds(&format!("{what}: {call:?} changes nothing"), &after, world);
}

// Start and go are both refused, whatever the allowance.
pub fn refused_always(tally: &mut Tally, what: &str, world: &World, answer: Answer) {
    for call in [Call::Start, Call::Go(0), Call::Go(1), Call::Go(65535)] {
        refused(tally, what, world, call, answer);
    }
}

// Neither storage, pack nor held is refused: with no chain going the answers are 6 to go and 1 to start, with one 1 to
// `go 0` and 7 to start.
pub fn admitted(tally: &mut Tally, what: &str, world: &World) {
    let mut after = world.clone();
    if world.view().going() {
        refused(tally, what, world, Call::Start, Answer::ChainGoing);
        refused(tally, what, world, Call::Go(0), Answer::NotEnded);
    } else {
        refused(tally, what, world, Call::Go(1), Answer::NoChain);
        tally.same(&format!("{what}: start"), after.start(), Answer::NotEnded);
    }
}

// Bit 0 is the leftmost: 0 and 1 are for writes, 3 and 4 for seeks, the others must be 0.
pub fn legal_mask(mask: u8) -> bool {
    let bits = format!("{mask:08b}");
    [2, 5, 6, 7].iter().all(|&i| &bits[i..i + 1] == "0")
}

// A status word: the last word's own address, of which 8 on is stored.
#[derive(Clone, Copy)]
pub struct Status {
    last: u32,
    unit: u8,
    channel: u8,
    left: u16,
}

pub fn status(last: usize, unit: u8, channel: u8, left: u16) -> Status {
    Status { last: last as u32, unit, channel, left }
}

pub fn program_check(last: usize) -> Status {
    status(last, 0x00, 0x20, 0)
}

pub fn status_bytes(key: u8, status: Status) -> [u8; 8] {
    let [_, a, b, c] = ((status.last + 8) % (1 << 24)).to_be_bytes();
    let [high, low] = status.left.to_be_bytes();
    [key << 4, a, b, c, status.unit, status.channel, high, low]
}

// What a chain leaves beside its status word.
#[derive(Clone, Copy)]
pub struct Left<'a> {
    pub sense: [u8; 2],
    // cylinder, head, place
    pub stands: (u16, u16, u16),
    pub stored: &'a [(usize, &'a [u8])],
}

pub const NOTHING: Left = Left { sense: [0, 0], stands: (0, 0, 0), stored: &[] };

pub fn sensing<'a>(first: u8, second: u8) -> Left<'a> {
    Left { sense: [first, second], ..NOTHING }
}

pub fn sensing_stored<'a>(sense: [u8; 2], stored: &'a [(usize, &'a [u8])]) -> Left<'a> {
    Left { sense, stored, ..NOTHING }
}

// What a world becomes when its chain ends so. No cell changes.
pub fn ended(world: &World, status: Status, left: Left) -> World {
    let (cylinder, head, place) = left.stands;
    let mut should = world.clone();
    should.held = vec![0; HELD_SIZE];
    should.hold(4, &left.sense);
    should.hold(11, &[HELD_LAYOUT]);
    should = should.standing(cylinder, head, place);
    for (at, bytes) in left.stored {
        should.store(*at, bytes);
    }
    should.store(64, &status_bytes(KEY, status));
    should
}

// The chain, started if none is going, ends and leaves this; every byte and cell is compared. Then no chain is going.
pub fn ends_as(tally: &mut Tally, what: &str, world: &World, should: &World) {
    let mut after = world.clone();
    if !world.view().going() {
        tally.same(&format!("{what}: start"), after.start(), Answer::NotEnded);
    }
    tally.same(&format!("{what}: go"), after.go(100), Answer::Ended);
    tally.worlds(what, &after, should);
    refused(tally, what, &after, Call::Go(1), Answer::NoChain);
}

// The chain ends so, and no cell changes.
pub fn ends(tally: &mut Tally, what: &str, world: &World, status: Status, left: Left) {
    ends_as(tally, what, world, &ended(world, status, left));
}

// The start is refused with 5: bytes 68 and 69 change and nothing else, and no chain is going.
pub fn not_started(tally: &mut Tally, what: &str, world: &World) {
    let mut after = world.clone();
    tally.same(&format!("{what}: start"), after.start(), Answer::NotStarted);
    let should = world.clone().storing(68, &[0x00, 0x20]);
    tally.worlds(&format!("{what}: only 68 and 69 change"), &after, &should);
    refused(tally, what, &after, Call::Go(1), Answer::NoChain);
}

// A held state in which everything that a chain's end puts back is not as in a fresh box, but no chain is going.
pub fn used(world: World) -> World {
    world
        .marking(3, &[40])
        .holding(1, &[9, 0xD8, 1, 0x80, 0x10, 1, 0x31, 1, 1, 2])
        .holding(12, &[0, 40])
        .standing(1, 1, 41)
        .holding(20, &[0, 0, 1, 1])
}
