// A small track for the checks of searches and reads, and what is held while a chain goes on.
use crate::lent::*;
use poplar::{Answer, Selection, HELD_LAYOUT, HELD_SIZE, TRACK_CELLS};
use std::ops::Range;

pub struct Record<'a> {
    pub number: u8,
    pub key: &'a [u8],
    pub data: &'a [u8],
}

// The head stands on cylinder 1, head 1: the fourth track of six.
pub const HERE: usize = 3;
pub const HOME: [u8; 5] = [0x01, 0, 1, 0, 1];

pub const R0: Record = Record { number: 0, key: &[], data: &[0xA0, 0xA1, 0xA2, 0xA3, 0xA4, 0xA5, 0xA6, 0xA7] };
pub const R1: Record =
    Record { number: 1, key: &[0x4B, 0x31, 0x80, 0x00], data: &[0x11, 0x12, 0x13, 0x14, 0x15, 0x16] };
pub const R2: Record = Record { number: 2, key: &[], data: &[0x21, 0x22, 0x23, 0x24, 0x25] };
pub const R3: Record = Record { number: 3, key: &[0x4B, 0x33, 0x00], data: &[] };

// Where the markers of R1, R2 and R3 lie on the track of these four.
pub const M1: usize = 28;
pub const M2: usize = 54;
pub const M3: usize = 73;

// Its areas, each with its check.
pub const HOME_AREA: Range<usize> = 0..7;
pub const COUNT_0: Range<usize> = 7..18;
pub const DATA_0: Range<usize> = 18..28;
pub const COUNT_1: Range<usize> = 29..40;
pub const KEY_1: Range<usize> = 40..46;
pub const DATA_1: Range<usize> = 46..54;
pub const COUNT_2: Range<usize> = 55..66;
pub const DATA_2: Range<usize> = 66..73;
pub const COUNT_3: Range<usize> = 74..85;
pub const KEY_3: Range<usize> = 85..90;
pub const DATA_3: Range<usize> = 90..93;

pub const MARKER: u16 = 512;

fn check(bytes: &[u8]) -> u16 {
    let mut r: u16 = 0;
    for byte in bytes {
        r ^= u16::from(*byte) << 8;
        for _ in 0..8 {
            r = if r & 0x8000 != 0 { (r << 1) ^ 0x1021 } else { r << 1 };
        }
    }
    r
}

// An area as cells: its bytes and their check.
pub fn area(bytes: &[u8]) -> Vec<u16> {
    let check = check(bytes).to_be_bytes();
    bytes.iter().chain(&check).map(|byte| 256 + u16::from(*byte)).collect()
}

impl Record<'_> {
    // The count as it moves: CCHHR, KL, DL.
    pub fn count(&self) -> Vec<u8> {
        let [high, low] = (self.data.len() as u16).to_be_bytes();
        vec![0, 1, 0, 1, self.number, self.key.len() as u8, high, low]
    }

    pub fn id(&self) -> Vec<u8> {
        self.count()[..5].to_vec()
    }

    pub fn key_and_data(&self) -> Vec<u8> {
        [self.key, self.data].concat()
    }

    pub fn all(&self) -> Vec<u8> {
        [self.count(), self.key_and_data()].concat()
    }

    pub fn cells(&self, flag: u8) -> Vec<u16> {
        let mut cells = area(&[vec![flag], self.count()].concat());
        if !self.key.is_empty() {
            cells.extend(area(self.key));
        }
        cells.extend(area(if self.data.is_empty() { &[0] } else { self.data }));
        cells
    }
}

// A soundly written track of an R0 and records behind it.
pub fn sound(records: &[Record]) -> Vec<u16> {
    let mut cells = area(&HOME);
    for (i, record) in records.iter().enumerate() {
        if i > 0 {
            cells.push(MARKER);
        }
        // Bits 6 and 7 are the home address's; bit 0 is 0 in R0 and changes from record to record.
        let flag = if i % 2 == 1 { 0x81 } else { 0x01 };
        cells.extend(record.cells(flag));
    }
    assert!(cells.len() <= TRACK_CELLS);
    cells.resize(TRACK_CELLS, 0);
    cells
}

pub fn four() -> Vec<u16> {
    sound(&[R0, R1, R2, R3])
}

// The head stands at this place of the track, in a world with this chain. Sense is that of a command long past.
pub fn on(track: &[u16], place: usize, words: &[[u8; 8]]) -> World {
    world(words).standing(1, 1, place as u16).holding(4, &[0x80, 0x10]).laying(track)
}

// The same, while the chain goes on after a command that left this record selected.
pub fn after(before: u8, selection: Selection, track: &[u16], place: usize, words: &[[u8; 8]]) -> World {
    on(track, place, words).going().holding(7, &[before]).selecting(selection)
}

impl World {
    pub fn selecting(self, selection: Selection) -> World {
        let (kind, cell) = match selection {
            Selection::None => (0, 0),
            Selection::R0 => (1, 0),
            Selection::Marker(cell) => (2, cell),
            Selection::Other(kind) => (kind, 0),
        };
        self.holding(10, &[kind]).holding(12, &cell.to_be_bytes())
    }

    pub fn tallied(self, tally: u8) -> World {
        self.holding(9, &[tally])
    }

    // One cell of the track under the head.
    pub fn recording(mut self, cell: usize, value: u16) -> World {
        self.cells[HERE * TRACK_CELLS + cell] = value;
        self
    }

    // The track under the head.
    pub fn laying(mut self, track: &[u16]) -> World {
        self.cells[HERE * TRACK_CELLS..][..TRACK_CELLS].copy_from_slice(track);
        self
    }

    // Storage of so many bytes, with what was in it.
    pub fn roomy(mut self, len: usize) -> World {
        let mut storage = filled_storage(len);
        storage[..self.storage.len()].copy_from_slice(&self.storage);
        self.storage = storage;
        self
    }
}

pub fn marker(cell: usize) -> Selection {
    Selection::Marker(cell as u16)
}

// What a chain that ends well leaves, with the head at this place of the track.
pub fn stands<'a>(place: usize) -> Left<'a> {
    Left { stands: (1, 1, place as u16), ..NOTHING }
}

// A chain that ends in a Unit Check.
pub fn checked<'a>(sense: [u8; 2], place: usize) -> Left<'a> {
    Left { sense, ..stands(place) }
}

pub fn stored<'a>(place: usize, stored: &'a [(usize, &'a [u8])]) -> Left<'a> {
    Left { stored, ..stands(place) }
}

// What is held after commands that went well.
#[derive(Clone, Copy)]
pub struct Going<'a> {
    pub next: usize,
    pub before: u8,
    pub whole: bool,
    pub tally: u8,
    pub selection: Selection,
    pub place: usize,
    pub stored: &'a [(usize, &'a [u8])],
}

// What a world becomes when its chain is left going, so. No cell changes.
pub fn going_on(world: &World, left: Going) -> World {
    let mut should = world.clone();
    should.held = vec![0; HELD_SIZE];
    should = should
        .holding(0, &[1, KEY])
        .holding(7, &[left.before, u8::from(left.whole), left.tally])
        .holding(11, &[HELD_LAYOUT])
        .selecting(left.selection)
        .standing(1, 1, left.place as u16)
        .holding(20, &(left.next as u32).to_be_bytes());
    for (at, bytes) in left.stored {
        should.store(*at, bytes);
    }
    should
}

// So many words leave the chain going, and leave this; every byte and cell is compared.
pub fn goes_on_as(tally: &mut Tally, what: &str, world: &World, words: u16, should: &World) {
    let mut after = world.clone();
    if !world.view().going() {
        tally.same(&format!("{what}: start"), after.start(), Answer::NotEnded);
    }
    tally.same(&format!("{what}: go"), after.go(words), Answer::NotEnded);
    tally.worlds(what, &after, should);
}

// So many words leave the chain going, so, and no cell changes.
pub fn goes_on(tally: &mut Tally, what: &str, world: &World, words: u16, left: Going) {
    goes_on_as(tally, what, world, words, &going_on(world, left));
}

pub fn laid(tally: &mut Tally) {
    let track = four();
    let markers: Vec<usize> = (0..TRACK_CELLS).filter(|&cell| track[cell] == MARKER).collect();
    tally.same("the markers", markers, vec![M1, M2, M3]);
    tally.same("a record's areas follow one another", KEY_1.end, DATA_1.start);
    for (name, area, bytes) in [
        ("home address", HOME_AREA, 7),
        ("R0's count", COUNT_0, 11),
        ("R0's data", DATA_0, 10),
        ("R1's count", COUNT_1, 11),
        ("R1's key", KEY_1, 6),
        ("R1's data", DATA_1, 8),
        ("R2's count", COUNT_2, 11),
        ("R2's data", DATA_2, 7),
        ("R3's count", COUNT_3, 11),
        ("R3's key", KEY_3, 5),
        ("R3's data", DATA_3, 3),
    ] {
        tally.same(name, area.len(), bytes);
    }
    tally.holds("gaps behind", track[DATA_3.end..].iter().all(|&cell| cell == 0));
    // Figure 10.
    tally.same("the check", check(b"123456789"), 0x31C3);
}
