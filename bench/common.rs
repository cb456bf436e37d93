// What the parts share: storage with a chain in it, a chain that is started and gone on with, and rounds in turn.
use crate::library::Library;
use poplar::{Answer, Held, Shape, HELD_SIZE};
use std::hint::black_box;
use std::time::Instant;

pub const FULL: Shape = Shape { cylinders: 203, heads: 10 };
pub const ONE: Shape = Shape { cylinders: 1, heads: 1 };

// Where a chain's first word lies.
pub const FIRST: usize = 256;
pub const STATUS: std::ops::Range<usize> = 64..72;

// The largest allowance.
pub const WORDS: usize = 65_535;

pub const NO_OP: u8 = 0x03;
pub const SEEK: u8 = 0x07;
pub const TIC: u8 = 0x08;
pub const FLAG_CHAIN: u8 = 0x40;
pub const FLAG_LENGTH: u8 = 0x20;

// ---- chains

pub fn word(code: u8, address: u32, flags: u8, count: u16) -> [u8; 8] {
    let [_, a, b, c] = address.to_be_bytes();
    let [high, low] = count.to_be_bytes();
    [code, a, b, c, flags, 0, high, low]
}

// The flags of a chain's word: all but the last chain on.
pub fn chained(i: usize, words: usize) -> u8 {
    if i + 1 < words {
        FLAG_CHAIN
    } else {
        0
    }
}

// Storage of so many bytes with these words from FIRST on, and the address word that names them, with key 5.
pub fn storage_with(bytes: usize, words: impl Iterator<Item = [u8; 8]>) -> Vec<u8> {
    let mut storage = vec![0xE7; bytes];
    storage[72..76].copy_from_slice(&(0x5000_0000 + FIRST as u32).to_be_bytes());
    for (i, word) in words.enumerate() {
        storage[FIRST + 8 * i..][..8].copy_from_slice(&word);
    }
    storage
}

// The status word of a chain that `storage_with` lays, where its last word is the one with this number, from 1 on.
pub fn status(last: usize, unit: u8, left: u16) -> [u8; 8] {
    let [_, a, b, c] = ((FIRST + 8 * last) as u32).to_be_bytes();
    let [high, low] = left.to_be_bytes();
    [0x50, a, b, c, unit, 0, high, low]
}

// What a chain is lent.
pub struct Lent {
    pub storage: Vec<u8>,
    pub cells: Vec<u16>,
    pub shape: Shape,
}

// A box with its chain started: what a go begins with.
#[derive(Clone)]
pub struct Started {
    library: &'static Library,
    pub held: [u8; HELD_SIZE],
    pub storage: Vec<u8>,
}

impl Library {
    pub fn started(&'static self, storage: Vec<u8>, cells: &mut [u16], shape: Shape) -> Result<Started, String> {
        let mut begun = Started { library: self, held: *Held::fresh().bytes(), storage };
        match (self.start)(&mut begun.held, &mut begun.storage, cells, shape) {
            Answer::NotEnded => Ok(begun),
            answer => Err(format!("start answers {answer:?}")),
        }
    }
}

impl Started {
    pub fn go(&mut self, cells: &mut [u16], shape: Shape, allowance: u16) -> Answer {
        (self.library.go)(&mut self.held, &mut self.storage, cells, shape, allowance)
    }

    // One go: milliseconds, and the answer.
    pub fn timed(&mut self, cells: &mut [u16], shape: Shape, allowance: u16) -> (f64, Answer) {
        let begun = black_box(self);
        timed(|| begun.go(cells, shape, allowance))
    }

    // Goes of so many words until the chain of at most so many words is ended: the last answer.
    pub fn in_goes(&mut self, cells: &mut [u16], shape: Shape, allowance: u16, words: usize) -> Answer {
        let mut answer = Answer::NotEnded;
        for _ in 0..=words / usize::from(allowance) {
            if answer == Answer::NotEnded {
                answer = self.go(cells, shape, allowance);
            }
        }
        answer
    }
}

// ---- times

pub fn timed<T>(work: impl FnOnce() -> T) -> (f64, T) {
    let start = Instant::now();
    let done = work();
    (start.elapsed().as_secs_f64() * 1e3, done)
}

fn median(mut times: Vec<f64>) -> f64 {
    times.sort_by(f64::total_cmp);
    times[times.len() / 2]
}

// Rounds, in each of which every side is timed once, and another one first than in the round before: the median of each. The first
// round warms up and is not counted.
pub fn in_turn<Side>(
    rounds: usize,
    sides: &[Side],
    mut time: impl FnMut(&Side) -> Result<f64, String>,
) -> Result<Vec<f64>, String> {
    let mut times = vec![Vec::new(); sides.len()];
    for round in 0..=rounds {
        for turn in 0..sides.len() {
            let side = (round + turn) % sides.len();
            let one = time(&sides[side]).map_err(|error| format!("round {round}, side {side}: {error}"))?;
            if round > 0 {
                times[side].push(one);
            }
        }
    }
    Ok(times.into_iter().map(median).collect())
}

// 65535 as 65,535.
pub fn thousands(n: usize) -> String {
    let digits = n.to_string();
    let mut grouped = String::new();
    for (i, digit) in digits.chars().enumerate() {
        if i > 0 && (digits.len() - i) % 3 == 0 {
            grouped.push(',');
        }
        grouped.push(digit);
    }
    grouped
}
