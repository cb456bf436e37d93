// A part of the benchmark, the sides that it times, and its row of the table.
use crate::common::Lent;
use crate::library::{Library, NOW};

// Whose time is taken: that of a library, or of the plain loop with this number. Loops 0 and 1 go byte by byte, loop 2 is by slices.
#[derive(Clone, Copy)]
pub enum Side {
    Proved(&'static Library),
    Plain(usize),
}

const BYTE_WISE: usize = 2;

// It compares results; takes the median times, in milliseconds, of some sides in so many rounds; has chains whose stack is measured; and
// prints what is measured besides.
pub struct Part {
    pub name: &'static str,
    pub what: fn() -> String,
    pub rounds: usize,
    pub loops: usize,
    // The most that the time may be of that of the faster loop that goes byte by byte.
    pub wanted: Option<f64>,
    // The most that it may be of that of the box before.
    #[cfg_attr(not(before), allow(dead_code))]
    pub wanted_before: Option<f64>,
    pub compare: fn() -> Result<(), String>,
    pub times: fn(usize, &[Side]) -> Result<Vec<f64>, String>,
    pub chains: fn() -> Vec<Lent>,
    pub besides: fn() -> Result<(), String>,
}

pub struct Row {
    pub part: &'static Part,
    pub proved: f64,
    pub plain: Vec<f64>,
}

impl Part {
    pub fn measure(&'static self) -> Result<Row, String> {
        let sides: Vec<Side> = std::iter::once(Side::Proved(&NOW)).chain((0..self.loops).map(Side::Plain)).collect();
        let times = (self.times)(self.rounds, &sides)?;
        Ok(Row { part: self, proved: times[0], plain: times[1..].to_vec() })
    }
}

impl Row {
    pub fn fastest(&self) -> f64 {
        self.plain.iter().take(BYTE_WISE).copied().fold(f64::INFINITY, f64::min)
    }

    pub fn ratio(&self) -> f64 {
        self.proved / self.fastest()
    }

    // The time of the loop by slices, where there is one, and the ratio to it.
    pub fn sliced(&self) -> Option<(f64, f64)> {
        self.plain.get(BYTE_WISE).map(|&ms| (ms, self.proved / ms))
    }
}
