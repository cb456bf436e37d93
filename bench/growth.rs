// The box's time at n, 2n and 4n command words, records of a track, and tracks.
use crate::common::{
    chained, in_turn, status, storage_with, thousands, word, Lent, FIRST, FULL, ONE, SEEK, STATUS, WORDS,
};
use crate::library::NOW;
use crate::pack::{seek_address, Load, SEEK_BYTES};
use crate::{format, noop, reads};
use poplar::TRACK_CELLS;

pub const ROUNDS: usize = 51;

// The most that a step may take.
pub const WANTED: f64 = 2.2;

// The number of words, of records of each of 100 tracks, of tracks of ten records.
const N_WORDS: usize = WORDS / 4;
const N_RECORDS: usize = 46;
const N_TRACKS: usize = 500;

// The time at n, 2n and 4n, in milliseconds.
pub struct Growth {
    pub what: String,
    pub times: [f64; 3],
}

impl Growth {
    pub fn steps(&self) -> [f64; 2] {
        [self.times[1] / self.times[0], self.times[2] / self.times[1]]
    }
}

// A chain and how many words it lays.
struct Case {
    lent: Lent,
    words: usize,
    left: u16,
}

impl Case {
    // One go, to the normal end of the last word.
    fn timed(&mut self) -> Result<f64, String> {
        let Lent { storage, cells, shape } = &mut self.lent;
        let mut begun = NOW.started(storage.clone(), cells, *shape)?;
        let (ms, answer) = begun.timed(cells, *shape, WORDS as u16);
        let normal = begun.storage[STATUS] == status(self.words, 0x0C, self.left);
        normal.then_some(ms).ok_or(format!("growth: {} words end otherwise: {answer:?}", self.words))
    }
}

fn no_ops(times: usize) -> Case {
    let words = times * N_WORDS;
    Case { lent: Lent { storage: noop::laid(words), cells: vec![0; TRACK_CELLS], shape: ONE }, words, left: 1 }
}

// Seeks to one track after another of a full pack.
fn seeks(times: usize) -> Case {
    let words = times * N_WORDS;
    let tracks = (FULL.cylinders * FULL.heads) as usize;
    let addresses = FIRST + 8 * words;
    let at = |i: usize| addresses + SEEK_BYTES * (i % tracks);
    let seek = |i: usize| word(SEEK, at(i) as u32, chained(i, words), SEEK_BYTES as u16);
    let mut storage = storage_with(addresses + SEEK_BYTES * tracks, (0..words).map(seek));
    for track in 0..tracks {
        storage[at(track)..][..SEEK_BYTES].copy_from_slice(&seek_address(track));
    }
    Case { lent: Lent { storage, cells: vec![0; FULL.cells() as usize], shape: FULL }, words, left: 0 }
}

fn records(times: usize) -> Load {
    Load { tracks: 100, records: times * N_RECORDS, data: 8 }
}

fn tracks(times: usize) -> Load {
    Load { tracks: times * N_TRACKS, records: 10, data: 294 }
}

fn read(load: Load) -> Case {
    Case { lent: reads::lent(load), words: reads::words(load), left: 0 }
}

fn write(load: Load) -> Case {
    Case { lent: format::lent(load), words: format::words(load), left: 0 }
}

// What each row of the table is at n, and its chain at so many times n.
fn rows() -> [(String, fn(usize) -> Case); 6] {
    let (words, many) = (thousands(N_WORDS), thousands(N_TRACKS));
    [
        (format!("{words} No-op words"), no_ops),
        (format!("{words} Seek words"), seeks),
        (format!("{N_RECORDS} records on each of 100 tracks read"), |times| read(records(times))),
        (format!("{many} tracks of 10 records read"), |times| read(tracks(times))),
        (format!("{N_RECORDS} records on each of 100 tracks written"), |times| write(records(times))),
        (format!("{many} tracks of 10 records written"), |times| write(tracks(times))),
    ]
}

pub fn measure() -> Result<Vec<Growth>, String> {
    let one = |(what, case): (String, fn(usize) -> Case)| {
        let mut cases = [1, 2, 4].map(case);
        let times = in_turn(ROUNDS, &[0, 1, 2], |&i| cases[i].timed())?;
        Ok(Growth { what, times: [times[0], times[1], times[2]] })
    };
    rows().into_iter().map(one).collect()
}

// Every chain once, to its normal end.
pub fn compare() -> Result<(), String> {
    let rows = rows();
    for (what, case) in &rows {
        for times in [1, 2, 4] {
            case(times).timed().map_err(|error| format!("{what}: {error}"))?;
        }
    }
    println!("growth: {} chains run to their normal end", 3 * rows.len());
    Ok(())
}
