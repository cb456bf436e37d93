// The proved check against plain loops in Rust.
use crate::common::{in_turn, thousands, timed};
use crate::library::NOW;
use crate::pack::Bytes;
use crate::part::{Part, Side};
use crate::remainder::{next_by_bits, next_by_table, sliced};
use poplar::TRACK_CELLS;
use std::hint::black_box;

const TRACKS: usize = 2030;

// Of each track the 3,600 cells from cell 40 on: there lie the data of the first record after an R0 of 8 bytes.
const FROM: usize = 40;
const CHECKED: usize = 3600;

pub const PART: Part = Part {
    name: "check",
    what,
    rounds: 21,
    loops: PLAIN.len(),
    wanted: Some(0.25),
    wanted_before: Some(1.05),
    compare,
    times,
    chains: Vec::new,
    besides: || Ok(()),
};

fn what() -> String {
    format!("the check of {} cells of each of {} tracks", thousands(CHECKED), thousands(TRACKS))
}

// Figure 10 of document 01.
const TEXT: &[u8] = b"123456789";
const TEXT_CHECK: u16 = 0x31C3;

// LLVM may see what this loop computes and make a table of it by itself.
#[inline(never)]
fn by_bits(cells: &[u16]) -> u16 {
    cells.iter().fold(0, |r, &cell| next_by_bits(r, cell))
}

#[inline(never)]
fn by_table(cells: &[u16]) -> u16 {
    cells.iter().fold(0, |r, &cell| next_by_table(r, cell))
}

#[inline(never)]
fn by_slices(cells: &[u16]) -> u16 {
    sliced(cells)
}

type Check = fn(&[u16]) -> u16;
const PLAIN: [Check; 3] = [by_bits, by_table, by_slices];

// Recorded bytes, 256 + byte.
fn pack() -> Vec<u16> {
    let mut bytes = Bytes(0x2311_2841_0360_1021);
    (0..TRACKS * TRACK_CELLS).map(|_| 256 + u16::from(bytes.next())).collect()
}

fn part(pack: &[u16], track: usize) -> &[u16] {
    &pack[track * TRACK_CELLS + FROM..][..CHECKED]
}

// All four over the same cells: their result, or what each said.
fn agreed(what: &str, cells: &[u16]) -> Result<u16, String> {
    let proved = (NOW.check)(cells);
    let plain = PLAIN.map(|check| check(cells));
    if plain == [proved; 3] {
        return Ok(proved);
    }
    Err(format!("{what}: proved {proved:04X}; by shifts, by table and by slices {plain:04X?}"))
}

fn compare() -> Result<(), String> {
    let text: Vec<u16> = TEXT.iter().map(|&b| 256 + u16::from(b)).collect();
    let r = agreed("the text 123456789", &text)?;
    if r != TEXT_CHECK {
        return Err(format!("the text 123456789: {r:04X}, not {TEXT_CHECK:04X}"));
    }
    let pack = pack();
    let mut compared = 1;
    for track in 0..TRACKS {
        agreed(&format!("track {track}"), part(&pack, track))?;
        compared += 1;
    }
    // Any 16-bit number may stand in a cell, and only its low byte counts.
    let pairs = pack[..TRACK_CELLS].iter().zip(&pack[TRACK_CELLS..]);
    let any: Vec<u16> = pairs.map(|(&low, &high)| high << 8 | low & 0xff).collect();
    compared += lengths("bytes", &pack[..TRACK_CELLS])? + lengths("any cells", &any)?;
    println!("check: {compared} results of each of the four compared: all the same; the text 123456789 gives {r:04X}");
    Ok(())
}

// Parts of a track: short ones, some round a quarter of it, and almost all of it, where they fit. How many.
fn lengths(kind: &str, track: &[u16]) -> Result<usize, String> {
    let mut compared = 0;
    for n in (0..=300).chain(1021..=1025).chain(4093..=4096) {
        for from in [0, 1, 3, 7, 40, 1021, 3795] {
            if let Some(cells) = track.get(from..from + n) {
                agreed(&format!("{n} {kind} from {from} on"), cells)?;
                compared += 1;
            }
        }
    }
    Ok(compared)
}

// Every track by one of them: its results.
fn results(check: Check, pack: &[u16]) -> Vec<u16> {
    (0..TRACKS).map(|track| check(black_box(part(pack, track)))).collect()
}

fn times(rounds: usize, sides: &[Side]) -> Result<Vec<f64>, String> {
    let pack = pack();
    let should = results(by_table, &pack);
    in_turn(rounds, sides, |&side| {
        let check = match side {
            Side::Proved(library) => library.check,
            Side::Plain(i) => PLAIN[i],
        };
        let (ms, is) = timed(|| results(check, &pack));
        (is == should).then_some(ms).ok_or("check: the results differ".to_string())
    })
}
