// A chain that reads every record of a pack against plain loops in Rust.
use crate::areas::{count, data, data_cells, key, key_cells, lengths, CHECK, COUNT_CELLS, MARKER, R0};
use crate::common::{
    chained, in_turn, status, storage_with, thousands, timed, word, Lent, FIRST, FLAG_CHAIN, FLAG_LENGTH, ONE, SEEK,
    STATUS, WORDS,
};
use crate::library::NOW;
use crate::pack::{
    cylinder_and_head, ended, same, seek_address, track, Bytes, Left, Load, Record, Track, FIRST_MARKER, FULL_LOAD,
    SEEK_BYTES,
};
use crate::part::{Part, Side};
use crate::plain::{BySlices, Way};
use crate::remainder::{next_by_bits, next_by_table};
use crate::single::{self, single, Ends, Moves, Single};
use poplar::{HELD_SIZE, TRACK_CELLS};
use std::hint::black_box;

const SEARCH_KEY: u8 = 0x29;
const READ_COUNT: u8 = 0x12;
const READ_ALL: u8 = 0x1E;

pub const PART: Part = Part {
    name: "reads",
    what,
    rounds: 21,
    loops: PLAIN.len(),
    wanted: Some(0.60),
    wanted_before: Some(1.05),
    compare,
    times,
    chains: || vec![lent(LOAD), every_command()],
    besides: || single::print(&singles()?),
};

fn what() -> String {
    let Load { tracks, records, data } = LOAD;
    format!("every record of a full pack read: {} tracks of {records} records of {data} bytes", thousands(tracks))
}

// ---- the chain

// A Seek and the reads of each track; then the seeks' addresses; then a place for each record.
fn per_track(load: Load) -> usize {
    1 + load.records
}

pub fn words(load: Load) -> usize {
    load.tracks * per_track(load)
}

fn seeks(load: Load) -> usize {
    FIRST + 8 * words(load)
}

fn areas(load: Load) -> usize {
    seeks(load) + SEEK_BYTES * load.tracks
}

fn chain_word(load: Load, i: usize) -> [u8; 8] {
    let (track, k) = (i / per_track(load), i % per_track(load));
    let flags = chained(i, words(load));
    if k == 0 {
        let at = seeks(load) + SEEK_BYTES * track;
        return word(SEEK, at as u32, flags, SEEK_BYTES as u16);
    }
    let at = areas(load) + load.moved() * (track * load.records + k - 1);
    word(READ_ALL, at as u32, flags, load.moved() as u16)
}

fn laid(load: Load) -> Vec<u8> {
    let bytes = areas(load) + load.moved() * load.all_records();
    let mut storage = storage_with(bytes, (0..words(load)).map(|i| chain_word(load, i)));
    for track in 0..load.tracks {
        let at = seeks(load) + SEEK_BYTES * track;
        storage[at..at + SEEK_BYTES].copy_from_slice(&seek_address(track));
    }
    storage
}

// ---- the plain loops

// How many records were copied, and what stopped it, as sense bytes.
#[derive(Clone, Copy, Debug, PartialEq)]
struct Walked {
    records: usize,
    sense: Option<[u8; 2]>,
}

// One record's bytes, copied to the front of `into`: how many there are, and the cell behind the record.
#[inline(always)]
fn copied(way: impl Way, track: &[u16], marker: usize, into: &mut [u8]) -> Result<(usize, usize), [u8; 2]> {
    let count = count(way, track, marker + 1)?;
    let (kl, dl) = lengths(count);
    let at = marker + 1 + COUNT_CELLS;
    let key = key(way, track, at, kl)?;
    let at = at + key_cells(kl);
    let data = data(way, track, at, dl)?;
    let mut to = 0;
    for part in [&count[1..], key, data] {
        for (byte, cell) in into[to..to + part.len()].iter_mut().zip(part) {
            *byte = *cell as u8;
        }
        to += part.len();
    }
    Ok((to, at + data_cells(dl)))
}

// Every track, record by record by its counts. R0's count says where the first record is; its data are passed over.
#[inline(always)]
fn walk(way: impl Way, pack: &[u16], into: &mut [u8]) -> Walked {
    let mut records = 0;
    let mut to = 0;
    for track in pack.chunks_exact(TRACK_CELLS) {
        let stopped = |records, sense| Walked { records, sense: Some(sense) };
        let (kl, dl) = match count(way, track, R0) {
            Ok(count) => lengths(count),
            Err(sense) => return stopped(records, sense),
        };
        let mut at = R0 + COUNT_CELLS + key_cells(kl) + data_cells(dl);
        while track.get(at) == Some(&MARKER) {
            match copied(way, track, at, &mut into[to..]) {
                Ok((moved, behind)) => {
                    to += moved;
                    at = behind;
                }
                Err(sense) => return stopped(records, sense),
            }
            records += 1;
        }
    }
    Walked { records, sense: None }
}

// LLVM may see what this loop computes and make a table of it by itself.
#[inline(never)]
fn by_bits(pack: &[u16], into: &mut [u8]) -> Walked {
    walk(next_by_bits, pack, into)
}

#[inline(never)]
fn by_table(pack: &[u16], into: &mut [u8]) -> Walked {
    walk(next_by_table, pack, into)
}

#[inline(never)]
fn by_slices(pack: &[u16], into: &mut [u8]) -> Walked {
    walk(BySlices, pack, into)
}

type Plain = fn(&[u16], &mut [u8]) -> Walked;
const PLAIN: [Plain; 3] = [by_bits, by_table, by_slices];

// ---- the box against them

const LOAD: Load = FULL_LOAD;

// The words before the read of the record with this number, counted over the pack.
fn words_before(records: usize) -> usize {
    records / LOAD.records * per_track(LOAD) + 1 + records % LOAD.records
}

// What the chain leaves where a plain loop walked so far: all its records, or a Unit Check at the next.
fn should(laid: &[u8], walked: Walked, copied: &[u8]) -> Left {
    let mut storage = laid.to_vec();
    let bytes = walked.records * LOAD.moved();
    storage[areas(LOAD)..][..bytes].copy_from_slice(&copied[..bytes]);
    let (track, on_track, ending) = match walked.sense {
        None => (LOAD.tracks - 1, LOAD.records, status(words(LOAD), 0x0C, 0)),
        Some(_) => {
            let last = words_before(walked.records) + 1;
            let ending = status(last, 0x0E, LOAD.moved() as u16);
            (walked.records / LOAD.records, walked.records % LOAD.records, ending)
        }
    };
    storage[STATUS].copy_from_slice(&ending);
    let sense = walked.sense.unwrap_or_default();
    (storage, ended(sense, cylinder_and_head(track), LOAD.place_after(on_track, 0)))
}

// The chain in goes of so many words, and the plain loops: all the same. How far they walked.
fn agreed(what: &str, laid: &[u8], pack: &mut [u16], allowance: u16) -> Result<Walked, String> {
    let what = &format!("{what}, {allowance} words a go");
    let mut copies = PLAIN.map(|_| vec![0; LOAD.moved() * LOAD.all_records()]);
    let walks = [0, 1, 2].map(|i| PLAIN[i](pack, &mut copies[i]));
    let bytes = walks[0].records * LOAD.moved();
    if (1..PLAIN.len()).any(|i| walks[i] != walks[0] || copies[i][..bytes] != copies[0][..bytes]) {
        return Err(format!("{what}: the plain loops differ: {walks:02X?}"));
    }
    let mut begun = NOW.started(laid.to_vec(), pack, LOAD.shape())?;
    let answer = begun.in_goes(pack, LOAD.shape(), allowance, words(LOAD));
    same(what, &begun, answer, &should(laid, walks[0], &copies[0]))?;
    Ok(walks[0])
}

// A record of a track, a cell of it behind its marker, and what is put there for what it was.
type Damage = (&'static str, usize, usize, usize, fn(u16) -> u16);
const DAMAGE: &[Damage] = &[
    ("the first count", 0, 0, 1, |_| 256 + 0xFF),
    ("a gap in a count's check", 7, 9, COUNT_CELLS, |_| 0),
    ("a gap where the key length was 0: only that it is no byte tells", 500, 3, 7, |_| 0),
    ("a count that is longer", 1000, 4, 8, |_| 256 + 0xFF),
    ("the first byte of data", 1015, 5, COUNT_CELLS + 1, |_| 0),
    ("a byte of data, without what makes it one: only that tells", 1100, 2, COUNT_CELLS + 150, |was| was ^ 0x0100),
    ("a byte of data, with 512 added: only that tells", 1200, 8, COUNT_CELLS + 33, |was| was + 0x0200),
    ("the last byte of data, with the first bit: only that tells", 1300, 6, LAST_DATA, |was| was | 0x8000),
    ("a byte of the data's check, with 256 added: only that tells", 1400, 1, LAST_DATA + CHECK, |was| was + 0x0100),
    ("a marker in the data", 1500, 0, 100, |_| MARKER),
    ("the last check of all", LOAD.tracks - 1, LOAD.records - 1, LAST_DATA + CHECK, |_| 0x01FF),
];
const LAST_DATA: usize = COUNT_CELLS + LOAD.data;

fn compare() -> Result<(), String> {
    let laid = laid(LOAD);
    let mut pack = LOAD.pack();
    let as_written = pack.clone();
    let mut compared = 0;
    for allowance in [WORDS as u16, 1000, words(LOAD) as u16] {
        let walked = agreed("all records", &laid, &mut pack, allowance)?;
        if walked.records != LOAD.all_records() || walked.sense.is_some() {
            return Err(format!("all records: the plain loops say {walked:02X?}"));
        }
        compared += 1;
    }
    for &(what, track, record, behind, damaged) in DAMAGE {
        let at = track * TRACK_CELLS + LOAD.marker(record) + behind;
        let was = pack[at];
        pack[at] = damaged(was);
        let walked = agreed(what, &laid, &mut pack, WORDS as u16)?;
        if walked.records != track * LOAD.records + record {
            return Err(format!("{what}: the plain loops say {walked:02X?}"));
        }
        pack[at] = was;
        compared += 1;
    }
    if pack != as_written {
        return Err("a read changes a cell".to_string());
    }
    for word in singles()? {
        word.timed()?;
        compared += 1;
    }
    println!("reads: {compared} results of proved and plain compared: all the same");
    Ok(())
}

fn times(rounds: usize, sides: &[Side]) -> Result<Vec<f64>, String> {
    let laid = laid(LOAD);
    let mut pack = LOAD.pack();
    let mut copy = vec![0; LOAD.moved() * LOAD.all_records()];
    let walked = by_table(&pack, &mut copy);
    let should = should(&laid, walked, &copy);
    let mut into = vec![0; copy.len()];
    in_turn(rounds, sides, |&side| match side {
        Side::Proved(library) => {
            let mut begun = library.started(laid.clone(), &mut pack, LOAD.shape())?;
            let (ms, answer) = begun.timed(&mut pack, LOAD.shape(), WORDS as u16);
            same("reads", &begun, answer, &should).map(|()| ms)
        }
        Side::Plain(i) => {
            into.fill(0xE7);
            let (ms, is) = timed(|| PLAIN[i](black_box(&pack), black_box(&mut into)));
            let same = is == walked && into == copy;
            same.then_some(ms).ok_or("the plain loops differ".to_string())
        }
    })
}

// ---- single words

fn one_record(key: Vec<u8>, data: Vec<u8>) -> Record {
    Record { number: 1, key, data }
}

// A read or search of the only record of a track, with the head put at the place; it leaves the head behind the marker.
fn from_place(
    name: &'static str,
    moves: Moves,
    (cells, marker): (&[u16], usize),
    place: usize,
    unit: u8,
) -> Result<Single, String> {
    let ends = Ends { unit, left: 0, held: ended([0, 0], (0, 0), marker as u16 + 1), cells: cells.to_vec() };
    single(name, moves, cells.to_vec(), |held| put_place(held, place), ends)
}

fn put_place(held: &mut [u8; HELD_SIZE], place: usize) {
    held[18..20].copy_from_slice(&(place as u16).to_be_bytes());
}

// The hunts go all round: the only marker lies right before the place.
fn hunts() -> Result<Vec<Single>, String> {
    let mut bytes = Bytes(0x2311_2841_0360_4054);
    let behind = FIRST_MARKER + 1;
    let short = one_record(Vec::new(), bytes.take(8));
    let moves = Moves { code: READ_COUNT, count: 8, sent: &[], stored: &short.count([0; 4]) };
    let cells = (&track(0, 0, &[one_record(Vec::new(), short.data.clone())])[..], FIRST_MARKER);
    let round = from_place("Read Count, all round", moves, cells, behind, 0x0C)?;

    // From the first cell that can have a marker to the end, and the same again behind the index.
    let moves = Moves { code: READ_COUNT, count: 8, sent: &[], stored: &[] };
    let cells = track(0, 0, &[]);
    let ends = Ends { unit: 0x0E, left: 8, held: ended([0x00, 0x02], (0, 0), R0 as u16), cells: cells.clone() };
    let none = single("Read Count, no marker", moves, cells, |held| put_place(held, R0), ends)?;

    let keyed = one_record(bytes.take(255), bytes.take(8));
    let key = keyed.key.clone();
    let moves = Moves { code: SEARCH_KEY, count: key.len(), sent: &key, stored: &[] };
    let cells = (&track(0, 0, &[keyed])[..], FIRST_MARKER);
    let search = from_place("Search Key of 255, all round", moves, cells, behind, 0x4C)?;
    Ok(vec![round, none, search])
}

// The reads take a whole track.
fn long_reads() -> Result<Vec<Single>, String> {
    let mut bytes = Bytes(0x2311_2841_0360_4075);
    let mut all = Vec::new();
    let long = one_record(Vec::new(), bytes.take(4054));
    let moved = long.moved([0; 4]);
    let cells = track(0, 0, &[long]);
    for (name, place) in [("read of DL 4,054", 0), ("read of DL 4,054, all round", FIRST_MARKER + 1)] {
        let moves = Moves { code: READ_ALL, count: moved.len(), sent: &[], stored: &moved };
        all.push(from_place(name, moves, (&cells, FIRST_MARKER), place, 0x0C)?);
    }

    // A marker in the first cell that can have one: the record has all the rest of the track.
    let longest = one_record(Vec::new(), bytes.take(4075));
    let moved = longest.moved([0; 4]);
    let mut cells = Track(vec![0; R0]);
    cells.0.push(MARKER);
    cells.record(0, [0; 4], &longest);
    let moves = Moves { code: READ_ALL, count: moved.len(), sent: &[], stored: &moved };
    all.push(from_place("read of DL 4,075, all round", moves, (&cells.0, R0), R0 + 1, 0x0C)?);
    Ok(all)
}

fn singles() -> Result<Vec<Single>, String> {
    let mut all = hunts()?;
    all.extend(long_reads()?);
    Ok(all)
}

// ---- besides

// Every search and read once, on a track of three records with keys. No search is satisfied.
fn every_command() -> Lent {
    const AREA: u32 = 512;
    let codes = [0x39, 0x31, 0x51, 0x71, 0x29, 0x49, 0x69, 0x1A, 0x16, 0x12, 0x06, 0x0E, READ_ALL];
    let words = codes.map(|code| {
        let flags = if code == READ_ALL { 0 } else { FLAG_CHAIN };
        word(code, AREA, flags | FLAG_LENGTH, 64)
    });
    let one = |number: u8| Record { number, key: vec![0; 4], data: vec![number; 40] };
    let records: Vec<Record> = (1..=3).map(one).collect();
    Lent { storage: storage_with(1024, words.into_iter()), cells: track(0, 0, &records), shape: ONE }
}

pub fn lent(load: Load) -> Lent {
    Lent { storage: laid(load), cells: load.pack(), shape: load.shape() }
}
