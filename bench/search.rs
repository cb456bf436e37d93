// A chain that searches a track by key, again and again, against plain loops in Rust.
use crate::areas::{count, key, lengths, record_cells, CHECK, COUNT_CELLS, MARKER, R0, UNREADABLE, UNREADABLE_COUNT};
use crate::common::{
    in_turn, status, storage_with, thousands, timed, word, Lent, FIRST, FLAG_CHAIN, NO_OP, ONE, SEEK, STATUS, TIC,
    WORDS,
};
use crate::library::NOW;
use crate::pack::{ended, same, track, Bytes, Left, Record, FIRST_MARKER, SEEK_BYTES};
use crate::part::{Part, Side};
use crate::plain::{BySlices, Way};
use crate::remainder::{next_by_bits, next_by_table};
use poplar::TRACK_CELLS;
use std::hint::black_box;

const SEARCH_KEY: u8 = 0x29;

// A full track of records of card images.
const RECORDS: usize = 39;
const KEY: usize = 8;
const DATA: usize = 80;
const RECORD_CELLS: usize = record_cells(KEY, DATA);

const SECOND_INDEX: [u8; 2] = [0x00, 0x08];

pub const PART: Part = Part {
    name: "search",
    what,
    rounds: 51,
    loops: PLAIN.len(),
    wanted: None,
    wanted_before: Some(1.03),
    compare,
    times,
    chains: || vec![Lent { storage: laid(&key_of(RECORDS)), cells: full_track(), shape: ONE }],
    besides: || Ok(()),
};

fn what() -> String {
    let (searches, words) = (thousands(SEARCHES), thousands(SEARCHES * RUN + 1));
    format!("{searches} searches by key over a track of {RECORDS} records, key {KEY}, data {DATA}: {words} words")
}

// ---- the chain

// A search of the whole track is a Seek, then Search Key equal and a TIC back to it, until the last record is found. After all
// searches that an allowance has room for comes a No-op. Behind the words lie the seek's address and the key.
const LAID: usize = 3;
const RUN: usize = 2 * RECORDS;
const SEARCHES: usize = (WORDS - 1) / RUN;
const SEEK_AT: usize = FIRST + 8 * (LAID * SEARCHES + 1);
const KEY_AT: usize = SEEK_AT + SEEK_BYTES;

fn search_words(i: usize) -> [[u8; 8]; LAID] {
    let back = FIRST + 8 * (LAID * i + 1);
    [
        word(SEEK, SEEK_AT as u32, FLAG_CHAIN, SEEK_BYTES as u16),
        word(SEARCH_KEY, KEY_AT as u32, FLAG_CHAIN, KEY as u16),
        word(TIC, back as u32, 0, 0),
    ]
}

fn laid(key: &[u8]) -> Vec<u8> {
    let last = word(NO_OP, 0, 0, 1);
    let words = (0..SEARCHES).flat_map(search_words).chain(std::iter::once(last));
    let mut storage = storage_with(KEY_AT + KEY, words);
    storage[SEEK_AT..KEY_AT].fill(0);
    storage[KEY_AT..].copy_from_slice(key);
    storage
}

// Keys differ in their last bytes alone.
fn key_of(number: usize) -> Vec<u8> {
    format!("{number:0width$}", width = KEY).into_bytes()
}

fn full_track() -> Vec<u16> {
    let mut bytes = Bytes(0x2311_2841_0360_0880);
    let one = |number: usize| Record { number: number as u8, key: key_of(number), data: bytes.take(DATA) };
    let records: Vec<Record> = (1..=RECORDS).map(one).collect();
    let cells = track(0, 0, &records);
    assert!(FIRST_MARKER + (RECORDS + 1) * RECORD_CELLS > TRACK_CELLS);
    cells
}

// ---- the plain loops

// The marker of the record that was found; or the place before the record that stopped it, and the sense bytes.
type Found = Result<usize, (usize, [u8; 2])>;

// Whether a record's count and key can be read, and its key is the one that is sought.
#[inline(always)]
fn is_it(way: impl Way, track: &[u16], marker: usize, sought: &[u8]) -> Result<bool, [u8; 2]> {
    let (kl, _) = lengths(count(way, track, marker + 1)?);
    let key = key(way, track, marker + 1 + COUNT_CELLS, kl)?;
    let same = key.iter().zip(sought).all(|(&cell, &byte)| cell & 255 == u16::from(byte));
    Ok(kl > 0 && same)
}

// From the index on, marker by marker, each looked for cell by cell as the head passes it, and once more round.
#[inline(always)]
fn walk(way: impl Way, track: &[u16], sought: &[u8]) -> Found {
    let mut place = 0;
    for _ in 0..2 {
        let mut from = R0;
        while let Some(cells) = track[from..].iter().position(|&cell| cell == MARKER) {
            let marker = from + cells;
            if is_it(way, track, marker, sought).map_err(|sense| (place, sense))? {
                return Ok(marker);
            }
            from = marker + 1;
            place = from;
        }
    }
    Err((place, SECOND_INDEX))
}

// LLVM may see what this loop computes and make a table of it by itself.
#[inline(never)]
fn by_bits(track: &[u16], sought: &[u8]) -> Found {
    walk(next_by_bits, track, sought)
}

#[inline(never)]
fn by_table(track: &[u16], sought: &[u8]) -> Found {
    walk(next_by_table, track, sought)
}

#[inline(never)]
fn by_slices(track: &[u16], sought: &[u8]) -> Found {
    walk(BySlices, track, sought)
}

type Plain = fn(&[u16], &[u8]) -> Found;
const PLAIN: [Plain; 3] = [by_bits, by_table, by_slices];

// ---- the box against them

// What the chain leaves where a plain loop finds this.
fn should(laid: &[u8], found: Found) -> Left {
    let mut storage = laid.to_vec();
    let (ending, held) = match found {
        Ok(marker) => (status(LAID * SEARCHES + 1, 0x0C, 1), ended([0, 0], (0, 0), marker as u16 + 1)),
        Err((place, sense)) => (status(2, 0x0E, KEY as u16), ended(sense, (0, 0), place as u16)),
    };
    storage[STATUS].copy_from_slice(&ending);
    (storage, held)
}

// The chain in goes of so many words, and the plain loops: all the same.
fn agreed(what: &str, key: &[u8], cells: &mut [u16], allowance: u16) -> Result<Found, String> {
    let what = &format!("{what}, {allowance} words a go");
    let found = PLAIN.map(|plain| plain(cells, key));
    if found != [found[0]; 3] {
        return Err(format!("{what}: the plain loops differ: {found:02X?}"));
    }
    let laid = laid(key);
    let mut begun = NOW.started(laid.clone(), cells, ONE)?;
    let answer = begun.in_goes(cells, ONE, allowance, WORDS);
    same(what, &begun, answer, &should(&laid, found[0]))?;
    Ok(found[0])
}

// A record, a cell of it behind its marker, what is put there, and the sense bytes, unless that area is passed over.
type Damage = (&'static str, usize, usize, u16, Option<[u8; 2]>);
const DAMAGE: &[Damage] = &[
    ("the first count", 0, 1, 256 + 0xFF, Some(UNREADABLE_COUNT)),
    ("a gap in a count's check", 20, COUNT_CELLS, 0, Some(UNREADABLE_COUNT)),
    ("a gap where the cylinder was 0: only that it is no byte tells", 12, 2, 0, Some(UNREADABLE_COUNT)),
    ("a key's first byte, without what makes it one", 30, COUNT_CELLS + 1, b'0' as u16, Some(UNREADABLE)),
    ("the first byte of a key", 7, COUNT_CELLS + 1, 256 + 0xFF, Some(UNREADABLE)),
    ("the last key's check", RECORDS - 1, COUNT_CELLS + KEY + CHECK, 0, Some(UNREADABLE)),
    ("data", 7, COUNT_CELLS + KEY + CHECK + 40, 0, None),
];

fn compare() -> Result<(), String> {
    let mut cells = full_track();
    let as_written = cells.clone();
    let mut compared = 0;
    for (number, allowance) in [(RECORDS, WORDS as u16), (RECORDS, 1000), (RECORDS, 1), (1, 7), (20, WORDS as u16)] {
        let found = agreed(&format!("key {number}"), &key_of(number), &mut cells, allowance)?;
        if found != Ok(FIRST_MARKER + (number - 1) * RECORD_CELLS) {
            return Err(format!("key {number}: the plain loops say {found:02X?}"));
        }
        compared += 1;
    }
    let found = agreed("a key that is not there", &key_of(RECORDS + 1), &mut cells, WORDS as u16)?;
    if found.map_err(|(_, sense)| sense) != Err(SECOND_INDEX) {
        return Err(format!("a key that is not there: the plain loops say {found:02X?}"));
    }
    for &(what, record, behind, value, sense) in DAMAGE {
        let at = FIRST_MARKER + record * RECORD_CELLS + behind;
        let was = std::mem::replace(&mut cells[at], value);
        let found = agreed(what, &key_of(RECORDS), &mut cells, WORDS as u16)?;
        if found.err().map(|(_, sense)| sense) != sense {
            return Err(format!("{what}: the plain loops say {found:02X?}"));
        }
        cells[at] = was;
        compared += 1;
    }
    if cells != as_written {
        return Err("a search changes a cell".to_string());
    }
    println!("search: {} results of proved and plain compared: all the same", compared + 1);
    Ok(())
}

// So many searches by a plain loop: the last that was found, if all are the same.
fn searched(plain: Plain, cells: &[u16], key: &[u8]) -> Option<Found> {
    let first = plain(black_box(cells), black_box(key));
    let same = (1..SEARCHES).all(|_| plain(black_box(cells), black_box(key)) == first);
    same.then_some(first)
}

fn times(rounds: usize, sides: &[Side]) -> Result<Vec<f64>, String> {
    let key = key_of(RECORDS);
    let mut cells = full_track();
    let laid = laid(&key);
    let found = by_table(&cells, &key);
    let should = should(&laid, found);
    in_turn(rounds, sides, |&side| match side {
        Side::Proved(library) => {
            let mut begun = library.started(laid.clone(), &mut cells, ONE)?;
            let (ms, answer) = begun.timed(&mut cells, ONE, WORDS as u16);
            same("search", &begun, answer, &should).map(|()| ms)
        }
        Side::Plain(i) => {
            let (ms, is) = timed(|| searched(PLAIN[i], &cells, &key));
            (is == Some(found)).then_some(ms).ok_or("the plain loops differ".to_string())
        }
    })
}
