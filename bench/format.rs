// A chain that formats and fills a pack against plain loops in Rust.
use crate::areas::{record_cells, MARKER, R0};
use crate::common::{
    chained, in_turn, status, storage_with, thousands, timed, word, Lent, FIRST, FLAG_CHAIN, FLAG_LENGTH, ONE, SEEK,
    STATUS, TIC, WORDS,
};
use crate::library::NOW;
use crate::pack::{
    cylinder_and_head, ended, same, same_cells, seek_address, track, Bytes, Left, Load, Record, FIRST_MARKER,
    FULL_LOAD, SEEK_BYTES,
};
use crate::part::{Part, Side};
use crate::plain::{BySlices, Way};
use crate::remainder::{next_by_bits, next_by_table};
use crate::single::{self, single, Ends, Moves, Single};
use poplar::{HELD_SIZE, TRACK_CELLS};
use std::hint::black_box;

const HOME_BYTES: usize = 5;
const R0_BYTES: usize = 16;

const SET_MASK: u8 = 0x1F;
const WRITE_HOME: u8 = 0x19;
const WRITE_R0: u8 = 0x15;
const WRITE_RECORD: u8 = 0x1D;
const WRITE_DATA: u8 = 0x05;
const WRITE_KEY_DATA: u8 = 0x0D;
const SEARCH_ID: u8 = 0x31;
const ALL_WRITES: u8 = 0xC0;

const NO_ROOM: [u8; 2] = [0x00, 0x40];

// What no write leaves in a cell.
const OLD: u16 = 0xE7E7;

pub const PART: Part = Part {
    name: "format",
    what,
    rounds: 21,
    loops: PLAIN.len(),
    wanted: Some(0.80),
    wanted_before: Some(1.05),
    compare,
    times,
    chains: || vec![lent(LOAD), every_write()],
    besides: || single::print(&singles()?),
};

fn what() -> String {
    let Load { tracks, records, data } = LOAD;
    format!("a full pack formatted and filled: {} tracks of {records} records of {data} bytes", thousands(tracks))
}

// ---- the chain

// A mask; then for each track a Seek, Write HA, Write R0 and its Write CKD. Behind the words lie the mask and each track's bytes.
fn per_track(load: Load) -> usize {
    3 + load.records
}

pub fn words(load: Load) -> usize {
    1 + load.tracks * per_track(load)
}

fn mask(load: Load) -> usize {
    FIRST + 8 * words(load)
}

fn track_bytes(load: Load) -> usize {
    SEEK_BYTES + HOME_BYTES + R0_BYTES + load.moved() * load.records
}

// Where the bytes of a track lie, and those of its record.
fn sent_at(load: Load, track: usize) -> usize {
    mask(load) + 1 + track_bytes(load) * track
}

fn record_at(load: Load, track: usize, record: usize) -> usize {
    sent_at(load, track) + SEEK_BYTES + HOME_BYTES + R0_BYTES + load.moved() * record
}

fn chain_word(load: Load, i: usize) -> [u8; 8] {
    let flags = chained(i, words(load));
    let Some(i) = i.checked_sub(1) else {
        return word(SET_MASK, mask(load) as u32, flags, 1);
    };
    let (track, k) = (i / per_track(load), i % per_track(load));
    let at = sent_at(load, track);
    let (code, at, count) = match k {
        0 => (SEEK, at, SEEK_BYTES),
        1 => (WRITE_HOME, at + SEEK_BYTES, HOME_BYTES),
        2 => (WRITE_R0, at + SEEK_BYTES + HOME_BYTES, R0_BYTES),
        _ => (WRITE_RECORD, record_at(load, track, k - 3), load.moved()),
    };
    word(code, at as u32, flags, count as u16)
}

fn laid(load: Load) -> Vec<u8> {
    let bytes = sent_at(load, load.tracks);
    let mut storage = storage_with(bytes, (0..words(load)).map(|i| chain_word(load, i)));
    storage[mask(load)] = ALL_WRITES;
    for (i, records) in load.records_of_all().iter().enumerate() {
        let seek = seek_address(i);
        let at = [seek[2], seek[3], seek[4], seek[5]];
        let mut bytes = [&seek[..], &[0], &at].concat();
        bytes.extend([&at[..], &[0, 0, 0, 8], &[0; 8]].concat());
        for record in records {
            bytes.extend(record.moved(at));
        }
        storage[sent_at(load, i)..][..bytes.len()].copy_from_slice(&bytes);
    }
    storage
}

// ---- the plain loops

const LOAD: Load = FULL_LOAD;

// How many records were written; fewer than all where one has no room.
type Filled = usize;

// A record's areas, written; the cell behind them.
#[inline(always)]
fn record(way: impl Way, track: &mut [u16], from: usize, flag: u8, sent: &[u8]) -> usize {
    let (count, rest) = sent.split_at(8);
    let (key, data) = rest.split_at(count[5].into());
    let count = std::iter::once(flag).chain(count.iter().copied());
    let mut at = way.write(track, from, count);
    if !key.is_empty() {
        at = way.write(track, at, key.iter().copied());
    }
    way.write(track, at, data.iter().copied())
}

// The cells of a record, its marker with them, by its count.
fn needed(sent: &[u8]) -> usize {
    record_cells(sent[5].into(), 256 * usize::from(sent[6]) + usize::from(sent[7]))
}

// Every track: home address, R0, its records, and 0 behind them, once.
#[inline(always)]
fn fill(way: impl Way, storage: &[u8], pack: &mut [u16]) -> Filled {
    let mut records = 0;
    let tracks = storage[sent_at(LOAD, 0)..].chunks_exact(track_bytes(LOAD));
    for (track, bytes) in pack.chunks_exact_mut(TRACK_CELLS).zip(tracks) {
        let (home, bytes) = bytes[SEEK_BYTES..].split_at(HOME_BYTES);
        let (r0, bytes) = bytes.split_at(R0_BYTES);
        let mut at = way.write(track, 0, home.iter().copied());
        let mut flag = home[0] & 3;
        at = record(way, track, at, flag, r0);
        for sent in bytes.chunks_exact(LOAD.moved()) {
            if at + needed(sent) > TRACK_CELLS {
                track[at..].fill(0);
                return records;
            }
            flag ^= 0x80;
            track[at] = MARKER;
            at = record(way, track, at + 1, flag, sent);
            records += 1;
        }
        track[at..].fill(0);
    }
    records
}

// LLVM may see what this loop computes and make a table of it by itself.
#[inline(never)]
fn by_bits(storage: &[u8], pack: &mut [u16]) -> Filled {
    fill(next_by_bits, storage, pack)
}

#[inline(never)]
fn by_table(storage: &[u8], pack: &mut [u16]) -> Filled {
    fill(next_by_table, storage, pack)
}

#[inline(never)]
fn by_slices(storage: &[u8], pack: &mut [u16]) -> Filled {
    fill(BySlices, storage, pack)
}

type Plain = fn(&[u8], &mut [u16]) -> Filled;
const PLAIN: [Plain; 3] = [by_bits, by_table, by_slices];

// ---- the box against them

// What the chain leaves in storage and held, where a plain loop wrote so many records: all, or a Unit Check at the next.
fn should(laid: &[u8], filled: Filled) -> Left {
    let mut storage = laid.to_vec();
    let (track, on_track) = (filled / LOAD.records, filled % LOAD.records);
    let (ending, held) = if filled == LOAD.all_records() {
        let held = ended([0, 0], cylinder_and_head(LOAD.tracks - 1), LOAD.place_after(LOAD.records, R0));
        (status(words(LOAD), 0x0C, 0), held)
    } else {
        let last = 1 + track * per_track(LOAD) + 3 + on_track + 1;
        let held = ended(NO_ROOM, cylinder_and_head(track), LOAD.place_after(on_track, R0));
        (status(last, 0x0E, LOAD.data as u16), held)
    };
    storage[STATUS].copy_from_slice(&ending);
    (storage, held)
}

// The chain in goes of so many words, and the plain loops, each on a pack of its own: all the same. How many records.
fn agreed(what: &str, laid: &[u8], packs: &mut [Vec<u16>; 4], allowance: u16) -> Result<Filled, String> {
    let what = &format!("{what}, {allowance} words a go");
    packs.iter_mut().for_each(|pack| pack.fill(OLD));
    let [proved, plain @ ..] = packs;
    let filled = [0, 1, 2].map(|i| PLAIN[i](laid, &mut plain[i]));
    if filled != [filled[0]; 3] {
        return Err(format!("{what}: the plain loops differ: {filled:?}"));
    }
    let mut begun = NOW.started(laid.to_vec(), proved, LOAD.shape())?;
    let answer = begun.in_goes(proved, LOAD.shape(), allowance, words(LOAD));
    same(what, &begun, answer, &should(laid, filled[0]))?;
    plain.iter().try_for_each(|cells| same_cells(what, proved, cells))?;
    Ok(filled[0])
}

// A record of a track with data that have no room there.
const TOO_LONG: &[(&str, usize, usize, u16)] = &[
    ("the first record, the longest", 0, 0, 65535),
    ("the first record, one byte too long", 0, 0, 4055),
    ("the last of a track", 1000, LOAD.records - 1, 1300),
    ("the last of all", LOAD.tracks - 1, LOAD.records - 1, 65535),
];

fn compare() -> Result<(), String> {
    let mut laid = laid(LOAD);
    let mut packs = [0, 1, 2, 3].map(|_| vec![OLD; LOAD.cells()]);
    let full = LOAD.pack();
    let mut compared = 0;
    for allowance in [WORDS as u16, 1000, words(LOAD) as u16] {
        let filled = agreed("the whole pack", &laid, &mut packs, allowance)?;
        if filled != LOAD.all_records() {
            return Err(format!("the whole pack: {filled} records"));
        }
        same_cells("the pack as the reads have it", &packs[0], &full)?;
        compared += 1;
    }
    for &(what, track, record, dl) in TOO_LONG {
        let at = record_at(LOAD, track, record) + 6;
        let was = [laid[at], laid[at + 1]];
        laid[at..at + 2].copy_from_slice(&dl.to_be_bytes());
        let filled = agreed(what, &laid, &mut packs, WORDS as u16)?;
        if filled != track * LOAD.records + record {
            return Err(format!("{what}: {filled} records"));
        }
        laid[at..at + 2].copy_from_slice(&was);
        compared += 1;
    }
    for word in singles()? {
        word.timed()?;
        compared += 1;
    }
    println!("format: {compared} results of proved and plain compared: all the same");
    Ok(())
}

fn times(rounds: usize, sides: &[Side]) -> Result<Vec<f64>, String> {
    let laid = laid(LOAD);
    let full = LOAD.pack();
    let mut pack = vec![OLD; LOAD.cells()];
    let should = should(&laid, LOAD.all_records());
    in_turn(rounds, sides, |&side| {
        pack.fill(OLD);
        let ms = match side {
            Side::Proved(library) => {
                let mut begun = library.started(laid.clone(), &mut pack, LOAD.shape())?;
                let (ms, answer) = begun.timed(&mut pack, LOAD.shape(), WORDS as u16);
                same("format", &begun, answer, &should)?;
                ms
            }
            Side::Plain(i) => {
                let storage = laid.clone();
                timed(|| PLAIN[i](black_box(&storage), black_box(&mut pack))).0
            }
        };
        same_cells("format", &pack, &full)?;
        Ok(ms)
    })
}

// ---- single words

// The command before, and the marker of the record that it left selected: none, R0 at cell 0, or a record.
#[derive(Clone, Copy)]
struct Before(u8, Option<u16>);

// One write, all of whose bytes move, which the command before licenses: the cells before and after, and the place after.
fn write(
    name: &'static str,
    (code, sent): (u8, &[u8]),
    before: Before,
    cells: (&[u16], &[u16]),
    place: usize,
) -> Result<Single, String> {
    let moves = Moves { code, count: sent.len(), sent, stored: &[] };
    let held = ended([0, 0], (0, 0), place as u16);
    let ends = Ends { unit: 0x0C, left: 0, held, cells: cells.1.to_vec() };
    let change = |held: &mut [u8; HELD_SIZE]| {
        held[2..4].copy_from_slice(&[ALL_WRITES, 1]);
        held[7..9].copy_from_slice(&[before.0, 1]);
        held[10] = before.1.map_or(0, |marker| if marker == 0 { 1 } else { 2 });
        held[12..14].copy_from_slice(&before.1.unwrap_or(0).to_be_bytes());
    };
    single(name, moves, cells.0.to_vec(), change, ends)
}

// Each write where it has the most to do.
fn singles() -> Result<Vec<Single>, String> {
    let mut bytes = Bytes(0x2311_2841_0360_4054);
    let one = |key: Vec<u8>, data: Vec<u8>| Record { number: 1, key, data };
    let bare = track(0, 0, &[]);
    let mut home = bare.clone();
    home[R0..].fill(0);
    let r0 = [0, 0, 0, 0, 0, 0, 0, 8, 0, 0, 0, 0, 0, 0, 0, 0];
    let longest = one(Vec::new(), bytes.take(4054));
    let sent = longest.moved([0; 4]);
    let long = track(0, 0, &[longest]);
    let updated = one(bytes.take(255), bytes.take(3797));
    let update = [&updated.key[..], &updated.data].concat();
    let old = track(0, 0, &[one(bytes.take(255), bytes.take(3797))]);
    let new = track(0, 0, &[updated]);
    let behind = FIRST_MARKER + 1;
    let found = Before(SEARCH_ID, Some(FIRST_MARKER as u16));
    let (home_sent, after_r0) = ((WRITE_HOME, &[0; 5][..]), Before(WRITE_R0, Some(0)));
    Ok(vec![
        write("Write HA", home_sent, Before(0, None), (&long, &home), 1)?,
        write("Write R0", (WRITE_R0, &r0), Before(WRITE_HOME, None), (&long, &bare), R0)?,
        write("Write CKD of DL 4,054", (WRITE_RECORD, &sent), after_r0, (&bare, &long), behind)?,
        write("Write Data of DL 4,054", (WRITE_DATA, &sent[8..]), found, (&long, &long), behind)?,
        write("Write KD of KL 255, DL 3,797", (WRITE_KEY_DATA, &update), found, (&old, &new), behind)?,
    ])
}

// ---- besides

// Every write once, from a mask on, on a track of its own.
fn every_write() -> Lent {
    const AREA: usize = 512;
    let write = |code, flags| word(code, AREA as u32, flags | FLAG_LENGTH, 64);
    let search = word(SEARCH_ID, AREA as u32, FLAG_CHAIN | FLAG_LENGTH, 5);
    let words = [
        word(SET_MASK, AREA as u32 - 1, FLAG_CHAIN, 1),
        write(WRITE_HOME, FLAG_CHAIN),
        write(WRITE_R0, FLAG_CHAIN),
        write(WRITE_RECORD, FLAG_CHAIN),
        search,
        word(TIC, FIRST as u32 + 32, 0, 0),
        write(WRITE_DATA, FLAG_CHAIN),
        search,
        word(TIC, FIRST as u32 + 56, 0, 0),
        write(WRITE_KEY_DATA, 0),
    ];
    let mut storage = storage_with(1024, words.into_iter());
    storage[AREA - 1] = ALL_WRITES;
    storage[AREA..AREA + 8].copy_from_slice(&[0, 0, 0, 0, 1, 4, 0, 40]);
    Lent { storage, cells: vec![0; TRACK_CELLS], shape: ONE }
}

pub fn lent(load: Load) -> Lent {
    Lent { storage: laid(load), cells: vec![0; load.cells()], shape: load.shape() }
}
