// The reads: which record each takes, what it moves, what it leaves held, and how it ends.
use crate::lent::*;
use crate::track::*;
use poplar::{Answer, Selection, TRACK_CELLS};
use std::ops::Range;

const READS: [u8; 6] = [0x1A, 0x16, 0x12, 0x06, 0x0E, 0x1E];
const RECORD_READS: [u8; 4] = [0x12, 0x06, 0x0E, 0x1E];

const NO_MARKER: [u8; 2] = [0x00, 0x02];
const UNREADABLE: [u8; 2] = [0x08, 0x00];
const UNREADABLE_COUNT: [u8; 2] = [0x08, 0x80];

// What a read of a record moves; Read HA is of none.
fn moves(code: u8, record: &Record) -> Vec<u8> {
    match code {
        0x1A => HOME.to_vec(),
        0x12 => record.count(),
        0x06 => record.data.to_vec(),
        0x0E => record.key_and_data(),
        _ => record.all(),
    }
}

fn read(code: u8, flags: u8, count: usize) -> [u8; 8] {
    word(code, DATA as u32, flags, count as u16)
}

// Without data there is a Unit Exception where a command names them.
fn unit_of(code: u8, record: &Record) -> u8 {
    if record.data.is_empty() && !matches!(code, 0x1A | 0x12) {
        0x0D
    } else {
        0x0C
    }
}

const AFTER_READ: Going =
    Going { next: AT + 8, before: 0, whole: false, tally: 0, selection: Selection::None, place: 0, stored: &[] };

// One read of a record with counts short, right and long, under each kind of flags. The world has its chain at the read.
fn read_ends(tally: &mut Tally, what: &str, lent: &World, code: u8, record: &Record, to: Going) {
    let bytes = moves(code, record);
    let unit = unit_of(code, record);
    let n = bytes.len();
    let counts: Vec<usize> = [1, n.saturating_sub(1), n, n + 1, 100].into_iter().filter(|&count| count > 0).collect();
    for count in counts {
        for flags in [0, CHAIN, LONG_OR_SHORT, BOTH] {
            let what = format!("{what}: {code:02X}, count {count}, flags {flags:02X}");
            let moved = n.min(count);
            let world = lent.clone().storing(AT, &read(code, flags, count)).storing(AT + 8, &no_op(0));
            let stored = [(DATA, &bytes[..moved])];
            let channel = if count != n && flags & LONG_OR_SHORT == 0 { 0x40 } else { 0 };
            if flags & CHAIN == 0 || channel != 0 || unit == 0x0D {
                let wanted = status(AT, unit, channel, (count - moved) as u16);
                ends(tally, &what, &world, wanted, Left { stored: &stored, ..stands(to.place) });
            } else {
                goes_on(tally, &what, &world, 1, Going { before: code, stored: &stored, ..to });
                let wanted = status(AT + 8, 0x0C, 0, 1);
                ends(tally, &what, &world, wanted, Left { stored: &stored, ..stands(to.place) });
            }
        }
    }
}

pub fn read_home(tally: &mut Tally) {
    for from in [0, 1, 7, M2, 4096] {
        let lent = on(&four(), from, &[]);
        let what = format!("from {from}");
        read_ends(tally, &what, &lent, 0x1A, &R0, Going { place: 1, ..AFTER_READ });
    }
    // It ends a row of searches, and what they selected.
    let lent = after(0x31, marker(M3), &four(), M3 + 1, &[]).tallied(1);
    read_ends(tally, "after searches", &lent, 0x1A, &R0, Going { place: 1, ..AFTER_READ });
    let flagged = on(&four(), 0, &[read(0x1A, 0, 5)]);
    let mut track = four();
    track[..7].copy_from_slice(&area(&[0xFE, 0xFF, 0x00, 0x80, 0x7F]));
    let other = on(&track, 0, &[read(0x1A, 0, 5)]);
    let wanted = status(AT, 0x0C, 0, 0);
    ends(tally, "its flag", &flagged, wanted, stored(1, &[(DATA, &HOME)]));
    ends(tally, "any five bytes", &other, wanted, stored(1, &[(DATA, &[0xFE, 0xFF, 0x00, 0x80, 0x7F])]));
}

const KEYED_R0: Record = Record { number: 0, key: &[0x4B, 0x30], data: &[1, 2, 3] };
const EMPTY_R0: Record = Record { number: 0, key: &[], data: &[] };
const KEYED_EMPTY_R0: Record = Record { number: 9, key: &[0x4B, 0x30], data: &[] };

pub fn read_r0(tally: &mut Tally) {
    for (name, record) in [
        ("R0", R0),
        ("R0 with a key", KEYED_R0),
        ("R0 without data", EMPTY_R0),
        ("R0 with a key alone", KEYED_EMPTY_R0),
    ] {
        for from in [0, 1, 7, 30, 4096] {
            let lent = on(&sound(&[Record { ..record }, R1]), from, &[]);
            let what = format!("{name} from {from}");
            read_ends(tally, &what, &lent, 0x16, &record, Going { place: 7, ..AFTER_READ });
        }
    }
}

// Each read of a record from each place: it passes R0, and the index without a tally.
pub fn read_places(tally: &mut Tally) {
    for code in RECORD_READS {
        for (from, record, at) in [
            (0, R1, M1),
            (6, R1, M1),
            (7, R1, M1),
            (M1, R1, M1),
            (M1 + 1, R2, M2),
            (M2, R2, M2),
            (M2 + 1, R3, M3),
            (M3, R3, M3),
            (M3 + 1, R1, M1),
            (4096, R1, M1),
        ] {
            let selection = if code == 0x12 { marker(at) } else { Selection::None };
            let lent = on(&four(), from, &[]);
            let left = Going { place: at + 1, selection, ..AFTER_READ };
            read_ends(tally, &format!("from {from}"), &lent, code, &record, left);
        }
    }
}

// Which record is used after each command: the selected one, R2, or the next, R3.
pub fn read_selected(tally: &mut Tally) {
    for before in 0..=255 {
        for code in RECORD_READS {
            let uses = match code {
                0x06 => matches!(before, 0x31 | 0x51 | 0x71 | 0x12 | 0x29 | 0x49 | 0x69),
                0x0E => matches!(before, 0x31 | 0x51 | 0x71 | 0x12),
                _ => false,
            };
            let (record, at) = if uses { (R2, M2) } else { (R3, M3) };
            let selection = if code == 0x12 { marker(at) } else { Selection::None };
            let lent = after(before, marker(M2), &four(), M2 + 1, &[]).tallied(1);
            let bytes = moves(code, &record);
            let world = lent.storing(AT, &read(code, BOTH, 20));
            let what = format!("{code:02X} after {before:02X}");
            let stored = [(DATA, &bytes[..])];
            if unit_of(code, &record) == 0x0D {
                let wanted = status(AT, 0x0D, 0, 20 - bytes.len() as u16);
                ends(tally, &what, &world, wanted, Left { stored: &stored, ..stands(at + 1) });
            } else {
                let left = Going { before: code, place: at + 1, selection, stored: &stored, ..AFTER_READ };
                goes_on(tally, &what, &world, 1, left);
            }
        }
    }
    // R0 selected, by Search ID or as only a host can set it, is read and the place is 7.
    for (before, code) in [(0x31, 0x06), (0x31, 0x0E), (0x12, 0x06), (0x12, 0x0E), (0x29, 0x06)] {
        let lent = after(before, Selection::R0, &sound(&[KEYED_R0, R1]), 4000, &[]);
        let left = Going { place: 7, ..AFTER_READ };
        read_ends(tally, &format!("R0 after {before:02X}"), &lent, code, &KEYED_R0, left);
    }
}

// Where the nth read of a chain stores, and where the bytes of its search lie.
fn nth(n: usize) -> usize {
    DATA + 32 * n
}

const SENT: usize = 480;

fn nth_read(n: usize, code: u8, flags: u8, count: u16) -> [u8; 8] {
    word(code, nth(n) as u32, flags, count)
}

fn search_for(code: u8, bytes: &[u8]) -> [u8; 8] {
    word(code, SENT as u32, CHAIN, bytes.len() as u16)
}

// The chain goes well up to this word.
fn chain_ends(tally: &mut Tally, what: &str, world: &World, last: usize, left: Left) {
    ends(tally, what, world, status(AT + 8 * last, 0x0C, 0, 0), left);
}

// Chains of two and three commands, from the start: what the first leaves selected, the second uses.
pub fn read_chains(tally: &mut Tally) {
    read_after_search(tally);
    read_after_read_count(tally);
    read_in_the_next_chain(tally);
    read_the_whole_track(tally);
}

fn read_after_search(tally: &mut Tally) {
    let (id, key) = (R1.id(), R1.key);
    for (what, by, sent, code, place, bytes) in [
        ("Search ID, Read Data", 0x31, &id[..], 0x06, M1 + 1, R1.data.to_vec()),
        ("Search ID, Read KD", 0x31, &id, 0x0E, M1 + 1, R1.key_and_data()),
        ("Search ID, Read CKD of the next", 0x31, &id, 0x1E, M2 + 1, R2.all()),
        ("Search ID, Read Count of the next", 0x31, &id, 0x12, M2 + 1, R2.count()),
        ("Search Key, Read Data", 0x29, key, 0x06, M1 + 1, R1.data.to_vec()),
        ("Search Key, Read KD of the next", 0x29, key, 0x0E, M2 + 1, R2.data.to_vec()),
    ] {
        let words = [search_for(by, sent), no_op(0), nth_read(0, code, 0, bytes.len() as u16)];
        let world = on(&four(), 7, &words).storing(SENT, sent);
        chain_ends(tally, what, &world, 2, stored(place, &[(nth(0), &bytes)]));
    }
    // Unsatisfied searches select too.
    let world = on(&four(), 0, &[search_for(0x31, &id), nth_read(0, 0x06, 0, 8)]).storing(SENT, &id);
    chain_ends(tally, "Search ID not satisfied, Read Data of R0", &world, 1, stored(7, &[(nth(0), R0.data)]));
}

fn read_after_read_count(tally: &mut Tally) {
    let chain = |words: &[[u8; 8]], sent: &[u8]| on(&four(), 7, words).storing(SENT, sent);
    let (count, key) = (R1.count(), R1.key);
    let first = nth_read(0, 0x12, CHAIN, 8);
    // With a TIC between it is the very next command, with a No-op it is not.
    let world = chain(&[first, tic(AT as u32 + 16), nth_read(1, 0x06, 0, 6)], &[]);
    let both = [(nth(0), &count[..]), (nth(1), R1.data)];
    chain_ends(tally, "Read Count, TIC, Read Data", &world, 2, stored(M1 + 1, &both));
    let world = chain(&[first, no_op(CHAIN), nth_read(1, 0x06, 0, 5)], &[]);
    let both = [(nth(0), &count[..]), (nth(1), R2.data)];
    chain_ends(tally, "Read Count, No-op, Read Data", &world, 2, stored(M2 + 1, &both));
    // A selection serves once: the second Read Data takes the next record.
    let world = chain(&[first, nth_read(1, 0x06, CHAIN, 6), nth_read(2, 0x06, 0, 5)], &[]);
    let all = [(nth(0), &count[..]), (nth(1), R1.data), (nth(2), R2.data)];
    chain_ends(tally, "Read Count, Read Data twice", &world, 2, stored(M2 + 1, &all));
    // Read Count, Search Key and Read Data are of one record.
    let world = chain(&[first, search_for(0x29, key), no_op(0), nth_read(1, 0x06, 0, 6)], key);
    let both = [(nth(0), &count[..]), (nth(1), R1.data)];
    chain_ends(tally, "Read Count, Search Key, Read Data", &world, 3, stored(M1 + 1, &both));
}

// Chains do not hand a selection on, but the place.
fn read_in_the_next_chain(tally: &mut Tally) {
    let mut world = on(&four(), 7, &[nth_read(0, 0x12, 0, 8)]);
    tally.same("the first chain", world.start(), Answer::NotEnded);
    tally.same("the first chain", world.go(1), Answer::Ended);
    let world = world.storing(AT, &nth_read(1, 0x06, 0, 5));
    chain_ends(tally, "the next chain", &world, 0, stored(M2 + 1, &[(nth(1), R2.data)]));
}

// Home address, R0, and all three records in one chain; then round again.
fn read_the_whole_track(tally: &mut Tally) {
    let words = [
        nth_read(0, 0x1A, CHAIN, 5),
        nth_read(1, 0x16, CHAIN, 16),
        nth_read(2, 0x1E, CHAIN, 18),
        nth_read(3, 0x1E, CHAIN, 13),
        nth_read(4, 0x12, CHAIN, 8),
        nth_read(5, 0x1E, 0, 18),
    ];
    let all = [
        (nth(0), &HOME[..]),
        (nth(1), &R0.all()),
        (nth(2), &R1.all()),
        (nth(3), &R2.all()),
        (nth(4), &R3.count()),
        (nth(5), &R1.all()),
    ];
    chain_ends(tally, "the whole track", &on(&four(), 4000, &words), 5, stored(M1 + 1, &all));
}

// Without data: a Unit Exception, with the count and the key moved where they are named; and 40 where the count is wrong.
pub fn read_without_data(tally: &mut Tally) {
    for (code, count, flags, channel, moved) in [
        (0x06, 5, 0, 0x40, 0),
        (0x06, 5, LONG_OR_SHORT, 0, 0),
        (0x06, 1, BOTH, 0, 0),
        (0x0E, 3, 0, 0, 3),
        (0x0E, 2, CHAIN, 0x40, 2),
        (0x0E, 4, CHAIN, 0x40, 3),
        (0x0E, 4, BOTH, 0, 3),
        (0x1E, 11, 0, 0, 11),
        (0x1E, 10, CHAIN, 0x40, 10),
        (0x1E, 12, BOTH, 0, 11),
    ] {
        let world = on(&four(), M2 + 1, &[read(code, flags, count), no_op(0)]);
        let bytes = moves(code, &R3);
        let stored = [(DATA, &bytes[..moved])];
        let what = format!("{code:02X} of {count} bytes without data, flags {flags:02X}");
        let wanted = status(AT, 0x0D, channel, (count - moved) as u16);
        ends(tally, &what, &world, wanted, Left { stored: &stored, ..stands(M3 + 1) });
        // The data area is then not read.
        for cell in DATA_3 {
            let damaged = world.clone().recording(cell, 0);
            let what = format!("{what}, cell {cell} damaged");
            ends(tally, &what, &damaged, wanted, Left { stored: &stored, ..stands(M3 + 1) });
        }
    }
    // Read Count is of no data, and there is no exception.
    let world = on(&four(), M2 + 1, &[read(0x12, 0, 8)]);
    ends(tally, "12 without data", &world, status(AT, 0x0C, 0, 0), stored(M3 + 1, &[(DATA, &R3.count())]));
}

// No marker on the track, where one must be looked for; it stands before what cannot be read.
pub fn read_no_marker(tally: &mut Tally) {
    let bare = sound(&[KEYED_R0]);
    for code in RECORD_READS {
        for (from, tallied) in [(0, 0), (7, 1), (4096, 0)] {
            for damaged in [None, Some(0), Some(7)] {
                let mut world = after(0x03, Selection::None, &bare, from, &[read(code, BOTH, 9)]).tallied(tallied);
                if let Some(cell) = damaged {
                    world = world.recording(cell, 0);
                }
                // Markers of other tracks, and 512 in a home address, are none of this track.
                let world = world.marking(HERE - 1, &[40]).marking(HERE + 1, &[40]).recording(6, MARKER);
                let what = format!("{code:02X} without a marker from {from}, cell {damaged:?} damaged");
                ends(tally, &what, &world, status(AT, 0x0E, 0, 9), checked(NO_MARKER, from));
            }
        }
    }
    // Where none need be looked for, it does not matter.
    for (code, before) in [(0x06, 0x31), (0x06, 0x29), (0x0E, 0x12)] {
        let lent = after(before, Selection::R0, &bare, 7, &[]);
        let what = format!("R0 after {before:02X} without a marker");
        read_ends(tally, &what, &lent, code, &KEYED_R0, Going { place: 7, ..AFTER_READ });
    }
    for (code, place) in [(0x1A, 1), (0x16, 7)] {
        let lent = on(&bare, 100, &[]);
        read_ends(tally, "without a marker", &lent, code, &KEYED_R0, Going { place, ..AFTER_READ });
    }
}

// The areas up to R2's, and the sense of each that cannot be read.
const AREAS: [(Range<usize>, [u8; 2]); 8] = [
    (HOME_AREA, UNREADABLE),
    (COUNT_0, UNREADABLE_COUNT),
    (DATA_0, UNREADABLE),
    (COUNT_1, UNREADABLE_COUNT),
    (KEY_1, UNREADABLE),
    (DATA_1, UNREADABLE),
    (COUNT_2, UNREADABLE_COUNT),
    (DATA_2, UNREADABLE),
];

// The areas that a read from the beginning of the track names, its record, and the place behind.
fn named(code: u8) -> (&'static [Range<usize>], Record<'static>, usize) {
    match code {
        0x1A => (&[HOME_AREA], R0, 1),
        0x16 => (&[COUNT_0, DATA_0], R0, 7),
        0x12 => (&[COUNT_1], R1, M1 + 1),
        0x06 => (&[COUNT_1, DATA_1], R1, M1 + 1),
        _ => (&[COUNT_1, KEY_1, DATA_1], R1, M1 + 1),
    }
}

pub fn read_damage(tally: &mut Tally) {
    for code in READS {
        let (_, record, _) = named(code);
        // A count of one byte is enough for every area to be checked.
        for count in [1, 8, moves(code, &record).len()] {
            for (area, sense) in AREAS {
                read_with_damage(tally, code, count, area, sense);
            }
        }
    }
    read_damaged_count(tally);
    read_damage_in_a_chain(tally);
}

// Each cell of an area, made a gap, another byte and no byte. If the read names it, nothing moves, and the place stays; if
// not, it is not looked at.
fn read_with_damage(tally: &mut Tally, code: u8, count: usize, area: Range<usize>, sense: [u8; 2]) {
    let track = four();
    let (names, record, place) = named(code);
    let bytes = moves(code, &record);
    let moved = bytes.len().min(count);
    for cell in area.clone() {
        for value in [0, track[cell] ^ 1, track[cell] ^ 0x40, track[cell] + 0x100, 0xFFFF] {
            // A marker in front of R1's is another record.
            if value == MARKER && cell < M1 && cell >= 7 && code != 0x16 {
                continue;
            }
            let world = on(&track, 5, &[read(code, LONG_OR_SHORT, count)]).recording(cell, value);
            let what = format!("{code:02X} of {count} bytes with {value:04X} in cell {cell}");
            if names.contains(&area) {
                ends(tally, &what, &world, status(AT, 0x0E, 0, count as u16), checked(sense, 5));
            } else {
                let wanted = status(AT, 0x0C, 0, (count - moved) as u16);
                ends(tally, &what, &world, wanted, stored(place, &[(DATA, &bytes[..moved])]));
            }
        }
    }
}

fn read_damaged_count(tally: &mut Tally) {
    // A count that cannot be read, before the areas it names.
    let world = on(&four(), 7, &[read(0x1E, 0, 18)]).recording(COUNT_1.start, 0).recording(KEY_1.start, 0);
    ends(tally, "count and key", &world, status(AT, 0x0E, 0, 18), checked(UNREADABLE_COUNT, 7));
    // Its lengths are not used: a length byte and the check of another count.
    for cell in [COUNT_1.start + 6, COUNT_1.start + 7, COUNT_1.start + 8] {
        let world = on(&four(), 7, &[read(0x1E, BOTH, 18)]).recording(cell, 0x01FF);
        let what = format!("a length in cell {cell}");
        ends(tally, &what, &world, status(AT, 0x0E, 0, 18), checked(UNREADABLE_COUNT, 7));
    }
}

// In a chain, what was moved before stays.
fn read_damage_in_a_chain(tally: &mut Tally) {
    let world = on(&four(), 7, &[read(0x12, CHAIN, 8), word(0x06, 300, CHAIN, 6)]).recording(DATA_1.start, 0);
    let left = Left { sense: UNREADABLE, ..stored(M1 + 1, &[]) };
    let count = [(DATA, &R1.count()[..])];
    ends(tally, "the second of two", &world, status(AT + 8, 0x0E, 0, 6), Left { stored: &count, ..left });
}

pub fn read_off_the_track(tally: &mut Tally) {
    for over in [0, 1, 7, 8, 13, 14, 15, 24] {
        record_off_the_track(tally, over);
    }
    r0_off_the_track(tally);
    records_of_a_full_track(tally);
}

// A record whose areas run to the end of the track, or whose last `over` cells lie off it.
fn record_off_the_track(tally: &mut Tally, over: usize) {
    let cells = R1.cells(0x81);
    let fits = cells.len() - over;
    let at = TRACK_CELLS - 1 - fits;
    let mut track = sound(&[R0]);
    track[at] = MARKER;
    track[at + 1..].copy_from_slice(&cells[..fits]);
    for code in RECORD_READS {
        let needs = match code {
            0x12 => 11,
            _ => cells.len(),
        };
        let bytes = moves(code, &R1);
        let world = on(&track, 7, &[read(code, LONG_OR_SHORT, 30)]);
        let what = format!("{code:02X}, {over} cells off the track");
        if fits >= needs {
            let wanted = status(AT, 0x0C, 0, 30 - bytes.len() as u16);
            ends(tally, &what, &world, wanted, stored(at + 1, &[(DATA, &bytes)]));
        } else {
            let sense = if fits >= 11 { UNREADABLE } else { UNREADABLE_COUNT };
            ends(tally, &what, &world, status(AT, 0x0E, 0, 30), checked(sense, 7));
        }
    }
}

// R0 may run off too: its data are of 4,076 bytes at most.
fn r0_off_the_track(tally: &mut Tally) {
    for (len, fits) in [(4076, true), (4077, false)] {
        let data: Vec<u8> = (0..len).map(|i| (i % 253) as u8).collect();
        let r0 = Record { number: 0, key: &[], data: &data };
        let mut track = area(&HOME);
        track.extend(r0.cells(0x01));
        track.truncate(TRACK_CELLS);
        let world = on(&track, 0, &[word(0x16, DATA as u32, 0, len as u16 + 8)]).roomy(8192);
        let what = format!("R0 with data of {len}");
        if fits {
            ends(tally, &what, &world, status(AT, 0x0C, 0, 0), stored(7, &[(DATA, &r0.all())]));
        } else {
            ends(tally, &what, &world, status(AT, 0x0E, 0, len as u16 + 8), checked(UNREADABLE, 0));
        }
    }
}

// Figure 2: data of 4,054 bytes behind an R0 of 8; and the longest key.
fn records_of_a_full_track(tally: &mut Tally) {
    let data: Vec<u8> = (0..4054).map(|i| (i % 251) as u8).collect();
    let key: Vec<u8> = (0..255).collect();
    for record in [Record { number: 1, key: &[], data: &data }, Record { number: 1, key: &key, data: &data[..3797] }] {
        let track = sound(&[R0, Record { ..record }]);
        for code in RECORD_READS {
            let lent = on(&track, M1 + 1, &[]).roomy(8192);
            let selection = if code == 0x12 { marker(M1) } else { Selection::None };
            let what = format!("a full track, KL {}", record.key.len());
            let bytes = moves(code, &record);
            let world = lent.storing(AT, &read(code, CHAIN, bytes.len()));
            let stored = [(DATA, &bytes[..])];
            let left = Going { before: code, selection, place: M1 + 1, stored: &stored, ..AFTER_READ };
            goes_on(tally, &what, &world, 1, left);
        }
    }
}

// A value 512 inside an area is a marker for every hunt.
pub fn read_markers(tally: &mut Tally) {
    let track = four();
    // In R0's data, before R1: the record there cannot be read.
    let world = on(&track, 0, &[read(0x1E, 0, 18)]).recording(20, MARKER);
    ends(tally, "a marker in R0's data", &world, status(AT, 0x0E, 0, 18), checked(UNREADABLE_COUNT, 0));
    let world = on(&track, 0, &[read(0x16, 0, 16)]).recording(20, MARKER);
    ends(tally, "R0 with a marker in its data", &world, status(AT, 0x0E, 0, 16), checked(UNREADABLE, 0));
    // In R1's data: R1's count is read, and R1's data are not; the next record is the one at the new marker.
    let inside = DATA_1.start + 2;
    let world = on(&track, 7, &[read(0x12, CHAIN, 8), word(0x06, 300, CHAIN, 6)]).recording(inside, MARKER);
    let stored_count = [(DATA, &R1.count()[..])];
    let left = Left { sense: UNREADABLE, stored: &stored_count, ..stands(M1 + 1) };
    ends(tally, "R1 with a marker in its data", &world, status(AT + 8, 0x0E, 0, 6), left);
    let world = on(&track, M1 + 1, &[read(0x1E, 0, 13)]).recording(inside, MARKER);
    ends(tally, "the next after R1", &world, status(AT, 0x0E, 0, 13), checked(UNREADABLE_COUNT, M1 + 1));
    // In cells 0 to 6 it is a gap.
    let world = on(&track, 0, &[read(0x12, 0, 8)]).recording(4, MARKER);
    ends(tally, "512 in the home address", &world, status(AT, 0x0C, 0, 0), stored(M1 + 1, &[(DATA, &R1.count())]));
    // Cells behind the last record that are no marker are passed over, whatever they are.
    let world = on(&track, M3 + 1, &[read(0x12, 0, 8)]).recording(200, 0x01FF).recording(300, 513).recording(400, 511);
    ends(tally, "gaps that are not 0", &world, status(AT, 0x0C, 0, 0), stored(M1 + 1, &[(DATA, &R1.count())]));
}

// Data that are themselves command words, and a read of them to this address.
fn words_as_data() -> Vec<u8> {
    [no_op(CHAIN), word(0x03, 0, 0, 77)].concat()
}

fn reading_words(to: usize, flags: u8, count: u16) -> World {
    let track = sound(&[R0, Record { number: 1, key: &[], data: &words_as_data() }]);
    on(&track, 7, &[word(0x06, to as u32, flags, count), no_op(0), no_op(0)])
}

pub fn read_over_words(tally: &mut Tally) {
    read_over_the_chain(tally);
    read_over_fixed_words(tally);
    search_for_what_was_read(tally);
}

// Words are fetched when they run.
fn read_over_the_chain(tally: &mut Tally) {
    let words = words_as_data();
    let read = [(AT + 8, &words[..])];
    let wanted = status(AT + 16, 0x0C, 0, 77);
    ends(tally, "over the next two words", &reading_words(AT + 8, CHAIN, 16), wanted, stored(M1 + 1, &read));
    // Over the word in hand: its flags and count are those that were fetched.
    let read = [(AT, &words[..])];
    let wanted = status(AT + 8, 0x0C, 0, 77);
    ends(tally, "over the word in hand", &reading_words(AT, CHAIN, 16), wanted, stored(M1 + 1, &read));
    let read = [(AT, &words[..8])];
    let wanted = status(AT, 0x0C, 0x40, 0);
    ends(tally, "over the word in hand, short", &reading_words(AT, CHAIN, 8), wanted, stored(M1 + 1, &read));
    // Over the next word, that becomes no command word.
    let bad = Record { number: 1, key: &[], data: &[0; 8] };
    let world = on(&sound(&[R0, bad]), 7, &[word(0x06, AT as u32 + 8, CHAIN, 8), no_op(0)]);
    let read = [(AT + 8, &[0_u8; 8][..])];
    ends(tally, "a word made bad", &world, program_check(AT + 8), stored(M1 + 1, &read));
}

// The address word is not fetched again, so key and chain stay; the status word is stored last, behind what was read.
fn read_over_fixed_words(tally: &mut Tally) {
    let words = words_as_data();
    for to in [56, 60, 64, 68, 72, 76] {
        let read = [(to, &words[..])];
        let wanted = status(AT, 0x0C, 0, 0);
        let what = format!("16 bytes to {to}");
        ends(tally, &what, &reading_words(to, 0, 16), wanted, stored(M1 + 1, &read));
        let wanted = status(AT + 8, 0x0C, 0, 1);
        ends(tally, &what, &reading_words(to, CHAIN, 16), wanted, stored(M1 + 1, &read));
    }
    // Without a status word at the end there is none in the storage that was read over.
    let read = [(64, &words[..])];
    let left = Going { next: AT + 8, before: 0x06, place: M1 + 1, stored: &read, ..AFTER_READ };
    goes_on(tally, "over the status word, going on", &reading_words(64, CHAIN, 16), 1, left);
}

// A search's bytes may be those that a read brought.
fn search_for_what_was_read(tally: &mut Tally) {
    let id = word(0x31, DATA as u32, CHAIN, 5);
    let words = [word(0x12, DATA as u32, CHAIN, 8), word(0x1A, 300, CHAIN, 5), id, tic(AT as u32 + 16), no_op(0)];
    let world = on(&four(), 7, &words);
    let read = [(DATA, &R1.count()[..]), (300, &HOME[..])];
    ends(tally, "a search for what was read", &world, status(AT + 32, 0x0C, 0, 1), stored(M1 + 1, &read));
}

// Space Record passes a damaged count without reading it, and the next record can be read.
pub fn read_past_damage(tally: &mut Tally) {
    let track = four();
    for cell in [COUNT_1.start, KEY_1.start, DATA_1.end - 1] {
        // Read R0, Space Record over R1, read R2.
        let words = [word(0x16, 400, CHAIN, 16), word(0x0F, 0, CHAIN, 1), read(0x1E, 0, 13)];
        let world = on(&track, 3000, &words).recording(cell, 0);
        let both = [(400, &R0.all()[..]), (DATA, &R2.all()[..])];
        let what = format!("past cell {cell}");
        ends(tally, &what, &world, status(AT + 16, 0x0C, 0, 0), stored(M2 + 1, &both));
    }
    // After a home address it stands at 7, before R1.
    let words = [word(0x1A, 400, CHAIN, 5), word(0x0F, 0, CHAIN, 1), read(0x1E, 0, 18)];
    let both = [(400, &HOME[..]), (DATA, &R1.all()[..])];
    ends(tally, "after a home address", &on(&track, 3000, &words), status(AT + 16, 0x0C, 0, 0), stored(M1 + 1, &both));
    // A Space Record between ends a selection.
    let words = [word(0x12, 400, CHAIN, 8), word(0x0F, 0, CHAIN, 1), read(0x06, 0, 1)];
    let both = [(400, &R1.count()[..])];
    let world = on(&track, 7, &words);
    let left = Left { stored: &both, ..stands(M3 + 1) };
    ends(tally, "Read Count, Space Record, Read Data", &world, status(AT + 16, 0x0D, 0x40, 1), left);
}

// Reads clear sense first, and change no cell; with Unit Check the sense is that of the check.
pub fn read_sense(tally: &mut Tally) {
    for code in READS {
        for sense in [[0x00, 0x00], [0x80, 0x10], [0xFF, 0xFF]] {
            let world = on(&four(), 7, &[read(code, BOTH, 40), no_op(0)]).holding(4, &sense);
            let mut after = world.clone();
            tally.same("start", after.start(), Answer::NotEnded);
            tally.same("go", after.go(1), Answer::NotEnded);
            let what = format!("{code:02X} over sense {sense:02X?}");
            tally.same(&what, after.view().sense(), [0, 0]);
            tally.holds(&what, after.cells == world.cells);
        }
    }
}
