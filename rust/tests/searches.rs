// The searches: what each compares, which record it takes, what it leaves held, and how it ends.
use crate::lent::*;
use crate::track::*;
use poplar::{Answer, Selection, TRACK_CELLS};

const SEARCH_IDS: [u8; 3] = [0x31, 0x51, 0x71];
const SEARCH_KEYS: [u8; 3] = [0x29, 0x49, 0x69];

const NO_MARKER: [u8; 2] = [0x00, 0x02];
const SECOND_INDEX: [u8; 2] = [0x00, 0x08];
const UNREADABLE: [u8; 2] = [0x08, 0x00];
const UNREADABLE_COUNT: [u8; 2] = [0x08, 0x80];

// A search with these bytes, and No-ops behind it of which the first is passed over if it is satisfied.
fn searching(code: u8, flags: u8, count: usize) -> [[u8; 8]; 3] {
    [word(code, DATA as u32, flags, count as u16), word(0x03, 0, 0, 2), word(0x03, 0, 0, 3)]
}

// What is satisfied if the track's is lower, equal or higher.
fn satisfies(code: u8, order: std::cmp::Ordering) -> bool {
    match code {
        0x39 | 0x31 | 0x29 => order.is_eq(),
        0x51 | 0x49 => order.is_gt(),
        _ => order.is_ge(),
    }
}

// One search of a field of the track with a count of bytes, under each kind of flags, from a place to a place. It is the
// first command of its chain.
fn search_ends(tally: &mut Tally, what: &str, code: u8, from: usize, field: &[u8], sent: &[u8], to: Going) {
    let m = sent.len().min(field.len());
    let satisfied = m > 0 && satisfies(code, field[..m].cmp(&sent[..m]));
    let unit = if satisfied { 0x4C } else { 0x0C };
    let left = sent.len() - m;
    let wrong_length = sent.len() != field.len();
    let next = if satisfied { AT + 16 } else { AT + 8 };
    let no_op_count = if satisfied { 3 } else { 2 };
    let track = four();
    let lent = |flags| on(&track, from, &searching(code, flags, sent.len())).storing(DATA, sent);
    for flags in [0, CHAIN, LONG_OR_SHORT, BOTH] {
        let what = format!("{what}, flags {flags:02X}");
        let world = lent(flags);
        let length_ends = wrong_length && flags & LONG_OR_SHORT == 0;
        if length_ends || flags & CHAIN == 0 {
            let channel = if length_ends { 0x40 } else { 0 };
            ends(tally, &what, &world, status(AT, unit, channel, left as u16), stands(to.place));
        } else {
            let whole = satisfied && m == field.len() && matches!(code, 0x39 | 0x31 | 0x29);
            goes_on(tally, &what, &world, 1, Going { next, before: code, whole, ..to });
            ends(tally, &what, &world, status(next, 0x0C, 0, no_op_count), stands(to.place));
        }
    }
}

// The bytes of a field; one lower and one higher, in the first byte and in the last; and with bytes behind, which are not
// compared.
fn near(field: &[u8]) -> Vec<Vec<u8>> {
    let mut all = Vec::new();
    for at in [0, field.len() - 1] {
        for by in [255, 0, 1] {
            let mut bytes = field.to_vec();
            bytes[at] = bytes[at].wrapping_add(by);
            all.push(bytes.clone());
            all.push([bytes, vec![0xFF, 0x00]].concat());
        }
    }
    all
}

const AFTER_SEARCH: Going =
    Going { next: 0, before: 0, whole: false, tally: 0, selection: Selection::None, place: 0, stored: &[] };

pub fn search_home(tally: &mut Tally) {
    let field = &HOME[1..];
    for from in [0, 1, 7, M2, 4096] {
        for bytes in near(field) {
            for count in 1..=bytes.len() {
                let sent = &bytes[..count];
                let what = format!("Search HA {sent:02X?} from {from}");
                search_ends(tally, &what, 0x39, from, field, sent, Going { place: 1, ..AFTER_SEARCH });
            }
        }
    }
    // It goes to the index itself, and ends a row of searches.
    let world = after(0x31, marker(M3), &four(), M3 + 1, &searching(0x39, CHAIN, 4)).tallied(1);
    let world = world.storing(DATA, &HOME[1..]);
    let left = Going { next: AT + 16, before: 0x39, whole: true, place: 1, ..AFTER_SEARCH };
    goes_on(tally, "Search HA after searches", &world, 1, left);
}

// A place, and what Search ID takes there: the record, what it leaves selected and the tally, and the place behind.
fn by_id() -> [(usize, Record<'static>, Selection, u8, usize); 11] {
    [
        (0, R0, Selection::R0, 0, 7),
        (1, R0, Selection::R0, 0, 7),
        (6, R0, Selection::R0, 0, 7),
        (7, R1, marker(M1), 0, M1 + 1),
        (M1, R1, marker(M1), 0, M1 + 1),
        (M1 + 1, R2, marker(M2), 0, M2 + 1),
        (M2, R2, marker(M2), 0, M2 + 1),
        (M2 + 1, R3, marker(M3), 0, M3 + 1),
        (M3, R3, marker(M3), 0, M3 + 1),
        (M3 + 1, R0, Selection::R0, 1, 7),
        (4096, R0, Selection::R0, 1, 7),
    ]
}

pub fn search_id(tally: &mut Tally) {
    for code in SEARCH_IDS {
        for (from, record, selection, tallied, place) in by_id() {
            let field = record.id();
            for bytes in near(&field) {
                for count in [1, 4, 5, 6, 7].into_iter().filter(|&count| count <= bytes.len()) {
                    let sent = &bytes[..count];
                    let what = format!("{code:02X} of {sent:02X?} from {from}");
                    let left = Going { selection, tally: tallied, place, ..AFTER_SEARCH };
                    search_ends(tally, &what, code, from, &field, sent, left);
                }
            }
        }
    }
}

// The same for Search Key, which takes no R0 and passes the index to the first marker.
pub fn search_key(tally: &mut Tally) {
    for code in SEARCH_KEYS {
        for (from, record, at, tallied) in [
            (0, R1, M1, 0),
            (7, R1, M1, 0),
            (M1, R1, M1, 0),
            (M2 + 1, R3, M3, 0),
            (M3, R3, M3, 0),
            (M3 + 1, R1, M1, 1),
            (4096, R1, M1, 1),
        ] {
            for bytes in near(record.key) {
                for count in 1..=bytes.len() {
                    let sent = &bytes[..count];
                    let what = format!("{code:02X} of {sent:02X?} from {from}");
                    let left = Going { selection: marker(at), tally: tallied, place: at + 1, ..AFTER_SEARCH };
                    search_ends(tally, &what, code, from, record.key, sent, left);
                }
            }
        }
        // Without a key nothing moves and nothing is satisfied; it places and selects.
        for count in [1, 4, 9] {
            let what = format!("{code:02X} of {count} bytes without a key");
            let left = Going { selection: marker(M2), place: M2 + 1, ..AFTER_SEARCH };
            search_ends(tally, &what, code, M1 + 1, &[], &vec![0; count], left);
        }
    }
}

const KEYED_R0: Record = Record { number: 0, key: &[0x4B, 0x30], data: &[1, 2, 3] };

// Search Key uses what Search ID or Read Count left selected, and passes no index there; after all else it takes the next.
pub fn search_key_selected(tally: &mut Tally) {
    let track = sound(&[KEYED_R0, R1, R2, R3]);
    for before in 0..=255 {
        for code in SEARCH_KEYS {
            search_key_after(tally, &track, before, code);
        }
    }
    selected_unreadable(tally, &track);
}

// One search for R0's key, with R0 selected, after this command.
fn search_key_after(tally: &mut Tally, track: &[u16], before: u8, code: u8) {
    let uses = matches!(before, 0x31 | 0x51 | 0x71 | 0x12);
    let searches_in_a_row = matches!(before, 0x31 | 0x51 | 0x71 | 0x29 | 0x49 | 0x69);
    let what = format!("{code:02X} of R0's key after {before:02X}");
    // The tally that is held is that of the searches before.
    let tallied = u8::from(searches_in_a_row);
    let world = after(before, Selection::R0, track, 4000, &searching(code, BOTH, 2))
        .storing(DATA, KEYED_R0.key)
        .tallied(tallied);
    if uses {
        let satisfied = code != 0x49;
        let next = if satisfied { AT + 16 } else { AT + 8 };
        let whole = code == 0x29;
        let selection = Selection::R0;
        let left = Going { next, before: code, whole, tally: tallied, selection, place: 7, stored: &[] };
        goes_on(tally, &what, &world, 1, left);
    } else if searches_in_a_row {
        ends(tally, &what, &world, status(AT, 0x0E, 0, 2), checked(SECOND_INDEX, 4000));
    } else {
        // R1's key begins as R0's, and is higher.
        let next = if code == 0x29 { AT + 8 } else { AT + 16 };
        let first = track.iter().position(|&cell| cell == MARKER).unwrap_or(0);
        let left = Going { next, before: code, tally: 1, selection: marker(first), place: first + 1, ..AFTER_SEARCH };
        goes_on(tally, &what, &world, 1, left);
    }
}

// The selected record's count is read again, and then its key.
fn selected_unreadable(tally: &mut Tally, track: &[u16]) {
    let world = after(0x12, Selection::R0, track, 7, &searching(0x29, 0, 2));
    let key = world.clone().recording(18, track[18] ^ 1);
    ends(tally, "the selected key", &key, status(AT, 0x0E, 0, 2), checked(UNREADABLE, 7));
    let count = world.recording(17, 0);
    ends(tally, "the selected count", &count, status(AT, 0x0E, 0, 2), checked(UNREADABLE_COUNT, 7));
}

// Figure 11: a search that is never satisfied and a TIC back to it. The last of the row ends with 00 08.
pub fn second_index(tally: &mut Tally) {
    let back = |code, count| [word(code, DATA as u32, BOTH, count), tic(AT as u32)];
    let row = [(Selection::R0, 7), (marker(M1), M1 + 1), (marker(M2), M2 + 1), (marker(M3), M3 + 1)];
    for (code, count, row, sent) in [
        (0x31, 5, &row[..], [0xFF; 5]),
        (0x51, 5, &row[..], [0xFF; 5]),
        (0x71, 5, &row[..], [0xFF; 5]),
        (0x29, 3, &row[1..], [0xFF; 5]),
        (0x49, 3, &row[1..], [0xFF; 5]),
        (0x69, 3, &row[1..], [0xFF; 5]),
    ] {
        let world = on(&four(), 0, &back(code, count)).storing(DATA, &sent);
        // Twice round, with a TIC between each and the next.
        for n in 0..2 * row.len() {
            let (selection, place) = row[n % row.len()];
            let tallied = u8::from(n >= row.len());
            let left = Going { next: AT + 8, before: code, tally: tallied, selection, place, ..AFTER_SEARCH };
            let what = format!("{code:02X}, the search {} of its row", n + 1);
            goes_on(tally, &what, &world, 2 * n as u16 + 1, left);
        }
        let what = format!("{code:02X}, the search after {}", 2 * row.len());
        let mut last = world.clone();
        tally.same(&what, last.start(), Answer::NotEnded);
        tally.same(&what, last.go(4 * row.len() as u16), Answer::NotEnded);
        tally.same(&what, last.view().sense(), [0, 0]);
        ends(tally, &what, &last, status(AT, 0x0E, 0, count), checked(SECOND_INDEX, M3 + 1));
    }
    tally.same("figure 11 is the 9th", 2 * row.len() + 1, 9);
}

// A search of a row: by ID, and by key.
fn by_id_in_row() -> [u8; 8] {
    word(0x31, DATA as u32, BOTH, 5)
}

fn by_key_in_row() -> [u8; 8] {
    word(0x29, DATA as u32, BOTH, 3)
}

// Searches for what no record has, from behind the last record on.
fn row_of(words: &[[u8; 8]]) -> World {
    on(&four(), M3 + 1, words).storing(DATA, &[0xFF; 5])
}

// The row ends at this word: its search meets the second index.
fn row_ends(tally: &mut Tally, what: &str, world: &World, at: usize, count: u16) {
    ends(tally, what, world, status(at, 0x0E, 0, count), checked(SECOND_INDEX, M3 + 1));
}

// What keeps the tally of index points and what ends it.
pub fn index_tally(tally: &mut Tally) {
    let id = by_id_in_row();
    tally_of_mixed_rows(tally);
    // A satisfied search does not end the row; other commands do.
    let found = row_of(&[id, no_op(0), id, id, id, id]).storing(DATA, &R0.id());
    row_ends(tally, "satisfied at R0 behind the index", &found, AT + 40, 5);
    tally_ended_by_others(tally);
    // A TIC does not.
    let world = row_of(&[id, tic(AT as u32 + 16), id, id, id, id]);
    row_ends(tally, "a TIC in the row", &world, AT + 40, 5);
}

fn tally_of_mixed_rows(tally: &mut Tally) {
    let (id, key) = (by_id_in_row(), by_key_in_row());
    // Search ID passes the index to R0, so Search Key uses R0, and from 7 on there are three more records.
    let mixed = row_of(&[id, key, key, key, key, key]);
    row_ends(tally, "Search ID, then Search Key", &mixed, AT + 40, 3);
    let tallies = [1, 1, 1, 1, 1];
    for (n, tallied) in tallies.into_iter().enumerate() {
        let mut world = mixed.clone();
        tally.same("start", world.start(), Answer::NotEnded);
        tally.same("go", world.go(n as u16 + 1), Answer::NotEnded);
        tally.same("the tally in a mixed row", world.view().tally(), tallied);
    }
    row_ends(tally, "Search Key, then Search ID", &row_of(&[key, key, key, id, id]), AT + 24, 5);
}

// Any command but Search ID, Search Key and TIC: with it between, the row begins anew, and a whole round is free.
fn tally_ended_by_others(tally: &mut Tally) {
    for (name, between) in [
        ("No-op", word(0x03, 0, CHAIN, 1)),
        ("Sense", word(0x04, 400, CHAIN, 6)),
        ("Set File Mask", word(0x1F, DATA as u32 + 8, CHAIN, 1)),
        ("Search HA", word(0x39, DATA as u32, CHAIN, 4)),
        ("Space Record", word(0x0F, 0, CHAIN, 1)),
        ("Read HA", word(0x1A, 400, CHAIN, 5)),
        ("Read R0", word(0x16, 400, CHAIN, 16)),
        ("Read Count", word(0x12, 400, CHAIN, 8)),
        ("Read Data", word(0x06, 400, BOTH, 8)),
        ("Read Key and Data", word(0x0E, 400, BOTH, 8)),
        ("Read Count, Key and Data", word(0x1E, 400, BOTH, 8)),
    ] {
        let mut world = row_of(&[by_id_in_row(), between, no_op(0)]).storing(DATA + 8, &[0xC0]);
        tally.same(name, world.start(), Answer::NotEnded);
        tally.same(name, world.go(1), Answer::NotEnded);
        tally.same(name, world.view().tally(), 1);
        tally.same(name, world.go(1), Answer::NotEnded);
        tally.same(name, world.view().tally(), 0);
    }
}

// The rows of the Unit Check table, in their order: no marker, second index, unreadable.
pub fn search_rows(tally: &mut Tally) {
    let bare = sound(&[KEYED_R0]);
    let sent = [0x00; 5];
    for code in SEARCH_KEYS {
        for (place, tallied) in [(0, 0), (7, 1), (4096, 0), (4096, 1)] {
            let what = format!("{code:02X} without a marker from {place}, tally {tallied}");
            let world = after(0x29, Selection::R0, &bare, place, &searching(code, BOTH, 5)).tallied(tallied);
            ends(tally, &what, &world, status(AT, 0x0E, 0, 5), checked(NO_MARKER, place));
        }
        // It need not look for one if R0 is selected.
        let world = after(0x31, Selection::R0, &bare, 7, &searching(code, 0, 2)).storing(DATA, &sent).tallied(1);
        let unit = if code == 0x29 { 0x0C } else { 0x4C };
        let what = format!("{code:02X} on R0 without a marker");
        ends(tally, &what, &world, status(AT, unit, 0, 0), stands(7));
    }
    for code in SEARCH_IDS {
        // Search ID takes R0 and so needs no marker, but passes the index each time.
        let world = on(&bare, 7, &[word(code, DATA as u32, CHAIN, 5), word(code, DATA as u32, CHAIN, 5)]);
        let world = world.storing(DATA, &[0xFF; 5]);
        let what = format!("{code:02X} twice without a marker");
        ends(tally, &what, &world, status(AT + 8, 0x0E, 0, 5), checked(SECOND_INDEX, 7));
        // Second index before unreadable.
        for damaged in [0, 7, 12] {
            let world = after(0x31, marker(M3), &four(), M3 + 1, &searching(code, BOTH, 5));
            let world = world.tallied(1).recording(damaged, 0);
            let what = format!("{code:02X}, second index and cell {damaged} damaged");
            ends(tally, &what, &world, status(AT, 0x0E, 0, 5), checked(SECOND_INDEX, M3 + 1));
        }
    }
    for code in SEARCH_KEYS {
        let world = after(0x29, marker(M3), &four(), M3 + 1, &searching(code, BOTH, 5));
        let world = world.tallied(1).recording(COUNT_1.start, 0);
        let what = format!("{code:02X}, second index and a count damaged");
        ends(tally, &what, &world, status(AT, 0x0E, 0, 5), checked(SECOND_INDEX, M3 + 1));
        // A count that cannot be read before a key that cannot.
        let world = on(&four(), 7, &searching(code, BOTH, 5)).recording(KEY_1.start, 0).recording(COUNT_1.start, 0);
        let what = format!("{code:02X}, count and key damaged");
        ends(tally, &what, &world, status(AT, 0x0E, 0, 5), checked(UNREADABLE_COUNT, 7));
    }
}

pub fn search_damage(tally: &mut Tally) {
    damaged_areas(tally);
    damage_passed_over(tally);
}

// Each cell of an area, made a gap, another byte and a marker.
fn damaged_areas(tally: &mut Tally) {
    let track = four();
    let home = HOME[1..].to_vec();
    let key = R1.key.to_vec();
    for (code, from, sent, area, sense) in [
        (0x39, 5, &home, HOME_AREA, UNREADABLE),
        (0x31, 0, &R0.id(), COUNT_0, UNREADABLE_COUNT),
        (0x51, 7, &R1.id(), COUNT_1, UNREADABLE_COUNT),
        (0x71, 7, &R1.id(), COUNT_1, UNREADABLE_COUNT),
        (0x29, 7, &key, COUNT_1, UNREADABLE_COUNT),
        (0x29, 7, &key, KEY_1, UNREADABLE),
        (0x49, 7, &key, KEY_1, UNREADABLE),
        (0x69, 7, &key, KEY_1, UNREADABLE),
    ] {
        let count = sent.len() as u16;
        for cell in area {
            for value in [0, track[cell] ^ 1, track[cell] ^ 0x80, track[cell] + 0x100, 0xFFFF] {
                let world = on(&track, from, &searching(code, BOTH, count.into())).storing(DATA, sent);
                let world = world.recording(cell, value);
                let what = format!("{code:02X} with {value:04X} in cell {cell}");
                ends(tally, &what, &world, status(AT, 0x0E, 0, count), checked(sense, from));
            }
        }
    }
}

// What is passed over is not read: keys and data by Search ID, data by Search Key, R0 and home address by both.
fn damage_passed_over(tally: &mut Tally) {
    let track = four();
    let home = HOME[1..].to_vec();
    let key = R1.key.to_vec();
    for (code, from, sent, satisfied, damaged) in [
        (0x31, 7, &R1.id(), M1 + 1, [HOME_AREA, COUNT_0, DATA_0, KEY_1, DATA_1]),
        (0x29, 7, &key, M1 + 1, [HOME_AREA, COUNT_0, DATA_0, DATA_1, COUNT_2]),
        (0x39, 7, &home, 1, [COUNT_0, DATA_0, COUNT_1, KEY_1, DATA_1]),
        (0x31, 0, &R0.id(), 7, [HOME_AREA, DATA_0, COUNT_1, KEY_1, DATA_1]),
    ] {
        for area in damaged {
            let count = sent.len();
            let world = on(&track, from, &searching(code, 0, count)).storing(DATA, sent).recording(area.start, 0);
            let what = format!("{code:02X} with cell {} damaged", area.start);
            ends(tally, &what, &world, status(AT, 0x4C, 0, 0), stands(satisfied));
        }
    }
    // Search ID from R1 to R3, past R2's damaged data and R1's damaged key: neither is read.
    let world = on(&track, 7, &[word(0x31, DATA as u32, CHAIN, 5), tic(AT as u32), no_op(0)]).storing(DATA, &R3.id());
    let world = world.recording(KEY_1.start, 0).recording(DATA_2.start, 0);
    ends(tally, "Search ID past damage", &world, status(AT + 16, 0x0C, 0, 1), stands(M3 + 1));
}

// A value 512 inside an area is a marker for a hunt; the area is unreadable.
pub fn search_markers(tally: &mut Tally) {
    let track = four();
    let inside = DATA_1.start + 3;
    let world = on(&track, M1 + 1, &searching(0x31, BOTH, 5)).recording(inside, MARKER);
    ends(tally, "a marker inside an area", &world, status(AT, 0x0E, 0, 5), checked(UNREADABLE_COUNT, M1 + 1));
    // In cells 0 to 6 it is a gap: Search ID from 0 takes R0, and Search HA cannot read it.
    let world = on(&track, 0, &searching(0x31, 0, 5)).storing(DATA, &R0.id()).recording(3, MARKER);
    ends(tally, "512 in the home address", &world, status(AT, 0x4C, 0, 0), stands(7));
    let world = on(&track, 0, &searching(0x39, 0, 4)).storing(DATA, &HOME[1..]).recording(3, MARKER);
    ends(tally, "512 in the home address, searched", &world, status(AT, 0x0E, 0, 4), checked(UNREADABLE, 0));
    // In cell 7 it is a marker, and R0 unreadable.
    let world = on(&track, 0, &searching(0x31, 0, 5)).recording(7, MARKER);
    ends(tally, "512 in R0's first cell", &world, status(AT, 0x0E, 0, 5), checked(UNREADABLE_COUNT, 0));
    // A record whose count runs off the track, and one whose key does.
    for (at, cells, code, sense) in [
        (4085, R1.cells(0x81), 0x31, UNREADABLE_COUNT),
        (4095, R1.cells(0x81), 0x31, UNREADABLE_COUNT),
        (4084, R1.cells(0x81), 0x29, UNREADABLE),
        (4080, R1.cells(0x81), 0x69, UNREADABLE),
    ] {
        let mut track = sound(&[R0]);
        track[at] = MARKER;
        let fit = cells.len().min(TRACK_CELLS - at - 1);
        track[at + 1..][..fit].copy_from_slice(&cells[..fit]);
        let world = on(&track, 7, &searching(code, BOTH, 3));
        let what = format!("{code:02X} on a record whose marker is in {at}");
        ends(tally, &what, &world, status(AT, 0x0E, 0, 3), checked(sense, 7));
    }
    // The count may end in the last cell, for Search ID.
    let mut track = sound(&[R0]);
    track[4084] = MARKER;
    track[4085..].copy_from_slice(&R1.cells(0x81)[..11]);
    let world = on(&track, 7, &searching(0x31, 0, 5)).storing(DATA, &R1.id());
    ends(tally, "a count at the end of the track", &world, status(AT, 0x4C, 0, 0), stands(4085));
}

pub fn search_goes_on(tally: &mut Tally) {
    next_word_of_a_search(tally);
    area_of_a_search(tally);
    whole_field(tally);
}

// A satisfied search goes 16 on, modulo 2 to the 24.
fn next_word_of_a_search(tally: &mut Tally) {
    // Figure 1.
    let mut world = on(&four(), 0, &[]).storing(73, &[0, 1, 0]);
    world.store(256, &word(0x39, 400, CHAIN, 4));
    world.store(264, &word(0x00, 0, 0, 0));
    world.store(272, &word(0x03, 0, 0, 1));
    world.store(400, &HOME[1..]);
    ends(tally, "figure 1", &world, status(272, 0x0C, 0, 1), stands(1));

    let last = 16_777_208;
    let mut world = on(&four(), 0, &[]).roomy(16_777_216).storing(73, &[0xFF, 0xFF, 0xF8]);
    world.store(last, &word(0x31, DATA as u32, CHAIN, 5));
    world.store(DATA, &R0.id());
    world.store(0, &word(0x03, 0, 0, 7));
    world.store(8, &word(0x03, 0, 0, 9));
    ends(tally, "the last word satisfied", &world, status(8, 0x0C, 0, 9), stands(7));
    world.store(DATA, &R1.id());
    ends(tally, "the last word not satisfied", &world, status(0, 0x0C, 0, 7), stands(7));
}

// The area is tested whole, though only the field's bytes are fetched.
fn area_of_a_search(tally: &mut Tally) {
    let world = on(&four(), 0, &[no_op(CHAIN), word(0x31, 510, BOTH, 3)]);
    let left = Left { sense: [0x80, 0x10], ..stands(0) };
    ends(tally, "an area beyond storage", &world, program_check(AT + 8), left);
    let world = on(&four(), 0, &[word(0x31, 507, 0, 5)]).storing(507, &R0.id());
    ends(tally, "an area to the end of storage", &world, status(AT, 0x4C, 0, 0), stands(7));
}

// Figure 9: equal on four bytes of five is satisfied, and not equal over the whole field.
fn whole_field(tally: &mut Tally) {
    for (count, whole) in [(4, false), (5, true), (6, true)] {
        let world = on(&four(), 0, &searching(0x31, BOTH, count)).storing(DATA, &R0.id());
        let left = Going { next: AT + 16, before: 0x31, whole, selection: Selection::R0, place: 7, ..AFTER_SEARCH };
        goes_on(tally, &format!("31 equal on {count}"), &world, 1, left);
        // A TIC keeps it all.
        let mut after = world.clone();
        tally.same("start", after.start(), Answer::NotEnded);
        tally.same("go", after.go(1), Answer::NotEnded);
        let mut after = after.storing(AT + 16, &tic(DATA as u32));
        let should = after.clone().holding(6, &[1]).holding(20, &(DATA as u32).to_be_bytes());
        tally.same("TIC", after.go(1), Answer::NotEnded);
        tally.worlds("a TIC after a search", &after, &should);
    }
}
