// The writes: what licenses and what bars each, what it reads first, the cells that it lays, what it leaves held, and how it
// ends. Every byte and every cell of the pack is compared.
use crate::dice::Dice;
use crate::lent::*;
use crate::sheet::*;
use crate::track::*;
use poplar::{Answer, Selection, TRACK_CELLS};
use std::ops::Range;

const WRITES: [u8; 5] = [0x19, 0x15, 0x1D, 0x05, 0x0D];

const WRONG_BEFORE: [u8; 2] = [0x80, 0x10];
const BARRED: [u8; 2] = [0x80, 0x04];
const UNREADABLE: [u8; 2] = [0x08, 0x00];
const UNREADABLE_COUNT: [u8; 2] = [0x08, 0x80];
const NO_ROOM: [u8; 2] = [0x00, 0x40];

const ALL_WRITES: u8 = 0xC0;

// More than one record takes.
const ROOMY: usize = 8192;

fn write(code: u8, flags: u8, count: usize) -> [u8; 8] {
    word(code, DATA as u32, flags, count as u16)
}

// A command before that licenses a write, its search equal over the whole field.
fn licence(code: u8) -> u8 {
    match code {
        0x19 => 0x00,
        0x15 => 0x39,
        _ => 0x31,
    }
}

impl World {
    fn masked(self, mask: u8) -> World {
        self.holding(2, &[mask, 1])
    }

    fn equal(self) -> World {
        self.holding(8, &[1])
    }
}

// A chain goes on with a write on or behind this record: all is licensed, nothing barred.
fn ready(code: u8, sheet: &Sheet, i: usize, place: usize) -> World {
    let selection = if matches!(code, 0x19 | 0x15) { Selection::None } else { sheet.spot(i) };
    let lent = after(licence(code), selection, &sheet.cells(), place, &[]);
    lent.masked(ALL_WRITES).equal().tallied(1)
}

// A write that goes well, or has no room: what its count and flags make of it. The world's chain is at the write, and the
// bytes sent lie at DATA.
fn written(
    tally: &mut Tally,
    what: &str,
    lent: &World,
    sheet: &Sheet,
    (code, i): (u8, usize),
    flags: u8,
    count: usize,
) {
    let what = &format!("{what}: {code:02X}, count {count}, flags {flags:02X}");
    let world = lent.clone().storing(AT, &write(code, flags, count)).storing(AT + 8, &no_op(0));
    let Some(wrote) = sheet.write(code, i, &world.storage[DATA..DATA + count]) else {
        let wanted = status(AT, 0x0E, 0, (count - count.min(8)) as u16);
        return ends(tally, what, &world, wanted, checked(NO_ROOM, world.view().place().into()));
    };
    let moved = wrote.wanted.min(count);
    let channel = if count != wrote.wanted && flags & LONG_OR_SHORT == 0 { 0x40 } else { 0 };
    let track = &world.cells[HERE * TRACK_CELLS..][..TRACK_CELLS];
    let laid = world.clone().laying(&wrote.over(track));
    if flags & CHAIN == 0 || channel != 0 || wrote.unit == 0x0D {
        let wanted = status(AT, wrote.unit, channel, (count - moved) as u16);
        ends_as(tally, what, &world, &ended(&laid, wanted, stands(wrote.place)));
    } else {
        let left = Going {
            next: AT + 8,
            before: code,
            whole: false,
            tally: 0,
            selection: wrote.selection,
            place: wrote.place,
            stored: &[],
        };
        let kept = [world.held[2], world.held[3]];
        goes_on_as(tally, what, &world, 1, &going_on(&laid, left).holding(2, &kept));
        ends_as(tally, what, &world, &ended(&laid, status(AT + 8, 0x0C, 0, 1), stands(wrote.place)));
    }
}

// A write that ends in a Unit Check with nothing moved.
fn not_written(tally: &mut Tally, what: &str, lent: &World, code: u8, sense: [u8; 2]) {
    for (flags, count) in [(0, 5), (CHAIN, 1), (BOTH, 30)] {
        let world = lent.clone().storing(AT, &write(code, flags, count)).storing(AT + 8, &no_op(0));
        let what = format!("{what}: {code:02X}, count {count}, flags {flags:02X}");
        let left = checked(sense, world.view().place().into());
        ends(tally, &what, &world, status(AT, 0x0E, 0, count as u16), left);
    }
}

// The bytes of a count: an ID and two lengths.
fn count_of(number: u8, kl: usize, dl: usize) -> [u8; 8] {
    let [high, low] = (dl as u16).to_be_bytes();
    [0, 1, 0, 1, number, kl as u8, high, low]
}

// What the lengths of a new record may be at their edges.
const KEYS: [usize; 6] = [0, 1, 2, 8, 254, 255];
const LENGTHS: [usize; 9] = [0, 1, 2, 255, 256, 257, 1000, 3600, 3700];

// Counts short, right and long of a record, among them both sides of the end of each area.
fn counts(kl: usize, dl: usize) -> Vec<usize> {
    let wanted = 8 + kl + dl;
    let mut counts = vec![1, 4, 5, 7, 8, 9, 8 + kl, 9 + kl, wanted - 1, wanted, wanted + 1, wanted + 50];
    counts.sort();
    counts.dedup();
    counts
}

const FLAGS: [u8; 4] = [0, CHAIN, LONG_OR_SHORT, BOTH];

// ---- the five writes

pub fn write_home(tally: &mut Tally) {
    let sheet = Sheet::four();
    // Any track: written, never written, of markers alone, of no cells of the house.
    let tracks = [sheet.cells(), vec![0; TRACK_CELLS], vec![MARKER; TRACK_CELLS], vec![0xFFFF; TRACK_CELLS]];
    for (n, track) in tracks.iter().enumerate() {
        for place in [0, 1, 7, 29, 4096] {
            let lent = ready(0x19, &sheet, 0, place).laying(track);
            for count in [1, 2, 4, 5, 6, 8, 100] {
                for flags in FLAGS {
                    written(tally, &format!("track {n} from {place}"), &lent, &sheet, (0x19, 0), flags, count);
                }
            }
        }
    }
    // Its flag is the byte sent.
    for flag in 0..=255 {
        let lent = ready(0x19, &sheet, 0, 9).storing(DATA, &[flag, 0xFF, 0x00, 0x80, 0x7F]);
        written(tally, &format!("flag {flag:02X}"), &lent, &sheet, (0x19, 0), CHAIN, 5);
    }
}

pub fn write_r0(tally: &mut Tally) {
    let sheet = Sheet::four();
    for (before, place) in [(0x19, 1), (0x39, 1), (0x39, 4096)] {
        for kl in KEYS {
            for dl in LENGTHS {
                let lent = ready(0x15, &sheet, 0, place).roomy(ROOMY).holding(7, &[before]);
                let lent = lent.storing(DATA, &count_of(0, kl, dl));
                for count in counts(kl, dl) {
                    for flags in [0, BOTH] {
                        let what = format!("after {before:02X}, KL {kl}, DL {dl}");
                        written(tally, &what, &lent, &sheet, (0x15, 0), flags, count);
                    }
                }
            }
        }
    }
}

pub fn write_record(tally: &mut Tally) {
    let sheet = Sheet::four();
    for i in 0..4 {
        for before in [0x15, 0x1D, 0x31, 0x29] {
            for kl in KEYS {
                for dl in LENGTHS {
                    let lent = ready(0x1D, &sheet, i, 100).roomy(ROOMY).holding(7, &[before]);
                    // The byte that tells a whole search counts after a search alone.
                    let lent = if before < 0x20 { lent.holding(8, &[0]) } else { lent };
                    let lent = lent.storing(DATA, &count_of(7, kl, dl));
                    for count in [8, 8 + kl, 7 + kl + dl, 8 + kl + dl, 9 + kl + dl] {
                        let what = format!("behind {i} after {before:02X}, KL {kl}, DL {dl}");
                        written(tally, &what, &lent, &sheet, (0x1D, i), BOTH, count);
                    }
                }
            }
        }
        for (kl, dl) in [(0, 0), (0, 1), (3, 0), (3, 5), (255, 256)] {
            let lent = ready(0x1D, &sheet, i, 8).roomy(ROOMY).storing(DATA, &count_of(200, kl, dl));
            for count in counts(kl, dl) {
                for flags in FLAGS {
                    let what = format!("behind {i}, KL {kl}, DL {dl}");
                    written(tally, &what, &lent, &sheet, (0x1D, i), flags, count);
                }
            }
        }
    }
}

// A track of an R0 and one record with these lengths.
fn pair(kl: usize, dl: usize) -> Sheet {
    let bytes: Vec<u8> = (0..kl + dl).map(|i| (i * 7 + 3) as u8).collect();
    let one = |number| Record { number, key: &bytes[..kl], data: &bytes[kl..] };
    if kl + dl < 1500 {
        Sheet::of(&[one(0), one(1), R2])
    } else {
        Sheet::of(&[R0, one(1)])
    }
}

// Data, with the key or without, of a record of any lengths; R0 too.
pub fn write_update(tally: &mut Tally) {
    for (code, befores) in [(0x05, &[0x31, 0x29][..]), (0x0D, &[0x31][..])] {
        for kl in KEYS {
            for dl in LENGTHS {
                let sheet = pair(kl, dl);
                for i in [0, 1] {
                    for &before in befores {
                        let lent = ready(code, &sheet, i, 9).roomy(ROOMY).holding(7, &[before]);
                        let sent = if code == 0x0D { kl } else { 0 } + sheet.records[i].data.len();
                        let all = [1, kl.max(1), kl + 1, sent.max(2) - 1, sent.max(1), sent + 1, sent + 99];
                        for count in all {
                            for flags in FLAGS {
                                let what = format!("record {i} after {before:02X}, KL {kl}, DL {dl}");
                                written(tally, &what, &lent, &sheet, (code, i), flags, count);
                            }
                        }
                    }
                }
            }
        }
    }
}

// ---- what licenses a write

fn licensed(code: u8, before: u8, whole: bool) -> bool {
    match code {
        0x19 => true,
        0x15 => before == 0x19 || before == 0x39 && whole,
        0x1D => matches!(before, 0x15 | 0x1D) || matches!(before, 0x31 | 0x29) && whole,
        0x05 => matches!(before, 0x31 | 0x29) && whole,
        _ => before == 0x31 && whole,
    }
}

// Every code before, its search whole or not, with a TIC between and without.
pub fn write_licence(tally: &mut Tally) {
    let sheet = Sheet::four();
    for code in WRITES {
        for before in 0..=255 {
            for whole in [false, true] {
                let lent = after(before, sheet.spot(1), &sheet.cells(), M2, &[]).masked(ALL_WRITES).roomy(ROOMY);
                let lent = lent.holding(8, &[u8::from(whole)]).storing(DATA, &count_of(9, 4, 6));
                for after_tic in [0, 1] {
                    let lent = lent.clone().holding(6, &[after_tic]);
                    let what = format!("after {before:02X}, whole {whole}, TIC {after_tic}");
                    if licensed(code, before, whole) {
                        written(tally, &what, &lent, &sheet, (code, 1), BOTH, 18);
                    } else {
                        not_written(tally, &what, &lent, code, WRONG_BEFORE);
                    }
                }
            }
        }
    }
}

// A search: its code, its count, the bytes it is for, whether it is satisfied, and whether it is whole.
type Before = (u8, usize, Vec<u8>, bool, bool);

fn searches_before() -> Vec<Before> {
    let (id, key, home) = (R1.id(), R1.key.to_vec(), HOME[1..].to_vec());
    let more = |bytes: &[u8]| [bytes, &[0xEE; 4]].concat();
    let id_9 = [&id[..4], &[9]].concat();
    vec![
        (0x31, 5, id.clone(), true, true),
        (0x31, 9, more(&id), true, true),
        (0x31, 4, id.clone(), true, false),
        (0x31, 1, id.clone(), true, false),
        (0x31, 5, id_9, false, false),
        (0x71, 5, id.clone(), true, false),
        (0x71, 9, more(&id), true, false),
        (0x51, 5, R0.id(), true, false),
        (0x29, 4, key.clone(), true, true),
        (0x29, 8, more(&key), true, true),
        (0x29, 3, key.clone(), true, false),
        (0x29, 4, vec![0; 4], false, false),
        (0x69, 4, key.clone(), true, false),
        (0x49, 4, vec![0; 4], true, false),
        (0x39, 4, home.clone(), true, true),
        (0x39, 8, more(&home), true, true),
        (0x39, 3, home.clone(), true, false),
        (0x39, 4, vec![9; 4], false, false),
    ]
}

// What stands between a search and a write: its name, its words, and whether they keep a licence.
type Between = (&'static str, Vec<[u8; 8]>, bool);

fn words_between() -> Vec<Between> {
    vec![
        ("nothing", vec![], true),
        ("a No-op", vec![no_op(CHAIN)], false),
        ("a Sense", vec![word(0x04, 480, BOTH, 1)], false),
        ("a Read HA", vec![word(0x1A, 480, CHAIN, 5)], false),
        ("a Read Data", vec![word(0x06, 480, BOTH, 2)], false),
        ("a Space Record", vec![word(0x0F, 0, CHAIN, 1)], false),
        ("a Read Count", vec![word(0x12, 480, CHAIN, 8)], false),
        ("a Search HA", vec![word(0x39, 480, CHAIN, 4)], false),
    ]
}

// Where the bytes of a search before a write lie.
const SOUGHT: usize = 440;

fn search(code: u8, flags: u8, count: usize) -> [u8; 8] {
    word(code, SOUGHT as u32, flags, count as u16)
}

// A mask, a search, and a TIC both 8 on and 16 on. It leads to these words and, if so, a TIC; then comes the write. The
// world, the write's address, and how many words run before it.
fn chain_to_write(code: u8, (by, count, bytes, ..): &Before, words: &[[u8; 8]], by_tic: bool) -> (World, usize, usize) {
    let mut lent = on(&Sheet::four().cells(), 7, &[word(0x1F, 400, CHAIN, 1), search(*by, BOTH, *count)])
        .storing(400, &[ALL_WRITES])
        .storing(SOUGHT, bytes)
        .storing(AT + 16, &tic(160))
        .storing(AT + 24, &tic(160))
        .storing(DATA, &[&[0, 1, 0, 1, 9, 2, 0, 3], &[0x77; 5][..]].concat());
    let mut at = 160;
    for word in words {
        lent.store(at, word);
        at += 8;
    }
    let mut words_before = 3 + words.len();
    if by_tic && !words.is_empty() {
        lent.store(at, &tic(at as u32 + 16));
        at += 16;
        words_before += 1;
    }
    lent.store(at, &write(code, LONG_OR_SHORT, 13));
    (lent, at, words_before)
}

// A chain from its start: a mask, a search, what stands between, and the write.
fn write_behind(tally: &mut Tally, code: u8, before: &Before, (name, words, keeps): &Between, by_tic: bool) {
    let sheet = Sheet::four();
    let (by, count, _, satisfied, whole) = before;
    let (mut begun, at, words_before) = chain_to_write(code, before, words, by_tic);
    let what = format!("{by:02X} of {count}, satisfied {satisfied}, {name}, TIC {by_tic}: {code:02X}");
    // What the words between leave in storage and of the place is taken from a run of theirs: another group checks them.
    // The write is checked here.
    tally.same(&what, begun.start(), Answer::NotEnded);
    tally.same(&what, begun.go(words_before as u16), Answer::NotEnded);
    tally.same(&what, begun.view().next(), at as u32);
    if code == 0x19 || *keeps && licensed(code, *by, *whole) {
        let wrote = sheet.write(code, 1, &begun.storage[DATA..DATA + 13]).expect("it has room");
        let laid = begun.clone().laying(&wrote.over(&sheet.cells()));
        let wanted = status(at, wrote.unit, 0, 13 - wrote.wanted as u16);
        ends_as(tally, &what, &begun, &ended(&laid, wanted, stands(wrote.place)));
    } else {
        let place = begun.view().place().into();
        ends(tally, &what, &begun, status(at, 0x0E, 0, 13), checked(WRONG_BEFORE, place));
    }
}

// Each write behind each search, with each command between, and with a TIC or without.
pub fn write_after(tally: &mut Tally) {
    for code in WRITES {
        for before in &searches_before() {
            for between in &words_between() {
                for by_tic in [false, true] {
                    write_behind(tally, code, before, between, by_tic);
                }
            }
        }
    }
    // Chains do not hand a licence on.
    let mut world = on(&Sheet::four().cells(), 7, &[search(0x31, 0, 5)]).storing(SOUGHT, &R1.id());
    tally.same("a search", world.start(), Answer::NotEnded);
    tally.same("a search", world.go(1), Answer::Ended);
    let world = world.storing(AT, &write(0x05, 0, 6));
    ends(tally, "the next chain", &world, status(AT, 0x0E, 0, 6), checked(WRONG_BEFORE, M1 + 1));
}

// ---- the mask

// Bits 0 and 1.
fn barred(code: u8, mask: u8) -> bool {
    match mask >> 6 {
        0 => matches!(code, 0x19 | 0x15),
        1 => true,
        2 => matches!(code, 0x19 | 0x15 | 0x1D),
        _ => false,
    }
}

pub fn write_mask(tally: &mut Tally) {
    held_masks(tally);
    for code in WRITES {
        for mask in [None, Some(0x00), Some(0x40), Some(0x80), Some(0xC0), Some(0xD8)] {
            mask_of_the_chain(tally, code, mask);
        }
    }
}

fn held_masks(tally: &mut Tally) {
    let sheet = Sheet::four();
    for mask in (0..=255).filter(|&mask| legal_mask(mask)) {
        for code in WRITES {
            for i in 0..4 {
                // With none set in the chain the mask still bars.
                for set in [0, 1] {
                    let lent = ready(code, &sheet, i, 70).holding(2, &[mask, set]).storing(DATA, &count_of(4, 2, 6));
                    let what = format!("mask {mask:02X}, set {set}, record {i}");
                    if barred(code, mask) {
                        not_written(tally, &what, &lent, code, BARRED);
                    } else {
                        for flags in FLAGS {
                            written(tally, &what, &lent, &sheet, (code, i), flags, 16);
                        }
                    }
                }
            }
        }
    }
}

// Set by the chain itself, or not at all: then it is 0.
fn mask_of_the_chain(tally: &mut Tally, code: u8, mask: Option<u8>) {
    let sheet = Sheet::four();
    let (by, bytes): (u8, Vec<u8>) = if code == 0x15 { (0x39, HOME[1..].to_vec()) } else { (0x31, R2.id()) };
    let first = match mask {
        Some(_) => word(0x1F, 400, CHAIN, 1),
        None => no_op(CHAIN),
    };
    let found = word(by, 408, CHAIN, bytes.len() as u16);
    let words = [first, found, tic(AT as u32 + 8), write(code, LONG_OR_SHORT, 13)];
    let sent = [0, 1, 0, 1, 9, 0, 0, 5, 1, 2, 3, 4, 5];
    let lent = on(&sheet.cells(), 7, &words).storing(408, &bytes).storing(DATA, &sent);
    let world = lent.storing(400, &[mask.unwrap_or(0xC0)]);
    let what = format!("{code:02X} under mask {mask:02X?}");
    if barred(code, mask.unwrap_or(0)) {
        let place = if code == 0x15 { 1 } else { M2 + 1 };
        ends(tally, &what, &world, status(AT + 24, 0x0E, 0, 13), checked(BARRED, place));
    } else {
        let wrote = sheet.write(code, 2, &sent).expect("it has room");
        let laid = world.clone().laying(&wrote.over(&sheet.cells()));
        let wanted = status(AT + 24, 0x0C, 0, 13 - wrote.wanted as u16);
        ends_as(tally, &what, &world, &ended(&laid, wanted, stands(wrote.place)));
    }
}

// ---- rows

// Wrong before, barred, unreadable, no room: each alone and all together, the first of them is heard.
pub fn write_rows(tally: &mut Tally) {
    let sheet = Sheet::four();
    for code in WRITES {
        for case in 0..16 {
            let [wrong, bars, damaged, full] = [0, 1, 2, 3].map(|bit| case >> bit & 1 == 1);
            // Write HA reads nothing, may come first, and has room; the updates have room.
            let [wrong, damaged] = [wrong, damaged].map(|is| is && code != 0x19);
            let full = full && matches!(code, 0x15 | 0x1D);
            let mut lent = ready(code, &sheet, 2, 70).roomy(ROOMY);
            lent.store(DATA, &count_of(9, 0, if full { 4077 } else { 20 }));
            if wrong {
                lent.hold(8, &[0]);
            }
            if bars {
                lent.hold(2, &[0x40, 1]);
            }
            if damaged {
                lent = lent.recording(if code == 0x15 { 3 } else { COUNT_2.start + 4 }, 0);
            }
            let what = format!("wrong before {wrong}, barred {bars}, unreadable {damaged}, no room {full}");
            if wrong {
                not_written(tally, &what, &lent, code, WRONG_BEFORE);
            } else if bars {
                not_written(tally, &what, &lent, code, BARRED);
            } else if damaged {
                not_written(tally, &what, &lent, code, if code == 0x15 { UNREADABLE } else { UNREADABLE_COUNT });
            } else {
                for flags in FLAGS {
                    for count in [8, 9, 28, 100] {
                        written(tally, &what, &lent, &sheet, (code, 2), flags, count);
                    }
                }
            }
        }
    }
}

// What each write reads first; an update needs byte cells besides.
fn reads_first(code: u8, i: usize) -> Vec<(Range<usize>, [u8; 2])> {
    let count = [COUNT_0, COUNT_1, COUNT_2, COUNT_3][i].clone();
    match code {
        0x19 => vec![],
        0x15 => vec![(HOME_AREA, UNREADABLE)],
        _ => vec![(count, UNREADABLE_COUNT)],
    }
}

fn needs_bytes(code: u8, i: usize) -> Vec<Range<usize>> {
    let (key, data) = [(0..0, DATA_0), (KEY_1, DATA_1), (0..0, DATA_2), (KEY_3, 0..0)][i].clone();
    match code {
        0x05 => vec![data],
        0x0D => vec![key, data],
        _ => vec![],
    }
}

// Each cell of the written part of the track, made a gap, another byte, a marker and no byte: the row of an area that is read
// first; a gap where an update needs bytes; else the write goes on as if it were sound, and the cell stays unless it is laid over.
pub fn write_damage(tally: &mut Tally) {
    let sheet = Sheet::four();
    let track = sheet.cells();
    for code in WRITES {
        for i in 0..4 {
            for cell in 0..DATA_3.end + 2 {
                // The marker of a selected record is there, or the held state is refused.
                if cell + 1 == sheet.first(i) && i > 0 && !matches!(code, 0x19 | 0x15) {
                    continue;
                }
                for value in [0, track[cell] ^ 1, track[cell] ^ 0x40, MARKER, 0x01FF, 0xFFFF] {
                    if value == track[cell] {
                        continue;
                    }
                    let lent = ready(code, &sheet, i, 70).recording(cell, value).storing(DATA, &count_of(9, 2, 6));
                    let what = format!("record {i}, {value:04X} in cell {cell}");
                    let row = reads_first(code, i).into_iter().find(|(area, _)| area.contains(&cell));
                    let gap = value >> 8 != 1 && needs_bytes(code, i).iter().any(|area| area.contains(&cell));
                    match row {
                        Some((_, sense)) => not_written(tally, &what, &lent, code, sense),
                        None if gap => not_written(tally, &what, &lent, code, UNREADABLE),
                        None => written(tally, &what, &lent, &sheet, (code, i), BOTH, 16),
                    }
                }
            }
        }
    }
    // A count that cannot be read stands before the cells of an update.
    for code in [0x05, 0x0D] {
        let lent = ready(code, &sheet, 1, 7).recording(COUNT_1.start, 0).recording(DATA_1.start, 0);
        not_written(tally, "count and data", &lent, code, UNREADABLE_COUNT);
        // A length that cannot be read is not used.
        for cell in COUNT_1.start + 5..COUNT_1.end {
            let lent = ready(code, &sheet, 1, 7).recording(cell, 0x01FF);
            not_written(tally, &format!("a length in cell {cell}"), &lent, code, UNREADABLE_COUNT);
        }
    }
}

// Without data: 05 and 0D end in a Unit Exception, and 0D writes the key; 15 and 1D write one zero byte and its check.
pub fn write_empty(tally: &mut Tally) {
    for kl in KEYS {
        let sheet = pair(kl, 0);
        for i in [0, 1] {
            for code in [0x05, 0x0D] {
                let lent = ready(code, &sheet, i, 50).roomy(ROOMY);
                for flags in FLAGS {
                    for count in [1, kl.max(1), kl + 1, kl + 40] {
                        let what = format!("KL {kl}, record {i}");
                        written(tally, &what, &lent, &sheet, (code, i), flags, count);
                        // The data area is not looked at, nor written.
                        for cell in sheet.data(i) {
                            for value in [0, 0x01EE, 0xFFFF] {
                                let lent = lent.clone().recording(cell, value);
                                let what = format!("{what}, {value:04X} in cell {cell}");
                                written(tally, &what, &lent, &sheet, (code, i), flags, count);
                            }
                        }
                    }
                }
            }
        }
        // A new record without data, over one with data and over one without.
        for old in [Sheet::four(), pair(kl, 0)] {
            for (code, i) in [(0x15, 0), (0x1D, 0), (0x1D, 1)] {
                let lent = ready(code, &old, i, 50).roomy(ROOMY).storing(DATA, &count_of(1, kl, 0));
                for count in [8, 8 + kl, 9 + kl, 20 + kl] {
                    for flags in FLAGS {
                        let what = format!("new, KL {kl}, behind {i}");
                        written(tally, &what, &lent, &old, (code, i), flags, count);
                    }
                }
            }
        }
    }
}

// The flag of a new record: bits 6 and 7 copied, bit 0 by turns, the others 0.
pub fn write_flags(tally: &mut Tally) {
    for flag in 0..=255 {
        let mut sheet = Sheet::four();
        sheet.home[0] = flag;
        let lent = ready(0x15, &sheet, 0, 1).storing(DATA, &count_of(0, 0, 8));
        written(tally, &format!("home address {flag:02X}"), &lent, &sheet, (0x15, 0), CHAIN, 16);
        let wrote = sheet.write(0x15, 0, &count_of(0, 0, 8)).expect("it has room");
        tally.same("R0's flag", wrote.sheet.records[0].flag, flag % 4);
        for i in 0..4 {
            let mut sheet = Sheet::four();
            sheet.records[i].flag = flag;
            let lent = ready(0x1D, &sheet, i, 1).storing(DATA, &count_of(0, 0, 8));
            written(tally, &format!("record {i} {flag:02X}"), &lent, &sheet, (0x1D, i), CHAIN, 16);
            let wrote = sheet.write(0x1D, i, &count_of(0, 0, 8)).expect("it has room");
            let turned = if flag < 0x80 { 0x80 } else { 0 };
            tally.same("a flag", wrote.sheet.records[i + 1].flag, turned + flag % 4);
        }
        // An update leaves it.
        for code in [0x05, 0x0D] {
            let mut sheet = Sheet::four();
            sheet.records[1].flag = flag;
            let lent = ready(code, &sheet, 1, 1);
            written(tally, &format!("update under {flag:02X}"), &lent, &sheet, (code, 1), BOTH, 10);
        }
    }
}

// All later cells become 0, whatever they were: bytes, markers, no cells of the house.
pub fn write_later(tally: &mut Tally) {
    let sheet = Sheet::four();
    for value in [0x0001, 0x00FF, 0x0100, 0x01FF, MARKER, 0x0300, 0xFFFF] {
        for (code, i) in [(0x19, 0), (0x15, 0), (0x1D, 0), (0x1D, 1), (0x1D, 2), (0x1D, 3)] {
            let mut track = sheet.cells();
            let from = if matches!(code, 0x1D) { sheet.end(i) } else { 7 };
            track[from..].fill(value);
            let lent = ready(code, &sheet, i, 8).laying(&track).storing(DATA, &count_of(5, 3, 9));
            for count in [3, 8, 20] {
                let what = format!("{value:04X} behind {i}");
                written(tally, &what, &lent, &sheet, (code, i), BOTH, count);
            }
        }
        // An update leaves them.
        for code in [0x05, 0x0D] {
            let mut track = sheet.cells();
            track[M2..].fill(value);
            let lent = ready(code, &sheet, 1, 8).laying(&track);
            written(tally, &format!("{value:04X} behind an update"), &lent, &sheet, (code, 1), BOTH, 10);
        }
    }
}

// ---- room

// Behind R0, behind a record, and R0 itself.
pub fn write_room(tally: &mut Tally) {
    // Figure 2.
    let bare = Sheet::of(&[R0]);
    tally.same("R0 with DL 8 ends at", bare.end(0) - 1, 27);
    let four = Sheet::four();
    for (code, sheet, i) in [(0x15, &four, 0), (0x1D, &bare, 0), (0x1D, &four, 1), (0x1D, &four, 3)] {
        for kl in 0..=255 {
            longest_data(tally, sheet, (code, i), kl);
            if kl % 51 == 0 {
                no_room_at_all(tally, sheet, (code, i), kl);
            }
        }
    }
    for left in 0..40 {
        last_cells(tally, left);
    }
}

// The longest data that fit with this key, and one byte more.
fn longest_data(tally: &mut Tally, sheet: &Sheet, (code, i): (u8, usize), kl: usize) {
    let from = if code == 0x15 { 7 } else { sheet.end(i) + 1 };
    let key_cells = if kl == 0 { 0 } else { kl + 2 };
    let most = TRACK_CELLS - from - 11 - key_cells - 2;
    if code == 0x1D && i == 0 && kl == 0 {
        tally.same("DL of room 0", most, 4054);
    }
    for (dl, fits) in [(most - 1, true), (most, true), (most + 1, false), (most + 2, false), (65535, false)] {
        let lent = ready(code, sheet, i, 70).roomy(ROOMY).storing(DATA, &count_of(1, kl, dl));
        let what = format!("behind {i}, KL {kl}, DL {dl}");
        tally.same(&what, sheet.write(code, i, &count_of(1, kl, dl)).is_some(), fits);
        let wanted = 8 + kl + most.min(dl);
        for count in [8, wanted] {
            written(tally, &what, &lent, sheet, (code, i), BOTH, count);
        }
    }
}

// No room: the lesser of count and 8 moved; below 8 the lengths that are missing are zeros.
fn no_room_at_all(tally: &mut Tally, sheet: &Sheet, (code, i): (u8, usize), kl: usize) {
    let lent = ready(code, sheet, i, 70).roomy(ROOMY).storing(DATA, &count_of(1, kl, 65535));
    for count in [1, 5, 6, 7, 8, 9, 100, 7900] {
        for flags in FLAGS {
            let what = format!("behind {i}, KL {kl}, DL 65535");
            written(tally, &what, &lent, sheet, (code, i), flags, count);
        }
    }
}

// The last cells of a track: the smallest record takes 15 cells.
fn last_cells(tally: &mut Tally, left: usize) {
    let data = vec![0x5A; TRACK_CELLS - 7 - 13 - left];
    let sheet = Sheet::of(&[Record { number: 0, key: &[], data: &data }]);
    tally.same("cells left", TRACK_CELLS - sheet.end(0), left);
    for (kl, dl) in [(0, 0), (0, 1), (0, 2), (1, 0), (1, 1), (4, 0), (255, 0), (255, 65535)] {
        let lent = ready(0x1D, &sheet, 0, 7).storing(DATA, &count_of(1, kl, dl));
        for count in [1, 6, 7, 8, 12] {
            let what = format!("{left} cells left, KL {kl}, DL {dl}");
            written(tally, &what, &lent, &sheet, (0x1D, 0), BOTH, count);
        }
    }
}

// A count that can be read and names lengths past the track: no record fits behind it, and its data cannot be written.
pub fn write_far(tally: &mut Tally) {
    let longest = 4096 - 7 - 11 - 2;
    for i in [0, 1] {
        for kl in [0, 1, 255] {
            let most = longest - if kl == 0 { 0 } else { kl + 2 } - if i == 1 { 22 } else { 0 };
            for dl in
                [most - 15, most - 14, most - 1, most, most + 1, most + 2, 8000, 32767, 32768, 61440, 65534, 65535]
            {
                let data = vec![0x11; dl];
                let record = |number| Record { number, key: &data[..kl], data: &data };
                let sheet = if i == 0 { Sheet::of(&[record(0)]) } else { Sheet::of(&[R0, record(1)]) };
                let what = format!("record {i}, KL {kl}, DL {dl}");
                for sent in [count_of(1, 0, 0), count_of(1, 255, 65535), [0; 8], [0xFF; 8]] {
                    let lent = ready(0x1D, &sheet, i, 20).storing(DATA, &sent);
                    for count in [1, 7, 8, 9, 200] {
                        written(tally, &what, &lent, &sheet, (0x1D, i), BOTH, count);
                    }
                }
                for code in [0x05, 0x0D] {
                    let lent = ready(code, &sheet, i, 20);
                    if sheet.fits() {
                        written(tally, &what, &lent, &sheet, (code, i), BOTH, 100);
                    } else {
                        not_written(tally, &what, &lent, code, UNREADABLE);
                    }
                }
            }
        }
    }
}

// ---- writing and reading back

const LARGE: usize = 32768;
const CHAIN_AT: usize = 1024;

// A chain as it is put together: its words, and the bytes that they are for.
struct Program {
    storage: Vec<u8>,
    words: usize,
    free: usize,
}

impl Program {
    fn new() -> Program {
        Program { storage: vec![0xE7; LARGE], words: 0, free: 4096 }
    }

    // A word for these bytes; they lie behind those before.
    fn sends(&mut self, code: u8, flags: u8, bytes: &[u8]) {
        let at = self.free;
        self.storage[at..at + bytes.len()].copy_from_slice(bytes);
        self.takes(code, flags, bytes.len());
    }

    // A word for so many bytes of what is free: where they lie.
    fn takes(&mut self, code: u8, flags: u8, count: usize) -> usize {
        let at = self.free;
        self.free += count;
        self.put(word(code, at as u32, flags, count as u16));
        at
    }

    fn put(&mut self, word: [u8; 8]) {
        let at = CHAIN_AT + 8 * self.words;
        self.storage[at..at + 8].copy_from_slice(&word);
        self.words += 1;
    }

    fn next(&self) -> u32 {
        (CHAIN_AT + 8 * self.words) as u32
    }

    fn world(self) -> World {
        let mut world = world(&[]);
        world.storage = self.storage;
        world.store(72, &[KEY << 4, 0, (CHAIN_AT >> 8) as u8, CHAIN_AT as u8]);
        world
    }
}

// One go, and goes of one word: the same. What is left.
fn run_whole(tally: &mut Tally, what: &str, begun: &World, words: usize) -> World {
    let mut whole = begun.clone();
    tally.same(what, whole.start(), Answer::NotEnded);
    let mut single = whole.clone();
    tally.same(what, whole.go(65535), Answer::Ended);
    let mut heard = Answer::NotEnded;
    let mut ran = 0;
    while heard == Answer::NotEnded && ran < 10 * words {
        heard = single.go(1);
        ran += 1;
    }
    tally.same(what, heard, Answer::Ended);
    tally.worlds(&format!("{what}, word by word"), &single, &whole);
    whole
}

// A home address, an R0 and up to five records behind it, of random lengths and bytes.
fn formatted(program: &mut Program, dice: &mut Dice, at: [u8; 4]) -> Sheet {
    let home = [dice.below(256) as u8, at[0], at[1], at[2], at[3]];
    program.sends(0x19, CHAIN, &home);
    let mut sheet = Sheet { home, records: Vec::new() };
    let lengths = [0, 0, 1, 2, 8, 50, 255, 256, 700];
    let many = 1 + dice.below(6);
    for i in 0..many {
        let kl = [0, 0, 1, 4, 255][dice.below(5)];
        let dl = lengths[dice.below(9)];
        let [high, low] = (dl as u16).to_be_bytes();
        let sent = [&at[..], &[i as u8, kl as u8, high, low], &dice.bytes(kl + dl)].concat();
        let code = if i == 0 { 0x15 } else { 0x1D };
        program.sends(code, CHAIN, &sent);
        sheet = sheet.write(code, i.max(1) - 1, &sent).expect("it has room").sheet;
    }
    sheet
}

// Some records are updated, each behind a search for it.
fn updated(program: &mut Program, dice: &mut Dice, at: [u8; 4], mut sheet: Sheet) -> Sheet {
    for i in 0..sheet.records.len() {
        let kept = &sheet.records[i];
        if kept.data.is_empty() || dice.below(2) == 0 {
            continue;
        }
        let (kl, dl) = (kept.key.len(), kept.data.len());
        program.sends(0x31, CHAIN, &[&at[..], &[i as u8]].concat());
        program.put(tic(program.next() - 8));
        let (code, n) = if dice.below(2) == 0 { (0x05, dl) } else { (0x0D, kl + dl) };
        let sent = dice.bytes(n);
        program.sends(code, CHAIN, &sent);
        sheet = sheet.write(code, i, &sent).expect("an update has room").sheet;
    }
    sheet
}

// Reads of the home address and the records: where each stores, and what.
fn read_back(program: &mut Program, sheet: &Sheet) -> Vec<(usize, Vec<u8>)> {
    let to_home = program.takes(0x1A, CHAIN, 5);
    let mut reads = vec![(to_home, sheet.home.to_vec())];
    for (i, kept) in sheet.records.iter().enumerate() {
        let bytes = [&kept.count[..], &kept.key, &kept.data].concat();
        // Without data a read is the chain's last.
        if kept.data.is_empty() {
            program.put(word(0x03, 0, CHAIN, 1));
            break;
        }
        let to = program.takes(if i == 0 { 0x16 } else { 0x1E }, CHAIN, bytes.len());
        reads.push((to, bytes));
    }
    reads
}

// A track formatted, filled, updated and read back in one chain, on each track of the pack; all others as they were.
pub fn write_read_back(tally: &mut Tally) {
    let mut dice = Dice(0x2311_2841_0360_0019);
    for round in 0..120 {
        let track = round % 6;
        let (cylinder, head) = ((track / 2) as u8, (track % 2) as u8);
        let what = format!("round {round}, track {track}");
        let at = [0, cylinder, 0, head];
        let mut program = Program::new();
        program.sends(0x1F, CHAIN, &[ALL_WRITES]);
        program.sends(0x07, CHAIN, &[0, 0, 0, cylinder, 0, head]);
        let sheet = formatted(&mut program, &mut dice, at);
        let sheet = updated(&mut program, &mut dice, at, sheet);
        let reads = read_back(&mut program, &sheet);
        program.put(no_op(0));
        let words = program.words;
        let begun = program.world();
        let after = run_whole(tally, &what, &begun, words);
        let mut should = begun.clone();
        should.cells[track * TRACK_CELLS..][..TRACK_CELLS].copy_from_slice(&sheet.cells());
        tally.holds(&format!("{what}: the cells of all tracks"), after.cells == should.cells);
        for (to, bytes) in &reads {
            should.store(*to, bytes);
        }
        should.store(64, &status_bytes(KEY, status(CHAIN_AT + 8 * (words - 1), 0x0C, 0, 1)));
        tally.holds(&format!("{what}: storage"), after.storage == should.storage);
    }
}

// The track under the head alone changes: written on each track of the pack in turn, with every other full of markers and bytes.
pub fn write_other_tracks(tally: &mut Tally) {
    for code in WRITES {
        for track in 0..6 {
            let sheet = Sheet::four();
            let (cylinder, head) = ((track / 2) as u16, (track % 2) as u16);
            let mut world = ready(code, &sheet, 1, 9).standing(cylinder, head, 9);
            for (at, cell) in world.cells.iter_mut().enumerate() {
                *cell = [MARKER, 0x0155, 0, 0xFFFF, 0x01FF][at % 5];
            }
            world.cells[track * TRACK_CELLS..][..TRACK_CELLS].copy_from_slice(&sheet.cells());
            world.store(DATA, &count_of(3, 2, 20));
            world.store(AT, &write(code, LONG_OR_SHORT, 30));
            let mut after = world.clone();
            let what = format!("{code:02X} on track {track}");
            tally.same(&what, after.go(1), Answer::Ended);
            let wrote = sheet.write(code, 1, &world.storage[DATA..DATA + 30]).expect("it has room");
            for other in 0..6 {
                let here = |cells: &[u16]| cells[other * TRACK_CELLS..][..TRACK_CELLS].to_vec();
                let should = if other == track { wrote.over(&here(&world.cells)) } else { here(&world.cells) };
                tally.holds(&format!("{what}: track {other}"), here(&after.cells) == should);
            }
        }
    }
}

// What may follow a write: its selection serves only 1D, and its place is where the next record is looked for.
pub fn write_then(tally: &mut Tally) {
    let sent = [&count_of(8, 2, 3)[..], &[1, 2, 3, 4, 5]].concat();
    for (code, i) in [(0x19, 0), (0x15, 0), (0x1D, 0), (0x1D, 1), (0x05, 1), (0x0D, 1), (0x05, 0)] {
        for next in [0x19, 0x15, 0x1D, 0x05, 0x0D, 0x0F] {
            write_then_next(tally, (code, i), next, &sent);
        }
    }
    for code in [0x12, 0x06, 0x0E, 0x1E] {
        write_record_then_read(tally, code, &sent);
        write_home_then_read(tally, code);
    }
}

// A write and a write or a Space Record of the same bytes.
fn write_then_next(tally: &mut Tally, (code, i): (u8, usize), next: u8, sent: &[u8]) {
    let sheet = Sheet::four();
    let wrote = sheet.write(code, i, sent).expect("it has room");
    let world = ready(code, &sheet, i, 9)
        .storing(DATA, sent)
        .storing(AT, &write(code, BOTH, 13))
        .storing(AT + 8, &write(next, LONG_OR_SHORT, 13));
    let laid = world.clone().laying(&wrote.over(&sheet.cells()));
    let what = format!("{next:02X} after {code:02X}");
    if next != 0x0F && licensed(next, code, false) {
        // Behind the record that was written, the last one.
        let last = wrote.sheet.records.len().max(1) - 1;
        let again = wrote.sheet.write(next, last, sent).expect("it has room");
        let laid = laid.laying(&again.over(&wrote.over(&sheet.cells())));
        let wanted = status(AT + 8, again.unit, 0, 13 - again.wanted as u16);
        ends_as(tally, &what, &world, &ended(&laid, wanted, stands(again.place)));
    } else {
        let wanted = status(AT + 8, 0x0E, 0, 13);
        ends_as(tally, &what, &world, &ended(&laid, wanted, checked(WRONG_BEFORE, wrote.place)));
    }
}

// After the only record the hunt goes round and finds it.
fn write_record_then_read(tally: &mut Tally, code: u8, sent: &[u8]) {
    let sheet = Sheet::four();
    let world = ready(0x1D, &sheet, 0, 9).storing(DATA, sent);
    let world = world.storing(AT, &write(0x1D, BOTH, 13)).storing(AT + 8, &word(code, 400, LONG_OR_SHORT, 30));
    let wrote = sheet.write(0x1D, 0, sent).expect("it has room");
    let (from, to) = match code {
        0x12 => (0, 8),
        0x06 => (10, 13),
        0x0E => (8, 13),
        _ => (0, 13),
    };
    let bytes = &sent[from..to];
    let laid = world.clone().laying(&wrote.over(&sheet.cells()));
    let wanted = status(AT + 8, 0x0C, 0, 30 - bytes.len() as u16);
    let left = [(400, bytes)];
    ends_as(tally, &format!("{code:02X} after 1D"), &world, &ended(&laid, wanted, stored(M1 + 1, &left)));
}

// After Write HA there is no record.
fn write_home_then_read(tally: &mut Tally, code: u8) {
    let sheet = Sheet::four();
    let world = ready(0x19, &sheet, 0, 9).storing(DATA, &HOME);
    let world = world.storing(AT, &write(0x19, BOTH, 5)).storing(AT + 8, &word(code, 400, LONG_OR_SHORT, 30));
    let wrote = sheet.write(0x19, 0, &HOME).expect("it has room");
    let laid = world.clone().laying(&wrote.over(&sheet.cells()));
    let wanted = status(AT + 8, 0x0E, 0, 30);
    ends_as(tally, &format!("{code:02X} after 19"), &world, &ended(&laid, wanted, checked([0, 2], 1)));
}

// Bytes are taken from any part of storage, and storage stays: from the write's own word, from the status word, from its end.
pub fn write_from(tally: &mut Tally) {
    let sheet = Sheet::four();
    for code in WRITES {
        for from in [0, 60, 64, 72, AT - 4, AT, AT + 4, STORAGE - 8, STORAGE - 7] {
            let count = 8.min(STORAGE - from);
            let world = ready(code, &sheet, 1, 9);
            let world = world.storing(AT, &word(code, from as u32, LONG_OR_SHORT, count as u16));
            let what = format!("{code:02X} from {from}");
            let sent = &world.storage[from..from + count];
            match sheet.write(code, 1, sent) {
                Some(wrote) => {
                    let laid = world.clone().laying(&wrote.over(&sheet.cells()));
                    let left = count - count.min(wrote.wanted);
                    let wanted = status(AT, wrote.unit, 0, left as u16);
                    ends_as(tally, &what, &world, &ended(&laid, wanted, stands(wrote.place)));
                }
                None => ends(tally, &what, &world, status(AT, 0x0E, 0, 0), checked(NO_ROOM, 9)),
            }
        }
        // Beyond storage it is a program check, before the write's own tests, and sense stays.
        let world = ready(code, &sheet, 1, 9).holding(8, &[0]);
        let world = world.storing(AT, &word(code, STORAGE as u32 - 8, LONG_OR_SHORT, 9));
        let left = Left { sense: [0x80, 0x10], ..stands(9) };
        ends(tally, &format!("{code:02X} beyond storage"), &world, program_check(AT), left);
    }
}
