// The control commands with their status words, TIC, and the program checks.
use crate::lent::*;
use poplar::{Answer, Shape, TRACK_CELLS};

pub fn no_op_and_sense(tally: &mut Tally) {
    let sense = |flags, count| world(&[word(0x04, DATA as u32, flags, count), no_op(0)]).holding(4, &[0x80, 0x10]);
    let six = [0x80, 0x10, 0, 0, 0, 0];
    let second = status(AT + 8, 0x0C, 0, 1);

    let world = world(&[word(0x03, 0, CHAIN, 512), word(0x03, 1, LONG_OR_SHORT, 7)]);
    let world = world.holding(4, &[0x08, 0x80]);
    let wanted = status(AT + 8, 0x0C, 0, 7);
    ends(tally, "No-op", &world, wanted, sensing(0x08, 0x80));

    for count in 1..=5 {
        let stored = [(DATA, &six[..usize::from(count)])];
        let what = format!("Sense with {count}");
        let short = status(AT, 0x0C, 0x40, 0);
        ends(tally, &what, &sense(CHAIN, count), short, sensing_stored([0x80, 0x10], &stored));
        let what = format!("Sense with {count}, flag 20");
        ends(tally, &what, &sense(BOTH, count), second, sensing_stored([0x80, 0x10], &stored));
    }
    let stored = [(DATA, &six[..])];
    let whole = status(AT, 0x0C, 0, 0);
    ends(tally, "Sense with 6", &sense(0, 6), whole, sensing_stored([0x80, 0x10], &stored));
    ends(tally, "Sense with 6, chained", &sense(CHAIN, 6), second, sensing_stored([0x80, 0x10], &stored));
    for count in [7, 8, 256] {
        let what = format!("Sense with {count}");
        let long = status(AT, 0x0C, 0x40, count - 6);
        ends(tally, &what, &sense(CHAIN, count), long, sensing_stored([0x80, 0x10], &stored));
        let what = format!("Sense with {count}, flag 20");
        ends(tally, &what, &sense(BOTH, count), second, sensing_stored([0x80, 0x10], &stored));
        let what = format!("Sense with {count}, flag 20, the last");
        let long = status(AT, 0x0C, 0, count - 6);
        ends(tally, &what, &sense(LONG_OR_SHORT, count), long, sensing_stored([0x80, 0x10], &stored));
    }
}

// A word is fetched when it runs, and the status word is stored last.
pub fn words_when_they_run(tally: &mut Tally) {
    let sense = |to: usize, flags| world(&[word(0x04, to as u32, flags, 6), no_op(0)]).holding(4, &[0x80, 0x04]);
    let six = [0x80, 0x04, 0, 0, 0, 0];
    let after = |at| [(at, &six[..])];
    let first = status(AT, 0x0C, 0, 0);
    for to in [58, 64, 68, 70] {
        let stored = after(to);
        let what = format!("Sense into {to}, the status word behind");
        ends(tally, &what, &sense(to, 0), first, sensing_stored([0x80, 0x04], &stored));
    }
    let stored = after(AT);
    let wanted = status(AT + 8, 0x0C, 0, 1);
    ends(tally, "Sense over its own word", &sense(AT, CHAIN), wanted, sensing_stored([0x80, 0x04], &stored));
    let stored = after(AT + 8);
    let wanted = program_check(AT + 8);
    ends(tally, "Sense over the next word", &sense(AT + 8, CHAIN), wanted, sensing_stored([0x80, 0x04], &stored));

    // Between start and go the host may change the first word: a TIC just runs.
    let mut world = world(&[no_op(0)]);
    tally.same("start", world.start(), Answer::NotEnded);
    let world = world.storing(AT, &tic(256)).storing(256, &no_op(0));
    let wanted = status(256, 0x0C, 0, 1);
    ends(tally, "the first word made a TIC", &world, wanted, NOTHING);
}

// Where the head stands before a seek.
const STOOD: (u16, u16, u16) = (1, 1, 50);

fn seeking(code: u8, flags: u8, count: u16, data: &[u8]) -> World {
    let (cylinder, head, place) = STOOD;
    world(&[word(code, DATA as u32, flags, count), no_op(0)])
        .storing(DATA, data)
        .standing(cylinder, head, place)
        .holding(4, &[0x80, 0x10])
}

// A seek that is done, and one whose address is bad or short.
fn to<'a>(cylinder: u16, head: u16) -> Left<'a> {
    Left { stands: (cylinder, head, 0), ..NOTHING }
}

const STAYS: Left = Left { sense: [0x81, 0x00], stands: STOOD, stored: &[] };

// A seek's code, the bytes it is for, and what it leaves.
fn seek_cases() -> [(u8, [u8; 6], Left<'static>); 20] {
    [
        (0x07, [0, 0, 0, 0, 0, 0], to(0, 0)),
        (0x07, [0, 0, 0, 2, 0, 1], to(2, 1)),
        (0x07, [0, 0, 0, 1, 0, 1], to(1, 1)),
        (0x07, [1, 0, 0, 0, 0, 0], STAYS),
        (0x07, [0, 1, 0, 0, 0, 0], STAYS),
        (0x07, [0, 0, 0, 3, 0, 0], STAYS),
        (0x07, [0, 0, 1, 0, 0, 0], STAYS),
        (0x07, [0, 0, 255, 255, 0, 0], STAYS),
        (0x07, [0, 0, 0, 0, 0, 2], STAYS),
        (0x07, [0, 0, 0, 0, 1, 0], STAYS),
        (0x07, [0, 0, 0, 0, 255, 255], STAYS),
        (0x0B, [0, 0, 0, 2, 0, 0], to(2, 0)),
        (0x0B, [0, 0, 0, 0, 0, 1], to(0, 1)),
        (0x0B, [0, 1, 0, 0, 0, 0], STAYS),
        (0x0B, [0, 0, 0, 3, 0, 0], STAYS),
        (0x0B, [0, 0, 0, 0, 0, 2], STAYS),
        (0x1B, [0, 0, 0, 0, 0, 0], to(1, 0)),
        (0x1B, [255, 255, 255, 255, 0, 1], to(1, 1)),
        (0x1B, [0, 0, 0, 0, 0, 2], STAYS),
        (0x1B, [0, 0, 0, 0, 1, 0], STAYS),
    ]
}

// How a seek of six bytes or more ends, or the No-op behind it.
fn seek_status(bad: bool, flags: u8, count: u16) -> Status {
    let long = count - 6;
    if bad {
        status(AT, 0x0E, 0, long)
    } else if flags & LONG_OR_SHORT == 0 && long > 0 {
        status(AT, 0x0C, 0x40, long)
    } else if flags & CHAIN == 0 {
        status(AT, 0x0C, 0, long)
    } else {
        status(AT + 8, 0x0C, 0, 1)
    }
}

pub fn seeks(tally: &mut Tally) {
    for (code, data, left) in seek_cases() {
        let bad = left.sense != [0, 0];
        for (flags, count) in [(0, 6), (CHAIN, 6), (0, 7), (CHAIN, 9), (BOTH, 9)] {
            let what = format!("{code:02X} to {data:?}, flags {flags:02X}, count {count}");
            let world = seeking(code, flags, count, &data);
            ends(tally, &what, &world, seek_status(bad, flags, count), left);
        }
    }
}

pub fn seeks_short(tally: &mut Tally) {
    for code in [0x07, 0x0B, 0x1B] {
        for count in 1..=5 {
            for flags in [0, LONG_OR_SHORT, BOTH] {
                let what = format!("{code:02X} with {count} bytes, flags {flags:02X}");
                let world = seeking(code, flags, count, &[0; 6]);
                ends(tally, &what, &world, status(AT, 0x0E, 0, 0), STAYS);
            }
        }
    }
}

// The corners of the largest pack.
pub fn seeks_full_pack(tally: &mut Tally) {
    for (code, cylinder, head, good) in [
        (0x07, 202_u16, 9_u16, true),
        (0x0B, 202, 9, true),
        (0x1B, 999, 9, true),
        (0x07, 203, 9, false),
        (0x0B, 203, 9, false),
        (0x07, 202, 10, false),
        (0x1B, 0, 10, false),
    ] {
        let [a, b] = cylinder.to_be_bytes();
        let [c, d] = head.to_be_bytes();
        let mut world = seeking(code, 0, 6, &[0, 0, a, b, c, d]).standing(0, 0, 3);
        world.shape = Shape { cylinders: 203, heads: 10 };
        world.cells = vec![0; world.shape.cells() as usize];
        let what = format!("{code:02X} to {cylinder}, {head} on a full pack");
        let sought = if code == 0x1B { 0 } else { cylinder };
        if good {
            ends(tally, &what, &world, status(AT, 0x0C, 0, 0), to(sought, head));
        } else {
            let stays = Left { stands: (0, 0, 3), ..STAYS };
            ends(tally, &what, &world, status(AT, 0x0E, 0, 0), stays);
        }
    }
}

pub fn file_mask(tally: &mut Tally) {
    let mask = |flags, count, byte| {
        world(&[word(0x1F, DATA as u32, flags, count), no_op(0)]).storing(DATA, &[byte]).holding(4, &[0x08, 0x00])
    };
    let second = status(AT + 8, 0x0C, 0, 1);
    for byte in 0..=255_u8 {
        let what = format!("mask {byte:02X}");
        if legal_mask(byte) {
            ends(tally, &what, &mask(CHAIN, 1, byte), second, NOTHING);
            let mut world = mask(CHAIN, 1, byte);
            tally.same(&what, world.start(), Answer::NotEnded);
            tally.same(&what, world.go(1), Answer::NotEnded);
            let held = world.view();
            let is = (held.mask(), held.mask_set(), held.before(), held.sense());
            tally.same(&what, is, (byte, true, 0x1F, [0, 0]));
        } else {
            let bad = status(AT, 0x0E, 0, 0);
            let left = sensing(0x80, 0x00);
            ends(tally, &what, &mask(CHAIN, 1, byte), bad, left);
            let bad = status(AT, 0x0E, 0, 4);
            ends(tally, &what, &mask(BOTH, 5, byte), bad, left);
        }
    }
    let long = status(AT, 0x0C, 0x40, 1);
    ends(tally, "mask of 2", &mask(CHAIN, 2, 0xC0), long, NOTHING);
    ends(tally, "mask of 2, flag 20", &mask(BOTH, 2, 0xC0), second, NOTHING);
}

// A second mask in a chain, where a bad byte is tested first; and a mask in the next chain.
pub fn file_mask_twice(tally: &mut Tally) {
    for (byte, sense, left) in [(0xC0, [0x80, 0x10], 3), (0x04, [0x80, 0x00], 2)] {
        let world = world(&[word(0x1F, DATA as u32, CHAIN, 1), word(0x1F, DATA as u32 + 1, BOTH, 3)])
            .storing(DATA, &[0xC0, byte]);
        let wanted = status(AT + 8, 0x0E, 0, left);
        let what = format!("a second mask, {byte:02X}");
        ends(tally, &what, &world, wanted, sensing(sense[0], sense[1]));
    }
    // The next chain starts without a mask.
    let mut world = world(&[word(0x1F, DATA as u32, CHAIN, 1), no_op(0)]).storing(DATA, &[0xD8]);
    tally.same("first chain", world.start(), Answer::NotEnded);
    tally.same("first chain", world.go(2), Answer::Ended);
    tally.same("no mask", world.view().mask(), 0);
    let world = world.storing(AT, &word(0x07, 300, 0, 6)).storing(300, &[0; 6]);
    let wanted = status(AT, 0x0C, 0, 0);
    ends(tally, "the next chain seeks", &world, wanted, NOTHING);
}

// Which seeks each mask allows. The address of a seek that is barred is not looked at.
pub fn file_mask_seeks(tally: &mut Tally) {
    for byte in [0x00, 0x08, 0x10, 0x18, 0x40, 0x48, 0x80, 0x90, 0xC0, 0xD8, 0xC8] {
        let allowed: &[u8] = match byte & 0x18 {
            0x00 => &[0x07, 0x0B, 0x1B],
            0x08 => &[0x0B, 0x1B],
            0x10 => &[0x1B],
            _ => &[],
        };
        for code in [0x07, 0x0B, 0x1B] {
            for (count, data) in [(6, [0; 6]), (6, [9; 6]), (2, [0; 6])] {
                let world = world(&[word(0x1F, DATA as u32, CHAIN, 1), word(code, DATA as u32 + 8, 0, count)])
                    .storing(DATA, &[byte])
                    .storing(DATA + 8, &data)
                    .standing(0, 0, 77);
                let bad = count < 6 || data != [0; 6];
                let (unit, sense, left, place) = match (allowed.contains(&code), bad) {
                    (false, _) => (0x0E, [0x00, 0x04], count, 77),
                    (true, true) => (0x0E, [0x81, 0x00], 0, 77),
                    (true, false) => (0x0C, [0, 0], 0, 0),
                };
                let what = format!("{code:02X} with {count} of {data:?} under mask {byte:02X}");
                let left_behind = Left { sense, stands: (0, 0, place), stored: &[] };
                let wanted = status(AT + 8, unit, 0, left);
                ends(tally, &what, &world, wanted, left_behind);
            }
        }
    }
}

const SEARCHES_AND_READS: [u8; 13] = [0x39, 0x31, 0x51, 0x71, 0x29, 0x49, 0x69, 0x1A, 0x16, 0x12, 0x06, 0x0E, 0x1E];

// The chain goes at a Space Record on the last track, after a command `before`.
fn spacing(before: u8, place: u16, markers: &[usize]) -> World {
    world(&[word(0x0F, 0, 0, 9)])
        .going()
        .standing(2, 1, place)
        .holding(4, &[0x08, 0x00])
        .holding(7, &[before])
        .marking(5, markers)
}

// The markers of the track that is spaced over.
const SPACED: [usize; 3] = [3, 40, 90];

// How a Space Record that goes well ends, and where it leaves the head.
fn spaced() -> Status {
    status(AT, 0x0C, 0, 9)
}

fn spaced_to<'a>(place: u16) -> Left<'a> {
    Left { stands: (2, 1, place), ..NOTHING }
}

pub fn space_record(tally: &mut Tally) {
    space_record_after_each_code(tally);
    space_record_from_each_place(tally);
    space_record_without_a_marker(tally);
    space_record_in_chains(tally);
}

fn space_record_after_each_code(tally: &mut Tally) {
    for before in 0..=255 {
        // R0 is selected, so that no code before is refused.
        let world = spacing(before, 41, &SPACED).holding(10, &[1]);
        let what = format!("Space Record after {before:02X}");
        let (unit, sense, place) = if !SEARCHES_AND_READS.contains(&before) {
            (0x0E, [0x80, 0x10], 41)
        } else if before == 0x39 || before == 0x1A {
            (0x0C, [0, 0], 7)
        } else {
            (0x0C, [0, 0], 91)
        };
        let left = Left { sense, stands: (2, 1, place), stored: &[] };
        ends(tally, &what, &world, status(AT, unit, 0, 9), left);
    }
}

fn space_record_from_each_place(tally: &mut Tally) {
    for (from, place) in
        [(0, 41), (3, 41), (7, 41), (39, 41), (40, 41), (41, 91), (90, 91), (91, 41), (4095, 41), (4096, 41)]
    {
        let what = format!("Space Record from {from}");
        let world = spacing(0x06, from, &SPACED);
        ends(tally, &what, &world, spaced(), spaced_to(place));
    }
    for (from, marker, place) in
        [(0, 7, 8), (7, 7, 8), (8, 7, 8), (7, 4095, 4096), (4096, 4095, 4096), (0, 6, 7), (4096, 6, 7)]
    {
        let what = format!("Space Record from {from}, a marker in {marker}");
        let world = spacing(0x1E, from, &[marker]);
        ends(tally, &what, &world, spaced(), spaced_to(place));
    }
}

// Markers of other tracks and cells that are nearly one do not count.
fn space_record_without_a_marker(tally: &mut Tally) {
    let mut world = spacing(0x0E, 8, &[]).marking(0, &[40]).marking(4, &[40]);
    for (i, cell) in [0, 2, 511, 513, 768].into_iter().enumerate() {
        world.cells[5 * TRACK_CELLS + 50 + i] = cell;
    }
    ends(tally, "no marker", &world, spaced(), spaced_to(7));
}

fn space_record_in_chains(tally: &mut Tally) {
    let world =
        spacing(0x06, 8, &SPACED).storing(AT, &word(0x0F, 0, CHAIN, 9)).storing(AT + 8, &word(0x0F, 0, CHAIN, 9));
    let left = Left { sense: [0x80, 0x10], ..spaced_to(41) };
    let second = status(AT + 8, 0x0E, 0, 9);
    ends(tally, "Space Record twice", &world, second, left);
    let world = spacing(0x06, 8, &SPACED).storing(AT, &tic(256)).storing(256, &word(0x0F, 0, 0, 9));
    let wanted = status(256, 0x0C, 0, 9);
    ends(tally, "Space Record after a TIC", &world, wanted, spaced_to(41));
}

const CONTROL: [u8; 7] = [0x03, 0x04, 0x07, 0x0B, 0x1B, 0x1F, 0x0F];
const WRITES: [u8; 5] = [0x19, 0x15, 0x1D, 0x05, 0x0D];

pub fn unknown_codes(tally: &mut Tally) {
    for code in 0..=255 {
        let known = [&CONTROL[..], &SEARCHES_AND_READS, &WRITES].concat().contains(&code);
        if known || matches!(code & 15, 0 | 8) {
            continue;
        }
        for (flags, count) in [(0, 1), (BOTH, 20), (CHAIN, 256)] {
            let world =
                world(&[word(code, DATA as u32, flags, count), no_op(0)]).standing(1, 0, 33).holding(4, &[0x00, 0x04]);
            let left = Left { stands: (1, 0, 33), ..sensing(0x80, 0x00) };
            let what = format!("code {code:02X}, flags {flags:02X}, count {count}");
            ends(tally, &what, &world, status(AT, 0x0E, 0, count), left);
        }
    }
}

// Commands but Sense, No-op and TIC clear sense first.
pub fn sense_cleared(tally: &mut Tally) {
    let kept = [0x80, 0x04];
    for (name, first, sense) in [
        ("No-op", word(0x03, 0, CHAIN, 1), kept),
        ("Sense", word(0x04, 400, CHAIN, 6), kept),
        ("TIC", tic(AT as u32 + 8), kept),
        ("Seek", word(0x07, DATA as u32, CHAIN, 6), [0, 0]),
        ("Seek Cylinder", word(0x0B, DATA as u32, CHAIN, 6), [0, 0]),
        ("Seek Head", word(0x1B, DATA as u32, CHAIN, 6), [0, 0]),
        ("Set File Mask", word(0x1F, DATA as u32, CHAIN, 1), [0, 0]),
        ("Space Record", word(0x0F, 0, CHAIN, 1), [0, 0]),
    ] {
        let mut world = world(&[first, no_op(0)]).storing(DATA, &[0; 6]).going().holding(7, &[0x06]).holding(4, &kept);
        tally.same(name, world.go(1), Answer::NotEnded);
        tally.same(name, world.view().sense(), sense);
        tally.same(name, world.view().next(), AT as u32 + 8);
    }
    // Neither a program check nor a start clears it.
    let world = world(&[no_op(CHAIN), word(0x03, 0, 0, 0)]).holding(4, &kept);
    let wanted = program_check(AT + 8);
    ends(tally, "program check", &world, wanted, sensing(0x80, 0x04));
}

pub fn transfer_in_channel(tally: &mut Tally) {
    for high in 0..=15_u8 {
        // Its flags, ignored byte and count are not looked at.
        let mut any = word(high << 4 | 8, 256, 0xFF, 0);
        any[6..].copy_from_slice(&[high, 255 - high]);
        let world = world(&[no_op(CHAIN), any]).storing(256, &word(0x03, 0, 0, 3));
        let what = format!("TIC {high:X}8");
        ends(tally, &what, &world, status(256, 0x0C, 0, 3), NOTHING);
        let world = world.storing(256, &any);
        let what = format!("TIC {high:X}8 to a TIC");
        ends(tally, &what, &world, program_check(256), NOTHING);
    }
    for target in [1, 257, 260, 263, 505, 511, 512, 65536, 16_777_208, 16_777_215] {
        let world = world(&[no_op(CHAIN), tic(target)]);
        let what = format!("TIC to {target}");
        ends(tally, &what, &world, program_check(target as usize), NOTHING);
    }
    // It leaves everything held but the next address, and that the word was a TIC.
    let world = used(world(&[tic(256)])).going().holding(6, &[0]);
    let mut after = world.clone();
    tally.same("TIC", after.go(1), Answer::NotEnded);
    let should = world.clone().holding(6, &[1]).holding(20, &[0, 0, 1, 0]);
    tally.worlds("a TIC keeps what is held", &after, &should);
    // Another command ends selection, licence and tally, and keeps the mask.
    let mut after = world.clone().storing(AT, &no_op(CHAIN));
    let should = after.clone().holding(7, &[0x03, 0, 0, 0]).holding(12, &[0, 0]).holding(20, &[0, 0, 0, AT as u8 + 8]);
    tally.same("No-op", after.go(1), Answer::NotEnded);
    tally.worlds("a No-op keeps the mask alone", &after, &should);
}

// A chain whose second word is this one, and what a program check there leaves.
fn second_word(second: [u8; 8]) -> World {
    world(&[no_op(CHAIN), second]).standing(1, 1, 12).holding(4, &[0x00, 0x40])
}

const KEPT: Left = Left { sense: [0x00, 0x40], stands: (1, 1, 12), stored: &[] };

pub fn program_checks(tally: &mut Tally) {
    bad_flags(tally);
    bad_counts_and_areas(tally);
    bad_codes(tally);
    area_to_the_end(tally);
    bad_next_words(tally);
}

fn bad_flags(tally: &mut Tally) {
    for flags in 0..=255 {
        if !matches!(flags, 0x00 | 0x20 | 0x40 | 0x60) {
            let what = format!("flags {flags:02X}");
            let world = second_word(word(0x04, DATA as u32, flags, 6));
            ends(tally, &what, &world, program_check(AT + 8), KEPT);
        }
    }
}

fn bad_counts_and_areas(tally: &mut Tally) {
    for (what, bad) in [
        ("count 0", word(0x04, DATA as u32, 0, 0)),
        ("count 0 of a No-op", word(0x03, 0, 0, 0)),
        ("area one beyond", word(0x04, 507, 0, 6)),
        ("area far beyond", word(0x07, 16_777_215, 0, 65535)),
        ("area of a No-op", word(0x03, 512, 0, 1)),
        ("area of a Space Record", word(0x0F, 511, 0, 2)),
        ("area of a short Sense", word(0x04, 500, BOTH, 13)),
        ("an unknown code of count 0", word(0x17, 0, 0, 0)),
        ("all of them", word(0x00, 16_777_215, 0xFF, 0)),
    ] {
        ends(tally, what, &second_word(bad), program_check(AT + 8), KEPT);
    }
}

fn bad_codes(tally: &mut Tally) {
    for high in 0..=15 {
        let what = format!("code {high:X}0");
        let world = second_word(word(high << 4, 0, 0, 1));
        ends(tally, &what, &world, program_check(AT + 8), KEPT);
    }
}

// The other side of the limit: this is no program check.
fn area_to_the_end(tally: &mut Tally) {
    let stored = [(506, &[0, 0x40, 0, 0, 0, 0][..])];
    let exact = Left { stored: &stored, ..KEPT };
    ends(tally, "area to the end", &second_word(word(0x04, 506, 0, 6)), status(AT + 8, 0x0C, 0, 0), exact);
}

fn bad_next_words(tally: &mut Tally) {
    for len in [AT + 8, AT + 9, AT + 15] {
        let mut world = world(&[no_op(CHAIN)]);
        world.storage.truncate(len);
        let what = format!("the next word outside {len} bytes");
        ends(tally, &what, &world, program_check(AT + 8), NOTHING);
    }
    // A next address that only a host can set, and a TIC that the held state says was before.
    for off in 1..=7 {
        let next = (AT + off) as u32;
        let world = world(&[no_op(0), no_op(0)]).going().holding(20, &next.to_be_bytes());
        let what = format!("the next word at {next}");
        ends(tally, &what, &world, program_check(next as usize), NOTHING);
    }
    let world = world(&[tic(256)]).going().holding(6, &[1]);
    ends(tally, "TIC after TIC", &world, program_check(AT), NOTHING);
}

// Every address is taken modulo 2 to the 24.
pub fn addresses_wrap(tally: &mut Tally) {
    const LAST: u32 = 16_777_208;
    let small = world(&[]).going();
    for next in [LAST, LAST + 1, LAST + 7] {
        let world = small.clone().holding(20, &next.to_be_bytes());
        let what = format!("the next word at {next}");
        ends(tally, &what, &world, program_check(next as usize), NOTHING);
    }
    let mut large = world(&[]);
    large.storage = filled_storage(16_777_216);
    large.store(72, &[KEY << 4, 0xFF, 0xFF, 0xF8]);
    let alone = large.clone().storing(LAST as usize, &no_op(0));
    let wanted = status(LAST as usize, 0x0C, 0, 1);
    ends(tally, "the last word of all", &alone, wanted, NOTHING);
    let chained = large.storing(LAST as usize, &no_op(CHAIN)).storing(0, &word(0x04, 16_777_210, 0, 6));
    let stored = [(16_777_210, &[0; 6][..])];
    let left = Left { stored: &stored, ..NOTHING };
    let wanted = status(0, 0x0C, 0, 0);
    ends(tally, "the word behind it is at 0", &chained, wanted, left);
}
