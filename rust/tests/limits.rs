// Refusals 2, 3 and 4: both sides of every limit, every kind of bytes that are no held state, and the order of the refusals.
use crate::lent::*;
use poplar::{Answer, Shape, HELD_LAYOUT, HELD_SIZE, TRACK_CELLS};

// A No-op at 0, which the address word names.
fn with_storage(len: usize) -> World {
    let mut world = world(&[]);
    world.storage = filled_storage(len);
    for (at, bytes) in [(0, &no_op(0)[..]), (72, &[0; 4])] {
        let end = len.min(at + bytes.len());
        if at < end {
            world.store(at, &bytes[..end - at]);
        }
    }
    world
}

pub fn storage_limits(tally: &mut Tally) {
    const MOST: usize = 16_777_216;
    for len in [1, 64, 79, MOST + 1] {
        let world = with_storage(len);
        refused_always(tally, &format!("storage {len}"), &world, Answer::BadStorage);
    }
    for len in [80, 81, MOST - 1, MOST] {
        let mut world = with_storage(len);
        admitted(tally, &format!("storage {len}"), &world);
        let mut should = world.clone();
        should.store(64, &status_bytes(0, status(0, 0x0C, 0, 1)));
        tally.same(&format!("storage {len}: start"), world.start(), Answer::NotEnded);
        tally.same(&format!("storage {len}: go"), world.go(1), Answer::Ended);
        tally.worlds(&format!("storage {len}: a No-op at 0"), &world, &should);
    }
}

fn with_pack(cylinders: u32, heads: u32, cells: usize) -> World {
    let mut world = world(&[no_op(0)]);
    world.shape = Shape { cylinders, heads };
    world.cells = filled_cells(cells);
    world
}

pub fn pack_limits(tally: &mut Tally) {
    for (cylinders, heads) in [(1, 1), (203, 1), (1, 10), (2, 3), (203, 10)] {
        let cells = cylinders as usize * heads as usize * TRACK_CELLS;
        let what = format!("{cylinders} cylinders of {heads} heads");
        let right = with_pack(cylinders, heads, cells);
        admitted(tally, &what, &right);
        for wrong in [cells - 1, cells + 1] {
            let world = with_pack(cylinders, heads, wrong);
            let what = format!("{what}, {wrong} cells");
            refused(tally, &what, &world, Call::Start, Answer::BadPack);
            refused(tally, &what, &world, Call::Go(1), Answer::BadPack);
        }
    }
    for (cylinders, heads) in [(0, 1), (204, 1), (1, 0), (1, 11), (0, 0), (10, 203)] {
        let cells = cylinders as usize * heads as usize * TRACK_CELLS;
        for cells in [cells, TRACK_CELLS] {
            let world = with_pack(cylinders, heads, cells);
            let what = format!("{cylinders} cylinders of {heads} heads, {cells} cells");
            refused_always(tally, &what, &world, Answer::BadPack);
        }
    }
    // The products are these numbers of cells if they are taken modulo a power of two.
    for (cylinders, heads, cells) in [
        (1_048_577, 1, TRACK_CELLS),
        (1, 1_048_577, TRACK_CELLS),
        (65_536, 65_536, 0),
        (u32::MAX, u32::MAX, TRACK_CELLS),
        (257, 1, TRACK_CELLS),
        (1, 257, TRACK_CELLS),
        (65_537, 1, TRACK_CELLS),
    ] {
        let world = with_pack(cylinders, heads, cells);
        let what = format!("{cylinders} cylinders of {heads} heads, {cells} cells");
        refused_always(tally, &what, &world, Answer::BadPack);
    }
}

// With and without a chain going: refused with 4, or not refused.
fn held_is(tally: &mut Tally, what: &str, world: World, legal: bool) {
    for world in [world.clone(), world.holding(0, &[1])] {
        let what = format!("{what}, going {}", world.held[0]);
        if legal {
            admitted(tally, &what, &world);
        } else {
            refused_always(tally, &what, &world, Answer::BadHeld);
        }
    }
}

pub fn held_limits(tally: &mut Tally) {
    let lent = world(&[no_op(0)]);
    for (name, at, legal, wrong) in [
        ("place", 18, vec![0_u16, 7, 4095, 4096], vec![4097_u16, 65535]),
        ("cylinder", 14, vec![0, 1, 2], vec![3, 203, 256, 65535]),
        ("head", 16, vec![0, 1], vec![2, 10, 256, 65535]),
    ] {
        for (values, is_legal) in [(legal, true), (wrong, false)] {
            for value in values {
                let world = lent.clone().holding(at, &value.to_be_bytes());
                held_is(tally, &format!("{name} {value}"), world, is_legal);
            }
        }
    }
    for tallied in 0..=255 {
        let world = lent.clone().holding(9, &[tallied]);
        held_is(tally, &format!("tally {tallied}"), world, tallied <= 1);
    }
    for key in 0..=255 {
        let world = lent.clone().holding(1, &[key]);
        held_is(tally, &format!("key {key}"), world, key <= 15);
    }
    for next in [0, 1, 129, 16_777_208, 16_777_215, 16_777_216, u32::MAX] {
        let world = lent.clone().holding(20, &next.to_be_bytes());
        held_is(tally, &format!("next {next}"), world, next < 16_777_216);
    }
}

pub fn held_mask(tally: &mut Tally) {
    let lent = world(&[no_op(0)]);
    for mask in 0..=255_u8 {
        for set in [0, 1] {
            let world = lent.clone().holding(2, &[mask, set]);
            held_is(tally, &format!("mask {mask:02X}, set {set}"), world, legal_mask(mask));
        }
    }
}

// The commands that leave a record selected.
const LEAVES: [u8; 9] = [0x31, 0x51, 0x71, 0x29, 0x49, 0x69, 0x12, 0x15, 0x1D];

pub fn held_selection(tally: &mut Tally) {
    for before in 0..=255 {
        let lent = world(&[no_op(0)]).marking(0, &[40]).holding(7, &[before]);
        let none = !LEAVES.contains(&before);
        held_is(tally, &format!("none after {before:02X}"), lent.clone(), none);
        let r0 = lent.clone().holding(10, &[1]);
        held_is(tally, &format!("R0 after {before:02X}"), r0, true);
        let marker = lent.holding(10, &[2]).holding(12, &[0, 40]);
        held_is(tally, &format!("a marker after {before:02X}"), marker, true);
    }
    // A marker lies in these cells of the first track, and in others of the last.
    let lent = world(&[no_op(0)]).marking(0, &[0, 6, 7, 100, 4095]).marking(5, &[6, 8, 101, 4094]);
    for (cell, first, last) in [
        (0, false, false),
        (6, false, false),
        (7, true, false),
        (8, false, true),
        (99, false, false),
        (100, true, false),
        (101, false, true),
        (4094, false, true),
        (4095, true, false),
        (4096, false, false),
        (4103, false, false),
        (65535, false, false),
    ] {
        let world = lent.clone().holding(10, &[2]).holding(12, &u16::to_be_bytes(cell));
        let what = format!("the marker in {cell}");
        held_is(tally, &what, world.clone(), first);
        held_is(tally, &what, world.standing(2, 1, 0), last);
    }
    // Only 512 is a marker.
    for cell in [0, 255, 256, 511, 513, 768, 2, 65535] {
        let mut world = lent.clone().holding(10, &[2]).holding(12, &[0, 50]);
        world.cells[50] = cell;
        held_is(tally, &format!("{cell} for a marker"), world, false);
    }
}

pub fn held_encoding(tally: &mut Tally) {
    let right = world(&[no_op(0)]).marking(0, &[40]);
    held_is(tally, "a fresh box", right.clone(), true);
    for len in [0, 1, 63, 65, 128] {
        let mut world = right.clone();
        world.held.resize(len, 0);
        refused_always(tally, &format!("{len} bytes"), &world, Answer::BadHeld);
    }
    for byte in 2..=255 {
        for at in [0, 3, 6, 8] {
            let world = right.clone().holding(at, &[byte]);
            let what = format!("the flag at {at} is {byte}");
            refused_always(tally, &what, &world, Answer::BadHeld);
        }
    }
    for byte in 3..=255 {
        let world = right.clone().holding(10, &[byte, HELD_LAYOUT, 0, 40]);
        held_is(tally, &format!("selection {byte}"), world, false);
    }
    for layout in 0..=255 {
        let world = right.clone().holding(11, &[layout]);
        held_is(tally, &format!("layout {layout}"), world, layout == 1);
    }
    for selection in [0, 1] {
        for cell in [1, 40, 256, 65535] {
            let world = right.clone().holding(10, &[selection]).holding(12, &u16::to_be_bytes(cell));
            let what = format!("selection {selection} with the cell {cell}");
            held_is(tally, &what, world, false);
        }
    }
    for at in 24..HELD_SIZE {
        for byte in [1, 128, 255] {
            let world = right.clone().holding(at, &[byte]);
            held_is(tally, &format!("byte {at} is {byte}"), world, false);
        }
    }
}

// What refusal 4 does not list is not refused.
pub fn held_free(tally: &mut Tally) {
    let lent = world(&[no_op(0)]);
    for byte in 0..=255 {
        let world = lent.clone().holding(4, &[byte, 255 - byte]);
        held_is(tally, &format!("sense {byte:02X}"), world, true);
    }
    for at in [3, 6, 8] {
        let world = lent.clone().holding(at, &[1]);
        held_is(tally, &format!("the flag at {at}"), world, true);
    }
}

pub fn refusal_order(tally: &mut Tally) {
    for wrong in 0..32 {
        let [storage, pack, held, going, address] = [0, 1, 2, 3, 4].map(|i| wrong >> i & 1 == 1);
        let mut world = world(&[no_op(0)]);
        if address {
            world.store(72, &[0x5F]);
        }
        if storage {
            world.storage.truncate(79);
        }
        if pack {
            world.cells.pop();
        }
        if held {
            world.hold(1, &[16]);
        }
        if going {
            world = world.holding(0, &[1]);
        }
        let what = format!("wrong storage {storage}, pack {pack}, held {held}, address word {address}; going {going}");
        let first = [(storage, Answer::BadStorage), (pack, Answer::BadPack), (held, Answer::BadHeld)];
        match first.iter().find(|(wrong, _)| *wrong) {
            Some((_, answer)) => refused_always(tally, &what, &world, *answer),
            None if going => {
                refused(tally, &what, &world, Call::Start, Answer::ChainGoing);
                refused(tally, &what, &world, Call::Go(0), Answer::NotEnded);
            }
            None if address => {
                refused(tally, &what, &world, Call::Go(1), Answer::NoChain);
                not_started(tally, &what, &world);
            }
            None => admitted(tally, &what, &world),
        }
    }
}
