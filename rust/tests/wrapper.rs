// The wrapper by itself: its types, the fresh box, and empty slices.
use crate::lent::*;
use poplar::{fresh_raw, go, start, Answer, Held, Selection, Shape, HELD_LAYOUT, HELD_SIZE, INTERFACE};

pub fn answers(tally: &mut Tally) {
    for number in 0..=255 {
        let answer = Answer::from(number);
        tally.same(&format!("answer {number}"), answer.number(), number);
        let named = !matches!(answer, Answer::Other(_));
        tally.same(&format!("answer {number} has a name"), named, number <= 7);
    }
    tally.same("answer 1", Answer::from(1), Answer::NotEnded);
    tally.same("answer 6", Answer::from(6), Answer::NoChain);
    tally.same("the interface", INTERFACE, 1);
}

pub fn held_bytes(tally: &mut Tally) {
    let mut bytes = [0; HELD_SIZE];
    for (i, byte) in bytes.iter_mut().enumerate() {
        *byte = i as u8 + 100;
    }
    bytes[10] = 2;
    let held = Held::from_bytes(bytes);
    tally.same("bytes", *held.bytes(), bytes);
    tally.same("key", held.key(), 101);
    tally.same("mask", held.mask(), 102);
    tally.same("sense", held.sense(), [104, 105]);
    tally.same("before", held.before(), 107);
    tally.same("tally", held.tally(), 109);
    tally.same("layout", held.layout(), 111);
    tally.same("marker", held.selection(), Selection::Marker(112 * 256 + 113));
    tally.same("cylinder", held.cylinder(), 114 * 256 + 115);
    tally.same("head", held.head(), 116 * 256 + 117);
    tally.same("place", held.place(), 118 * 256 + 119);
    tally.same("next", held.next(), u32::from_be_bytes([120, 121, 122, 123]));
    for (selection, byte) in [(Selection::None, 0), (Selection::R0, 1), (Selection::Other(3), 3)] {
        bytes[10] = byte;
        let held = Held::from_bytes(bytes);
        tally.same("selection", held.selection(), selection);
    }
    for at in [0, 3, 6, 8] {
        for byte in [0, 1] {
            bytes = [0; HELD_SIZE];
            bytes[at] = byte;
            let held = Held::from_bytes(bytes);
            let flags = [held.going(), held.mask_set(), held.after_tic(), held.whole()];
            let should = [0, 3, 6, 8].map(|flag| flag == at && byte == 1);
            tally.same(&format!("flags with {byte} at {at}"), flags, should);
        }
    }
}

pub fn fresh(tally: &mut Tally) {
    let mut should = [0; HELD_SIZE];
    should[11] = HELD_LAYOUT;
    let held = Held::fresh();
    tally.same("fresh", *held.bytes(), should);
    tally.holds("no chain is going", !held.going());
    tally.same("no selection", held.selection(), Selection::None);
    let mut dirty = [0xFF; HELD_SIZE];
    tally.holds("64 bytes are written", fresh_raw(&mut dirty));
    tally.same("64 bytes, all of them", dirty, should);
    for len in [0, 1, 63, 65, 128] {
        let mut bytes = vec![0xFF; len];
        tally.holds(&format!("{len} bytes refused"), !fresh_raw(&mut bytes));
        tally.same(&format!("{len} bytes kept"), bytes, vec![0xFF; len]);
    }
    // The typed calls and the raw ones are the same.
    let mut raw = world(&[no_op(CHAIN), no_op(0)]);
    let mut typed = raw.clone();
    let mut held = Held::fresh();
    let heard = start(&mut held, &mut typed.storage, &mut typed.cells, SHAPE);
    tally.same("typed start", heard, raw.start());
    tally.holds("a chain is going", held.going());
    for (allowance, answer) in [(1, Answer::NotEnded), (1, Answer::Ended), (1, Answer::NoChain)] {
        let heard = go(&mut held, &mut typed.storage, &mut typed.cells, SHAPE, allowance);
        tally.same("typed go", heard, answer);
        tally.same("raw go", raw.go(allowance), answer);
        typed.held = held.bytes().to_vec();
        tally.worlds("typed and raw", &typed, &raw);
    }
}

pub fn nothing_lent(tally: &mut Tally) {
    let all = world(&[no_op(0)]);
    let no_storage = World { storage: vec![], ..all.clone() };
    refused_always(tally, "no storage", &no_storage, Answer::BadStorage);
    let no_cells = World { cells: vec![], ..all.clone() };
    refused_always(tally, "no cells", &no_cells, Answer::BadPack);
    let no_held = World { held: vec![], ..all };
    refused_always(tally, "no held", &no_held, Answer::BadHeld);
    let nothing = World { held: vec![], storage: vec![], cells: vec![], shape: Shape { cylinders: 0, heads: 0 } };
    refused_always(tally, "nothing", &nothing, Answer::BadStorage);
}
