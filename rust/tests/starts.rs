// What a start leaves, and refusal 5.
use crate::lent::*;
use poplar::{Answer, HELD_LAYOUT, HELD_SIZE};

pub fn start_resets(tally: &mut Tally) {
    let world = used(world(&[no_op(0)]));
    let mut after = world.clone();
    tally.same("start", after.start(), Answer::NotEnded);
    let mut should = world.clone();
    should.held = vec![0; HELD_SIZE];
    let should = should.holding(4, &[0x80, 0x10]).holding(11, &[HELD_LAYOUT]).standing(1, 1, 41).going();
    tally.worlds("all but cylinder, head, place and sense are reset", &after, &should);
    refused(tally, "started", &after, Call::Start, Answer::ChainGoing);
    let held = after.view();
    tally.same("next", held.next(), AT as u32);
    tally.same("key", held.key(), KEY);
}

pub fn start_refused(tally: &mut Tally) {
    let right = used(world(&[no_op(0)]));
    start_keys(tally, &right);
    start_addresses(tally, &right);
    start_flags(tally, &right);
    start_counts_and_areas(tally, &right);
}

// It starts, or is refused.
fn starts_or_not(tally: &mut Tally, what: &str, mut world: World, starts: bool) {
    if starts {
        tally.same(what, world.start(), Answer::NotEnded);
    } else {
        not_started(tally, what, &world);
    }
}

// The first byte of the address word: a key and four bits that are zero.
fn start_keys(tally: &mut Tally, right: &World) {
    for low in 1..=15 {
        let world = right.clone().storing(72, &[KEY << 4 | low]);
        not_started(tally, &format!("zero bits {low:X}"), &world);
    }
    for key in 0..=15 {
        let mut world = right.clone().storing(72, &[key << 4]);
        tally.same(&format!("key {key}"), world.start(), Answer::NotEnded);
        tally.same(&format!("key {key} is held"), world.view().key(), key);
    }
}

fn start_addresses(tally: &mut Tally, right: &World) {
    for off in 1..=7 {
        let at = AT + off;
        let world = right.clone().storing(73, &[0, 0, at as u8]).storing(at, &no_op(0));
        not_started(tally, &format!("the first word at {at}"), &world);
    }
    for at in [512_u32, 520, 65536, 16_777_208, 16_777_215] {
        let world = right.clone().storing(73, &at.to_be_bytes()[1..]);
        not_started(tally, &format!("the first word at {at}"), &world);
    }
    for len in [505, 511, 512] {
        let mut world = right.clone().storing(73, &[0, 1, 0xF8]).storing(504, &no_op(0));
        world.storage.truncate(len);
        starts_or_not(tally, &format!("the first word at 504 of {len} bytes"), world, len == 512);
    }
}

fn start_flags(tally: &mut Tally, right: &World) {
    for flags in 0..=255 {
        let world = right.clone().storing(AT, &no_op(flags));
        let starts = matches!(flags, 0x00 | 0x20 | 0x40 | 0x60);
        starts_or_not(tally, &format!("flags {flags:02X}"), world, starts);
    }
}

fn start_counts_and_areas(tally: &mut Tally, right: &World) {
    for (address, count, starts) in [
        (0, 0, false),
        (0, 512, true),
        (0, 513, false),
        (511, 1, true),
        (511, 2, false),
        (512, 1, false),
        (510, 65535, false),
        (16_777_215, 1, false),
        (16_777_215, 65535, false),
    ] {
        let world = right.clone().storing(AT, &word(0x03, address, 0, count));
        starts_or_not(tally, &format!("{count} bytes from {address} on"), world, starts);
    }
}

pub fn start_codes(tally: &mut Tally) {
    for code in 0..=255 {
        let mut world = used(world(&[word(code, 0, 0, 1)]));
        let what = format!("code {code:02X}");
        if matches!(code & 15, 0 | 8) {
            not_started(tally, &what, &world);
        } else {
            tally.same(&what, world.start(), Answer::NotEnded);
        }
    }
}
