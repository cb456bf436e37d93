// The allowance: how words are counted, a chain that never ends, cutting it into parts, and several threads.
use crate::dice::Dice;
use crate::lent::*;
use crate::track::*;
use poplar::{Answer, Selection, Shape, TRACK_CELLS};

pub fn endless_loop(tally: &mut Tally) {
    let mut world = world(&[no_op(CHAIN), tic(AT as u32)]).holding(4, &[0x80, 0x10]);
    tally.same("start", world.start(), Answer::NotEnded);
    let mut should = world.clone();
    let at_no_op = (AT as u32).to_be_bytes();
    let at_tic = (AT as u32 + 8).to_be_bytes();
    let mut odd = false;
    for allowance in [65535, 65535, 1, 0, 2, 65534, 65535, 1] {
        tally.same("it goes on", world.go(allowance), Answer::NotEnded);
        odd ^= allowance % 2 == 1;
        // No status word: of all that is lent only the held state moved.
        should = if odd {
            should.holding(6, &[0, 0x03]).holding(20, &at_tic)
        } else {
            should.holding(6, &[1, 0x03]).holding(20, &at_no_op)
        };
        tally.worlds("it is given up, held", &world, &should);
    }
    refused(tally, "it is going", &world, Call::Start, Answer::ChainGoing);
    // The host ends it by changing the word that is next.
    let wanted = status(AT, 0x0C, 0, 1);
    let last = world.storing(AT, &no_op(0));
    ends(tally, "it ends", &last, wanted, sensing(0x80, 0x10));
}

pub fn allowance(tally: &mut Tally) {
    // Five words: a No-op, a TIC, a No-op, a TIC, and one that is bad.
    let mut world = world(&[no_op(CHAIN), tic(256)])
        .storing(256, &no_op(CHAIN))
        .storing(264, &tic(320))
        .storing(320, &word(0x03, 0, 0, 0));
    tally.same("start", world.start(), Answer::NotEnded);
    let started = world.clone();
    for words in 0..=4 {
        let mut after = started.clone();
        let what = format!("{words} of 5 words");
        tally.same(&what, after.go(words), Answer::NotEnded);
        tally.same(&what, &after.storage, &started.storage);
        let next = [128, 136, 256, 264, 320][usize::from(words)];
        tally.same(&what, after.view().next(), next);
        let tic = words % 2 == 0 && words > 0;
        tally.same(&what, after.view().after_tic(), tic);
    }
    for words in [5, 6, 65535] {
        let mut after = started.clone();
        let what = format!("{words} of 5 words");
        tally.same(&what, after.go(words), Answer::Ended);
        let bad = status_bytes(KEY, program_check(320));
        let should = started.clone().storing(64, &bad);
        tally.same(&what, after.storage, should.storage);
    }
    // Nothing is looked at: not even a word that is bad.
    for next in [AT as u32, 1, 320, 16_777_215] {
        let world = started.clone().holding(20, &next.to_be_bytes());
        let what = format!("0 words, next {next}");
        refused(tally, &what, &world, Call::Go(0), Answer::NotEnded);
    }
}

const WORDS: usize = 7;

// Where a word lies, where its bytes lie, whether it may be wrong, and its flags.
struct Roll {
    slot: u32,
    data: u32,
    rare: bool,
    flags: u8,
}

impl Roll {
    fn new(dice: &mut Dice) -> Roll {
        let slot = (AT + 8 * dice.below(WORDS)) as u32;
        let data = (DATA + 8 * dice.below(4)) as u32;
        let rare = dice.below(10) == 0;
        let flags = match dice.below(20) {
            0 => 0,
            1 => CHAIN,
            _ => BOTH,
        };
        Roll { slot, data, rare, flags }
    }
}

// Most words chain, suppress incorrect length and are right, so that many chains are still going after seven.
fn random_word(dice: &mut Dice) -> [u8; 8] {
    let Roll { slot, data, rare, flags } = Roll::new(dice);
    match dice.below(12) {
        0..=2 if rare => word(0x03, 0, 0x80, 0),
        0..=2 => word(0x03, 0, flags, 9),
        // now and then over a word of the chain
        3..=5 if rare => word(0x04, slot, flags, 6),
        3..=5 => word(0x04, dice.of(&[64, 300]), flags, dice.of(&[6, 4, 8])),
        6 if rare => word(0x07, data, flags, 5),
        6 => word(dice.of(&[0x07, 0x0B]), data, flags, dice.of(&[6, 8])),
        7 | 8 => word(0x1B, data, flags, 6),
        9 if rare => word(dice.of(&[0x17, 0x00]), 0, flags, 1),
        9 => word(0x1F, DATA as u32 + 32, flags, dice.of(&[1, 2])),
        10 if rare => tic(4),
        10 => tic(slot),
        _ => word(0x0F, 0, flags, 1),
    }
}

fn random_world(dice: &mut Dice) -> World {
    let words: Vec<[u8; 8]> = (0..WORDS).map(|_| random_word(dice)).collect();
    let mut world = world(&words).marking(0, &[40, 90]).marking(1, &[30]);
    world.shape = Shape { cylinders: 1, heads: 2 };
    world.cells.truncate(2 * TRACK_CELLS);
    for k in 0..4 {
        let head = dice.of(&[0, 0, 0, 0, 1, 1, 1, 1, 2]);
        world.store(DATA + 8 * k, &[0, 0, 0, 0, 0, head]);
    }
    world.store(DATA + 32, &[dice.of(&[0x00, 0xC0, 0xC0, 0x08, 0x10, 0xD8, 0x04])]);
    let before = dice.of(&[0x00, 0x06, 0x1A, 0x12, 0x03]);
    let selection = u8::from(before == 0x12);
    let place = dice.of(&[0, 7, 31, 41, 91, 4096]);
    world
        .going()
        .standing(0, dice.of(&[0, 1]), place)
        .holding(4, &[dice.of(&[0x80, 0x08]), dice.of(&[0x10, 0x80])])
        .holding(6, &[dice.of(&[0, 0, 0, 1]), before])
        .holding(9, &[dice.of(&[0, 1]), selection])
}

// The parts of WORDS that the bits of `cut` leave, with `go 0` between them.
fn parts(cut: usize) -> Vec<u16> {
    let mut parts = vec![1];
    for i in 0..WORDS - 1 {
        if cut >> i & 1 == 1 {
            parts.extend([0, 1]);
        } else if let Some(last) = parts.last_mut() {
            *last += 1;
        }
    }
    parts
}

// A search or a read of the small track, or what may stand between them.
fn random_work(dice: &mut Dice) -> [u8; 8] {
    let Roll { slot, data: sent, rare, flags } = Roll::new(dice);
    match dice.below(12) {
        0..=4 => word(dice.of(&[0x39, 0x31, 0x51, 0x71, 0x29, 0x49, 0x69]), sent, flags, dice.of(&[3, 4, 5, 8])),
        // now and then over a word of the chain
        5..=8 if rare => word(dice.of(&[0x06, 0x0E, 0x1E]), slot, flags, 8),
        5..=8 => word(dice.of(&[0x1A, 0x16, 0x12, 0x06, 0x0E, 0x1E]), 320, flags, dice.of(&[5, 8, 16, 18])),
        9 => word(0x0F, 0, flags, 1),
        10 => tic(slot),
        _ => word(0x03, 0, flags, 1),
    }
}

fn random_work_world(dice: &mut Dice) -> World {
    let words: Vec<[u8; 8]> = (0..WORDS).map(|_| random_work(dice)).collect();
    let mut world = world(&words);
    world.shape = Shape { cylinders: 1, heads: 1 };
    world.cells = four();
    for k in 0..4 {
        let bytes = match dice.below(6) {
            0 => R0.id(),
            1 => R1.id(),
            2 => R2.id(),
            3 => R1.key.to_vec(),
            4 => R3.key.to_vec(),
            _ => HOME[1..].to_vec(),
        };
        world.store(DATA + 8 * k, &bytes);
    }
    // One chain in four meets damage, or a marker more.
    if dice.below(4) == 0 {
        let cell = dice.of(&[3, 9, 20, 31, 42, 50, 57, 70, 76, 87]);
        world.cells[cell] = dice.of(&[0, MARKER]);
    }
    let (before, selection) = dice.of(&[
        (0x00, Selection::None),
        (0x06, Selection::None),
        (0x31, Selection::R0),
        (0x12, marker(M1)),
        (0x29, marker(M2)),
    ]);
    let place = dice.of(&[0, 1, 7, M1 + 1, M2 + 1, M3 + 1, 4096]);
    world.going().standing(0, 0, place as u16).holding(7, &[before]).tallied(dice.of(&[0, 1])).selecting(selection)
}

// A write that the word before may license, what licenses one, or what may stand between.
fn random_write(dice: &mut Dice, before: u8) -> [u8; 8] {
    let slot = (AT + 8 * dice.below(WORDS)) as u32;
    let flags = if dice.below(20) == 0 { CHAIN } else { BOTH };
    let code = match (before, dice.below(12)) {
        (_, 0) => dice.of(&[0x19, 0x15, 0x1D, 0x05, 0x0D]),
        (_, 1) => return tic(slot),
        (_, 2) => return word(dice.of(&[0x03, 0x1F]), 448, flags, 1),
        (0x19, _) => 0x15,
        (0x15 | 0x1D, 3..=8) => 0x1D,
        (0x31, _) => dice.of(&[0x05, 0x0D, 0x1D]),
        (0x29, _) => dice.of(&[0x05, 0x1D]),
        (0x39, _) => 0x15,
        (_, 3..=5) => return word(0x31, DATA as u32 + 8 * dice.below(3) as u32, flags, dice.of(&[5, 5, 5, 8, 4])),
        (_, 6) => return word(0x29, DATA as u32 + 24, flags, 4),
        (_, 7) => return word(0x39, DATA as u32 + 32, flags, 4),
        (_, 8 | 9) => return word(dice.of(&[0x1E, 0x16, 0x12, 0x1A]), 320, flags, 18),
        _ => 0x19,
    };
    match code {
        0x15 => word(code, dice.of(&[400, 400, 416]), flags, dice.of(&[8, 12, 16])),
        0x1D => word(code, dice.of(&[400, 400, 416, 432]), flags, dice.of(&[8, 12, 18, 3])),
        _ => word(code, (DATA + 8 * dice.below(4)) as u32, flags, dice.of(&[1, 5, 6, 10])),
    }
}

// Seven words or eight, of which each goes by the one before.
fn random_writes(dice: &mut Dice, before: u8) -> Vec<[u8; 8]> {
    let mut words = Vec::new();
    let mut last = before;
    while words.len() < WORDS {
        let word = random_write(dice, last);
        last = word[0];
        words.push(word);
        // A search is tried again until it is satisfied.
        if matches!(last, 0x31 | 0x29 | 0x39) {
            words.push(tic((AT + 8 * words.len() - 8) as u32));
        }
    }
    words
}

// The bytes that the searches and the writes are for.
fn store_sent(dice: &mut Dice, world: &mut World) {
    for (k, bytes) in [R0.id(), R1.id(), R2.id(), R1.key.to_vec(), HOME[1..].to_vec()].iter().enumerate() {
        world.store(DATA + 8 * k, bytes);
    }
    // Records that are sent: small, empty with a key, and too long for any track.
    world.store(400, &[0, 1, 0, 1, 9, 0, 0, 4, 1, 2, 3, 4, 0, 0, 0, 0]);
    world.store(416, &[0, 1, 0, 1, 8, 3, 0, 0, 7, 8, 9, 4, 0, 0, 0, 0]);
    world.store(432, &[0, 1, 0, 1, 7, 2, dice.of(&[0x00, 0x0F, 0xFF]), 0xF0]);
    world.store(448, &[dice.of(&[0xC0, 0xC0, 0x00, 0x80])]);
}

fn random_write_world(dice: &mut Dice) -> World {
    let (before, selection) = dice.of(&[
        (0x00, Selection::None),
        (0x19, Selection::None),
        (0x39, Selection::None),
        (0x31, Selection::R0),
        (0x15, Selection::R0),
        (0x1D, marker(M1)),
        (0x29, marker(M1)),
    ]);
    let mut world = world(&random_writes(dice, before));
    world.shape = Shape { cylinders: 1, heads: 2 };
    world.cells = [four(), filled_cells(TRACK_CELLS)].concat();
    store_sent(dice, &mut world);
    if dice.below(4) == 0 {
        let cell = dice.of(&[3, 9, 20, 31, 42, 50, 57, 70]);
        world.cells[cell] = dice.of(&[0, 0x01FF]);
    }
    let mask = dice.of(&[0xC0, 0xC0, 0xC0, 0xC0, 0x00, 0x40]);
    let place = dice.of(&[0, 1, 7, M1 + 1, M2 + 1, 4096]);
    world
        .going()
        .standing(0, 0, place as u16)
        .holding(2, &[mask, dice.of(&[0, 1])])
        .holding(7, &[before, dice.of(&[1, 1, 1, 0])])
        .tallied(dice.of(&[0, 1]))
        .selecting(selection)
}

// Every way to cut seven words of random chains leaves the same, and answers the same on the way.
fn all_cuts(tally: &mut Tally, mut dice: Dice, random: fn(&mut Dice) -> World) {
    const CHAINS: usize = 300;
    let (mut ended, mut held) = (0, 0);
    for chain in 0..CHAINS {
        let begun = random(&mut dice);
        // What n words leave, each in one go.
        let whole: Vec<(Answer, World)> = (0..=WORDS as u16)
            .map(|n| {
                let mut after = begun.clone();
                (after.go(n), after)
            })
            .collect();
        match whole[WORDS].0 {
            Answer::Ended => ended += 1,
            Answer::NotEnded => held += 1,
            _ => {}
        }
        for cut in 0..1 << (WORDS - 1) {
            let mut world = begun.clone();
            let mut run = 0;
            let mut going = true;
            let mut right = true;
            for part in parts(cut) {
                let heard = world.go(part);
                run += usize::from(part);
                let (answer, should) = &whole[run];
                let wanted = if going { *answer } else { Answer::NoChain };
                right &= heard == wanted && world == *should;
                going &= *answer == Answer::NotEnded;
            }
            tally.holds(&format!("chain {chain}, parts {:?}", parts(cut)), right);
        }
    }
    // The chains are no use if they all end, or none does.
    tally.same("none is refused", ended + held, CHAINS);
    tally.holds("a third of the chains end", ended > CHAINS / 3);
    tally.holds("a tenth of the chains are held", held > CHAINS / 10);
}

pub fn cuts(tally: &mut Tally) {
    all_cuts(tally, Dice(0x2311_2841_0360_0001), random_world);
}

pub fn cuts_of_work(tally: &mut Tally) {
    all_cuts(tally, Dice(0x2311_2841_0360_0003), random_work_world);
}

pub fn cuts_of_writes(tally: &mut Tally) {
    all_cuts(tally, Dice(0x2311_2841_0360_0005), random_write_world);
}

// No global state: threads on memory of their own get what they get alone.
pub fn threads(tally: &mut Tally) {
    let begun: Vec<World> = {
        let mut dice = Dice(0x2311_2841_0360_0002);
        (0..40).map(|_| random_world(&mut dice)).collect()
    };
    let each = |begun: &[World]| -> Vec<(Answer, World)> {
        let run = |world: &World| {
            let mut after = world.clone();
            (after.go(1000), after)
        };
        begun.iter().map(run).collect()
    };
    let alone = each(&begun);
    let together: Vec<Vec<(Answer, World)>> = std::thread::scope(|scope| {
        let running: Vec<_> = (0..4).map(|_| scope.spawn(|| each(&begun))).collect();
        running.into_iter().map(|thread| thread.join().unwrap_or_default()).collect()
    });
    for (thread, got) in together.iter().enumerate() {
        tally.same("each got all", got.len(), alone.len());
        for (i, (is, should)) in got.iter().zip(&alone).enumerate() {
            tally.same(&format!("thread {thread}, chain {i}"), is.0, should.0);
            tally.worlds(&format!("thread {thread}, chain {i}"), &is.1, &should.1);
        }
    }
}
