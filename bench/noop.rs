// A chain of No-op command words against a plain loop in Rust; and what a refusal costs.
use crate::chain::{Chain, Command, MODULUS};
use crate::common::{
    chained, in_turn, storage_with, thousands, timed, word, Lent, FIRST, FLAG_CHAIN, FULL, NO_OP, ONE, STATUS, TIC,
    WORDS,
};
use crate::library::NOW;
use crate::part::{Part, Side};
use poplar::{Answer, Held, Shape, HELD_SIZE, TRACK_CELLS};
use std::hint::black_box;

const ROUNDS: usize = 201;

pub const PART: Part = Part {
    name: "noop",
    what,
    rounds: ROUNDS,
    loops: 1,
    wanted: Some(2.0),
    wanted_before: Some(1.03),
    compare,
    times,
    chains: || vec![Lent { storage: laid(WORDS), cells: vec![0; TRACK_CELLS], shape: ONE }],
    besides,
};

fn what() -> String {
    format!("a chain of {} No-op words", thousands(WORDS))
}

// A refusal is too short to be timed alone.
const REFUSALS: usize = 10_000;

fn no_ops(n: usize) -> impl Iterator<Item = [u8; 8]> {
    (0..n).map(move |i| word(NO_OP, 0, chained(i, n), 1))
}

pub fn laid(n: usize) -> Vec<u8> {
    storage_with(FIRST + 8 * n, no_ops(n))
}

// The plain loop. None where it met a command that is not built here.
#[inline(never)]
fn plain(held: &mut [u8; HELD_SIZE], storage: &mut [u8], allowance: u16) -> Option<Answer> {
    let mut chain = Chain::of(held);
    let mut left = allowance;
    while left > 0 && chain.going {
        if let Some(Command { code, flags, count, .. }) = chain.step(storage) {
            if code != NO_OP {
                return None;
            }
            chain.done(storage, NO_OP, flags, count);
        }
        left -= 1;
    }
    chain.put(held);
    Some(if chain.going { Answer::NotEnded } else { Answer::Ended })
}

// What a go leaves. The rest of storage is compared too, by the caller.
#[derive(Debug, PartialEq)]
struct Left {
    answer: Option<Answer>,
    held: [u8; HELD_SIZE],
    status: [u8; 8],
}

fn left(answer: Option<Answer>, held: &[u8; HELD_SIZE], storage: &[u8]) -> Left {
    Left { answer, held: *held, status: storage[STATUS].try_into().unwrap() }
}

fn same(what: &str, name: &str, proved: &Left, other: &Left) -> Result<(), String> {
    if proved == other {
        return Ok(());
    }
    Err(format!("{what}: results differ: proved {proved:02X?}, {name} {other:02X?}"))
}

fn packs() -> [(Shape, Vec<u16>); 2] {
    [ONE, FULL].map(|shape| (shape, vec![0; shape.cells() as usize]))
}

// One chain, for one allowance, on both packs and by the plain loop: what it leaves.
fn agreed(what: &str, storage: &[u8], packs: &mut [(Shape, Vec<u16>); 2], allowance: u16) -> Result<Left, String> {
    let what = &format!("{what}, {allowance} words");
    let mut all = Vec::new();
    for (shape, cells) in packs {
        let mut begun = NOW.started(storage.to_vec(), cells, *shape)?;
        let mut plain_begun = (begun.held, begun.storage.clone());
        let answer = begun.go(cells, *shape, allowance);
        let proved = left(Some(answer), &begun.held, &begun.storage);
        let answer = plain(&mut plain_begun.0, &mut plain_begun.1, allowance);
        let other = left(answer, &plain_begun.0, &plain_begun.1);
        same(what, "plain", &proved, &other)?;
        if begun.storage != plain_begun.1 {
            return Err(format!("{what}: storage differs outside the status word"));
        }
        all.push(proved);
    }
    same(what, "on a full pack", &all[0], &all[1])?;
    Ok(all.swap_remove(0))
}

// Chains after a first No-op: at each test of a word, one word that it stops and one beside it that it lets through.
fn words_at_tests() -> Vec<(&'static str, Vec<[u8; 8]>)> {
    const BYTES: u32 = 1024;
    let tic = |to: u32| word(TIC, to, 0, 0);
    let at = |i: u32| FIRST as u32 + 8 * i;
    let no_op = word(NO_OP, 0, FLAG_CHAIN, 1);
    let last = word(NO_OP, 0, 0, 1);
    vec![
        ("a word off a multiple of 8", vec![tic(at(2) + 4), last]),
        ("the last word that fits", [vec![tic(BYTES - 8)], vec![no_op; 94]].concat()),
        ("a word beyond storage", vec![tic(BYTES), last]),
        ("a word at the last address", vec![tic(MODULUS - 8), last]),
        ("a TIC", vec![tic(at(3)), no_op, last]),
        ("a TIC to itself", vec![tic(at(1)), last]),
        ("a TIC to a TIC", vec![tic(at(3)), no_op, tic(at(4)), no_op, last]),
        ("flag 80", vec![word(NO_OP, 0, 0x80, 1), last]),
        ("flag 10", vec![word(NO_OP, 0, 0x50, 1), last]),
        ("flag 20", vec![word(NO_OP, 0, 0x60, 1), last]),
        ("count 0", vec![word(NO_OP, 0, 0x40, 0), last]),
        ("code 10", vec![word(0x10, 0, 0x40, 1), last]),
        ("code F8", vec![word(0xF8, at(2), 0xFF, 1), last]),
        ("an area beyond storage", vec![word(NO_OP, BYTES - 7, 0x40, 8), last]),
        ("an area at the end", vec![word(NO_OP, BYTES - 8, 0x40, 8), last]),
        ("a count left", vec![word(NO_OP, 0, 0x20, 0x0123)]),
    ]
}

fn compare() -> Result<(), String> {
    let mut packs = packs();
    let mut compared = 0;
    let storage = laid(WORDS);
    for allowance in [0, 1, 2, 1000, 65_534, 65_535] {
        let left = agreed("No-ops", &storage, &mut packs, allowance)?;
        let wanted = if usize::from(allowance) < WORDS { Answer::NotEnded } else { Answer::Ended };
        if left.answer != Some(wanted) {
            return Err(format!("No-ops, {allowance} words: the answer is {:?}", left.answer));
        }
        compared += 1;
    }
    for (what, words) in words_at_tests() {
        let first = word(NO_OP, 0, FLAG_CHAIN, 1);
        let storage = storage_with(1024, std::iter::once(first).chain(words));
        for allowance in [1, 2, 3, 4, 5, 200] {
            agreed(what, &storage, &mut packs, allowance)?;
            compared += 1;
        }
    }
    println!("noop: {compared} results of proved, proved on a full pack and plain compared: all the same");
    Ok(())
}

// All the words by the plain loop, or by a go on one of the packs: milliseconds, and what it leaves.
fn one(side: Side, (shape, cells): &mut (Shape, Vec<u16>), storage: &mut Vec<u8>) -> Result<(f64, Left), String> {
    storage[STATUS].fill(0xE7);
    let library = if let Side::Proved(library) = side { library } else { &NOW };
    let mut begun = library.started(std::mem::take(storage), cells, *shape)?;
    let (ms, answer) = match side {
        Side::Proved(_) => {
            let (ms, answer) = begun.timed(cells, *shape, WORDS as u16);
            (ms, Some(answer))
        }
        Side::Plain(_) => {
            let lent = black_box(&mut begun.storage[..]);
            timed(|| plain(black_box(&mut begun.held), lent, WORDS as u16))
        }
    };
    let result = left(answer, &begun.held, &begun.storage);
    *storage = begun.storage;
    Ok((ms, result))
}

// A side with the packs that it goes on: a box with each, the plain loop, which looks at none, with the first.
fn on_packs(&side: &Side) -> Vec<(Side, usize)> {
    match side {
        Side::Proved(_) => vec![(side, 0), (side, 1)],
        Side::Plain(_) => vec![(side, 0)],
    }
}

// Of a box the slower pack counts.
fn times(rounds: usize, sides: &[Side]) -> Result<Vec<f64>, String> {
    let all: Vec<(Side, usize)> = sides.iter().flat_map(on_packs).collect();
    let mut medians = medians(rounds, &all)?.into_iter();
    let mut slowest = |n: usize| medians.by_ref().take(n).fold(0.0, f64::max);
    Ok(sides.iter().map(|side| slowest(on_packs(side).len())).collect())
}

fn medians(rounds: usize, all: &[(Side, usize)]) -> Result<Vec<f64>, String> {
    let mut packs = packs();
    let as_laid = laid(WORDS);
    let should = agreed("No-ops", &as_laid, &mut packs, WORDS as u16)?;
    let mut storage = as_laid.clone();
    in_turn(rounds, all, |&(side, pack)| {
        let (ms, result) = one(side, &mut packs[pack], &mut storage)?;
        same("No-ops", "this", &should, &result)?;
        storage[STATUS].copy_from_slice(&as_laid[STATUS]);
        let same = storage == as_laid;
        same.then_some(ms).ok_or("storage differs outside the status word".to_string())
    })
}

// Nanoseconds of one refusal, of many.
fn refused(held: &mut Held, storage: &mut [u8], (shape, cells): &mut (Shape, Vec<u16>)) -> Result<f64, String> {
    let (ms, refused) = timed(|| {
        let mut go = || poplar::go(black_box(held), storage, cells, *shape, 1);
        (0..REFUSALS).filter(|_| go() == Answer::BadHeld).count()
    });
    let all = refused == REFUSALS;
    all.then_some(ms * 1e6 / REFUSALS as f64).ok_or(format!("{refused} of {REFUSALS} bad keys refused"))
}

// What a go of a started chain with a bad key costs: refusal 4, the last one before the chain.
fn refusals() -> Result<Vec<f64>, String> {
    let mut packs = packs();
    let mut storage = laid(1);
    let mut helds = Vec::new();
    for (shape, cells) in &mut packs {
        let mut bytes = NOW.started(storage.clone(), cells, *shape)?.held;
        bytes[1] = 16;
        helds.push(Held::from_bytes(bytes));
    }
    in_turn(ROUNDS, &[0, 1], |&i| refused(&mut helds[i], &mut storage, &mut packs[i]))
}

fn besides() -> Result<(), String> {
    let refusals = refusals()?;
    println!("noop: refusal of a bad key: {:.1} ns on 1 track, {:.1} ns on a full pack", refusals[0], refusals[1]);
    Ok(())
}
