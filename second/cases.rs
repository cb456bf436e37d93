//! A case: what is lent, and the calls made on it one after another. And the making of one.
use crate::chains::Maker;
use crate::mutations::lay_out;
use crate::opinion::areas::TRACK;
use crate::opinion::held::{Held, SIZE};
use crate::packs::Pack;
use crate::random::Random;
use crate::states;

/// A call, or something the host changes between two calls.
#[derive(Clone, PartialEq, Debug)]
pub enum Call {
    Start,
    Go(u16),
    Bytes(usize, Vec<u8>),
    Cells(usize, Vec<u16>),
}

#[derive(Clone, PartialEq)]
pub struct Case {
    pub name: String,
    pub cylinders: u32,
    pub heads: u32,
    pub cells: Vec<u16>,
    pub storage: Vec<u8>,
    pub held: Vec<u8>,
    pub calls: Vec<Call>,
}

impl Case {
    pub fn named(name: &str) -> Case {
        Case {
            name: name.to_string(),
            cylinders: 1,
            heads: 1,
            cells: Vec::new(),
            storage: Vec::new(),
            held: Held::fresh().bytes().to_vec(),
            calls: Vec::new(),
        }
    }
}

const ADDRESSES: usize = 1 << 24;

/// Case `number` of a seed.
pub fn make(seed: u64, number: u64) -> Case {
    let mut random = Random::of(seed, number);
    let random = &mut random;
    let pack = Pack::new(random);
    let mut case = Case::named(&format!("{seed}-{number}"));
    (case.cylinders, case.heads) = (u32::from(pack.cylinders), u32::from(pack.heads));
    case.cells = pack.cells();
    let (size, base) = storage_shape(random);
    case.storage = vec![0; size];
    if random.one_in(4) && size < 10_000 {
        case.storage = random.bytes(size);
    }
    let mut held = states::between_chains(random, &pack);
    let stand = (held.cylinder, held.head);
    let going = random.percent(40);
    let first = if going { states::amid(random, &pack, &mut held, base) } else { None };
    if let Some((_, record)) = first.as_ref().filter(|_| random.percent(25)) {
        states::harm(random, &mut case.cells[pack.first_cell(stand)..], record);
    }
    let mut maker = Maker { random, pack: &pack, stand, drafts: Vec::new() };
    if let Some((code, record)) = first {
        maker.first(code, &record);
    }
    let drafts = maker.chain();
    lay_out(random, &drafts, &mut case.storage, base);
    address_word(random, &mut case.storage, base);
    case.held = held.bytes().to_vec();
    calls(random, &mut case, going, base, drafts.len());
    if random.percent(9) {
        spoil(random, &mut case);
    }
    case
}

/// How much storage, and where the first word is. A chain may run over the end of the addresses.
fn storage_shape(random: &mut Random) -> (usize, usize) {
    match random.below(2000) {
        0 | 1 => (ADDRESSES, ADDRESSES - 8 * random.between(1, 4)),
        // words that would be good, but for where they lie
        2..=30 => (2048, 80 + random.between(1, 7)),
        31..=50 => (2048, 84),
        51..=110 => (random.pick(&[80, 81, 87, 88, 96, 112, 128]), random.pick(&[0, 8, 16, 24])),
        _ => (random.pick(&[600, 2048, 2048, 4096, 4096, 9000]), random.pick(&[80, 80, 88, 256, 512])),
    }
}

fn address_word(random: &mut Random, storage: &mut [u8], base: usize) {
    let any = random.below(4000);
    let base = if random.percent(6) { random.pick(&[base + 1, base + 4, any, 0xFFFFF8, ADDRESSES - 1]) } else { base };
    let key = random.pick(&[0, 0x10, 0xF0, 0x70]) | u8::from(random.percent(2));
    let mut word = (base as u32).to_be_bytes();
    word[0] = key;
    storage[72..76].copy_from_slice(&word);
}

fn allowance(random: &mut Random) -> u16 {
    if random.one_in(150) {
        return 65535;
    }
    random.pick(&[0, 1, 1, 2, 3, 5, 9, 20, 60, 200, 200, 200])
}

/// The calls: mostly a start (none if a chain is going already) and goes, once or twice over.
fn calls(random: &mut Random, case: &mut Case, going: bool, base: usize, words: usize) {
    if !going && random.percent(96) || random.percent(3) {
        case.calls.push(Call::Start);
    }
    for _ in 0..random.between(1, 4) {
        case.calls.push(Call::Go(allowance(random)));
        if random.percent(12) {
            case.calls.push(meddle(random, case, base, words));
        }
        if random.percent(35) {
            case.calls.push(Call::Start);
        }
    }
    case.calls.push(Call::Go(allowance(random)));
}

/// What a host changes between calls: a byte of a word, a word, or a cell.
fn meddle(random: &mut Random, case: &Case, base: usize, words: usize) -> Call {
    let word = base + 8 * random.below(words.max(1));
    match random.below(4) {
        0 => Call::Bytes(word + random.below(8), vec![random.byte()]),
        1 => Call::Bytes(word, vec![random.pick(&[0x08, 0x03, 0x06, 0x1D])]),
        2 => Call::Cells(random.below(60), vec![random.pick(&[0, 0x0155, 0x0200])]),
        _ => Call::Cells(random.below(case.cells.len()), vec![random.pick(&[0, 0x0100, 0x0200])]),
    }
}

/// Wrong shapes, storages of a wrong size, held bytes that are none.
fn spoil(random: &mut Random, case: &mut Case) {
    match random.below(11) {
        0 => case.cylinders = random.pick(&[0, 204, case.cylinders + 1, 0x8000_0001, u32::MAX]),
        1 => case.heads = random.pick(&[0, 11, case.heads + 1, 0x1_0000 + case.heads, u32::MAX]),
        2 => {
            let len = case.cells.len();
            case.cells.resize(random.pick(&[0, 1, len - 1, len + 1, len + 4096]), 0x0155);
        }
        3 => {
            let len = if random.one_in(10) { ADDRESSES + 1 } else { random.pick(&[0, 1, 63, 71, 79, 79]) };
            case.storage.resize(len, 0);
        }
        4 => case.held.resize(random.pick(&[0, 1, 63, 65, 128]), 0),
        5 => case.held[random.below(24)] = random.pick(&[0, 1, 2, 16, 0x20, 0x31, 255]),
        6 => case.held[random.below(SIZE)] ^= 1 << random.below(8),
        7 => {
            // no such pack, but with the cells that it would have
            (case.cylinders, case.heads) = random.pick(&[(204, 1), (1, 11), (1, 11), (0, 1), (1, 0)]);
            case.cells.resize((case.cylinders * case.heads) as usize * TRACK, 0);
        }
        _ => states::to_the_limit(random, case),
    }
}
