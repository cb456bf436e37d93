//! Held states to begin with: between two chains, amid one, and values at their limits.
use crate::cases::Case;
use crate::chains::COMMANDS;
use crate::opinion::areas::TRACK;
use crate::opinion::held::{Held, Selection};
use crate::packs::Pack;
use crate::random::Random;
use crate::tracks::Record;

/// A box that rests over one of the pack's tracks.
pub fn between_chains(random: &mut Random, pack: &Pack) -> Held {
    let (cylinder, head) = pack.stand(random);
    let any = random.between(0, 4096);
    let last = pack.track((cylinder, head)).and_then(|track| track.records.last()).map_or(7, |record| record.at);
    let place = random.pick(&[0, 0, 0, 1, 6, 7, 8, any, 4096, last]);
    let sense = random.pick(&[[0, 0], [0, 0], [0x08, 0x80], [0xFF, 0x12]]);
    Held { cylinder, head, place, sense, ..Held::fresh() }
}

/// What a chain going holds before its next word, and a command that this state is meant for, with its record.
pub fn amid(random: &mut Random, pack: &Pack, held: &mut Held, base: usize) -> Option<(u8, Record)> {
    held.going = true;
    held.next = base;
    held.key = random.byte() & 15;
    held.mask = random.pick(&[0xC0, 0xC0, 0xC0, 0x00, 0x40, 0x80, 0x08, 0x10, 0x18]);
    held.mask_set = random.percent(50);
    held.after_tic = random.percent(20);
    held.tally = random.below(2) as u8;
    held.whole = random.percent(70);
    held.before = random.pick(&[0x31, 0x31, 0x31, 0x29, 0x29, 0x12, 0x15, 0x1D, 0x39, 0x39, 0x19, 0x51, 0x49]);
    if random.percent(15) {
        held.before = random.pick(&COMMANDS);
    }
    let records = &pack.track((held.cylinder, held.head))?.records;
    let any = records.get(random.below(records.len().max(1)))?;
    let dataless = records.iter().find(|record| record.dl() == 0 && record.kl() > 0);
    let record = dataless.filter(|_| random.percent(30)).unwrap_or(any).clone();
    let leaves_none = matches!(held.before, 0x39 | 0x19) && random.percent(90);
    held.selection = match record.marker {
        _ if leaves_none => Selection::None,
        Some(marker) => Selection::Marker(marker),
        None => Selection::R0,
    };
    let any = random.byte();
    let code = match held.before {
        _ if random.percent(18) => any,
        0x39 | 0x19 => 0x15,
        0x15 | 0x1D => 0x1D,
        0x31 if record.dl() == 0 && random.percent(50) => 0x0D,
        0x31 => random.pick(&[0x05, 0x0D, 0x0D, 0x0D, 0x1D, 0x06, 0x0E, 0x29]),
        0x29 => random.pick(&[0x05, 0x1D, 0x06, 0x05, 0x1D, 0x0D]),
        _ => random.pick(&COMMANDS),
    };
    Some((code, record))
}

/// A cell of the record, or of the home address, that is no byte any more or another byte.
pub fn harm(random: &mut Random, track: &mut [u16], record: &Record) {
    let (count, key, data) = (random.between(0, 10), random.below(record.kl() + 1), random.below(record.dl() + 2));
    let at = random.pick(&[
        count % 7,
        record.at + count,
        record.key_at() + key,
        record.key_at() + key,
        record.data_at() + data,
    ]);
    let at = at.min(TRACK - 1);
    track[at] = random.pick(&[0, 0x0055, 0x0200, track[at] ^ 1]);
}

/// A held value at its limit, or one beyond.
pub fn to_the_limit(random: &mut Random, case: &mut Case) {
    let beyond = random.below(2) as u8;
    let pairs: [(usize, [u8; 2]); 12] = [
        (0, [0, 1 + beyond]),
        (1, [15 + beyond, case.held[2]]),
        (3, [1 + beyond, case.held[4]]),
        (6, [1 + beyond, case.held[7]]),
        (8, [1 + beyond, case.held[9]]),
        (9, [1 + beyond, case.held[10]]),
        (10, [2 + beyond, 1 + beyond]),
        (12, [0x10 - beyond, 0xFF * beyond]),
        (12, [0, 6 + beyond]),
        (14, [0, case.cylinders as u8 - 1 + beyond]),
        (16, [0, case.heads as u8 - 1 + beyond]),
        (18, [0x10, beyond]),
    ];
    let (at, values) = random.pick(&pairs);
    case.held[at..at + 2].copy_from_slice(&values);
    if random.one_in(8) {
        case.held[20..24].copy_from_slice(&[beyond, 0xFF, 0xFF, 0xF8]);
    }
}
