// The two command lists of Appendix A of the 2841's manual, word for word and at their own addresses: home addresses and R0 on
// all 2,030 tracks, then three records on cylinder 3, head 7, read back, and a search for a fourth. docs/MANUAL.md has the account.
use crate::lent::*;
use crate::sheet::*;
use poplar::{Answer, Selection, Shape, HELD_LAYOUT, HELD_SIZE, TRACK_CELLS};

const PACK: Shape = Shape { cylinders: 203, heads: 10 };

// Labels of the listing, and the word that each list begins with.
const WRDKHA: usize = 0x2B0;
const WR3REC: usize = 0x2F0;
const NORCFD: usize = 0x370;
const HAMASK: usize = 0x3CB;
const BBCCHH: usize = 0x5F0;
const FCCHH: usize = 0x5F8;
const ROCNT: usize = 0x600;
const ROCMPR: usize = 0x620;
const RECO: usize = 0x63C;
const REC1: usize = 0x641;
const REC2: usize = 0xA59;
const REC3: usize = 0xA91;
const REC1KD: usize = 0xCAC;
const REC2CD: usize = 0x10BC;
const REC3CD: usize = 0x10F4;
const REC4: usize = 0x130C;

// Code, address, flags, count.
type Ccw = (u8, usize, u8, u16);

const HOME_LIST: [Ccw; 8] = [
    (0x1F, HAMASK, 0x40, 1),
    (0x07, BBCCHH + 2, 0x40, 6),
    (0x19, FCCHH + 3, 0x40, 5),
    (0x15, ROCNT, 0x40, 24),
    (0x39, FCCHH + 4, 0x40, 4),
    (0x08, 0x2E8, 0, 0),
    (0x16, ROCMPR, 0, 24),
    (0x03, 0x2E8, 0, 0),
];

const RECORD_LIST: [Ccw; 17] = [
    (0x1F, HAMASK, 0x40, 1),
    (0x07, RECO - 2, 0x40, 6),
    (0x39, RECO, 0x40, 4),
    (0x08, NORCFD, 0, 0),
    (0x31, RECO, 0x40, 5),
    (0x08, NORCFD, 0, 0),
    (0x1D, REC1, 0x40, 1048),
    (0x1D, REC2, 0x40, 56),
    (0x1D, REC3, 0x40, 536),
    (0x31, REC1, 0x40, 5),
    (0x08, 0x338, 0, 0),
    (0x0E, REC1KD, 0x40, 1040),
    (0x1E, REC2CD, 0x40, 56),
    (0x1E, REC3CD, 0x40, 536),
    (0x31, REC4, 0x40, 5),
    (0x08, 0x360, 0, 0),
    (0x03, NORCFD, 0, 0),
];

fn ccw((code, address, flags, count): Ccw) -> [u8; 8] {
    let [high, low] = count.to_be_bytes();
    let [_, a, b, c] = (address as u32).to_be_bytes();
    [code, a, b, c, flags, 0, high, low]
}

// A count: cylinder, head, record, key length, data length.
fn count_of(cylinder: usize, head: usize, record: u8, kl: u8, dl: u16) -> Vec<u8> {
    let [c1, c2] = (cylinder as u16).to_be_bytes();
    let [h1, h2] = (head as u16).to_be_bytes();
    let [d1, d2] = dl.to_be_bytes();
    vec![c1, c2, h1, h2, record, kl, d1, d2]
}

// Storage as the listing has it, with key and data where it leaves them open.
fn listing() -> Vec<u8> {
    let mut storage = vec![0; 0x1400];
    for (at, list) in [(WRDKHA, &HOME_LIST[..]), (WR3REC, &RECORD_LIST[..])] {
        for (i, &word) in list.iter().enumerate() {
            storage[at + 8 * i..][..8].copy_from_slice(&ccw(word));
        }
    }
    storage[HAMASK] = 0xC0;
    storage[ROCNT + 7] = 0x10;
    storage[RECO..][..5].copy_from_slice(&[0, 3, 0, 7, 0]);
    for (at, record, dl) in [(REC1, 1, 0x400), (REC2, 2, 0x20), (REC3, 3, 0x200)] {
        storage[at..][..8].copy_from_slice(&count_of(3, 7, record, 0x10, dl));
        for (i, byte) in storage[at + 8..][..16 + usize::from(dl)].iter_mut().enumerate() {
            *byte = (i * usize::from(record) + i / 256 + 0x40) as u8;
        }
    }
    // RECORD 3 KEYKEY
    let key = [0xD9, 0xC5, 0xC3, 0xD6, 0xD9, 0xC4, 0x40, 0xF3, 0x40, 0xD2, 0xC5, 0xE8, 0xD2, 0xC5, 0xE8, 0x40];
    storage[REC3 + 8..][..16].copy_from_slice(&key);
    storage[REC4..][..5].copy_from_slice(&[0, 3, 0, 7, 4]);
    storage
}

// A fresh box on a pack that was never written.
fn fresh(shape: Shape) -> World {
    let mut held = vec![0; HELD_SIZE];
    held[11] = HELD_LAYOUT;
    World { held, storage: listing(), cells: vec![0; shape.cells() as usize], shape }
}

impl World {
    // What the routine HAROWT stores for a track.
    fn for_track(&mut self, cylinder: usize, head: usize) {
        for (at, value) in [(BBCCHH + 4, cylinder), (BBCCHH + 6, head), (FCCHH + 4, cylinder), (FCCHH + 6, head)] {
            self.store(at, &(value as u16).to_be_bytes());
        }
        self.store(ROCNT, &(cylinder as u16).to_be_bytes());
        self.store(ROCNT + 2, &(head as u16).to_be_bytes());
    }

    // The subroutine EXCP: the address word, with key 0, and a start.
    fn excp(&mut self, list: usize) -> Answer {
        self.store(72, &(list as u32).to_be_bytes());
        self.start()
    }

    fn status_word(&self) -> [u8; 8] {
        let mut word = [0; 8];
        word.copy_from_slice(&self.storage[64..72]);
        word
    }
}

// What a track has behind the first list, and behind the second.
fn formatted(cylinder: usize, head: usize) -> Sheet {
    let id = count_of(cylinder, head, 0, 0, 16);
    let sheet = Sheet { home: [0, id[0], id[1], id[2], id[3]], records: Vec::new() };
    sheet.write(0x15, 0, &id).expect("R0 has room").sheet
}

fn filled(storage: &[u8]) -> Sheet {
    let mut sheet = formatted(3, 7);
    for (i, (at, count)) in [(REC1, 1048), (REC2, 56), (REC3, 536)].into_iter().enumerate() {
        sheet = sheet.write(0x1D, i, &storage[at..at + count]).expect("a record has room").sheet;
    }
    sheet
}

// Home addresses and R0 on every track, each read back as the routine compares it.
pub fn all_tracks(tally: &mut Tally) {
    let mut world = fresh(PACK);
    let mut should = Vec::new();
    for cylinder in 0..203 {
        for head in 0..10 {
            let what = format!("cylinder {cylinder}, head {head}");
            world.for_track(cylinder, head);
            tally.same(&what, world.excp(WRDKHA), Answer::NotEnded);
            tally.same(&what, world.go(100), Answer::Ended);
            tally.same(&what, world.status_word(), status_bytes(0, status(0x2E0, 0x0C, 0, 0)));
            let read_back = world.storage[ROCMPR..][..24] == world.storage[ROCNT..][..24];
            tally.holds(&format!("{what}: read back check"), read_back);
            should.extend(formatted(cylinder, head).cells());
        }
    }
    tally.holds("every cell of 2,030 tracks", world.cells == should);

    // The second list on that pack: only track 37 changes.
    tally.same("WR3REC", world.excp(WR3REC), Answer::NotEnded);
    tally.same("WR3REC", world.go(100), Answer::Ended);
    tally.same("No Record Found", world.status_word(), status_bytes(0, status(0x360, 0x0E, 0, 5)));
    tally.same("its sense", world.view().sense(), [0x00, 0x08]);
    let sheet = filled(&world.storage);
    should[37 * TRACK_CELLS..][..TRACK_CELLS].copy_from_slice(&sheet.cells());
    tally.holds("every cell of 2,030 tracks, three records on one", world.cells == should);
}

// A small pack with the track of the example, formatted by the first list.
const SMALL: Shape = Shape { cylinders: 4, heads: 8 };
const TRACK: usize = 3 * 8 + 7;

fn formatted_world() -> World {
    let mut world = fresh(SMALL);
    world.cells[TRACK * TRACK_CELLS..][..TRACK_CELLS].copy_from_slice(&formatted(3, 7).cells());
    world.for_track(3, 7);
    world
}

// Word by word: after each the next word, the place, what is selected and the tally. The last word ends the chain.
type After = (usize, u16, Selection, u8);

fn word_by_word(tally: &mut Tally, what: &str, world: &mut World, list: usize, after: &[After]) {
    tally.same(what, world.excp(list), Answer::NotEnded);
    for (i, &(next, place, selection, index)) in after.iter().enumerate() {
        let what = format!("{what}, word {}", i + 1);
        tally.same(&what, world.go(1), Answer::NotEnded);
        tally.same(&what, world.view().next(), next as u32);
        tally.same(&what, world.view().place(), place);
        tally.same(&what, world.view().selection(), selection);
        tally.same(&what, world.view().tally(), index);
    }
    tally.same(what, world.go(1), Answer::Ended);
}

// The same list, cut short behind each of its words: the status word of each.
fn cut_short(tally: &mut Tally, begun: &World, list: usize, words: &[Ccw], units: &[(usize, u8)]) {
    for &(i, unit) in units {
        let mut world = begun.clone();
        let (code, address, _, count) = words[i];
        world.store(list + 8 * i, &ccw((code, address, 0, count)));
        let what = format!("up to the word at {:X}", list + 8 * i);
        tally.same(&what, world.excp(list), Answer::NotEnded);
        tally.same(&what, world.go(100), Answer::Ended);
        tally.same(&what, world.status_word(), status_bytes(0, status(list + 8 * i, unit, 0, 0)));
        tally.same(&what, world.view().sense(), [0, 0]);
    }
}

pub fn home_list(tally: &mut Tally) {
    let mut world = fresh(SMALL);
    world.for_track(3, 7);
    let begun = world.clone();
    let none = Selection::None;
    let after = [
        (0x2B8, 0, none, 0),
        (0x2C0, 0, none, 0),
        (0x2C8, 1, none, 0),
        (0x2D0, 7, Selection::R0, 0),
        (0x2E0, 1, none, 0),
    ];
    word_by_word(tally, "WRDKHA", &mut world, WRDKHA, &after);
    tally.same("WRDKHA", world.status_word(), status_bytes(0, status(0x2E0, 0x0C, 0, 0)));
    tally.same("its place", world.view().place(), 7);
    let should = formatted_world();
    tally.holds("every cell", world.cells == should.cells);
    tally.holds("what it reads back", world.storage[ROCMPR..][..24] == begun.storage[ROCNT..][..24]);
    let units = [(0, 0x0C), (1, 0x0C), (2, 0x0C), (3, 0x0C), (4, 0x4C), (6, 0x0C)];
    cut_short(tally, &begun, WRDKHA, &HOME_LIST, &units);

    // The error exit, for a home address that is not the one looked for: a No-op of count 0 is a program check here.
    for (count, unit, channel, left) in [(0, 0x00, 0x20, 0), (1, 0x0C, 0x00, 1)] {
        let mut world = begun.clone().storing(0x2E8, &ccw((0x03, 0x2E8, 0, count)));
        tally.same("to the error exit", world.excp(WRDKHA), Answer::NotEnded);
        tally.same("to the error exit", world.go(4), Answer::NotEnded);
        world.store(FCCHH + 7, &[6]);
        tally.same("to the error exit", world.go(100), Answer::Ended);
        tally.same("the error exit", world.status_word(), status_bytes(0, status(0x2E8, unit, channel, left)));
        tally.same("its sense", world.view().sense(), [0, 0]);
        tally.holds("every cell", world.cells == should.cells);
    }
}

// Where the second list lays the markers of its three records.
const M1: u16 = 36;
const M2: u16 = 1092;
const M3: u16 = 1156;

const AT_1: Selection = Selection::Marker(M1);
const AT_2: Selection = Selection::Marker(M2);
const AT_3: Selection = Selection::Marker(M3);

const RECORD_AFTER: [After; 21] = [
    (0x2F8, 0, Selection::None, 0),
    (0x300, 0, Selection::None, 0),
    (0x310, 1, Selection::None, 0),
    // Search HA and then Search ID for R0: the place is 1.
    (0x320, 7, Selection::R0, 0),
    (0x328, M1 + 1, AT_1, 0),
    (0x330, M2 + 1, AT_2, 0),
    (0x338, M3 + 1, AT_3, 0),
    // The search for R1 passes the index and takes R0 first.
    (0x340, 7, Selection::R0, 1),
    (0x338, 7, Selection::R0, 1),
    (0x348, M1 + 1, AT_1, 1),
    (0x350, M1 + 1, Selection::None, 0),
    (0x358, M2 + 1, Selection::None, 0),
    (0x360, M3 + 1, Selection::None, 0),
    // R4: R0 behind the index, the three records, and the index again.
    (0x368, 7, Selection::R0, 1),
    (0x360, 7, Selection::R0, 1),
    (0x368, M1 + 1, AT_1, 1),
    (0x360, M1 + 1, AT_1, 1),
    (0x368, M2 + 1, AT_2, 1),
    (0x360, M2 + 1, AT_2, 1),
    (0x368, M3 + 1, AT_3, 1),
    (0x360, M3 + 1, AT_3, 1),
];

// The words of the second list that it is cut short behind, and the unit status of each.
const RECORD_UNITS: [(usize, u8); 12] = [
    (0, 0x0C),
    (1, 0x0C),
    (2, 0x4C),
    (4, 0x4C),
    (6, 0x0C),
    (7, 0x0C),
    (8, 0x0C),
    // searches that are not satisfied yet
    (9, 0x0C),
    (11, 0x0C),
    (12, 0x0C),
    (13, 0x0C),
    (14, 0x0C),
];

pub fn record_list(tally: &mut Tally) {
    let begun = formatted_world();
    let world = records_written(tally, &begun);
    cut_short(tally, &begun, WR3REC, &RECORD_LIST, &RECORD_UNITS);
    records_written_again(tally, &world);
    // The exit: another home address, or another R0.
    record_list_exit(tally, &begun, "home address", 4, 0x06);
    record_list_exit(tally, &begun, "R0", 11, 0x09);
}

// The whole list: every byte and every cell. What it leaves.
fn records_written(tally: &mut Tally, begun: &World) -> World {
    let sheet = filled(&begun.storage);
    tally.same("the markers", [1, 2, 3].map(|i| sheet.spot(i)), [AT_1, AT_2, AT_3]);
    let mut world = begun.clone();
    word_by_word(tally, "WR3REC", &mut world, WR3REC, &RECORD_AFTER);
    tally.same("No Record Found", world.status_word(), status_bytes(0, status(0x360, 0x0E, 0, 5)));
    tally.same("its sense", world.view().sense(), [0x00, 0x08]);
    tally.same("its place", world.view().place(), M3 + 1);
    let mut should = begun.clone();
    should.cells[TRACK * TRACK_CELLS..][..TRACK_CELLS].copy_from_slice(&sheet.cells());
    for (to, from, n) in [(REC1KD, REC1 + 8, 1040), (REC2CD, REC2, 56), (REC3CD, REC3, 536)] {
        should.store(to, &begun.storage[from..from + n]);
    }
    should.store(72, &(WR3REC as u32).to_be_bytes());
    should.store(64, &status_bytes(0, status(0x360, 0x0E, 0, 5)));
    tally.holds("every byte", world.storage == should.storage);
    tally.holds("every cell", world.cells == should.cells);
    world
}

// A second run finds what the first wrote and writes it over: the same track.
fn records_written_again(tally: &mut Tally, world: &World) {
    let mut again = world.clone();
    tally.same("again", again.excp(WR3REC), Answer::NotEnded);
    tally.same("again", again.go(100), Answer::Ended);
    tally.holds("again the same", again.storage == world.storage && again.cells == world.cells);
}

// The exit, for a track with another byte in this cell: its No-op of count 0 is a program check here.
fn record_list_exit(tally: &mut Tally, begun: &World, what: &str, cell: usize, value: u8) {
    for (count, unit, channel, left) in [(0, 0x00, 0x20, 0), (1, 0x0C, 0x00, 1)] {
        let mut sheet = formatted(3, 7);
        if cell < 7 {
            sheet.home[cell] = value;
        } else {
            sheet.records[0].count[cell - 7] = value;
        }
        let mut world = begun.clone().storing(NORCFD, &ccw((0x03, NORCFD, 0, count)));
        world.cells[TRACK * TRACK_CELLS..][..TRACK_CELLS].copy_from_slice(&sheet.cells());
        let cells = world.cells.clone();
        tally.same(what, world.excp(WR3REC), Answer::NotEnded);
        tally.same(what, world.go(100), Answer::Ended);
        tally.same(what, world.status_word(), status_bytes(0, status(NORCFD, unit, channel, left)));
        tally.holds(&format!("another {what}: no cell changes"), world.cells == cells);
    }
}
