//! Tracks to run on: sound, then damaged; empty; full; random cells.
use crate::opinion::areas::{data_cells, key_cells, laid, COUNT_AREA, FIRST, MARKER, TRACK};
use crate::random::Random;

/// A record as it was laid; what damage does to it is not written back here.
#[derive(Clone)]
pub struct Record {
    /// of the count area
    pub at: usize,
    pub marker: Option<usize>,
    pub count: [u8; 8],
    pub key: Vec<u8>,
}

impl Record {
    pub fn kl(&self) -> usize {
        usize::from(self.count[5])
    }
    pub fn dl(&self) -> usize {
        usize::from(self.count[6]) << 8 | usize::from(self.count[7])
    }
    pub fn key_at(&self) -> usize {
        self.at + COUNT_AREA
    }
    pub fn data_at(&self) -> usize {
        self.key_at() + key_cells(self.kl())
    }
    pub fn after(&self) -> usize {
        self.data_at() + data_cells(self.dl())
    }
}

pub struct Track {
    pub cells: Vec<u16>,
    pub home: [u8; 5],
    /// R0 first, if there is one
    pub records: Vec<Record>,
}

/// A key and a data length of a kind that records have: mostly small, often zero, now and then large.
pub fn lengths(random: &mut Random) -> (usize, usize) {
    let small = random.between(1, 12);
    let kl = random.pick(&[0, 0, 1, 4, small]);
    let kl = if random.one_in(60) { random.below(256) } else { kl };
    let data = random.between(1, 40);
    let dl = random.pick(&[0, 8, data, data, data]);
    let dl = if random.one_in(60) { random.below(4000) } else { dl };
    (kl, dl)
}

/// The eight bytes CCHHR, KL, DL.
pub fn count_bytes(stand: (u16, u16), number: u8, (kl, dl): (usize, usize)) -> [u8; 8] {
    let [c0, c1] = stand.0.to_be_bytes();
    let [h0, h1] = stand.1.to_be_bytes();
    [c0, c1, h0, h1, number, kl as u8, (dl >> 8) as u8, dl as u8]
}

/// A track of one of the kinds.
pub fn track(random: &mut Random, stand: (u16, u16)) -> Track {
    let kind = random.below(100);
    let mut track = match kind {
        0..=4 => blank(),
        5..=7 => sound(random, stand, 0),
        8..=13 => sound(random, stand, 1),
        14..=16 => scattered(random, stand),
        _ => {
            let records = random.between(2, 7);
            sound(random, stand, records)
        }
    };
    if random.percent(15) {
        fill(random, stand, &mut track);
    }
    if random.percent(35) {
        for _ in 0..random.between(1, 3) {
            damage(random, &mut track);
        }
    }
    track
}

fn blank() -> Track {
    Track { cells: vec![0; TRACK], home: [0; 5], records: Vec::new() }
}

/// A soundly written track with so many records, R0 counted; with none it has a home address only.
fn sound(random: &mut Random, stand: (u16, u16), records: usize) -> Track {
    let mut track = blank();
    let flag = random.pick(&[0, 0, 1, 2, 3, 0xFF]);
    track.home[0] = flag;
    track.home[1..5].copy_from_slice(&count_bytes(stand, 0, (0, 0))[..4]);
    lay(&mut track.cells, 0, &laid(&track.home));
    // records need not name the track that they lie on
    let far = (random.next() as u16, random.next() as u16);
    let named = if random.percent(25) { far } else { stand };
    for number in 0..records {
        let lengths = if number == 0 && random.percent(50) { (0, 8) } else { lengths(random) };
        let id = if random.percent(85) { number as u8 } else { random.byte() };
        append(random, &mut track, count_bytes(named, id, lengths));
    }
    track
}

/// One record more, if it fits.
fn append(random: &mut Random, track: &mut Track, count: [u8; 8]) {
    let (start, marker, flag) = match track.records.last() {
        None => (FIRST, None, track.home[0] & 3),
        Some(last) => {
            let turned = if track.records.len() % 2 == 1 { 0x80 } else { 0 };
            (last.after() + 1, Some(last.after()), turned | track.home[0] & 3)
        }
    };
    let mut record = Record { at: start, marker, count, key: Vec::new() };
    if record.after() > TRACK {
        return;
    }
    record.key = random.bytes(record.kl());
    if random.percent(30) {
        // keys that searches find in order
        record.key.fill(track.records.len() as u8);
    }
    if let Some(marker) = marker {
        track.cells[marker] = MARKER;
    }
    lay(&mut track.cells, start, &laid(&[&[flag], &count[..]].concat()));
    if record.kl() > 0 {
        lay(&mut track.cells, record.key_at(), &laid(&record.key));
    }
    let data = if record.dl() == 0 { vec![0] } else { random.bytes(record.dl()) };
    lay(&mut track.cells, record.data_at(), &laid(&data));
    track.records.push(record);
}

/// A last record that leaves no room, or next to none.
fn fill(random: &mut Random, stand: (u16, u16), track: &mut Track) {
    let Some(last) = track.records.last() else { return };
    let left = random.pick(&[0, 0, 1, 5, 14, 15, 16, 30, 60]);
    let taken = last.after() + 1 + COUNT_AREA + 2 + left;
    if taken + 2 < TRACK {
        append(random, track, count_bytes(stand, 0x77, (0, TRACK - taken)));
    }
}

/// Random cells, of every sort, after a sound beginning.
fn scattered(random: &mut Random, stand: (u16, u16)) -> Track {
    let mut track = sound(random, stand, 2);
    let from = random.pick(&[0, 7, 18, 30, 60]);
    let sparse = random.pick(&[3, 10, 100]);
    for cell in &mut track.cells[from..] {
        if random.one_in(sparse) {
            let byte = u16::from(random.byte());
            *cell = random.pick(&[0, 256 + byte, 256 + byte, MARKER, byte << 8, 0x200 + byte]);
        }
    }
    track
}

fn lay(cells: &mut [u16], at: usize, new: &[u16]) {
    cells[at..at + new.len()].copy_from_slice(new);
}

/// One thing wrong with a track.
fn damage(random: &mut Random, track: &mut Track) {
    let at = target(random, track);
    match random.below(7) {
        0 | 1 => track.cells[at] ^= 1 << random.below(8),
        2 => track.cells[at] = random.pick(&[0, 0, 0x0055, 0x0355, 0xFFFF]),
        3 => track.cells[at] = MARKER,
        4 => misname(random, track),
        5 => stray(random, track),
        _ => {
            // a record loses its marker
            if let Some(marker) = track.records.last().and_then(|record| record.marker) {
                track.cells[marker] = 0;
            }
        }
    }
}

/// A cell of the home address or of one of a record's areas.
fn target(random: &mut Random, track: &Track) -> usize {
    if track.records.is_empty() || random.one_in(6) {
        return random.below(7);
    }
    let record = &track.records[random.below(track.records.len())];
    let (first, after) = match random.below(3) {
        0 => (record.at, record.key_at()),
        1 => (record.key_at(), record.data_at()),
        _ => (record.data_at(), record.after()),
    };
    // a misnamed record's areas may be off the track
    if first == after {
        record.at
    } else {
        random.between(first, after - 1).min(TRACK - 1)
    }
}

/// A count whose check agrees but whose lengths are not those of the areas; they may be off the track's end.
fn misname(random: &mut Random, track: &mut Track) {
    if track.records.is_empty() {
        return;
    }
    let chosen = random.below(track.records.len());
    let record = &mut track.records[chosen];
    let far = random.pick(&[5, 300, 4000, 4090, 5000, 65535]);
    record.count[6..].copy_from_slice(&(far as u16).to_be_bytes());
    if random.percent(40) {
        record.count[5] = random.pick(&[0, 1, 9, 255]);
    }
    let (at, flag) = (record.at, random.byte());
    let cells = laid(&[&[flag], &record.count[..]].concat());
    lay(&mut track.cells, at, &cells);
}

/// A marker where none belongs: near the end, so that its areas fall off, or anywhere.
fn stray(random: &mut Random, track: &mut Track) {
    let near = random.between(1, 30);
    let marker = random.pick(&[TRACK - near, TRACK - 1, TRACK - 12, FIRST, FIRST - 1, 4000]);
    track.cells[marker] = MARKER;
    if marker + 12 <= TRACK && random.percent(60) {
        let count = count_bytes((0, 0), 0x55, (near % 3, near));
        lay(&mut track.cells, marker + 1, &laid(&[&[0x80], &count[..]].concat()));
    }
}
