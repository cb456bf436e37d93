// The packs that are read, searched and written, how their tracks are made cell by cell, and what a chain leaves held.
use crate::areas::{data_cells, record_cells, COUNT_CELLS, MARKER, R0};
use crate::common::Started;
use crate::remainder::next_by_bits;
use poplar::{Answer, Shape, HELD_LAYOUT, HELD_SIZE, TRACK_CELLS};

pub const SEEK_BYTES: usize = 6;

// Where the first marker lies after an R0 of 8 bytes.
pub const FIRST_MARKER: usize = R0 + COUNT_CELLS + data_cells(8);

// Bytes from a xorshift generator.
pub struct Bytes(pub u64);

impl Bytes {
    pub fn next(&mut self) -> u8 {
        self.0 ^= self.0 << 13;
        self.0 ^= self.0 >> 7;
        self.0 ^= self.0 << 17;
        (self.0 >> 56) as u8
    }

    pub fn take(&mut self, n: usize) -> Vec<u8> {
        std::iter::repeat_with(|| self.next()).take(n).collect()
    }
}

// ---- tracks

pub struct Record {
    pub number: u8,
    pub key: Vec<u8>,
    pub data: Vec<u8>,
}

impl Record {
    // The count as it moves.
    pub fn count(&self, at: [u8; 4]) -> Vec<u8> {
        let [high, low] = (self.data.len() as u16).to_be_bytes();
        [&at[..], &[self.number, self.key.len() as u8, high, low]].concat()
    }

    // Count, key and data as they move.
    pub fn moved(&self, at: [u8; 4]) -> Vec<u8> {
        [&self.count(at)[..], &self.key, &self.data].concat()
    }
}

// A track while it is written, cell by cell.
pub struct Track(pub Vec<u16>);

impl Track {
    // An area: its bytes and their check.
    fn area(&mut self, bytes: &[u8]) {
        let r = bytes.iter().fold(0, |r, &b| next_by_bits(r, b.into()));
        let check = r.to_be_bytes();
        let all = bytes.iter().chain(&check);
        self.0.extend(all.map(|&b| 256 + u16::from(b)));
    }

    pub fn record(&mut self, flag: u8, at: [u8; 4], record: &Record) {
        self.area(&[&[flag], &record.count(at)[..]].concat());
        if !record.key.is_empty() {
            self.area(&record.key);
        }
        self.area(&record.data);
    }
}

// A soundly written track: home address, R0 of 8 bytes, and these records.
pub fn track(cylinder: u16, head: u16, records: &[Record]) -> Vec<u16> {
    let mut track = Track(Vec::new());
    let [a, b] = cylinder.to_be_bytes();
    let [c, d] = head.to_be_bytes();
    track.area(&[0, a, b, c, d]);
    let r0 = Record { number: 0, key: Vec::new(), data: vec![0; 8] };
    track.record(0, [a, b, c, d], &r0);
    for (i, record) in records.iter().enumerate() {
        track.0.push(MARKER);
        let flag = if i % 2 == 0 { 0x80 } else { 0 };
        track.record(flag, [a, b, c, d], record);
    }
    assert!(track.0.len() <= TRACK_CELLS);
    track.0.resize(TRACK_CELLS, 0);
    track.0
}

// ---- packs

// So many tracks, ten to a cylinder, of so many records each, with data of so many bytes and no key.
#[derive(Clone, Copy)]
pub struct Load {
    pub tracks: usize,
    pub records: usize,
    pub data: usize,
}

pub const FULL_LOAD: Load = Load { tracks: 2030, records: 10, data: 294 };

const HEADS: usize = 10;

impl Load {
    pub fn all_records(self) -> usize {
        self.tracks * self.records
    }

    // A record's count and data, as they move.
    pub fn moved(self) -> usize {
        8 + self.data
    }

    pub fn shape(self) -> Shape {
        assert!(self.tracks % HEADS == 0);
        Shape { cylinders: (self.tracks / HEADS) as u32, heads: HEADS as u32 }
    }

    pub fn cells(self) -> usize {
        self.tracks * TRACK_CELLS
    }

    // The cell of the marker of a track's record.
    pub fn marker(self, record: usize) -> usize {
        FIRST_MARKER + record * record_cells(0, self.data)
    }

    // The place after so many records of a track, or this one before the first.
    pub fn place_after(self, records: usize, first: usize) -> u16 {
        match records {
            0 => first as u16,
            n => (self.marker(n - 1) + 1) as u16,
        }
    }

    // The records of each track.
    pub fn records_of_all(self) -> Vec<Vec<Record>> {
        let mut bytes = Bytes(0x2311_2841_0360_0294);
        let mut one = |number: usize| Record { number: number as u8, key: Vec::new(), data: bytes.take(self.data) };
        (0..self.tracks).map(|_| (1..=self.records).map(&mut one).collect()).collect()
    }

    // Every track, soundly written.
    pub fn pack(self) -> Vec<u16> {
        let mut pack = Vec::with_capacity(self.cells());
        for (i, records) in self.records_of_all().iter().enumerate() {
            let (cylinder, head) = cylinder_and_head(i);
            pack.extend(track(cylinder, head, records));
        }
        pack
    }
}

pub fn cylinder_and_head(track: usize) -> (u16, u16) {
    ((track / HEADS) as u16, (track % HEADS) as u16)
}

pub fn seek_address(track: usize) -> [u8; SEEK_BYTES] {
    let (cylinder, head) = cylinder_and_head(track);
    let [a, b] = cylinder.to_be_bytes();
    let [c, d] = head.to_be_bytes();
    [0, 0, a, b, c, d]
}

// ---- what a chain leaves

// Storage and held.
pub type Left = (Vec<u8>, [u8; HELD_SIZE]);

// The held state after a chain's end.
pub fn ended(sense: [u8; 2], (cylinder, head): (u16, u16), place: u16) -> [u8; HELD_SIZE] {
    let mut held = [0; HELD_SIZE];
    held[4..6].copy_from_slice(&sense);
    held[11] = HELD_LAYOUT;
    held[14..16].copy_from_slice(&cylinder.to_be_bytes());
    held[16..18].copy_from_slice(&head.to_be_bytes());
    held[18..20].copy_from_slice(&place.to_be_bytes());
    held
}

// The chain ended, and left this in storage and held.
pub fn same(what: &str, begun: &Started, answer: Answer, should: &Left) -> Result<(), String> {
    if answer != Answer::Ended {
        return Err(format!("{what}: the answer is {answer:?}"));
    }
    same_left(what, begun, should)
}

// It left this in storage and held, whether it ended or not.
pub fn same_left(what: &str, begun: &Started, should: &Left) -> Result<(), String> {
    let (storage, held) = should;
    if begun.held != *held {
        let is = begun.held;
        return Err(format!("{what}: held differs: {is:02X?}, not {held:02X?}"));
    }
    match (0..storage.len()).find(|&i| begun.storage[i] != storage[i]) {
        None => Ok(()),
        Some(i) => {
            let (is, should) = (begun.storage[i], storage[i]);
            Err(format!("{what}: byte {i} of storage is {is:02X}, not {should:02X}"))
        }
    }
}

pub fn same_cells(what: &str, is: &[u16], should: &[u16]) -> Result<(), String> {
    match (0..should.len()).find(|&i| is[i] != should[i]) {
        None => Ok(()),
        Some(i) => {
            let (is, should) = (is[i], should[i]);
            Err(format!("{what}: cell {i} is {is:04X}, not {should:04X}"))
        }
    }
}
