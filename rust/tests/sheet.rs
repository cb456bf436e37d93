// A track as its home address and its records, and what each write makes of it. Its cells follow from them.
use crate::track::*;
use poplar::{Selection, TRACK_CELLS};
use std::ops::Range;

#[derive(Clone)]
pub struct Kept {
    pub flag: u8,
    // CCHHR, KL, DL
    pub count: [u8; 8],
    pub key: Vec<u8>,
    pub data: Vec<u8>,
}

#[derive(Clone)]
pub struct Sheet {
    pub home: [u8; 5],
    pub records: Vec<Kept>,
}

// What a write leaves, beside what its count and flags decide.
pub struct Wrote {
    pub sheet: Sheet,
    // the cells that it lays; all others stay
    pub lays: Vec<Range<usize>>,
    pub wanted: usize,
    pub unit: u8,
    pub place: usize,
    pub selection: Selection,
}

// So many of the bytes sent, from one on; missing bytes are zeros.
pub fn padded(sent: &[u8], from: usize, n: usize) -> Vec<u8> {
    (from..from + n).map(|i| sent.get(i).copied().unwrap_or(0)).collect()
}

impl Kept {
    // A new record of the bytes sent: count, key, data.
    fn sent(flag: u8, sent: &[u8]) -> Kept {
        let mut count = [0; 8];
        count.copy_from_slice(&padded(sent, 0, 8));
        let (kl, dl) = (usize::from(count[5]), 256 * usize::from(count[6]) + usize::from(count[7]));
        Kept { flag, count, key: padded(sent, 8, kl), data: padded(sent, 8 + kl, dl) }
    }

    pub fn of(flag: u8, record: &Record) -> Kept {
        Kept::sent(flag, &record.all())
    }

    pub fn key_cells(&self) -> usize {
        match self.key.len() {
            0 => 0,
            kl => kl + 2,
        }
    }

    pub fn data_cells(&self) -> usize {
        self.data.len().max(1) + 2
    }

    pub fn all_cells(&self) -> usize {
        11 + self.key_cells() + self.data_cells()
    }

    fn cells(&self) -> Vec<u16> {
        let mut cells = area(&[&[self.flag], &self.count[..]].concat());
        if !self.key.is_empty() {
            cells.extend(area(&self.key));
        }
        cells.extend(area(if self.data.is_empty() { &[0] } else { &self.data }));
        cells
    }
}

impl Sheet {
    // The first cell of a record's count area.
    pub fn first(&self, i: usize) -> usize {
        7 + i + self.records[..i].iter().map(Kept::all_cells).sum::<usize>()
    }

    // The cell behind a record.
    pub fn end(&self, i: usize) -> usize {
        self.first(i) + self.records[i].all_cells()
    }

    pub fn key(&self, i: usize) -> Range<usize> {
        let from = self.first(i) + 11;
        from..from + self.records[i].key_cells()
    }

    pub fn data(&self, i: usize) -> Range<usize> {
        let from = self.key(i).end;
        from..from + self.records[i].data_cells()
    }

    pub fn spot(&self, i: usize) -> Selection {
        match i {
            0 => Selection::R0,
            _ => marker(self.first(i) - 1),
        }
    }

    pub fn fits(&self) -> bool {
        self.records.is_empty() || self.end(self.records.len() - 1) <= TRACK_CELLS
    }

    // The whole track; what lies off it is left out.
    pub fn cells(&self) -> Vec<u16> {
        let mut cells = area(&self.home);
        for (i, record) in self.records.iter().enumerate() {
            if i > 0 {
                cells.push(MARKER);
            }
            cells.extend(record.cells());
        }
        cells.resize(TRACK_CELLS, 0);
        cells
    }

    // The track of the searches and reads.
    pub fn four() -> Sheet {
        Sheet::of(&[R0, R1, R2, R3])
    }

    pub fn of(records: &[Record]) -> Sheet {
        let flag = |i| if i % 2 == 1 { 0x81 } else { 0x01 };
        Sheet { home: HOME, records: records.iter().enumerate().map(|(i, r)| Kept::of(flag(i), r)).collect() }
    }

    // A record behind the first so many, and all later cells.
    fn format(&self, behind: usize, new: Kept) -> Option<Wrote> {
        let mut sheet = self.clone();
        sheet.records.truncate(behind);
        let wanted = 8 + new.key.len() + new.data.len();
        sheet.records.push(new);
        if !sheet.fits() {
            return None;
        }
        let first = sheet.first(behind);
        let from = if behind == 0 { first } else { first - 1 };
        let selection = sheet.spot(behind);
        Some(Wrote { sheet, lays: vec![from..TRACK_CELLS], wanted, unit: 0x0C, place: first, selection })
    }

    fn update(&self, i: usize, key: bool, sent: &[u8]) -> Wrote {
        let mut sheet = self.clone();
        let kept = &mut sheet.records[i];
        let (kl, dl) = (if key { kept.key.len() } else { 0 }, kept.data.len());
        let mut lays = Vec::new();
        if kl > 0 {
            kept.key = padded(sent, 0, kl);
            lays.push(self.key(i));
        }
        if dl > 0 {
            kept.data = padded(sent, kl, dl);
            lays.push(self.data(i));
        }
        let unit = if dl == 0 { 0x0D } else { 0x0C };
        Wrote { sheet, lays, wanted: kl + dl, unit, place: self.first(i), selection: Selection::None }
    }

    // What a write with the bytes of its count leaves, on or behind a record; none where there is no room.
    pub fn write(&self, code: u8, i: usize, sent: &[u8]) -> Option<Wrote> {
        match code {
            0x19 => {
                let mut home = [0; 5];
                home.copy_from_slice(&padded(sent, 0, 5));
                let sheet = Sheet { home, records: Vec::new() };
                let lays = vec![0..TRACK_CELLS];
                Some(Wrote { sheet, lays, wanted: 5, unit: 0x0C, place: 1, selection: Selection::None })
            }
            0x15 => self.format(0, Kept::sent(self.home[0] & 0x03, sent)),
            // Bit 0 changes, bits 6 and 7 are those before, the others are 0.
            0x1D => self.format(i + 1, Kept::sent((self.records[i].flag ^ 0x80) & 0x83, sent)),
            0x05 => Some(self.update(i, false, sent)),
            _ => Some(self.update(i, true, sent)),
        }
    }
}

impl Wrote {
    // The track that was there, with what was laid over it.
    pub fn over(&self, track: &[u16]) -> Vec<u16> {
        let new = self.sheet.cells();
        let mut track = track.to_vec();
        for lays in &self.lays {
            track[lays.clone()].copy_from_slice(&new[lays.clone()]);
        }
        track
    }
}
