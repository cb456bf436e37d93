//! What lies on a track: cells, markers, areas with their check, counts, and the hunt for the next record.
use super::events::Row;
use super::held::Selection;
use super::{Checked, Wrong};

pub const TRACK: usize = 4096;
pub const MARKER: u16 = 512;
/// R0's count area, and the first cell where a marker counts.
pub const FIRST: usize = 7;
pub const COUNT_AREA: usize = 11;

/// The HOUSE check: polynomial 1021 hex, start 0, high bit first.
pub fn check(bytes: &[u8]) -> [u8; 2] {
    let mut remainder = 0u16;
    for byte in bytes {
        remainder = REMAINDERS[usize::from((remainder >> 8) as u8 ^ byte)] ^ (remainder << 8);
    }
    remainder.to_be_bytes()
}

const REMAINDERS: [u16; 256] = remainders();

const fn remainders() -> [u16; 256] {
    let mut table = [0; 256];
    let mut byte = 0;
    while byte < 256 {
        let mut remainder = (byte as u16) << 8;
        let mut bit = 0;
        while bit < 8 {
            let carry = remainder & 0x8000 != 0;
            remainder <<= 1;
            if carry {
                remainder ^= 0x1021;
            }
            bit += 1;
        }
        table[byte] = remainder;
        byte += 1;
    }
    table
}

pub fn is_marker(track: &[u16], cell: usize) -> bool {
    (FIRST..TRACK).contains(&cell) && track[cell] == MARKER
}

/// The bytes of `len` cells from `at`, if they lie on the track and all have k = 1.
pub fn recorded(track: &[u16], at: usize, len: usize) -> Option<Vec<u8>> {
    let cells = track.get(at..at + len)?;
    cells.iter().map(|&cell| (cell >> 8 == 1).then_some(cell as u8)).collect()
}

/// The bytes of an area without its check, if it is readable. `len` is without the check.
pub fn area(track: &[u16], at: usize, len: usize) -> Option<Vec<u8>> {
    let mut bytes = recorded(track, at, len + 2)?;
    let stored = bytes.split_off(len);
    (check(&bytes) == *stored).then_some(bytes)
}

/// The cells that record `bytes` and their check.
pub fn laid(bytes: &[u8]) -> Vec<u16> {
    bytes.iter().chain(&check(bytes)).map(|&byte| 256 + u16::from(byte)).collect()
}

/// Home address: flag, cylinder, head.
pub fn home_address(track: &[u16]) -> Checked<Vec<u8>> {
    area(track, 0, 5).ok_or((Row::UnreadableHa, 0))
}

pub fn key_cells(kl: usize) -> usize {
    if kl == 0 {
        0
    } else {
        kl + 2
    }
}

pub fn data_cells(dl: usize) -> usize {
    dl.max(1) + 2
}

/// A count as it is recorded: the flag, then CCHHR, KL, DL.
pub struct Count {
    pub at: usize,
    pub flag: u8,
    pub sent: [u8; 8],
}

impl Count {
    pub fn kl(&self) -> usize {
        usize::from(self.sent[5])
    }
    pub fn dl(&self) -> usize {
        usize::from(self.sent[6]) << 8 | usize::from(self.sent[7])
    }
    pub fn key_at(&self) -> usize {
        self.at + COUNT_AREA
    }
    pub fn data_at(&self) -> usize {
        self.key_at() + key_cells(self.kl())
    }
    /// The first cell after the record.
    pub fn after(&self) -> usize {
        self.data_at() + data_cells(self.dl())
    }
    pub fn key(&self, track: &[u16]) -> Checked<Vec<u8>> {
        if self.kl() == 0 {
            return Ok(Vec::new());
        }
        area(track, self.key_at(), self.kl()).ok_or((Row::UnreadableKey, 0))
    }
    /// With DL = 0 the data area is not read.
    pub fn data(&self, track: &[u16]) -> Checked<Vec<u8>> {
        if self.dl() == 0 {
            return Ok(Vec::new());
        }
        area(track, self.data_at(), self.dl()).ok_or((Row::UnreadableData, 0))
    }
}

/// Where the count area of a selection is.
pub fn count_at(selection: Selection) -> usize {
    match selection {
        Selection::Marker(cell) => cell + 1,
        _ => FIRST,
    }
}

pub fn count(track: &[u16], selection: Selection, wrong: Option<Wrong>) -> Checked<Count> {
    let at = count_at(selection);
    let bytes = if wrong == Some(Wrong::BadCountUsed) { recorded(track, at, 9) } else { area(track, at, 9) };
    let bytes = bytes.ok_or((Row::UnreadableCount, 0))?;
    let mut sent = [0; 8];
    sent.copy_from_slice(&bytes[1..]);
    Ok(Count { at, flag: bytes[0], sent })
}

/// The next record's marker from `place` on, and whether the index point is passed on the way.
pub fn next_marker(track: &[u16], place: usize) -> Option<(usize, bool)> {
    let from = |first: usize| (first..TRACK).find(|&cell| is_marker(track, cell));
    from(place).map(|cell| (cell, false)).or_else(|| from(FIRST).map(|cell| (cell, true)))
}
