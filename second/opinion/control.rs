//! Sense, the seeks, Set File Mask, Space Record.
use super::areas::{next_marker, FIRST};
use super::events::Row;
use super::held::mask_legal;
use super::{Checked, Done, Sight};

/// Searches and reads, which may stand before Space Record.
const SEARCHES_AND_READS: [u8; 13] = [0x39, 0x31, 0x51, 0x71, 0x29, 0x49, 0x69, 0x1A, 0x16, 0x12, 0x06, 0x0E, 0x1E];

impl Sight<'_> {
    pub fn sense(&self) -> Done {
        let [first, second] = self.held.sense;
        let mut bytes = vec![first, second, 0, 0, 0, 0];
        bytes.truncate(self.word.count);
        Done { moved: bytes.len(), wanted: Some(6), stored: bytes, place: self.held.place, ..self.nothing() }
    }

    pub fn seek(&self) -> Checked<Done> {
        // bits 3 and 4 of the mask: 00 allows all, 01 Seek Cylinder and Seek Head, 10 Seek Head, 11 none
        let strictness = self.held.mask >> 3 & 3;
        let barred_from = match self.word.code {
            0x07 => 1,
            0x0B => 2,
            _ => 3,
        };
        if strictness >= barred_from {
            return Err((Row::SeekBarred, 0));
        }
        let bytes = self.fetched(6);
        let moved = bytes.len();
        let &[b0, b1, c0, c1, h0, h1] = bytes else { return Err((Row::SeekShort, moved)) };
        let cylinder = u16::from_be_bytes([c0, c1]);
        let head = u16::from_be_bytes([h0, h1]);
        let head_only = self.word.code == 0x1B;
        let off =
            u32::from(head) >= self.heads || !head_only && (b0 | b1 != 0 || u32::from(cylinder) >= self.cylinders);
        if off {
            return Err((Row::SeekBad, moved));
        }
        let stand = (if head_only { self.held.cylinder } else { cylinder }, head);
        Ok(Done { moved, wanted: Some(6), stand, place: 0, ..self.nothing() })
    }

    pub fn set_file_mask(&self) -> Checked<Done> {
        let mask = self.fetched(1)[0];
        if !mask_legal(mask) {
            return Err((Row::BadMask, 1));
        }
        if self.held.mask_set {
            return Err((Row::SecondMask, 0));
        }
        Ok(Done { moved: 1, wanted: Some(1), mask: Some(mask), ..self.nothing() })
    }

    pub fn space_record(&self) -> Checked<Done> {
        if !SEARCHES_AND_READS.contains(&self.held.before) {
            return Err((Row::WrongBefore, 0));
        }
        let after_home = matches!(self.held.before, 0x39 | 0x1A);
        let place = match next_marker(self.track, self.held.place) {
            Some((marker, _)) if !after_home => marker + 1,
            _ => FIRST,
        };
        Ok(Done { wanted: None, place, ..self.nothing() })
    }
}
