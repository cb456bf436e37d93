//! The writes: home address, R0, Count Key Data, and the updates of key and data.
use super::areas::{
    count, count_at, data_cells, home_address, key_cells, laid, recorded, COUNT_AREA, FIRST, MARKER, TRACK,
};
use super::events::Row;
use super::held::Selection;
use super::{Checked, Done, Sight, Wrong};

/// `len` bytes from `at` on; missing bytes are zeros.
fn padded(bytes: &[u8], at: usize, len: usize) -> Vec<u8> {
    (at..at + len).map(|place| bytes.get(place).copied().unwrap_or(0)).collect()
}

impl Sight<'_> {
    /// Bits 0 and 1 of the mask: 00 bars Write HA and R0, 01 all writes, 10 HA, R0 and 1D, 11 none.
    fn unbarred(&self) -> Checked<()> {
        let barred = match self.held.mask >> 6 {
            0 => matches!(self.word.code, 0x19 | 0x15),
            1 => true,
            2 => matches!(self.word.code, 0x19 | 0x15 | 0x1D),
            _ => false,
        };
        if barred {
            Err((Row::WriteBarred, 0))
        } else {
            Ok(())
        }
    }

    /// The command before must be one of `any`, or one of `equal` and equal over the whole field.
    fn follows(&self, any: &[u8], equal: &[u8]) -> Checked<()> {
        let before = self.held.before;
        if any.contains(&before) || self.held.whole && equal.contains(&before) {
            return Ok(());
        }
        Err((Row::WrongBefore, 0))
    }

    pub fn write_ha(&self) -> Checked<Done> {
        self.unbarred()?;
        let sent = self.fetched(5);
        let home = laid(&padded(sent, 0, 5));
        Ok(Done { moved: sent.len(), wanted: Some(5), laid: vec![self.wiped(0, home)], place: 1, ..self.nothing() })
    }

    pub fn write_r0(&self) -> Checked<Done> {
        self.follows(&[0x19], &[0x39])?;
        self.unbarred()?;
        let home = home_address(self.track)?;
        self.format(Selection::R0, home[0] & 0x03)
    }

    pub fn write_record(&self) -> Checked<Done> {
        self.follows(&[0x15, 0x1D], &[0x31, 0x29])?;
        self.unbarred()?;
        let before = count(self.track, self.held.selection, self.wrong)?;
        // the odd/even bit turns over; bits 6 and 7 go on; the others are zero
        self.format(Selection::Marker(before.after()), before.flag & 0x83 ^ 0x80)
    }

    /// Writes a whole record and zeros after it.
    fn format(&self, record: Selection, flag: u8) -> Checked<Done> {
        let count = padded(self.fetched(8), 0, 8);
        let (kl, dl) = (usize::from(count[5]), usize::from(count[6]) << 8 | usize::from(count[7]));
        let start = match record {
            Selection::Marker(cell) => cell,
            _ => FIRST,
        };
        let needed = count_at(record) - start + COUNT_AREA + key_cells(kl) + data_cells(dl);
        let room = TRACK as i64 - start as i64 - needed as i64;
        if room < 0 && self.wrong != Some(Wrong::RoomUnsigned) {
            return Err((Row::NoRoom, self.word.count.min(8)));
        }
        let sent = self.fetched(8 + kl + dl);
        let mut cells = if start == FIRST && record == Selection::R0 { Vec::new() } else { vec![MARKER] };
        cells.extend(laid(&[&[flag], &count[..]].concat()));
        if kl != 0 {
            cells.extend(laid(&padded(sent, 8, kl)));
        }
        cells.extend(laid(&padded(sent, 8 + kl, dl.max(1))));
        let moved = sent.len();
        let laid = vec![self.wiped(start, cells)];
        Ok(Done {
            moved,
            wanted: Some(8 + kl + dl),
            laid,
            place: count_at(record),
            selection: record,
            ..self.nothing()
        })
    }

    /// The cells with zeros after them to the track's end. What is off the end is lost (only a wrong opinion has any).
    fn wiped(&self, at: usize, mut cells: Vec<u16>) -> (usize, Vec<u16>) {
        let room = TRACK.saturating_sub(at);
        if self.wrong == Some(Wrong::UnwipedTrack) {
            cells.truncate(room);
        } else {
            cells.resize(room, 0);
        }
        (at.min(TRACK), cells)
    }

    /// 05 and 0D: new data, or key and data, in the areas of the selected record.
    pub fn update(&self) -> Checked<Done> {
        let with_key = self.word.code == 0x0D;
        self.follows(&[], if with_key { &[0x31] } else { &[0x31, 0x29] })?;
        self.unbarred()?;
        let record = self.held.selection;
        let count = count(self.track, record, self.wrong)?;
        let kl = if with_key { count.kl() } else { 0 };
        let sent = self.fetched(kl + count.dl());
        let mut areas = Vec::new();
        if kl != 0 {
            areas.push(self.renewed(count.key_at(), &padded(sent, 0, kl), Row::UnreadableKey)?);
        }
        if count.dl() != 0 {
            areas.push(self.renewed(count.data_at(), &padded(sent, kl, count.dl()), Row::UnreadableData)?);
        }
        Ok(Done {
            moved: sent.len(),
            wanted: Some(kl + count.dl()),
            laid: areas,
            place: count_at(record),
            exception: count.dl() == 0,
            ..self.nothing()
        })
    }

    /// An update needs byte cells; the old check need not agree.
    fn renewed(&self, at: usize, bytes: &[u8], row: Row) -> Checked<(usize, Vec<u16>)> {
        recorded(self.track, at, bytes.len() + 2).ok_or((row, 0))?;
        Ok((at, laid(bytes)))
    }
}
