//! The reads: home address, R0, Count, Data, Key and Data, Count Key Data.
use super::areas::{count, count_at, home_address, FIRST};
use super::held::Selection;
use super::{Checked, Done, Sight, Wrong};

/// Which parts of a record a read names: count, key, data.
fn named(code: u8) -> (bool, bool, bool) {
    match code {
        0x12 => (true, false, false),
        0x06 => (false, false, true),
        0x0E => (false, true, true),
        _ => (true, true, true),
    }
}

impl Sight<'_> {
    pub fn read_ha(&self) -> Checked<Done> {
        let home = home_address(self.track)?;
        Ok(Done { place: 1, ..self.sent(home) })
    }

    pub fn read_record(&self) -> Checked<Done> {
        let record = self.read_from()?;
        let (with_count, with_key, with_data) = named(self.word.code);
        let count = count(self.track, record, self.wrong)?;
        let mut bytes = Vec::new();
        if with_count {
            bytes.extend(count.sent);
        }
        if with_key {
            bytes.extend(count.key(self.track)?);
        }
        if with_data {
            bytes.extend(count.data(self.track)?);
        }
        let selection = if self.word.code == 0x12 { record } else { Selection::None };
        let exception = with_data && count.dl() == 0;
        Ok(Done { place: count_at(record), selection, exception, ..self.sent(bytes) })
    }

    fn read_from(&self) -> Checked<Selection> {
        let counts_r0 = self.wrong == Some(Wrong::CountR0) && self.word.code == 0x12 && self.held.place < FIRST;
        if self.word.code == 0x16 || counts_r0 {
            return Ok(Selection::R0);
        }
        if self.uses_selected() {
            return Ok(self.held.selection);
        }
        Ok(self.hunted()?.0)
    }

    /// Sends the bytes, as many as the word has room for.
    fn sent(&self, mut bytes: Vec<u8>) -> Done {
        let wanted = Some(bytes.len());
        bytes.truncate(self.word.count);
        Done { moved: bytes.len(), wanted, stored: bytes, ..self.nothing() }
    }
}
