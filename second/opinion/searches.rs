//! Which record a command works on, and the searches.
use super::areas::{count, count_at, home_address, next_marker, FIRST};
use super::events::Row;
use super::held::Selection;
use super::{Checked, Done, Sight, Wrong};
use std::cmp::Ordering;

impl Sight<'_> {
    /// The next record, and whether the index point is passed.
    pub fn hunted(&self) -> Checked<(Selection, bool)> {
        let (marker, passed) = next_marker(self.track, self.held.place).ok_or((Row::NoMarker, 0))?;
        Ok((Selection::Marker(marker), passed))
    }

    /// Whether the command uses the record that the command before left selected.
    pub fn uses_selected(&self) -> bool {
        match self.held.before {
            0x31 | 0x51 | 0x71 | 0x12 => matches!(self.word.code, 0x06 | 0x0E | 0x29 | 0x49 | 0x69),
            0x29 | 0x49 | 0x69 => self.word.code == 0x06,
            _ => false,
        }
    }

    pub fn search_ha(&self) -> Checked<Done> {
        let home = home_address(self.track)?;
        Ok(Done { place: 1, ..self.compared(&home[1..]) })
    }

    pub fn search_id(&self) -> Checked<Done> {
        let hunted = next_marker(self.track, self.held.place).filter(|&(_, passed)| !passed);
        let (record, passed) = match hunted {
            _ if self.held.place < FIRST => (Selection::R0, false),
            Some((marker, _)) => (Selection::Marker(marker), false),
            None => (Selection::R0, true),
        };
        let tally = self.tallied(passed)?;
        let count = count(self.track, record, self.wrong)?;
        Ok(Done { place: count_at(record), selection: record, tally, ..self.compared(&count.sent[..5]) })
    }

    pub fn search_key(&self) -> Checked<Done> {
        let (record, passed) = if self.uses_selected() { (self.held.selection, false) } else { self.hunted()? };
        let tally = self.tallied(passed)?;
        let count = count(self.track, record, self.wrong)?;
        let key = count.key(self.track)?;
        Ok(Done { place: count_at(record), selection: record, tally, ..self.compared(&key) })
    }

    /// The index tally after a search that passed the index point or did not.
    fn tallied(&self, passed: bool) -> Checked<u8> {
        if passed && self.held.tally == 1 {
            return Err((Row::SecondIndex, 0));
        }
        Ok(if passed { 1 } else { self.held.tally })
    }

    /// Compares the field with as much of it as the word has bytes for. A field of no bytes satisfies nothing.
    fn compared(&self, field: &[u8]) -> Done {
        let sent = self.fetched(field.len());
        let mut order = field[..sent.len()].cmp(sent);
        if self.wrong == Some(Wrong::HighByStorage) {
            order = order.reverse();
        }
        let (equal, high) = match self.word.code {
            0x51 | 0x49 => (false, true),
            0x71 | 0x69 => (true, true),
            _ => (true, false),
        };
        let satisfied = !field.is_empty() && (equal && order == Ordering::Equal || high && order == Ordering::Greater);
        let all = sent.len() == field.len() || self.wrong == Some(Wrong::ShortLicence);
        Done {
            moved: sent.len(),
            wanted: Some(field.len()),
            satisfied,
            whole: satisfied && all && !high,
            ..self.nothing()
        }
    }
}
