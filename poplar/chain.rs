//! What is lent to the box, and a chain run on it, at once or word by word.
use crate::pack::Pack;
use crate::refusal::Result;
use crate::words;
use poplar::{go_raw, start_raw, Answer, Held, HELD_SIZE};
use std::io::Write;

/// Where the status word stands.
const STATUS: usize = 64;

/// The held state is any bytes: the box says whether they are one.
pub struct Lent {
    pub held: Vec<u8>,
    pub storage: Vec<u8>,
    pub pack: Pack,
}

impl Lent {
    pub fn fresh(storage: Vec<u8>, pack: Pack) -> Lent {
        Lent { held: Held::fresh().bytes().to_vec(), storage, pack }
    }

    pub fn start(&mut self) -> Answer {
        start_raw(&mut self.held, &mut self.storage, &mut self.pack.cells, self.pack.shape)
    }

    pub fn go(&mut self, allowance: u16) -> Answer {
        go_raw(&mut self.held, &mut self.storage, &mut self.pack.cells, self.pack.shape, allowance)
    }

    /// The held state, if it has the length of one.
    pub fn state(&self) -> Option<Held> {
        let bytes: [u8; HELD_SIZE] = self.held.as_slice().try_into().ok()?;
        Some(Held::from_bytes(bytes))
    }

    fn eight(&self, at: usize) -> Option<[u8; 8]> {
        self.storage.get(at..at.checked_add(8)?)?.try_into().ok()
    }

    /// Goes on for at most `allowance` words and tells each; a cut allowance does what the whole does.
    pub fn go_telling(&mut self, allowance: u16, out: &mut dyn Write) -> Result<Answer> {
        let mut answer = self.go(0);
        for _ in 0..allowance {
            if answer != Answer::NotEnded {
                break;
            }
            let at = self.state().map_or(0, |held| held.next());
            let word = self.eight(at as usize);
            answer = self.go(1);
            self.tell_word(at, word, answer, out)?;
        }
        Ok(answer)
    }

    /// One word that ran: what it asked for, how it ended, the sense that is left.
    fn tell_word(&self, at: u32, word: Option<[u8; 8]>, answer: Answer, out: &mut dyn Write) -> Result<()> {
        let (name, asks) = match &word {
            Some(word) => (words::name_of(word[0]), words::asks(word)),
            None => ("no word".to_string(), "outside storage".to_string()),
        };
        let held = self.state();
        let how = match (answer, &held) {
            (Answer::NotEnded, Some(held)) => goes_on(at, word, held.next()),
            _ => self.ended(),
        };
        let sense = held.map_or([0; 2], |held| held.sense());
        writeln!(out, "  {at:06X}  {name:<20} {asks:<29} {how}; sense {}", words::sense(sense))?;
        Ok(())
    }

    fn ended(&self) -> String {
        match self.eight(STATUS) {
            Some(status) => format!("{:02X} {:02X} {}", status[4], status[5], words::ended_by(status[4], status[5])),
            None => "no status word".to_string(),
        }
    }

    /// The status word in plain language.
    pub fn tell_status(&self, out: &mut dyn Write) -> Result<()> {
        let Some(status) = self.eight(STATUS) else { return Ok(()) };
        let last = u32::from_be_bytes([0, status[1], status[2], status[3]]).wrapping_sub(8) & 0xFF_FFFF;
        let left = u16::from_be_bytes([status[6], status[7]]);
        writeln!(out, "status word: {}", words::hex(&status))?;
        writeln!(out, "  {}; the last word was at {last:06X}; count left {left}", self.ended())?;
        if let Some(held) = self.state() {
            writeln!(out, "  sense {}", words::sense(held.sense()))?;
        }
        Ok(())
    }
}

/// A word after which the chain goes on: the next word is 8 on, 16 on after a search that was satisfied, or where a TIC points.
fn goes_on(at: u32, word: Option<[u8; 8]>, next: u32) -> String {
    let search = word.is_some_and(|word| words::is_search(word[0]));
    let how = match search {
        true if next == at.wrapping_add(16) & 0xFF_FFFF => "satisfied",
        true => "not satisfied",
        false => "done",
    };
    format!("{how}, on at {next:06X}")
}
