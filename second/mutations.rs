//! What is done to a plausible chain, and how it is laid into storage.
use crate::chains::{Data, Draft, Maker, COMMANDS};
use crate::random::Random;

const ADDRESSES: usize = 1 << 24;

impl Maker<'_> {
    /// One word made another, doubled, dropped, or put elsewhere.
    pub fn mutate(&mut self) {
        let many = self.drafts.len();
        let at = self.random.below(many);
        match self.random.below(12) {
            0 | 1 => self.drafts[at].code = self.random.pick(&COMMANDS),
            2 => self.drafts[at].code = self.random.byte(),
            3 => self.drafts[at].flags ^= 1 << self.random.below(8),
            4 => self.drafts[at].flags ^= self.random.pick(&[0x20, 0x40, 0x60]),
            5 | 6 => self.recount(at),
            7 => self.readdress(at),
            8 => self.detour(at),
            9 => {
                let other = self.random.below(many);
                self.drafts.swap(at, other);
            }
            10 => {
                let again = self.drafts[at].clone();
                self.drafts.insert(at, again);
            }
            _ => {
                if many > 1 {
                    self.drafts.remove(at);
                }
            }
        }
    }

    fn recount(&mut self, at: usize) {
        let count = self.drafts[at].count;
        let any = self.random.below(1 << 16);
        self.drafts[at].count = self.random.pick(&[0, 1, count + 1, count.saturating_sub(1), 65535, any]);
    }

    /// Over words of the chain, over the status word, or near the end of the addresses.
    fn readdress(&mut self, at: usize) {
        let many = self.drafts.len();
        let word = Data::Word(self.random.below(many + 1));
        let any = self.random.below(3000);
        let address = Data::At(self.random.pick(&[64, 70, 72, any, ADDRESSES - 1]));
        self.drafts[at].data = if self.random.percent(60) { word } else { address };
    }

    /// A TIC more: to a word, to itself, or to where no word can be.
    fn detour(&mut self, at: usize) {
        let many = self.drafts.len();
        let word = self.random.below(many + 2);
        let any = self.random.below(5000);
        let target = match self.random.below(4) {
            0 => Data::Word(at),
            1 => Data::At(self.random.pick(&[4, 81, any, 0xFFFFF8, 0xFFFFFF])),
            _ => Data::Word(word),
        };
        let (flags, count) = (self.random.byte(), self.random.below(1 << 16));
        self.drafts.insert(at, Draft { code: 8, flags, count, data: target });
    }
}

fn put(storage: &mut [u8], at: usize, bytes: &[u8]) {
    for (place, &byte) in bytes.iter().enumerate() {
        if let Some(old) = storage.get_mut((at + place) % ADDRESSES) {
            *old = byte;
        }
    }
}

/// Lays the words from `base` on and their bytes behind them. What is off the storage's end is lost.
pub fn lay_out(random: &mut Random, drafts: &[Draft], storage: &mut [u8], base: usize) {
    let mut data = (base + 8 * drafts.len() + random.below(9)) % ADDRESSES;
    for (number, draft) in drafts.iter().enumerate() {
        let address = match &draft.data {
            Data::At(address) => *address,
            Data::Word(word) => base + 8 * word,
            Data::Bytes(bytes) => {
                let at = data;
                put(storage, at, bytes);
                data += bytes.len().max(draft.count.min(64)) + random.below(3);
                at
            }
        };
        let [_, high, middle, low] = ((address % ADDRESSES) as u32).to_be_bytes();
        let [count_high, count_low] = (draft.count as u16).to_be_bytes();
        let word = [draft.code, high, middle, low, draft.flags, random.byte(), count_high, count_low];
        put(storage, base + 8 * number, &word);
    }
}
