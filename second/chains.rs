//! Chains to run: plausible ones, built of phrases that fit the tracks, then mutated, then laid into storage.
use crate::opinion::areas::{key_cells, COUNT_AREA, TRACK};
use crate::packs::Pack;
use crate::random::Random;
use crate::tracks::{count_bytes, lengths, Record, Track};

pub const SEARCH_IDS: [u8; 3] = [0x31, 0x51, 0x71];
pub const SEARCH_KEYS: [u8; 3] = [0x29, 0x49, 0x69];
/// Every command of document 01, in its order, but TIC.
pub const COMMANDS: [u8; 25] = [
    0x03, 0x04, 0x07, 0x0B, 0x1B, 0x1F, 0x0F, 0x39, 0x31, 0x51, 0x71, 0x29, 0x49, 0x69, 0x1A, 0x16, 0x12, 0x06, 0x0E,
    0x1E, 0x19, 0x15, 0x1D, 0x05, 0x0D,
];

/// What a word's address points at.
#[derive(Clone)]
pub enum Data {
    /// bytes of its own, laid out for it
    Bytes(Vec<u8>),
    /// the word of this number: a TIC's target, or a read over words
    Word(usize),
    At(usize),
}

#[derive(Clone)]
pub struct Draft {
    pub code: u8,
    pub flags: u8,
    pub count: usize,
    pub data: Data,
}

pub struct Maker<'a> {
    pub random: &'a mut Random,
    pub pack: &'a Pack,
    pub stand: (u16, u16),
    pub drafts: Vec<Draft>,
}

impl Maker<'_> {
    /// A chain of a few phrases; the last word does not chain.
    pub fn chain(mut self) -> Vec<Draft> {
        if self.random.percent(45) {
            self.mask();
        }
        for _ in 0..self.random.between(1, 4) {
            self.phrase();
        }
        if self.random.percent(35) {
            for _ in 0..self.random.between(1, 3) {
                self.mutate();
            }
        }
        if let Some(last) = self.drafts.last_mut() {
            last.flags &= !0x40;
        }
        self.drafts
    }

    /// A chain's next word for a held state that is meant for it; now and then of a length that the record has not.
    pub fn first(&mut self, code: u8, record: &Record) {
        self.on(code, record);
        if self.random.percent(15) {
            self.drafts[0].count = self.random.between(1, 8 + record.kl());
        }
    }

    fn phrase(&mut self) {
        match self.random.below(21) {
            0 | 1 => self.seek(),
            2 => self.mask(),
            3 | 4 => self.after_home(),
            5..=9 => self.by_id(),
            10..=12 => self.by_key(),
            13 => self.by_count(),
            14 | 15 => self.reads(),
            16 => self.format(),
            17 => self.fruitless(),
            18 => self.command(0x04, vec![0; 6]),
            19 => self.idle(),
            _ => {
                let code = self.random.byte();
                self.on_record(code);
            }
        }
    }

    /// A command that lends what it wants; or, now and then, less or more, mostly suppressed.
    fn command(&mut self, code: u8, bytes: Vec<u8>) {
        let wanted = bytes.len();
        let mut count = wanted.max(1);
        let mut flags = self.random.pick(&[0x40, 0x40, 0x60]);
        if self.random.percent(20) {
            let less = self.random.below(wanted + 1);
            count = self.random.pick(&[less, less, wanted + 1, wanted + 9, wanted.saturating_sub(1)]).max(1);
            flags = self.random.pick(&[0x40, 0x60, 0x60]);
        }
        self.drafts.push(Draft { code, flags, count, data: Data::Bytes(bytes) });
    }

    fn tic(&mut self, target: usize) {
        let (high, flags, count) = (self.random.byte() & 0xF0, self.random.byte(), self.random.below(1 << 16));
        let high = self.random.pick(&[0, high]);
        self.drafts.push(Draft { code: high | 8, flags, count, data: Data::Word(target) });
    }

    fn track(&self) -> Option<&Track> {
        self.pack.track(self.stand)
    }

    /// A record of the track under the head; of an empty track, one that is not there.
    fn record(&mut self) -> Record {
        let many = self.track().map_or(0, |track| track.records.len());
        let chosen = self.random.below(many.max(1));
        let there = self.track().and_then(|track| track.records.get(chosen));
        there.cloned().unwrap_or(Record { at: 7, marker: None, count: [0, 0, 0, 0, 1, 0, 0, 8], key: Vec::new() })
    }

    fn seek(&mut self) {
        let stand = self.pack.stand(self.random);
        let mut bytes = vec![0, 0];
        bytes.extend(&count_bytes(stand, 0, (0, 0))[..4]);
        if self.random.percent(12) {
            let at = self.random.below(6);
            bytes[at] = self.random.pick(&[1, 10, 203, 255]);
        }
        let code = self.random.pick(&[0x07, 0x0B, 0x1B]);
        self.stand = if code == 0x1B { (self.stand.0, stand.1) } else { stand };
        self.command(code, bytes);
    }

    fn mask(&mut self) {
        let any = self.random.byte();
        let legal = any & 0xD8;
        let mask = self.random.pick(&[0xC0, 0xC0, 0xC0, 0xC0, 0xC0, 0x00, 0x40, 0x80, legal, legal, any]);
        self.command(0x1F, vec![mask]);
    }

    fn after_home(&mut self) {
        let home = self.track().map_or([0; 5], |track| track.home)[1..].to_vec();
        let at = self.drafts.len();
        self.search(0x39, home);
        if self.random.percent(85) {
            self.tic(at);
        }
        match self.random.below(5) {
            0 => self.command(0x1A, vec![0; 5]),
            1 => self.command(0x0F, vec![0]),
            2 => self.on_record(0x16),
            _ => self.records(true),
        }
    }

    /// Write R0 perhaps, then records after it.
    fn records(&mut self, with_r0: bool) {
        if with_r0 {
            let record = self.new_record(7);
            self.command(0x15, record);
        }
        for _ in 0..self.random.below(4) {
            let record = self.new_record(60);
            self.command(0x1D, record);
        }
    }

    /// Count, key and data of a record to be written from cell `at` on: small, or as long as fits, or one longer.
    fn new_record(&mut self, at: usize) -> Vec<u8> {
        let (kl, mut dl) = lengths(self.random);
        if self.random.percent(30) {
            let taken = at + usize::from(at != 7) + COUNT_AREA + key_cells(kl) + 2;
            let fits = TRACK.saturating_sub(taken);
            dl = self.random.pick(&[fits, fits, fits + 1, fits + 1, fits.saturating_sub(1), 65535]);
        }
        let number = self.random.pick(&[1, 2, 3, 4, 9]);
        let mut bytes = count_bytes(self.stand, number, (kl, dl)).to_vec();
        // more than a storage holds is left missing
        bytes.extend(self.random.bytes((kl + dl).min(600)));
        bytes
    }

    /// A search, with a byte of its field one lower at times, so that the track's is higher; or the field cut off there.
    fn search(&mut self, code: u8, mut field: Vec<u8>) {
        let at = self.random.below(field.len().max(1));
        let share = if matches!(code, 0x39 | 0x31 | 0x29) { 12 } else { 65 };
        if self.random.percent(share) && !field.is_empty() {
            field[at] = field[at].wrapping_add(self.random.pick(&[255, 255, 255, 1]));
        }
        if self.random.percent(10) {
            let flags = self.random.pick(&[0x40, 0x60]);
            self.drafts.push(Draft { code, flags, count: at + 1, data: Data::Bytes(field) });
        } else {
            self.command(code, field);
        }
    }

    fn by_id(&mut self) {
        let record = self.record();
        let code = self.random.pick(&[0x31, 0x31, 0x31, 0x51, 0x71]);
        let at = self.drafts.len();
        self.search(code, record.count[..5].to_vec());
        if self.random.percent(88) {
            self.tic(at);
        }
        self.then(
            &record,
            &[0x06, 0x0E, 0x05, 0x05, 0x05, 0x0D, 0x0D, 0x0D, 0x1D, 0x1D, 0x29, 0x49, 0x69, 0x12, 0x1E, 0x0F],
        );
    }

    fn by_key(&mut self) {
        let record = self.record();
        let code = self.random.pick(&[0x29, 0x29, 0x49, 0x69]);
        let at = self.drafts.len();
        self.search(code, record.key.clone());
        if self.random.percent(88) {
            self.tic(at);
        }
        self.then(&record, &[0x06, 0x06, 0x05, 0x05, 0x1D, 0x1D, 0x0E, 0x29, 0x12, 0x0F]);
    }

    fn by_count(&mut self) {
        let record = self.record();
        self.command(0x12, vec![0; 8]);
        self.then(&record, &[0x06, 0x0E, 0x29, 0x49, 0x69, 0x1E, 0x0F, 0x12]);
    }

    fn reads(&mut self) {
        for _ in 0..self.random.between(1, 4) {
            let code = self.random.pick(&[0x1A, 0x16, 0x16, 0x12, 0x06, 0x0E, 0x1E, 0x0F]);
            self.on_record(code);
        }
    }

    fn format(&mut self) {
        let mut home = self.track().map_or([0; 5], |track| track.home).to_vec();
        home[0] = self.random.byte();
        self.command(0x19, home);
        if self.random.percent(80) {
            self.records(true);
        }
    }

    /// The same search over and over, for what is not there.
    fn fruitless(&mut self) {
        let record = self.record();
        let at = self.drafts.len();
        let key = self.random.percent(50);
        let (code, mut bytes) = if key {
            (self.random.pick(&SEARCH_KEYS), record.key.clone())
        } else {
            (self.random.pick(&SEARCH_IDS), record.count[..5].to_vec())
        };
        bytes.fill(0xFF);
        let count = bytes.len().max(1);
        self.drafts.push(Draft { code, flags: 0x60, count, data: Data::Bytes(bytes) });
        if self.random.percent(70) {
            self.tic(at);
        } else {
            let search = self.drafts[at].clone();
            self.drafts.extend(vec![search; 10]);
        }
    }

    /// A run of No-ops, perhaps without end.
    fn idle(&mut self) {
        let at = self.drafts.len();
        for _ in 0..self.random.pick(&[1, 1, 2, 5, 30]) {
            self.command(0x03, vec![0]);
        }
        if self.random.one_in(8) {
            self.tic(at);
        }
    }

    fn then(&mut self, record: &Record, codes: &[u8]) {
        let code = self.random.pick(codes);
        self.on(code, record);
        if self.random.percent(20) && code == 0x1D {
            self.records(false);
        }
    }

    fn on_record(&mut self, code: u8) {
        let record = self.record();
        self.on(code, &record);
    }

    /// A command with the length that it wants of this record.
    fn on(&mut self, code: u8, record: &Record) {
        // what a damaged count names, no storage of ours holds
        let (kl, dl) = (record.kl(), record.dl().min(4000));
        let bytes = match code {
            0x12 => vec![0; 8],
            0x1A => vec![0; 5],
            0x06 => vec![0; dl],
            0x0E => vec![0; kl + dl],
            0x16 | 0x1E => vec![0; 8 + kl + dl],
            0x05 => self.random.bytes(dl),
            0x0D => self.random.bytes(kl + dl),
            0x15 => self.new_record(7),
            0x1D => self.new_record(record.after()),
            0x29 | 0x49 | 0x69 => record.key.clone(),
            0x31 | 0x51 | 0x71 => record.count[..5].to_vec(),
            0x39 => record.count[..4].to_vec(),
            0x07 | 0x0B | 0x1B | 0x04 => vec![0; 6],
            0x19 => self.random.bytes(5),
            0x1F => vec![0xC0],
            _ => vec![0],
        };
        self.command(code, bytes);
    }
}
