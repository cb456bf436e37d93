// The channel as a plain loop in Rust has it: command words out of storage, tested in document 01's order, and a chain's end.
use crate::common::{FLAG_CHAIN, FLAG_LENGTH, STATUS, TIC};
use poplar::HELD_SIZE;

pub const MODULUS: u32 = 1 << 24;

// What a chain of control commands and TICs changes in a held state, beside what the commands themselves do.
pub struct Chain {
    pub going: bool,
    key: u8,
    after_tic: bool,
    before: u8,
    whole: bool,
    tally: u8,
    selection: Option<u16>,
    next: u32,
}

// A command word that was tested and is no TIC.
pub struct Command {
    pub code: u8,
    pub address: usize,
    pub flags: u8,
    pub count: u16,
}

impl Chain {
    pub fn of(held: &[u8; HELD_SIZE]) -> Chain {
        Chain {
            going: held[0] == 1,
            key: held[1],
            after_tic: held[6] == 1,
            before: held[7],
            whole: held[8] == 1,
            tally: held[9],
            selection: (held[10] != 0).then_some(u16::from_be_bytes([held[12], held[13]])),
            next: u32::from_be_bytes([held[20], held[21], held[22], held[23]]),
        }
    }

    pub fn put(&self, held: &mut [u8; HELD_SIZE]) {
        if !self.going {
            // The key and the mask go with the chain.
            held[1..4].fill(0);
        }
        held[0] = u8::from(self.going);
        held[6] = u8::from(self.after_tic);
        held[7] = self.before;
        held[8] = u8::from(self.whole);
        held[9] = self.tally;
        held[10] = if self.selection.is_some() { 2 } else { 0 };
        held[12..14].copy_from_slice(&self.selection.unwrap_or(0).to_be_bytes());
        held[20..24].copy_from_slice(&self.next.to_be_bytes());
    }

    // The chain's end.
    pub fn end(&mut self, storage: &mut [u8], unit: u8, channel: u8, left: u16) {
        let [_, a, b, c] = ((self.next + 8) % MODULUS).to_be_bytes();
        let [high, low] = left.to_be_bytes();
        storage[STATUS].copy_from_slice(&[self.key * 16, a, b, c, unit, channel, high, low]);
        *self = Chain {
            going: false,
            key: 0,
            after_tic: false,
            before: 0,
            whole: false,
            tally: 0,
            selection: None,
            next: 0,
        };
    }

    // The next word: a TIC is done, a bad word ends the chain, and a command is left to the caller.
    #[inline(always)]
    pub fn step(&mut self, storage: &mut [u8]) -> Option<Command> {
        let at = self.next as usize;
        if at % 8 != 0 || storage.len() < at + 8 {
            self.end(storage, 0, 0x20, 0);
            return None;
        }
        let word = &storage[at..at + 8];
        let code = word[0];
        let address = u32::from_be_bytes([0, word[1], word[2], word[3]]);
        let flags = word[4];
        let count = u16::from_be_bytes([word[6], word[7]]);
        if code % 16 == TIC {
            if self.after_tic {
                self.end(storage, 0, 0x20, 0);
            } else {
                self.after_tic = true;
                self.next = address;
            }
            return None;
        }
        let address = address as usize;
        if flags & !(FLAG_CHAIN | FLAG_LENGTH) != 0
            || count == 0
            || code % 16 == 0
            || storage.len() < address + usize::from(count)
        {
            self.end(storage, 0, 0x20, 0);
            return None;
        }
        Some(Command { code, address, flags, count })
    }

    // On to the next word after a control command, or the normal end.
    #[inline(always)]
    pub fn done(&mut self, storage: &mut [u8], code: u8, flags: u8, left: u16) {
        self.before = code;
        self.whole = false;
        self.tally = 0;
        self.selection = None;
        if flags & FLAG_CHAIN == 0 {
            self.end(storage, 0x0C, 0, left);
            return;
        }
        self.after_tic = false;
        self.next = (self.next + 8) % MODULUS;
    }
}
