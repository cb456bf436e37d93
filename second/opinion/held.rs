//! What the box keeps from call to call, and the 64 bytes of include/poplar.h that say it.
use super::areas::is_marker;

#[derive(Clone, Copy, PartialEq, Debug)]
pub enum Selection {
    None,
    R0,
    Marker(usize),
}

#[derive(Clone, Copy, PartialEq, Debug)]
pub struct Held {
    pub going: bool,
    pub key: u8,
    pub mask: u8,
    pub mask_set: bool,
    pub sense: [u8; 2],
    pub after_tic: bool,
    pub before: u8,
    pub whole: bool,
    pub tally: u8,
    pub selection: Selection,
    pub cylinder: u16,
    pub head: u16,
    pub place: usize,
    pub next: usize,
}

pub const SIZE: usize = 64;

/// Bits 2 and 5 to 7 of a mask are no bits of a mask.
pub fn mask_legal(mask: u8) -> bool {
    mask & 0x27 == 0
}

fn flag(byte: u8) -> Option<bool> {
    (byte <= 1).then_some(byte == 1)
}

impl Held {
    pub fn fresh() -> Held {
        Held {
            going: false,
            key: 0,
            mask: 0,
            mask_set: false,
            sense: [0, 0],
            after_tic: false,
            before: 0,
            whole: false,
            tally: 0,
            selection: Selection::None,
            cylinder: 0,
            head: 0,
            place: 0,
            next: 0,
        }
    }

    /// Chain end: all as in a fresh box but cylinder, head, place and sense.
    pub fn rested(&self) -> Held {
        let Held { sense, cylinder, head, place, .. } = *self;
        Held { sense, cylinder, head, place, ..Held::fresh() }
    }

    pub fn bytes(&self) -> [u8; SIZE] {
        let (kind, cell) = match self.selection {
            Selection::None => (0, 0),
            Selection::R0 => (1, 0),
            Selection::Marker(cell) => (2, cell as u16),
        };
        let singles = [
            u8::from(self.going),
            self.key,
            self.mask,
            u8::from(self.mask_set),
            self.sense[0],
            self.sense[1],
            u8::from(self.after_tic),
            self.before,
            u8::from(self.whole),
            self.tally,
            kind,
            1,
        ];
        let mut bytes = [0; SIZE];
        bytes[..12].copy_from_slice(&singles);
        bytes[12..14].copy_from_slice(&cell.to_be_bytes());
        bytes[14..16].copy_from_slice(&self.cylinder.to_be_bytes());
        bytes[16..18].copy_from_slice(&self.head.to_be_bytes());
        bytes[18..20].copy_from_slice(&(self.place as u16).to_be_bytes());
        bytes[20..24].copy_from_slice(&(self.next as u32).to_be_bytes());
        bytes
    }

    /// None where the bytes are no layout of held values.
    pub fn of_bytes(bytes: &[u8]) -> Option<Held> {
        if bytes.len() != SIZE || bytes[11] != 1 || bytes[24..].iter().any(|&b| b != 0) {
            return None;
        }
        let two = |at: usize| u16::from_be_bytes([bytes[at], bytes[at + 1]]);
        let selection = match (bytes[10], two(12)) {
            (0, 0) => Selection::None,
            (1, 0) => Selection::R0,
            (2, cell) => Selection::Marker(usize::from(cell)),
            _ => return None,
        };
        Some(Held {
            going: flag(bytes[0])?,
            key: bytes[1],
            mask: bytes[2],
            mask_set: flag(bytes[3])?,
            sense: [bytes[4], bytes[5]],
            after_tic: flag(bytes[6])?,
            before: bytes[7],
            whole: flag(bytes[8])?,
            tally: bytes[9],
            selection,
            cylinder: two(14),
            head: two(16),
            place: usize::from(two(18)),
            next: usize::from(two(20)) << 16 | usize::from(two(22)),
        })
    }

    /// The bounds of refusal 4 that hold whatever the pack.
    pub fn legal(&self) -> bool {
        self.key <= 15 && mask_legal(self.mask) && self.tally <= 1 && self.place <= 4096 && self.next < 1 << 24
    }

    /// A selection that is no marker of the track, or none after a command that leaves one.
    pub fn selection_wrong(&self, track: &[u16]) -> bool {
        match self.selection {
            Selection::None => matches!(self.before, 0x31 | 0x51 | 0x71 | 0x29 | 0x49 | 0x69 | 0x12 | 0x15 | 0x1D),
            Selection::R0 => false,
            Selection::Marker(cell) => !is_marker(track, cell),
        }
    }
}
