// How the plain loops read and write an area: a byte at a time, or with a check by slicing by 8.
use crate::areas::CHECK;
use crate::remainder::sliced;

pub trait Way: Copy {
    // An area with its check: on the track, of bytes alone, and the remainder over all of it is zero.
    fn readable(self, track: &[u16], from: usize, n: usize) -> Option<&[u16]>;

    // An area of these bytes and their check, from a cell on: the cell behind it.
    fn write(self, track: &mut [u16], from: usize, bytes: impl Iterator<Item = u8>) -> usize;
}

#[inline(always)]
fn put_check(track: &mut [u16], at: usize, r: u16) -> usize {
    track[at] = 256 + (r >> 8);
    track[at + 1] = 256 + (r & 255);
    at + CHECK
}

// By the remainder that is next after a byte: one loop does all.
impl<Next: Fn(u16, u16) -> u16 + Copy> Way for Next {
    #[inline(always)]
    fn readable(self, track: &[u16], from: usize, n: usize) -> Option<&[u16]> {
        let cells = track.get(from..from + n)?;
        let mut r = 0;
        let mut other = 0;
        for &cell in cells {
            r = self(r, cell);
            other |= cell ^ 256;
        }
        (r == 0 && other < 256).then_some(&cells[..n - CHECK])
    }

    #[inline(always)]
    fn write(self, track: &mut [u16], from: usize, bytes: impl Iterator<Item = u8>) -> usize {
        let mut r = 0;
        let mut at = from;
        for (cell, byte) in track[from..].iter_mut().zip(bytes) {
            r = self(r, byte.into());
            *cell = 256 + u16::from(byte);
            at += 1;
        }
        put_check(track, at, r)
    }
}

// The check has a loop of its own, so that the compiler may do the other one several cells at once.
#[derive(Clone, Copy)]
pub struct BySlices;

impl Way for BySlices {
    #[inline(always)]
    fn readable(self, track: &[u16], from: usize, n: usize) -> Option<&[u16]> {
        let cells = track.get(from..from + n)?;
        let other = cells.iter().fold(0, |other, cell| other | cell ^ 256);
        (other < 256 && sliced(cells) == 0).then_some(&cells[..n - CHECK])
    }

    #[inline(always)]
    fn write(self, track: &mut [u16], from: usize, bytes: impl Iterator<Item = u8>) -> usize {
        let mut at = from;
        for (cell, byte) in track[from..].iter_mut().zip(bytes) {
            *cell = 256 + u16::from(byte);
            at += 1;
        }
        let r = sliced(&track[from..at]);
        put_check(track, at, r)
    }
}
