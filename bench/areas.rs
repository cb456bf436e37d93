// The areas of a track as a plain loop in Rust reads them: where they lie, how long they are, whether they are readable.
use crate::plain::Way;

// Cells of a track: where R0 begins, a count area with its check, a check.
pub const R0: usize = 7;
pub const COUNT_CELLS: usize = 11;
pub const CHECK: usize = 2;
pub const MARKER: u16 = 512;

// Sense bytes of an area that is not readable.
pub const UNREADABLE: [u8; 2] = [0x08, 0x00];
pub const UNREADABLE_COUNT: [u8; 2] = [0x08, 0x80];

// An area's cells; a data area has a byte even where there are no data.
pub const fn key_cells(kl: usize) -> usize {
    if kl == 0 {
        0
    } else {
        kl + CHECK
    }
}

pub const fn data_cells(dl: usize) -> usize {
    if dl == 0 {
        1 + CHECK
    } else {
        dl + CHECK
    }
}

// The cells of a record, its marker with them.
pub const fn record_cells(kl: usize, dl: usize) -> usize {
    1 + COUNT_CELLS + key_cells(kl) + data_cells(dl)
}

// The cells of a count area that begins there, or the sense bytes.
#[inline(always)]
pub fn count(way: impl Way, track: &[u16], from: usize) -> Result<&[u16], [u8; 2]> {
    way.readable(track, from, COUNT_CELLS).ok_or(UNREADABLE_COUNT)
}

#[inline(always)]
pub fn key(way: impl Way, track: &[u16], from: usize, kl: usize) -> Result<&[u16], [u8; 2]> {
    if kl == 0 {
        return Ok(&[]);
    }
    way.readable(track, from, key_cells(kl)).ok_or(UNREADABLE)
}

#[inline(always)]
pub fn data(way: impl Way, track: &[u16], from: usize, dl: usize) -> Result<&[u16], [u8; 2]> {
    let cells = way.readable(track, from, data_cells(dl)).ok_or(UNREADABLE)?;
    Ok(&cells[..dl])
}

// Key length and data length of a count area.
#[inline(always)]
pub fn lengths(count: &[u16]) -> (usize, usize) {
    let byte = |i: usize| usize::from(count[i] & 255);
    (byte(6), 256 * byte(7) + byte(8))
}
