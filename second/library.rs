//! The library's C functions, as include/poplar.h declares them.
use crate::opinion::Lent;

#[link(name = "box_export", kind = "static")]
extern "C" {
    fn poplar_fresh(held: *mut u8, held_len: usize) -> u8;
    fn poplar_start(
        held: *mut u8,
        held_len: usize,
        storage: *mut u8,
        storage_len: usize,
        cells: *mut u16,
        cells_len: usize,
        cylinders: u32,
        heads: u32,
    ) -> u8;
    fn poplar_go(
        held: *mut u8,
        held_len: usize,
        storage: *mut u8,
        storage_len: usize,
        cells: *mut u16,
        cells_len: usize,
        cylinders: u32,
        heads: u32,
        allowance: u16,
    ) -> u8;
}

/// The header allows a null pointer with a length of 0, so that is what an empty slice lends.
fn part<T>(slice: &mut [T]) -> *mut T {
    if slice.is_empty() {
        std::ptr::null_mut()
    } else {
        slice.as_mut_ptr()
    }
}

// SAFETY, of all three: each pointer and length is that of a slice borrowed to be changed, so it is valid for the call,
// overlaps no other, and nothing else uses it.

pub fn fresh(held: &mut [u8]) -> u8 {
    unsafe { poplar_fresh(part(held), held.len()) }
}

pub fn start(lent: &mut Lent) -> u8 {
    let Lent { held: h, storage: s, cells: c, cylinders, heads } = lent;
    unsafe { poplar_start(part(h), h.len(), part(s), s.len(), part(c), c.len(), *cylinders, *heads) }
}

pub fn go(lent: &mut Lent, allowance: u16) -> u8 {
    let Lent { held: h, storage: s, cells: c, cylinders, heads } = lent;
    unsafe { poplar_go(part(h), h.len(), part(s), s.len(), part(c), c.len(), *cylinders, *heads, allowance) }
}
