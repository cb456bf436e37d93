// The library as a value: the calls of a box and of the check, so that a part can time any library that has them.
use poplar::{Answer, Shape};

// Each is called by its pointer, so none is inlined into what times it.
pub struct Library {
    pub start: fn(&mut [u8], &mut [u8], &mut [u16], Shape) -> Answer,
    pub go: fn(&mut [u8], &mut [u8], &mut [u16], Shape, u16) -> Answer,
    pub check: fn(&[u16]) -> u16,
}

// The library of this text.
pub static NOW: Library = Library { start: poplar::start_raw, go: poplar::go_raw, check };

// crates/check_export: a slice goes as its start and its length.
#[link(name = "check_export", kind = "static")]
extern "C" {
    fn poplar_check(cells: *const u16, len: usize) -> u16;
}

#[inline(never)]
fn check(cells: &[u16]) -> u16 {
    // It reads `cells.len()` cells from the start on, all of them lent here, and asks nothing of its caller.
    unsafe { poplar_check(cells.as_ptr(), cells.len()) }
}
