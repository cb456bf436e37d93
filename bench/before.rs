// The library of an earlier revision, its functions renamed by `bench/run --before`, against the one of this text.
use crate::library::{Library, NOW};
use crate::part::{Part, Side};
use crate::table::at_most;
use poplar::{Answer, Shape};

// Called as the one of this text is: rust/poplar.rs and library.rs say the same of theirs.
static BEFORE: Library = Library { start, go, check };

#[link(name = "box_before", kind = "static")]
extern "C" {
    fn before_poplar_start(
        held: *mut u8,
        held_len: usize,
        storage: *mut u8,
        storage_len: usize,
        cells: *mut u16,
        cells_len: usize,
        cylinders: u32,
        heads: u32,
    ) -> u8;
    fn before_poplar_go(
        held: *mut u8,
        held_len: usize,
        storage: *mut u8,
        storage_len: usize,
        cells: *mut u16,
        cells_len: usize,
        cylinders: u32,
        heads: u32,
        allowance: u16,
    ) -> u8;
}

#[link(name = "check_before", kind = "static")]
extern "C" {
    fn before_poplar_check(cells: *const u16, len: usize) -> u16;
}

#[inline(never)]
fn start(held: &mut [u8], storage: &mut [u8], cells: &mut [u16], shape: Shape) -> Answer {
    // Sound: three slices lent at once do not overlap, and each is valid for its length.
    let number = unsafe {
        before_poplar_start(
            held.as_mut_ptr(),
            held.len(),
            storage.as_mut_ptr(),
            storage.len(),
            cells.as_mut_ptr(),
            cells.len(),
            shape.cylinders,
            shape.heads,
        )
    };
    Answer::from(number)
}

#[inline(never)]
fn go(held: &mut [u8], storage: &mut [u8], cells: &mut [u16], shape: Shape, allowance: u16) -> Answer {
    // Sound: as in `start`.
    let number = unsafe {
        before_poplar_go(
            held.as_mut_ptr(),
            held.len(),
            storage.as_mut_ptr(),
            storage.len(),
            cells.as_mut_ptr(),
            cells.len(),
            shape.cylinders,
            shape.heads,
            allowance,
        )
    };
    Answer::from(number)
}

#[inline(never)]
fn check(cells: &[u16]) -> u16 {
    // It reads `cells.len()` cells from the start on, all of them lent here.
    unsafe { before_poplar_check(cells.as_ptr(), cells.len()) }
}

static BOTH: [Side; 2] = [Side::Proved(&NOW), Side::Proved(&BEFORE)];

// A line a part, of which the script makes a table: its name, the bar, and milliseconds now and before.
pub fn print(parts: &[&Part]) -> Result<(), String> {
    for part in parts {
        let times = (part.times)(part.rounds, &BOTH)?;
        println!("{} {} {:.6} {:.6}", part.name, at_most(part.wanted_before), times[0], times[1]);
    }
    Ok(())
}

// One round, beside the one that warms up: both libraries leave what they should.
pub fn compare(parts: &[&Part]) -> Result<(), String> {
    for part in parts {
        (part.times)(1, &BOTH).map_err(|error| format!("{}, by two libraries: {error}", part.name))?;
    }
    println!("before: {} parts, each by two libraries linked side by side: all the same", parts.len());
    Ok(())
}
