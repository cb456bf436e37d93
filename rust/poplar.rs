//! Poplarstep, the stand-in for the IBM 2841 disk control, as a Rust host uses it.
//!
//! The library is proved and built by `rt lib` in `crates/box_export_c`; this file only gives its five functions Rust's types.
//! `include/poplar.h` says the same for C. To compile it:
//!
//! ```text
//! rustc --edition 2021 --crate-type rlib -L native=target/staticlib rust/poplar.rs
//! ```
//!
//! `rust/build` does both, under the name `target/staticlib/libbox_export.a`, and compiles those programs beside this file that its arguments name.
//!
//! A host keeps a [`Held`] and lends it, the channel's storage and the pack's cells to [`start`] and [`go`]. Every input
//! gets an [`Answer`]. There is no global state, so boxes on different memory may run in several threads at once.
//!
//! [`marker`] and [`area`] look at a track without a box: where its markers and areas lie, and which areas are readable.

/// The version of the interface: the functions, the answers and the layout of [`Held`].
pub const INTERFACE: u32 = 1;

/// Bytes of a held state.
pub const HELD_SIZE: usize = 64;

/// The number of the layout of these bytes, which stands in byte 11.
pub const HELD_LAYOUT: u8 = 1;

/// Cells of a track.
pub const TRACK_CELLS: usize = 4096;

/// The record that [`area`] knows as R0: its count area begins here.
pub const R0: u16 = 7;

// A slice goes as its start and its length in elements. The library uses nothing but these elements, and nothing is asked
// of their values.
#[link(name = "box_export", kind = "static")]
extern "C" {
    fn poplar_fresh(held: *mut u8, held_len: usize) -> u8;
    fn poplar_start(
        held: *mut u8,
        held_len: usize,
        storage: *mut u8,
        storage_len: usize,
        cells: *mut u16,
        cells_len: usize,
        cylinders: u32,
        heads: u32,
    ) -> u8;
    fn poplar_go(
        held: *mut u8,
        held_len: usize,
        storage: *mut u8,
        storage_len: usize,
        cells: *mut u16,
        cells_len: usize,
        cylinders: u32,
        heads: u32,
        allowance: u16,
    ) -> u8;
    fn poplar_marker(track: *const u16, track_len: usize, place: u16) -> u16;
    fn poplar_area(
        track: *const u16,
        track_len: usize,
        record: u16,
        part: u8,
        area: *mut u32,
        area_len: usize,
    ) -> u8;
}

/// What the host hears. The refusals are tested in the order 2, 3, 4, then 7 or 6, then 5.
#[derive(Clone, Copy, Debug, PartialEq, Eq)]
pub enum Answer {
    /// 0: the chain ended; its status word is stored at 64.
    Ended,
    /// 1: the chain is held, without a status word. Also a good start.
    NotEnded,
    /// 2: storage under 80 or over 16,777,216 bytes. Nothing changed.
    BadStorage,
    /// 3: cylinders not 1 to 203, heads not 1 to 10, or the wrong number of cells. Nothing changed.
    BadPack,
    /// 4: held state wrong. Nothing changed.
    BadHeld,
    /// 5: bad address word, or the first word is bad or a TIC. Bytes 68 and 69 of storage became 00 20, no chain goes,
    /// nothing else changed.
    NotStarted,
    /// 6: go with no chain going. Nothing changed.
    NoChain,
    /// 7: start with a chain going. Nothing changed.
    ChainGoing,
    /// Any other number. The library does not give one.
    Other(u8),
}

impl From<u8> for Answer {
    fn from(number: u8) -> Answer {
        match number {
            0 => Answer::Ended,
            1 => Answer::NotEnded,
            2 => Answer::BadStorage,
            3 => Answer::BadPack,
            4 => Answer::BadHeld,
            5 => Answer::NotStarted,
            6 => Answer::NoChain,
            7 => Answer::ChainGoing,
            other => Answer::Other(other),
        }
    }
}

impl Answer {
    /// The number in document 01's table.
    pub fn number(self) -> u8 {
        match self {
            Answer::Ended => 0,
            Answer::NotEnded => 1,
            Answer::BadStorage => 2,
            Answer::BadPack => 3,
            Answer::BadHeld => 4,
            Answer::NotStarted => 5,
            Answer::NoChain => 6,
            Answer::ChainGoing => 7,
            Answer::Other(number) => number,
        }
    }
}

/// What the host says of the pack: 1 to 203 cylinders of 1 to 10 heads. Other numbers are answered, by [`Answer::BadPack`].
#[derive(Clone, Copy, Debug, PartialEq, Eq)]
pub struct Shape {
    pub cylinders: u32,
    pub heads: u32,
}

impl Shape {
    /// How many cells such a pack has.
    pub fn cells(self) -> u128 {
        u128::from(self.cylinders) * u128::from(self.heads) * TRACK_CELLS as u128
    }
}

/// The record that the command before left selected.
#[derive(Clone, Copy, Debug, PartialEq, Eq)]
pub enum Selection {
    None,
    R0,
    /// The record whose marker is in this cell of the track under the head.
    Marker(u16),
    /// No legal byte: the box will answer [`Answer::BadHeld`].
    Other(u8),
}

/// What the box keeps from call to call: 64 bytes. Any 64 bytes may be one; those that are no held state are answered, by
/// [`Answer::BadHeld`].
#[derive(Clone, Debug, PartialEq, Eq)]
pub struct Held([u8; HELD_SIZE]);

impl Held {
    /// A fresh box: cylinder 0, head 0, place 0, mask 0, sense zero, no chain going.
    pub fn fresh() -> Held {
        let mut bytes = [0; HELD_SIZE];
        let written = fresh_raw(&mut bytes);
        assert!(written, "poplar_fresh refuses its own length");
        Held(bytes)
    }

    /// A held state that was stored elsewhere.
    pub fn from_bytes(bytes: [u8; HELD_SIZE]) -> Held {
        Held(bytes)
    }

    /// Its bytes, to store elsewhere.
    pub fn bytes(&self) -> &[u8; HELD_SIZE] {
        &self.0
    }

    fn pair(&self, at: usize) -> u16 {
        u16::from_be_bytes([self.0[at], self.0[at + 1]])
    }

    /// Whether a chain is going.
    pub fn going(&self) -> bool {
        self.0[0] == 1
    }

    /// The key of the address word, 0 to 15.
    pub fn key(&self) -> u8 {
        self.0[1]
    }

    /// The file mask.
    pub fn mask(&self) -> u8 {
        self.0[2]
    }

    /// Whether a mask was set in this chain.
    pub fn mask_set(&self) -> bool {
        self.0[3] == 1
    }

    /// Sense bytes 0 and 1. Bytes 2 to 5 are always zero; the Sense command moves all six into storage.
    pub fn sense(&self) -> [u8; 2] {
        [self.0[4], self.0[5]]
    }

    /// Whether the word before was a TIC.
    pub fn after_tic(&self) -> bool {
        self.0[6] == 1
    }

    /// The code of the command before, 0 if there was none.
    pub fn before(&self) -> u8 {
        self.0[7]
    }

    /// Whether the command before was a Search HA, 31 or 29 that was equal over the whole field.
    pub fn whole(&self) -> bool {
        self.0[8] == 1
    }

    /// Index points passed by Search ID and Search Key in a row, 0 or 1.
    pub fn tally(&self) -> u8 {
        self.0[9]
    }

    /// The selected record.
    pub fn selection(&self) -> Selection {
        match self.0[10] {
            0 => Selection::None,
            1 => Selection::R0,
            2 => Selection::Marker(self.pair(12)),
            other => Selection::Other(other),
        }
    }

    /// The number of the layout.
    pub fn layout(&self) -> u8 {
        self.0[11]
    }

    /// The cylinder under the head.
    pub fn cylinder(&self) -> u16 {
        self.pair(14)
    }

    /// The head.
    pub fn head(&self) -> u16 {
        self.pair(16)
    }

    /// Where on the track the head stands, 0 to 4,096.
    pub fn place(&self) -> u16 {
        self.pair(18)
    }

    /// The address of the next command word.
    pub fn next(&self) -> u32 {
        u32::from_be_bytes([self.0[20], self.0[21], self.0[22], self.0[23]])
    }
}

/// Starts the chain of the address word at 72 of storage: tests it and the first command word, and runs nothing.
pub fn start(held: &mut Held, storage: &mut [u8], cells: &mut [u16], shape: Shape) -> Answer {
    start_raw(&mut held.0, storage, cells, shape)
}

/// Runs the chain on, for at most `allowance` command words; a TIC and a bad word count as one each.
pub fn go(held: &mut Held, storage: &mut [u8], cells: &mut [u16], shape: Shape, allowance: u16) -> Answer {
    go_raw(&mut held.0, storage, cells, shape, allowance)
}

/// Writes a fresh box into `held`; false, with nothing written, if that is not 64 bytes long.
pub fn fresh_raw(held: &mut [u8]) -> bool {
    // Sound: the slice is valid for its length, and lent for the call alone.
    unsafe { poplar_fresh(held.as_mut_ptr(), held.len()) == 1 }
}

/// [`start`], with any slice as the held state.
pub fn start_raw(held: &mut [u8], storage: &mut [u8], cells: &mut [u16], shape: Shape) -> Answer {
    // Sound: three slices lent at once do not overlap, and each is valid for its length.
    let number = unsafe {
        poplar_start(
            held.as_mut_ptr(),
            held.len(),
            storage.as_mut_ptr(),
            storage.len(),
            cells.as_mut_ptr(),
            cells.len(),
            shape.cylinders,
            shape.heads,
        )
    };
    Answer::from(number)
}

/// [`go`], with any slice as the held state.
pub fn go_raw(held: &mut [u8], storage: &mut [u8], cells: &mut [u16], shape: Shape, allowance: u16) -> Answer {
    // Sound: as in `start_raw`.
    let number = unsafe {
        poplar_go(
            held.as_mut_ptr(),
            held.len(),
            storage.as_mut_ptr(),
            storage.len(),
            cells.as_mut_ptr(),
            cells.len(),
            shape.cylinders,
            shape.heads,
            allowance,
        )
    };
    Answer::from(number)
}

/// A look that cannot be made: the track is not 4,096 cells long, or the record is over 4,096. The home address is of no record, so for
/// it any record will do.
#[derive(Clone, Copy, Debug, PartialEq, Eq)]
pub struct WrongCall;

impl std::fmt::Display for WrongCall {
    fn fmt(&self, f: &mut std::fmt::Formatter<'_>) -> std::fmt::Result {
        f.write_str("the track is not 4,096 cells long, or the record is over 4,096 (but for the home address)")
    }
}

impl std::error::Error for WrongCall {}

/// An area of the home address or of a record.
#[derive(Clone, Copy, Debug, PartialEq, Eq)]
pub enum Part {
    Home,
    Count,
    Key,
    Data,
}

impl Part {
    /// The library's number of it.
    pub fn number(self) -> u8 {
        match self {
            Part::Home => 0,
            Part::Count => 1,
            Part::Key => 2,
            Part::Data => 3,
        }
    }
}

/// Where an area lies: its first cell, and its bytes without the two of the check, which follow them. One that is not readable may
/// reach past the track.
#[derive(Clone, Copy, Debug, PartialEq, Eq)]
pub struct Area {
    pub first: u32,
    pub bytes: u32,
}

/// What a look at an area finds.
#[derive(Clone, Copy, Debug, PartialEq, Eq)]
pub enum Look {
    /// All its cells lie on the track and are bytes, and the check agrees.
    Readable(Area),
    /// It is not readable.
    Unreadable(Area),
    /// There is no such area: the key where KL is 0.
    Absent,
    /// The record's count area is not readable, so its key and data cannot be found.
    NotKnown,
}

/// The first cell of a track at or after `place` that holds a marker; `None` if there is none from there on. A record's number for
/// [`area`] is one more than its marker's cell.
pub fn marker(track: &[u16], place: u16) -> Result<Option<u16>, WrongCall> {
    // Sound: the slice is valid for its length, and is read only.
    let cell = unsafe { poplar_marker(track.as_ptr(), track.len(), place) };
    match cell {
        u16::MAX => Err(WrongCall),
        cell if usize::from(cell) < TRACK_CELLS => Ok(Some(cell)),
        _ => Ok(None),
    }
}

/// One area of a track: the home address, whatever the record, or an area of the record whose count area begins at cell `record`,
/// [`R0`] or a marker's cell + 1.
pub fn area(track: &[u16], record: u16, part: Part) -> Result<Look, WrongCall> {
    let mut found = [0; 2];
    let number = area_raw(track, record, part.number(), &mut found);
    let area = Area { first: found[0], bytes: found[1] };
    match number {
        1 => Ok(Look::Readable(area)),
        2 => Ok(Look::Unreadable(area)),
        3 => Ok(Look::Absent),
        4 => Ok(Look::NotKnown),
        _ => Err(WrongCall),
    }
}

/// [`area`] by numbers, with any slice for what it finds: 0 wrong call, 1 readable, 2 not, 3 absent, 4 not known. 1 and 2 write the
/// first cell and the bytes.
pub fn area_raw(track: &[u16], record: u16, part: u8, area: &mut [u32]) -> u8 {
    // Sound: two slices lent at once, one of them to be written, do not overlap, and each is valid for its length.
    unsafe { poplar_area(track.as_ptr(), track.len(), record, part, area.as_mut_ptr(), area.len()) }
}
