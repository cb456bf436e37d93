//! What can happen: the rows of the Unit Check table, the program checks, the ends. The coverage table counts them.

/// A row of the Unit Check table; where document 01 puts several causes in a row, each has its own name here.
#[derive(Clone, Copy, PartialEq, Eq, PartialOrd, Ord, Debug)]
pub enum Row {
    Unknown,
    BadMask,
    SecondMask,
    WrongBefore,
    SeekBarred,
    WriteBarred,
    SeekBad,
    SeekShort,
    UnreadableHa,
    UnreadableKey,
    UnreadableData,
    UnreadableCount,
    NoRoom,
    NoMarker,
    SecondIndex,
}

impl Row {
    pub fn sense(self) -> [u8; 2] {
        match self {
            Row::Unknown | Row::BadMask => [0x80, 0x00],
            Row::SecondMask | Row::WrongBefore => [0x80, 0x10],
            Row::SeekBarred => [0x00, 0x04],
            Row::WriteBarred => [0x80, 0x04],
            Row::SeekBad | Row::SeekShort => [0x81, 0x00],
            Row::UnreadableHa | Row::UnreadableKey | Row::UnreadableData => [0x08, 0x00],
            Row::UnreadableCount => [0x08, 0x80],
            Row::NoRoom => [0x00, 0x40],
            Row::NoMarker => [0x00, 0x02],
            Row::SecondIndex => [0x00, 0x08],
        }
    }
}

/// A program check, in the order of the tests; the last two are of a start only.
#[derive(Clone, Copy, PartialEq, Eq, PartialOrd, Ord, Debug)]
pub enum Program {
    Misaligned,
    Outside,
    TicAfterTic,
    Flags,
    CountZero,
    CodeDigit,
    Beyond,
    AddressWord,
    FirstTic,
}

/// The count against what the device wanted.
#[derive(Clone, Copy, PartialEq, Debug)]
pub enum Length {
    Exact,
    /// the device wanted more
    Short,
    /// some of the count is left
    Over,
}

/// How a command without Unit Check ended.
#[derive(Clone, Copy, Debug)]
pub struct End {
    pub satisfied: bool,
    pub exception: bool,
    pub length: Length,
    /// the length differs, and nothing suppressed it
    pub incorrect: bool,
}

#[derive(Clone, Copy, Debug)]
pub enum Event {
    Start(u8),
    Go(u8),
    NotStarted(Program),
    Program(Program),
    Tic(u8),
    Check(u8, Row),
    End(u8, End),
}
