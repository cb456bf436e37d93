//! One track as the library finds it: every marker, and every area with its place and whether it is readable.
use crate::words::counted;
use poplar::{area, marker, Area, Look, Part, WrongCall, R0, TRACK_CELLS};
use std::fmt;

/// Which record an area belongs to: R0 is number 0, the others are counted along the track.
#[derive(Clone, Copy, PartialEq, Eq)]
pub struct Record {
    pub number: usize,
    pub marker: Option<u16>,
}

/// Something that lies on a track, from one cell up to another.
#[derive(Clone, Copy, PartialEq, Eq)]
pub enum Lies {
    Marker(Record),
    Area(Part, Option<Record>, Area, bool),
    Gap,
}

impl Lies {
    /// What is drawn over what: a readable area over one that is not and runs into it, a marker over both.
    fn layer(self) -> usize {
        match self {
            Lies::Gap => 0,
            Lies::Area(_, _, _, readable) => 1 + usize::from(readable),
            Lies::Marker(_) => 3,
        }
    }
}

#[derive(Clone, Copy)]
pub struct Piece {
    pub lies: Lies,
    pub first: usize,
    pub end: usize,
}

/// An area that cannot be read, or cannot even be found.
pub struct Fault {
    pub part: Part,
    pub record: Option<Record>,
    pub area: Option<Area>,
}

#[derive(Default)]
pub struct Survey {
    /// In the order of the track; where areas go over one another, by first cells. Gaps are what is left.
    pub pieces: Vec<Piece>,
    pub faults: Vec<Fault>,
    pub records: usize,
    /// All areas: readable, not readable, and those that cannot be found.
    pub areas: usize,
    /// The cells of gaps that are not 0.
    pub stray: Vec<usize>,
}

/// Bytes of a check, which follow those of its area.
const CHECK_BYTES: u32 = 2;

impl Survey {
    pub fn of(track: &[u16]) -> Result<Survey, WrongCall> {
        let mut survey = Survey::default();
        survey.look(track, Part::Home, None, R0)?;
        survey.look_at_record(track, Record { number: 0, marker: None }, R0)?;
        let mut place = 0;
        while let Some(cell) = marker(track, place)? {
            survey.records += 1;
            let record = Record { number: survey.records, marker: Some(cell) };
            let first = usize::from(cell);
            survey.pieces.push(Piece { lies: Lies::Marker(record), first, end: first + 1 });
            survey.look_at_record(track, record, cell + 1)?;
            place = cell + 1;
        }
        survey.pieces.sort_by_key(|piece| piece.first);
        survey.add_gaps();
        survey.stray = survey.gap_cells().filter(|&cell| track[cell] != 0).collect();
        Ok(survey)
    }

    fn gap_cells(&self) -> impl Iterator<Item = usize> + '_ {
        self.pieces.iter().filter(|piece| piece.lies == Lies::Gap).flat_map(|piece| piece.first..piece.end)
    }

    /// The numbers of the pieces, from the undermost on.
    pub fn layers(&self) -> Vec<usize> {
        let mut numbers: Vec<usize> = (0..self.pieces.len()).collect();
        numbers.sort_by_key(|&number| self.pieces[number].lies.layer());
        numbers
    }

    /// For each cell the number of the uppermost piece there.
    pub fn uppermost(&self) -> Vec<usize> {
        let mut uppermost = vec![0; TRACK_CELLS];
        for number in self.layers() {
            let piece = &self.pieces[number];
            uppermost[piece.first..piece.end].fill(number);
        }
        uppermost
    }

    /// The cell in the middle of an area of a record, if it lies there.
    pub fn middle_of(&self, number: usize, part: Part) -> Option<usize> {
        let is_it = |piece: &&Piece| matches!(piece.lies, Lies::Area(of, Some(record), ..) if of == part && record.number == number);
        self.pieces.iter().find(is_it).map(|piece| (piece.first + piece.end) / 2)
    }

    fn look_at_record(&mut self, track: &[u16], record: Record, first: u16) -> Result<(), WrongCall> {
        for part in [Part::Count, Part::Key, Part::Data] {
            self.look(track, part, Some(record), first)?;
        }
        Ok(())
    }

    fn look(&mut self, track: &[u16], part: Part, record: Option<Record>, at: u16) -> Result<(), WrongCall> {
        let found = area(track, at, part)?;
        self.areas += usize::from(found != Look::Absent);
        match found {
            Look::Readable(area) => self.add(part, record, area, true),
            Look::Unreadable(area) => {
                self.add(part, record, area, false);
                self.faults.push(Fault { part, record, area: Some(area) });
            }
            Look::NotKnown => self.faults.push(Fault { part, record, area: None }),
            Look::Absent => {}
        }
        Ok(())
    }

    fn add(&mut self, part: Part, record: Option<Record>, area: Area, readable: bool) {
        let (first, end) = ends(area);
        self.pieces.push(Piece { lies: Lies::Area(part, record, area, readable), first, end });
    }

    fn add_gaps(&mut self) {
        let mut with_gaps = Vec::new();
        let mut reached = 0;
        let end = Piece { lies: Lies::Gap, first: TRACK_CELLS, end: TRACK_CELLS };
        for piece in self.pieces.iter().chain([&end]) {
            if piece.first > reached {
                with_gaps.push(Piece { lies: Lies::Gap, first: reached, end: piece.first });
            }
            if piece.first < TRACK_CELLS {
                with_gaps.push(*piece);
            }
            reached = reached.max(piece.end);
        }
        self.pieces = with_gaps;
    }
}

/// The cells of an area that lie on the track: the first, and the one behind the last.
fn ends(area: Area) -> (usize, usize) {
    let first = area.first as usize;
    let end = area.first.saturating_add(area.bytes).saturating_add(CHECK_BYTES) as usize;
    (first.min(TRACK_CELLS), end.min(TRACK_CELLS))
}

pub fn part_name(part: Part) -> &'static str {
    match part {
        Part::Home => "home address",
        Part::Count => "count",
        Part::Key => "key",
        Part::Data => "data",
    }
}

/// Cells in words.
pub fn cells(first: usize, end: usize) -> String {
    if end <= first + 1 {
        format!("cell {first}")
    } else {
        format!("cells {first} to {}", end - 1)
    }
}

impl fmt::Display for Record {
    fn fmt(&self, f: &mut fmt::Formatter) -> fmt::Result {
        write!(f, "R{}", self.number)
    }
}

/// The area with its record, as 'R1 key'.
pub fn area_name(part: Part, record: Option<Record>) -> String {
    match record {
        Some(record) => format!("{record} {}", part_name(part)),
        None => part_name(part).to_string(),
    }
}

/// What was counted, in words.
impl fmt::Display for Survey {
    fn fmt(&self, f: &mut fmt::Formatter) -> fmt::Result {
        write!(f, "{}, {}, ", counted(self.records, "marker"), counted(self.areas, "area"))?;
        match self.faults.len() {
            0 => write!(f, "all readable"),
            number => write!(f, "{number} not readable"),
        }
    }
}

impl Fault {
    /// Whether some of it lies on the track, so that it is a piece of its own.
    pub fn is_piece(&self) -> bool {
        self.area.is_some_and(|area| (area.first as usize) < TRACK_CELLS)
    }
}

impl fmt::Display for Fault {
    fn fmt(&self, f: &mut fmt::Formatter) -> fmt::Result {
        write!(f, "{}", area_name(self.part, self.record))?;
        if let Some(cell) = self.record.and_then(|record| record.marker) {
            write!(f, " (marker in cell {cell})")?;
        }
        let Some(area) = self.area else { return write!(f, ": cannot be found, its count is not readable") };
        let (first, end) = ends(area);
        if !self.is_piece() {
            return write!(f, ": lies past the end of the track");
        }
        write!(f, ": {}, not readable", cells(first, end))?;
        if area.first + area.bytes + CHECK_BYTES > TRACK_CELLS as u32 {
            write!(f, ": it reaches past the end of the track")?;
        }
        Ok(())
    }
}
