//! `poplar check`: every area of a pack.
use crate::args::Takes;
use crate::cli::{To, DONE, DONE_BUT};
use crate::pack::Pack;
use crate::refusal::Result;
use crate::survey::Survey;
use crate::words::counted;
use std::fmt;

pub const HELP: &str = "\
poplar check PACK [--heads N]

Goes over every track of a pack and lists every area that is not readable, and every area that cannot be found because
the count before it is not readable. R1, R2, .. are counted along the track; a record's own number is the last byte of
its ID. The last line says how many cylinders and heads the file was taken for. On a terminal a bar shows how far it is.

A note tells of a track where cells of gaps are not 0. Gaps are written as 0, so something may lie there that is not
found, such as a record that lost its marker: poplar track shows where. A note does not change the exit status.

  --heads N   heads of the pack, 1 to 10; 10 if it is not given

Exit status: 0 all areas are readable; 1 some are not; 2 refused.";

const TAKES: Takes = Takes { name: "check", file: true, options: &["--heads"], switches: &[] };

/// Signs of the progress bar. With its numbers it is under 60 wide: a line that wraps could not be cleared.
const BAR: usize = 36;

/// What was counted: on all tracks, then the tracks with a fault and those with a note.
#[derive(Default)]
struct Counts {
    tracks: usize,
    records: usize,
    areas: usize,
    faults: usize,
    with_faults: usize,
    with_notes: usize,
}

impl Counts {
    fn add(&mut self, survey: &Survey) {
        self.tracks += 1;
        self.records += survey.records;
        self.areas += survey.areas;
        self.faults += survey.faults.len();
        self.with_faults += usize::from(!survey.faults.is_empty());
        self.with_notes += usize::from(!survey.stray.is_empty());
    }
}

impl fmt::Display for Counts {
    fn fmt(&self, f: &mut fmt::Formatter) -> fmt::Result {
        let (tracks, records) = (counted(self.tracks, "track"), counted(self.records, "marker"));
        write!(f, "{tracks}, {records}, {}: ", counted(self.areas, "area"))?;
        match self.faults {
            0 => write!(f, "all readable")?,
            faults => write!(f, "{faults} not readable, on {}", counted(self.with_faults, "track"))?,
        }
        match self.with_notes {
            0 => Ok(()),
            notes => write!(f, "; cells of gaps that are not 0, on {}", counted(notes, "track")),
        }
    }
}

pub fn check(given: &[std::ffi::OsString], to: &mut To) -> Result<u8> {
    let pack = Pack::given(&TAKES.parse(given)?)?;
    let tracks = pack.tracks().count();
    let mut counts = Counts::default();
    for (number, (cylinder, head, cells)) in pack.tracks().enumerate() {
        let survey = Survey::of(cells)?;
        clear(to)?;
        list(&format!("cylinder {cylinder}, head {head}"), &survey, to)?;
        counts.add(&survey);
        bar(number + 1, tracks, to)?;
    }
    clear(to)?;
    let cylinders = counted(pack.shape.cylinders as usize, "cylinder");
    writeln!(to.out, "{cylinders} of {}, {counts}", counted(pack.shape.heads as usize, "head"))?;
    Ok(if counts.faults == 0 { DONE } else { DONE_BUT })
}

/// The faults of a track, and the note if it gets one.
fn list(place: &str, survey: &Survey, to: &mut To) -> Result<()> {
    for fault in &survey.faults {
        writeln!(to.out, "{place}: {fault}")?;
    }
    if let Some(first) = survey.stray.first() {
        let are = if survey.stray.len() == 1 { "is" } else { "are" };
        let cells = counted(survey.stray.len(), "cell");
        writeln!(to.out, "note: {place}: {cells} of gaps {are} not 0, from cell {first} on")?;
    }
    Ok(())
}

fn bar(done: usize, all: usize, to: &mut To) -> Result<()> {
    if to.bar {
        let full = done * BAR / all;
        to.out.flush()?;
        write!(to.err, "\r[{}{}] {done} of {all} tracks", "#".repeat(full), "-".repeat(BAR - full))?;
        to.err.flush()?;
    }
    Ok(())
}

/// Takes the bar away, so that a line of the list can stand there.
fn clear(to: &mut To) -> Result<()> {
    if to.bar {
        write!(to.err, "\r\x1b[K")?;
        to.err.flush()?;
    }
    Ok(())
}
