//! The four subcommands, and where they speak.
use crate::refusal::{refuse, shown, Refusal, Result};
use crate::{check, demo, run, track};
use std::ffi::OsString;
use std::io::Write;

/// Exit status: done; done, but held or with areas that are not readable; refused by the program; refused by the box.
pub const DONE: u8 = 0;
pub const DONE_BUT: u8 = 1;
pub const REFUSED: u8 = 2;
pub const BOX_REFUSED: u8 = 3;

const HELP: &str = "\
poplar: packs of the IBM 2311 through the proved stand-in for the 2841 disk control

  poplar demo              format a small sample pack, run a channel program on it, show what happened
  poplar run PACK ..       run a channel program on a pack file; results go to a new folder
  poplar track PACK ..     draw one track, as text or as a picture (SVG)
  poplar check PACK ..     go over a whole pack and list every area that is not readable
  poplar WHICH --help      more on one of them

A pack file holds its cells, track after track (cylinder by cylinder, in each head by head), 4,096 cells a track, two
bytes a cell, high byte first, any value. Files that are given are opened for reading alone. Nothing is overwritten
without --force.

Exit status: 0 done; 1 done, but the chain is held (run) or an area is not readable (check); 2 refused: bad usage or a
wrong file; 3 the box refused.";

/// Where a call speaks, and whether a progress bar is of use there.
pub struct To<'a> {
    pub out: &'a mut dyn Write,
    pub err: &'a mut dyn Write,
    pub bar: bool,
}

impl To<'_> {
    /// Something to know that does not change how the call ends.
    pub fn note(&mut self, text: &str) {
        let _ = writeln!(self.err, "poplar: note: {}", shown(text));
    }
}

type Subcommand = fn(&[OsString], &mut To) -> Result<u8>;

const SUBCOMMANDS: &[(&str, &str, Subcommand)] = &[
    ("demo", demo::HELP, demo::demo),
    ("run", run::HELP, run::run),
    ("track", track::HELP, track::track),
    ("check", check::HELP, check::check),
];

fn serve(words: &[OsString], to: &mut To) -> Result<u8> {
    let Some(first) = words.first() else {
        return refuse("expected demo, run, track or check; see poplar --help");
    };
    if first == "--help" {
        writeln!(to.out, "{HELP}")?;
        return Ok(DONE);
    }
    let Some((_, help, subcommand)) = SUBCOMMANDS.iter().find(|(name, ..)| first == name) else {
        let found = first.to_string_lossy();
        return refuse(format!("'{found}': expected demo, run, track or check; see poplar --help"));
    };
    if words.iter().any(|word| word == "--help") {
        writeln!(to.out, "{help}")?;
        return Ok(DONE);
    }
    subcommand(&words[1..], to)
}

/// One call with these words; its exit status.
pub fn run(words: &[OsString], to: &mut To) -> u8 {
    let served = serve(words, to);
    // also after a refusal: what was told before it comes first
    let heard = to.out.flush();
    let Refusal { text, by_box } = match (served, heard) {
        (Ok(status), Ok(())) => return status,
        (Ok(_), Err(error)) => error.into(),
        (Err(refusal), _) => refusal,
    };
    // Nobody may be listening; the status says it too.
    let _ = writeln!(to.err, "poplar: {}", shown(&text));
    if by_box {
        BOX_REFUSED
    } else {
        REFUSED
    }
}
