//! `poplar track`: one track, as text or as a picture.
use crate::args::Takes;
use crate::cli::{To, DONE};
use crate::pack::Pack;
use crate::refusal::{refuse, Refusal, Result};
use crate::survey::{area_name, Lies, Piece, Survey};
use crate::{place, save, svg, words};
use poplar::{Part, WrongCall};
use std::io::Write;

pub const HELP: &str = "\
poplar track PACK --cylinder C --head H [--heads N] [--whole]
poplar track PACK --cylinder C --head H [--heads N] --svg FILE [--force]

Draws one track: home address, R0 and the records with their markers, and gaps. Areas that are not readable are marked;
where one runs into a readable one, that one is drawn. R1, R2, .. are counted along the track; a record's own number is
the last byte of its ID.

  --cylinder C   cylinder, from 0
  --head H       head, from 0
  --heads N      heads of the pack, 1 to 10; 10 if it is not given
  --whole        show all bytes of each area, 16 a line, not the first 16 alone; -- is a cell that holds no byte
  --svg FILE     write a picture instead, to a new file
  --force        overwrite that file

Exit status: 0 drawn; 2 refused.";

const TAKES: Takes = Takes {
    name: "track",
    file: true,
    options: &["--cylinder", "--head", "--heads", "--svg"],
    switches: &["--whole", "--force"],
};

impl From<WrongCall> for Refusal {
    fn from(wrong: WrongCall) -> Refusal {
        Refusal { text: wrong.to_string(), by_box: true }
    }
}

pub fn track(given: &[std::ffi::OsString], to: &mut To) -> Result<u8> {
    let args = TAKES.parse(given)?;
    let pack = Pack::given(&args)?;
    let cylinder = args.number("--cylinder", 0..=pack.shape.cylinders - 1, None)?;
    let head = args.number("--head", 0..=pack.shape.heads - 1, None)?;
    let cells = pack.track(cylinder, head);
    let survey = Survey::of(cells)?;
    let title = format!("Cylinder {cylinder}, head {head}");
    match args.path("--svg") {
        Some(_) if args.has("--whole") => return args.refuse("--whole does not go with --svg"),
        Some(place) => {
            place::may_write_file(place, args.has("--force"), args.file("a pack file")?)?;
            save::file(place, svg::draw(&title, cells, &survey).as_bytes(), args.has("--force"))?.tell(Ok(()), to)?;
        }
        None if args.has("--force") => return refuse("track: --force goes with --svg; see poplar track --help"),
        None => draw_as(&title, cells, &survey, args.has("--whole"), to.out)?,
    }
    Ok(DONE)
}

/// The track as text, with the first bytes of each area.
pub fn draw(title: &str, cells: &[u16], survey: &Survey, out: &mut dyn Write) -> Result<()> {
    draw_as(title, cells, survey, false, out)
}

/// The track as text: a line for each piece, or the whole of it; then the faults that are no piece, and a map.
fn draw_as(title: &str, cells: &[u16], survey: &Survey, whole: bool, out: &mut dyn Write) -> Result<()> {
    writeln!(out, "{title}: {survey}")?;
    writeln!(out, "R1, R2, .. are counted along the track; a record's own number is the last byte of its ID.\n")?;
    writeln!(out, "  {:<11} {:<14} {:<10}  content", "cells", "what", "")?;
    for piece in &survey.pieces {
        writeln!(out, "{}", line(piece, cells, whole))?;
        if whole {
            all_bytes(piece, cells, out)?;
        }
    }
    for fault in survey.faults.iter().filter(|fault| !fault.is_piece()) {
        writeln!(out, "  {fault}")?;
    }
    map(survey, out)
}

fn row(first: usize, end: usize, what: &str, state: &str, content: &str) -> String {
    let at = match end - first {
        1 => first.to_string(),
        _ => format!("{first}-{}", end - 1),
    };
    format!("  {at:<11} {what:<14} {state:<10}  {content}").trim_end().to_string()
}

fn line(piece: &Piece, cells: &[u16], whole: bool) -> String {
    let part = &cells[piece.first..piece.end];
    let (what, state, content) = match piece.lies {
        Lies::Marker(record) => (format!("{record} marker"), "", String::new()),
        Lies::Gap => ("gap".to_string(), "", gap(part)),
        Lies::Area(part_of, record, area, readable) => {
            let state = if readable { "readable" } else { "UNREADABLE" };
            let (bytes, check) = part.split_at(part.len().min(area.bytes as usize));
            let number = words::counted(area.bytes as usize, "byte");
            let content = match part_of {
                Part::Home if readable => home(bytes),
                Part::Count if readable => count(bytes),
                _ if whole => number,
                _ => format!("{number}: {}", first_bytes(bytes)),
            };
            (area_name(part_of, record), state, format!("{content}  check {}", hex_cells(check)))
        }
    };
    row(piece.first, piece.end, &what, state, &content)
}

/// All bytes of an area that lie on the track.
fn all_bytes(piece: &Piece, cells: &[u16], out: &mut dyn Write) -> Result<()> {
    let Lies::Area(_, _, area, _) = piece.lies else { return Ok(()) };
    let end = piece.end.min(piece.first + area.bytes as usize);
    for first in (piece.first..end).step_by(SHOWN) {
        let end = end.min(first + SHOWN);
        let shown = &cells[first..end];
        let content = format!("{:<width$}  |{}|", hex_cells(shown), as_text(shown), width = 3 * SHOWN - 1);
        writeln!(out, "{}", row(first, end, "", "", &content))?;
    }
    Ok(())
}

/// Two bytes of a readable area as a number.
fn pair(cells: &[u16], at: usize) -> u16 {
    (cells[at] & 0xFF) * 256 + (cells[at + 1] & 0xFF)
}

/// What the bytes of a readable home address say.
fn home(cells: &[u16]) -> String {
    format!("flag {}, cylinder {}, head {}", hex_cells(&cells[..1]), pair(cells, 1), pair(cells, 3))
}

/// What the bytes of a readable count say.
fn count(cells: &[u16]) -> String {
    let (flag, id) = (hex_cells(&cells[..1]), hex_cells(&cells[1..6]));
    format!("flag {flag}, ID {id}, key length {}, data length {}", cells[6] & 0xFF, pair(cells, 7))
}

/// A recorded byte, if the cell has one, for the eye alone.
fn recorded(cell: u16) -> Option<u8> {
    u8::try_from(cell.wrapping_sub(256)).ok()
}

/// Recorded bytes in hex, other cells as dashes.
fn hex_cells(cells: &[u16]) -> String {
    let shown = cells.iter().map(|&cell| recorded(cell).map_or("--".to_string(), |byte| format!("{byte:02X}")));
    shown.collect::<Vec<_>>().join(" ")
}

/// Recorded bytes that are characters of ASCII, other cells as dots.
fn as_text(cells: &[u16]) -> String {
    let shown = cells.iter().map(|&cell| match recorded(cell) {
        Some(byte) if byte.is_ascii_graphic() || byte == b' ' => byte as char,
        _ => '.',
    });
    shown.collect()
}

/// Bytes of an area that its line shows, and bytes of a line of the whole.
const SHOWN: usize = 16;

/// The first cells of an area, in hex and as text.
fn first_bytes(cells: &[u16]) -> String {
    let shown = &cells[..cells.len().min(SHOWN)];
    let more = if cells.len() > SHOWN { " .." } else { "" };
    format!("{}{more}  |{}|", hex_cells(shown), as_text(shown))
}

fn gap(cells: &[u16]) -> String {
    match cells.iter().filter(|&&cell| cell != 0).count() {
        0 => words::counted(cells.len(), "cell"),
        not_zero => format!("{}, of them {not_zero} not 0", words::counted(cells.len(), "cell")),
    }
}

/// Cells of a sign of the map, and signs of its line.
const SIGN: usize = 16;
const LINE: usize = 64;

fn map(survey: &Survey, out: &mut dyn Write) -> Result<()> {
    let of_cells: Vec<char> = survey.uppermost().iter().map(|&number| sign(survey.pieces[number].lies)).collect();
    let most = |cells: &[char]| cells.iter().copied().max_by_key(|&sign| rank_of(sign)).unwrap_or('.');
    let signs: Vec<char> = of_cells.chunks(SIGN).map(most).collect();
    writeln!(
        out,
        "\n  map, {SIGN} cells a sign: H home address, c count, k key, d data, | marker, X not readable, . gap"
    )?;
    for (number, line) in signs.chunks(LINE).enumerate() {
        writeln!(out, "  {:>4} {}", number * LINE * SIGN, line.iter().collect::<String>())?;
    }
    Ok(())
}

fn sign(lies: Lies) -> char {
    match lies {
        Lies::Area(_, _, _, false) => 'X',
        Lies::Marker(_) => '|',
        Lies::Area(Part::Home, ..) => 'H',
        Lies::Area(Part::Count, ..) => 'c',
        Lies::Area(Part::Key, ..) => 'k',
        Lies::Area(Part::Data, ..) => 'd',
        Lies::Gap => '.',
    }
}

/// Which sign stands where several would.
fn rank_of(sign: char) -> usize {
    ".dkcH|X".find(sign).unwrap_or(0)
}
