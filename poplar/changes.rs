//! What a run changed: cells by the areas they lie in, and bytes of storage.
use crate::pack::Pack;
use crate::refusal::Result;
use crate::survey::{area_name, cells, Lies, Piece, Survey};
use crate::words::{counted, hex};
use std::io::Write;

fn name(piece: &Piece) -> String {
    match piece.lies {
        Lies::Marker(record) => format!("{record} marker"),
        Lies::Area(part, record, ..) => area_name(part, record),
        Lies::Gap => "gap".to_string(),
    }
}

/// The changed cells of a piece, of those that are its own.
fn tell_piece(piece: &Piece, changed: usize, own: usize) -> String {
    let at = cells(piece.first, piece.end);
    let told = format!("{} ({at}): {changed} of {} changed", name(piece), counted(own, "cell"));
    match piece.end - piece.first - own {
        0 => told,
        under => format!("{told}; {under} more lie under other records"),
    }
}

/// The changed cells of each track, by what lies there now; where areas go over one another, by the one that is drawn.
pub fn tell_cells(before: &Pack, after: &Pack, out: &mut dyn Write) -> Result<()> {
    let mut all = 0;
    for ((cylinder, head, old), (_, _, new)) in before.tracks().zip(after.tracks()) {
        if old == new {
            continue;
        }
        let survey = Survey::of(new)?;
        let uppermost = survey.uppermost();
        for (number, piece) in survey.pieces.iter().enumerate() {
            let own: Vec<usize> = (piece.first..piece.end).filter(|&cell| uppermost[cell] == number).collect();
            let changed = own.iter().filter(|&&cell| old[cell] != new[cell]).count();
            if changed > 0 {
                writeln!(out, "  cylinder {cylinder}, head {head}, {}", tell_piece(piece, changed, own.len()))?;
            }
            all += changed;
        }
    }
    if all == 0 {
        writeln!(out, "  no cell of the pack changed")?;
    }
    Ok(())
}

/// Bytes that did not change but lie between ones that did are shown with them, up to so many.
const NEAR: usize = 4;
const SHOWN: usize = 16;

/// The changed bytes of storage, as they are now.
pub fn tell_storage(before: &[u8], after: &[u8], out: &mut dyn Write) -> Result<()> {
    let mut runs: Vec<(usize, usize)> = Vec::new();
    for at in (0..after.len()).filter(|&at| before.get(at) != after.get(at)) {
        match runs.last_mut() {
            Some((_, end)) if at - *end < NEAR => *end = at + 1,
            _ => runs.push((at, at + 1)),
        }
    }
    if runs.is_empty() {
        writeln!(out, "  no byte of storage changed")?;
    }
    for (first, end) in runs {
        let now = &after[first..end];
        let shown = &now[..now.len().min(SHOWN)];
        let more = if now.len() > SHOWN { " .." } else { "" };
        let text: String = shown
            .iter()
            .map(|&byte| if byte.is_ascii_graphic() || byte == b' ' { byte as char } else { '.' })
            .collect();
        writeln!(out, "  storage {first:06X} to {:06X}: now {}{more}  |{text}|", end - 1, hex(shown))?;
    }
    Ok(())
}
