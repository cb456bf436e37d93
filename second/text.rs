//! A case as text, and back. The form is that of vectors/README.md, with two lines more: `raw HEX`, held as its bytes
//! stand, and, after the first call, `at` and `bytes` for what the host changes between calls.
use crate::cases::{Call, Case};
use crate::opinion::held::{Held, Selection};
use std::fmt::Write;

pub fn hex(bytes: &[u8]) -> String {
    bytes.iter().fold(String::new(), |text, byte| text + &format!("{byte:02X}"))
}

fn hex_cells(cells: &[u16]) -> String {
    cells.iter().fold(String::new(), |text, cell| text + &format!(" {cell:04X}"))
}

/// The runs of places where `differs` holds.
pub fn runs(len: usize, differs: impl Fn(usize) -> bool) -> Vec<std::ops::Range<usize>> {
    let mut runs: Vec<std::ops::Range<usize>> = Vec::new();
    for at in (0..len).filter(|&at| differs(at)) {
        match runs.last_mut() {
            Some(run) if run.end == at => run.end += 1,
            _ => runs.push(at..at + 1),
        }
    }
    runs
}

pub fn print(case: &Case) -> String {
    let mut text = format!("case {}\npack {} {}\ncells {}\n", case.name, case.cylinders, case.heads, case.cells.len());
    for run in runs(case.cells.len(), |at| case.cells[at] != 0) {
        let _ = writeln!(text, "at {}{}", run.start, hex_cells(&case.cells[run.clone()]));
    }
    let _ = writeln!(text, "storage {}", case.storage.len());
    for run in runs(case.storage.len(), |at| case.storage[at] != 0) {
        let _ = writeln!(text, "bytes {} {}", run.start, hex(&case.storage[run.clone()]));
    }
    let _ = writeln!(text, "raw {}", hex(&case.held));
    for call in &case.calls {
        let _ = match call {
            Call::Start => writeln!(text, "start"),
            Call::Go(allowance) => writeln!(text, "go {allowance}"),
            Call::Bytes(at, bytes) => writeln!(text, "bytes {at} {}", hex(bytes)),
            Call::Cells(at, cells) => writeln!(text, "at {at}{}", hex_cells(cells)),
        };
    }
    text + "end\n"
}

type Read<T> = Result<T, String>;

fn number(text: Option<&str>) -> Read<usize> {
    let text = text.ok_or("a number is missing")?;
    text.parse().map_err(|_| format!("no number: {text}"))
}

fn hex_number(text: &str) -> Read<u16> {
    u16::from_str_radix(text, 16).map_err(|_| format!("not hex: {text}"))
}

fn hex_bytes(text: &str) -> Read<Vec<u8>> {
    if text.len() % 2 != 0 || !text.is_ascii() {
        return Err(format!("half a byte: {text}"));
    }
    (0..text.len() / 2).map(|at| Ok(hex_number(&text[2 * at..2 * at + 2])? as u8)).collect()
}

/// Every case of a file.
pub fn parse(text: &str) -> Read<Vec<Case>> {
    let mut cases = Vec::new();
    let mut open: Option<Case> = None;
    for (at, line) in text.lines().enumerate() {
        let mut words = line.split_whitespace();
        let first = words.next().unwrap_or("");
        let words: Vec<&str> = words.collect();
        match (first, open.as_mut()) {
            ("", _) => {}
            ("case", None) => open = Some(Case::named(&words.join(" "))),
            ("end", Some(_)) => cases.extend(open.take()),
            (_, Some(case)) => parse_line(case, first, &words).map_err(|why| format!("line {}: {why}", at + 1))?,
            _ => return Err(format!("line {}: outside a case", at + 1)),
        }
    }
    if open.is_some() {
        Err("a case without an end".to_string())
    } else {
        Ok(cases)
    }
}

/// The greatest length that a file may ask for: a full pack's cells and a little more, or as many bytes.
const LONGEST: usize = 1 << 25;

fn length(words: &[&str]) -> Read<usize> {
    let length = number(words.first().copied())?;
    if length > LONGEST {
        Err(format!("too long: {length}"))
    } else {
        Ok(length)
    }
}

fn parse_line(case: &mut Case, first: &str, words: &[&str]) -> Read<()> {
    match first {
        "pack" => {
            case.cylinders = number(words.first().copied())? as u32;
            case.heads = number(words.get(1).copied())? as u32;
        }
        "cells" => case.cells = vec![0; length(words)?],
        "storage" => case.storage = vec![0; length(words)?],
        "at" => parse_cells(case, words)?,
        "bytes" => parse_bytes(case, words)?,
        "raw" => case.held = hex_bytes(&words.concat())?,
        "held" => case.held = parse_held(words)?.bytes().to_vec(),
        "start" => case.calls.push(Call::Start),
        "go" => {
            let allowance = number(words.first().copied())?;
            case.calls.push(Call::Go(u16::try_from(allowance).map_err(|_| "an allowance over 65,535")?));
        }
        _ => return Err(format!("no such line: {first}")),
    }
    Ok(())
}

/// Writes `new` into what is lent from `at` on. A file may name more than is lent, so that one line serves every length.
pub fn lay<T: Copy>(lent: &mut [T], at: usize, new: &[T]) {
    for (old, &new) in lent.iter_mut().skip(at).zip(new) {
        *old = new;
    }
}

fn parse_cells(case: &mut Case, words: &[&str]) -> Read<()> {
    let at = number(words.first().copied())?;
    let cells = words[1..].iter().map(|word| hex_number(word)).collect::<Read<Vec<u16>>>()?;
    if case.calls.is_empty() {
        lay(&mut case.cells, at, &cells);
    } else {
        case.calls.push(Call::Cells(at, cells));
    }
    Ok(())
}

fn parse_bytes(case: &mut Case, words: &[&str]) -> Read<()> {
    let at = number(words.first().copied())?;
    let bytes = hex_bytes(&words[1..].concat())?;
    if case.calls.is_empty() {
        lay(&mut case.storage, at, &bytes);
    } else {
        case.calls.push(Call::Bytes(at, bytes));
    }
    Ok(())
}

fn parse_held(words: &[&str]) -> Read<Held> {
    let mut held = Held::fresh();
    for word in words {
        let (name, value) = word.split_once('=').ok_or("a held value without =")?;
        let decimal = || number(Some(value));
        match name {
            "going" => held.going = decimal()? == 1,
            "cyl" => held.cylinder = decimal()? as u16,
            "head" => held.head = decimal()? as u16,
            "place" => held.place = decimal()?,
            "mask" => held.mask = hex_number(value)? as u8,
            "maskset" => held.mask_set = decimal()? == 1,
            "sense" => held.sense = hex_number(value)?.to_be_bytes(),
            "key" => held.key = decimal()? as u8,
            "next" => held.next = decimal()?,
            "tic" => held.after_tic = decimal()? == 1,
            "before" => held.before = hex_number(value)? as u8,
            "whole" => held.whole = decimal()? == 1,
            "tally" => held.tally = decimal()? as u8,
            "sel" => held.selection = parse_selection(value)?,
            _ => return Err(format!("no held value {name}")),
        }
    }
    Ok(held)
}

fn parse_selection(value: &str) -> Read<Selection> {
    Ok(match value {
        "none" => Selection::None,
        "r0" => Selection::R0,
        cell => Selection::Marker(number(Some(cell))?),
    })
}

/// Held as the vectors' expected file says it; bytes that are no layout of it, as they stand.
pub fn print_held(bytes: &[u8]) -> String {
    let Some(held) = Held::of_bytes(bytes) else { return hex(bytes) };
    let selection = match held.selection {
        Selection::None => "none".to_string(),
        Selection::R0 => "r0".to_string(),
        Selection::Marker(cell) => cell.to_string(),
    };
    let bit = u8::from;
    format!(
        "going={} cyl={} head={} place={} mask={:02X} maskset={} sense={} key={} next={} tic={} before={:02X} whole={} sel={} tally={}",
        bit(held.going),
        held.cylinder,
        held.head,
        held.place,
        held.mask,
        bit(held.mask_set),
        hex(&held.sense),
        held.key,
        held.next,
        bit(held.after_tic),
        held.before,
        bit(held.whole),
        selection,
        held.tally
    )
}
