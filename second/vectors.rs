//! The opinion alone, on a folder of vectors: cases.txt and expected.txt, as vectors/README.md says.
use crate::cases::{Call, Case};
use crate::opinion::{self, Lent};
use crate::text::{parse, print_held, runs};
use std::fmt::Write;
use std::fs::read_to_string;
use std::path::Path;

/// Replays them all; says how many operations agreed, or the first difference.
pub fn replay(folder: &str) -> Result<String, String> {
    let file = |name: &str| read_to_string(Path::new(folder).join(name)).map_err(|why| format!("{name}: {why}"));
    let cases = parse(&file("cases.txt")?)?;
    let expected = file("expected.txt")?;
    let mut wanted = expected.lines();
    let mut operations = 0;
    for case in &cases {
        for line in told(case, &mut operations).lines() {
            let want = wanted.next().unwrap_or("nothing");
            if line != want {
                return Err(format!("case {}\nwanted  {want}\nopinion {line}", case.name));
            }
        }
    }
    match wanted.next() {
        Some(more) => Err(format!("expected.txt has more: {more}")),
        None => Ok(format!("{operations} operations in {} cases agree", cases.len())),
    }
}

/// What the opinion says of a case, in the lines of expected.txt.
fn told(case: &Case, operations: &mut usize) -> String {
    let mut text = String::new();
    let (mut held, mut storage, mut cells) = (case.held.clone(), case.storage.clone(), case.cells.clone());
    for (at, call) in case.calls.iter().enumerate() {
        let (old_storage, old_cells) = (storage.clone(), cells.clone());
        let (cylinders, heads) = (case.cylinders, case.heads);
        let mut lent = Lent { held: &mut held, storage: &mut storage, cells: &mut cells, cylinders, heads };
        let answer = match call {
            Call::Go(allowance) => opinion::go(&mut lent, *allowance, None, &mut Vec::new()),
            _ => opinion::start(&mut lent, &mut Vec::new()),
        };
        *operations += 1;
        let _ = writeln!(text, "{} op {} answer={answer} {}", case.name, at + 1, print_held(&held));
        for run in runs(storage.len(), |at| storage[at] != old_storage[at]) {
            let bytes: Vec<String> = storage[run.clone()].iter().map(|byte| format!("{byte:02X}")).collect();
            let _ = writeln!(text, "S {} {}", run.start, bytes.join(" "));
        }
        for run in runs(cells.len(), |at| cells[at] != old_cells[at]) {
            let words: Vec<String> = cells[run.clone()].iter().map(|cell| format!("{cell:04X}")).collect();
            let _ = writeln!(text, "C {} {}", run.start, words.join(" "));
        }
    }
    text
}
