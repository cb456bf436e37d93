// The box against plain loops in Rust: the same results, and the time of each. `bench/run --help` says more.
mod areas;
#[cfg(before)]
mod before;
mod chain;
mod check;
mod common;
mod control;
mod format;
mod growth;
mod library;
mod noop;
mod pack;
mod part;
mod plain;
mod reads;
mod remainder;
mod search;
mod single;
mod stack;
mod table;

use part::{Part, Row};
use std::process::ExitCode;

static PARTS: [&Part; 6] = [&check::PART, &reads::PART, &format::PART, &search::PART, &noop::PART, &control::PART];
const GROWTH: &str = "growth";

fn compare() -> Result<(), String> {
    for part in PARTS {
        (part.compare)()?;
    }
    growth::compare()?;
    stack::compare(&PARTS)
}

fn rows(parts: &[&'static Part]) -> Result<Vec<Row>, String> {
    parts.iter().map(|part| part.measure()).collect()
}

// These parts, or all if none is named.
fn measure(names: &[String]) -> Result<(), String> {
    let named = |name: &str| names.is_empty() || names.iter().any(|word| word == name);
    let parts: Vec<&Part> = PARTS.into_iter().filter(|part| named(part.name)).collect();
    println!("{}", table::machine());
    if !parts.is_empty() {
        table::print_rows(&rows(&parts)?);
    }
    if named(GROWTH) {
        table::print_growths(&growth::measure()?);
    }
    parts.iter().try_for_each(|part| stack::print(part).and_then(|()| (part.besides)()))
}

// --machine, --times, --before and --both are for the script, which lays the figures of several programs side by side.
fn run(words: &[String]) -> Result<(), String> {
    match words.first().map(String::as_str) {
        Some("--compare") => compare()?,
        Some("--readme") => table::markdown(&rows(&PARTS)?, &growth::measure()?),
        Some("--machine") => println!("{}", table::machine()),
        Some("--times") => table::times(&rows(&PARTS)?),
        #[cfg(before)]
        Some("--before") => before::print(&PARTS)?,
        #[cfg(before)]
        Some("--both") => before::compare(&PARTS)?,
        _ => measure(words)?,
    }
    Ok(())
}

fn main() -> ExitCode {
    let words: Vec<String> = std::env::args().skip(1).collect();
    match run(&words) {
        Ok(()) => ExitCode::SUCCESS,
        Err(difference) => {
            eprintln!("bench: {difference}");
            ExitCode::from(1)
        }
    }
}
