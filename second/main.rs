//! A second opinion on the library: many cases, each run by the library and by an implementation of document 01 that shares
//! nothing with it. See USAGE.
mod cases;
mod chains;
mod compare;
mod library;
mod mutations;
mod opinion;
mod packs;
mod random;
mod smaller;
mod states;
mod table;
mod text;
mod tracks;
mod vectors;

use opinion::{Wrong, WRONGS};
use std::process::ExitCode;

const USAGE: &str = "\
second [--cases N] [--seed S] [--wrong NAME] [--enough E]
                                               run N cases (20,000) of seed S (1) on the library and on the opinion, and
                                               print the table of what happened; of E cases (20,000) or more, a wrong
                                               place in the table fails
second --only K [--seed S] [--wrong NAME]      run and print case K alone
second --kept FILE [--wrong NAME]              run the cases of a file, as a difference printed them
second --vectors DIR                           replay DIR/cases.txt and DIR/expected.txt on the opinion alone
second --help                                  this text

NAME is an opinion made wrong: high-by-storage, room-unsigned, modifier-eight, short-licence, count-r0, bad-count-used,
kept-tally, unwiped-track. Exit status: 0 all agree; 1 a difference (its case is printed), or a wrong place in the table; 2 bad
usage.
";

/// With fewer cases a zero in the table says nothing.
const ENOUGH: u64 = 20_000;

struct Wanted {
    cases: u64,
    enough: u64,
    seed: u64,
    only: Option<u64>,
    wrong: Option<Wrong>,
    kept: Option<String>,
    vectors: Option<String>,
}

fn wanted() -> Result<Wanted, String> {
    let mut wanted =
        Wanted { cases: ENOUGH, enough: ENOUGH, seed: 1, only: None, wrong: None, kept: None, vectors: None };
    let mut words = std::env::args().skip(1);
    while let Some(flag) = words.next() {
        let value = words.next().ok_or(format!("{flag} needs a value, or is no flag"))?;
        let number = || value.parse::<u64>().map_err(|_| format!("no number: {value}"));
        match flag.as_str() {
            "--cases" => wanted.cases = number()?,
            "--enough" => wanted.enough = number()?,
            "--seed" => wanted.seed = number()?,
            "--only" => wanted.only = Some(number()?),
            "--kept" => wanted.kept = Some(value),
            "--vectors" => wanted.vectors = Some(value),
            "--wrong" => {
                let found = WRONGS.iter().find(|(name, _)| *name == value);
                wanted.wrong = Some(found.ok_or(format!("no wrong opinion: {value}"))?.1);
            }
            _ => return Err(format!("no flag: {flag}")),
        }
    }
    Ok(wanted)
}

/// Runs one case; a difference is printed with the case made smaller, and cut after the call that shows it.
fn agrees(case: &cases::Case, wrong: Option<Wrong>, table: &mut table::Table) -> bool {
    let mut notes = Vec::new();
    let result = compare::run(case, wrong, &mut notes);
    notes.iter().for_each(|event| table.count(event));
    if result.is_ok() {
        return true;
    }
    let mut small = smaller::smaller(case, wrong);
    if let Err(difference) = compare::run(&small, wrong, &mut Vec::new()) {
        small.calls.truncate(difference.call + 1);
        println!("{}the last call differs:\n{}", text::print(&small), difference.what);
    }
    false
}

/// The cases of a seed, until one differs. Every hundredth is also printed and read back.
fn run(wanted: &Wanted) -> Result<(), String> {
    let mut table = table::Table::default();
    if !compare::fresh_agrees() {
        return Err("a fresh box differs".to_string());
    }
    for number in 0..wanted.cases {
        let case = cases::make(wanted.seed, number);
        if !agrees(&case, wanted.wrong, &mut table) {
            return Err(format!("case {number} of seed {} differs", wanted.seed));
        }
        if number % 100 == 0 && text::parse(&text::print(&case)).as_deref() != Ok(&[case]) {
            return Err(format!("case {number} does not read back as it was printed"));
        }
    }
    let (told, places) = table.told();
    print!("{told}");
    if places > 0 && wanted.cases >= wanted.enough {
        return Err(format!("{places} places of the table are wrong"));
    }
    println!("{} cases of seed {} agree", wanted.cases, wanted.seed);
    Ok(())
}

fn run_only(wanted: &Wanted, number: u64) -> Result<(), String> {
    let case = cases::make(wanted.seed, number);
    let mut notes = Vec::new();
    print!("{}", text::print(&case));
    let result = compare::run(&case, wanted.wrong, &mut notes);
    notes.iter().for_each(|event| println!("{event:02X?}"));
    result.map_err(|difference| format!("call {} differs:\n{}", difference.call + 1, difference.what))
}

fn run_kept(wanted: &Wanted, file: &str) -> Result<(), String> {
    let read = std::fs::read_to_string(file).map_err(|why| format!("{file}: {why}"))?;
    let cases = text::parse(&read)?;
    let mut table = table::Table::default();
    for case in &cases {
        if !agrees(case, wanted.wrong, &mut table) {
            return Err(format!("kept case {} differs", case.name));
        }
    }
    println!("{} kept cases agree", cases.len());
    Ok(())
}

fn main() -> ExitCode {
    if std::env::args().any(|word| word == "--help") {
        print!("{USAGE}");
        return ExitCode::SUCCESS;
    }
    let wanted = match wanted() {
        Ok(wanted) => wanted,
        Err(why) => {
            eprintln!("second: {why}; see --help");
            return ExitCode::from(2);
        }
    };
    let result = match (&wanted.vectors, &wanted.kept, wanted.only) {
        (Some(folder), ..) => vectors::replay(folder).map(|told| println!("{told}")),
        (_, Some(file), _) => run_kept(&wanted, file),
        (_, _, Some(number)) => run_only(&wanted, number),
        _ => run(&wanted),
    };
    match result {
        Ok(()) => ExitCode::SUCCESS,
        Err(why) => {
            println!("second: {why}");
            ExitCode::FAILURE
        }
    }
}
