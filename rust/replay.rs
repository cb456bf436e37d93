// Replays cases of channel programs through the library and compares all that it leaves. `replay --help` says more.
use poplar::{go, start, Answer, Held, Shape, HELD_LAYOUT, HELD_SIZE};
use std::collections::HashMap;
use std::process::ExitCode;

const HELP: &str = "\
replay CASES EXPECTED USES [LINE] [--at-least N] [--count]

Runs the cases of the file CASES through the library, each on memory of its own, and compares the answer, the
64 bytes of held, every byte of storage and every cell after each operation with the file EXPECTED. The file
USES names the codes that each operation runs; of each case the operations are run up to the first that
runs a code that LINE leaves out:

  control   03 04 07 0B 1B 1F 0F, unknown codes, TIC and program checks
  reads     these and 39 31 51 71 29 49 69 1A 16 12 06 0E 1E
  all       these and 19 15 1D 05 0D; where LINE is not given

  --at-least N   it is a failure if fewer than N operations run
  --count        run nothing; only say how many operations in how many cases would run
  --help         this text

After an operation that differs the rest of its case is left out. The first ten differences are printed.
Exit status: 0 all the same; 1 something differs, or fewer than N ran; 2 bad usage, or a file that cannot be
read or is not in the format (vectors/README.md).";

const SHOWN: usize = 10;

// The longest storage and the most cells that a case may ask for. The limits of a pack and of storage lie below.
const LONGEST: usize = 1 << 25;

// What the lines add to the control commands. A code in neither list is a control command's or unknown.
const READS: &[u8] = &[0x39, 0x31, 0x51, 0x71, 0x29, 0x49, 0x69, 0x1A, 0x16, 0x12, 0x06, 0x0E, 0x1E];
const WRITES: &[u8] = &[0x19, 0x15, 0x1D, 0x05, 0x0D];

#[derive(Clone, Copy)]
enum Line {
    Control,
    Reads,
    All,
}

impl Line {
    fn named(word: &str) -> Option<Line> {
        match word {
            "control" => Some(Line::Control),
            "reads" => Some(Line::Reads),
            "all" => Some(Line::All),
            _ => None,
        }
    }

    fn name(self) -> &'static str {
        match self {
            Line::Control => "control",
            Line::Reads => "reads",
            Line::All => "all",
        }
    }

    fn has(self, code: u8) -> bool {
        match self {
            Line::Control => !READS.contains(&code) && !WRITES.contains(&code),
            Line::Reads => !WRITES.contains(&code),
            Line::All => true,
        }
    }
}

// What is written from an index on.
type Run<T> = (usize, Vec<T>);

struct Case {
    name: String,
    shape: Shape,
    storage_len: usize,
    bytes: Vec<Run<u8>>,
    cells_len: usize,
    cells: Vec<Run<u16>>,
    held: [u8; HELD_SIZE],
    operations: Vec<Operation>,
}

enum Operation {
    Start,
    Go(u16),
}

struct Wanted {
    answer: u8,
    held: [u8; HELD_SIZE],
    bytes: Vec<Run<u8>>,
    cells: Vec<Run<u16>>,
}

// By the case's name and the operation's number, which counts from 1.
type ByOperation<T> = HashMap<(String, usize), T>;

// ---- numbers of the files

fn number(word: &str, most: u64) -> Result<u64, String> {
    let digits = !word.is_empty() && word.bytes().all(|b| b.is_ascii_digit());
    let value = if digits { word.parse().ok() } else { None };
    value.filter(|&n| n <= most).ok_or(format!("'{word}' is no number from 0 to {most}"))
}

fn length(word: &str) -> Result<usize, String> {
    number(word, LONGEST as u64).map(|n| n as usize)
}

fn hex(word: &str, digits: usize) -> Result<u16, String> {
    let right = word.len() == digits && word.bytes().all(|b| b.is_ascii_hexdigit());
    let value = if right { u16::from_str_radix(word, 16).ok() } else { None };
    value.ok_or(format!("'{word}' is not {digits} hex digits"))
}

fn hex_byte(word: &str) -> Result<u8, String> {
    hex(word, 2).map(|n| n as u8)
}

// Bytes without a space between, as a case has them.
fn hex_bytes(word: &str) -> Result<Vec<u8>, String> {
    if !word.is_ascii() {
        return Err(format!("'{word}' is not hex"));
    }
    let pairs = (0..word.len()).step_by(2);
    pairs.map(|i| hex_byte(&word[i..word.len().min(i + 2)])).collect()
}

fn flag(word: &str) -> Result<u8, String> {
    number(word, 1).map(|n| n as u8)
}

// ---- the held state as fields, and as the 64 bytes

// Name, first byte and number of bytes of each part of held.
const PARTS: &[(&str, usize, usize)] = &[
    ("going", 0, 1),
    ("key", 1, 1),
    ("mask", 2, 1),
    ("maskset", 3, 1),
    ("sense", 4, 2),
    ("tic", 6, 1),
    ("before", 7, 1),
    ("whole", 8, 1),
    ("tally", 9, 1),
    ("selection", 10, 1),
    ("layout", 11, 1),
    ("marker", 12, 2),
    ("cyl", 14, 2),
    ("head", 16, 2),
    ("place", 18, 2),
    ("next", 20, 4),
    ("the zeros", 24, 40),
];

fn fresh_bytes() -> [u8; HELD_SIZE] {
    let mut held = [0; HELD_SIZE];
    held[11] = HELD_LAYOUT;
    held
}

fn put_pair(held: &mut [u8; HELD_SIZE], at: usize, value: u16) {
    held[at..at + 2].copy_from_slice(&value.to_be_bytes());
}

fn put_selection(held: &mut [u8; HELD_SIZE], value: &str) -> Result<(), String> {
    let (kind, marker) = match value {
        "none" => (0, 0),
        "r0" => (1, 0),
        cell => (2, number(cell, 65535)? as u16),
    };
    held[10] = kind;
    put_pair(held, 12, marker);
    Ok(())
}

fn put_field(held: &mut [u8; HELD_SIZE], name: &str, value: &str) -> Result<(), String> {
    match name {
        "going" => held[0] = flag(value)?,
        "key" => held[1] = number(value, 255)? as u8,
        "mask" => held[2] = hex_byte(value)?,
        "maskset" => held[3] = flag(value)?,
        "sense" => put_pair(held, 4, hex(value, 4)?),
        "tic" => held[6] = flag(value)?,
        "before" => held[7] = hex_byte(value)?,
        "whole" => held[8] = flag(value)?,
        "tally" => held[9] = number(value, 255)? as u8,
        "sel" => put_selection(held, value)?,
        "cyl" => put_pair(held, 14, number(value, 65535)? as u16),
        "head" => put_pair(held, 16, number(value, 65535)? as u16),
        "place" => put_pair(held, 18, number(value, 65535)? as u16),
        "next" => {
            let next = number(value, u64::from(u32::MAX))? as u32;
            held[20..24].copy_from_slice(&next.to_be_bytes());
        }
        _ => return Err(format!("'{name}' is no field of the held state")),
    }
    Ok(())
}

const FIELDS: usize = 14;

// NAME=VALUE words over a fresh box: the bytes, and how many fields were named.
fn fields(words: &[&str]) -> Result<([u8; HELD_SIZE], usize), String> {
    let mut held = fresh_bytes();
    let mut named: Vec<&str> = Vec::new();
    for word in words {
        let (name, value) = word.split_once('=').ok_or(format!("'{word}' is not NAME=VALUE"))?;
        if named.contains(&name) {
            return Err(format!("'{name}' stands twice"));
        }
        put_field(&mut held, name, value)?;
        named.push(name);
    }
    Ok((held, named.len()))
}

// ---- the files

fn lines(file: &str) -> Result<String, String> {
    let bytes = std::fs::read(file).map_err(|e| format!("{file}: {e}"))?;
    String::from_utf8(bytes).map_err(|_| format!("{file}: it is no text"))
}

// Each line that is not empty, as words, given to `take`; what it says is wrong gets the file and the line.
fn each_line<'a>(
    file: &str,
    text: &'a str,
    mut take: impl FnMut(&[&'a str]) -> Result<(), String>,
) -> Result<(), String> {
    for (i, line) in text.lines().enumerate() {
        let words: Vec<&str> = line.split_ascii_whitespace().collect();
        if !words.is_empty() {
            take(&words).map_err(|wrong| format!("{file}, line {}: {wrong}", i + 1))?;
        }
    }
    Ok(())
}

// A case while its lines are read; what is missing is `None`.
#[derive(Default)]
struct Draft {
    name: String,
    shape: Option<Shape>,
    storage_len: Option<usize>,
    bytes: Vec<Run<u8>>,
    cells_len: Option<usize>,
    cells: Vec<Run<u16>>,
    held: Option<[u8; HELD_SIZE]>,
    operations: Vec<Operation>,
}

// The runs lie inside `len` elements.
fn inside<T>(runs: &[Run<T>], len: usize, what: &str) -> Result<(), String> {
    for (from, values) in runs {
        if from + values.len() > len {
            return Err(format!("{what} from {from} on lie past the end, {len}"));
        }
    }
    Ok(())
}

impl Draft {
    fn line(&mut self, words: &[&str]) -> Result<(), String> {
        match words {
            ["pack", cylinders, heads] => {
                let most = u64::from(u32::MAX);
                self.shape =
                    Some(Shape { cylinders: number(cylinders, most)? as u32, heads: number(heads, most)? as u32 });
            }
            ["cells", len] => self.cells_len = Some(length(len)?),
            ["storage", len] => self.storage_len = Some(length(len)?),
            ["at", from, cells @ ..] => {
                let cells: Result<Vec<u16>, String> = cells.iter().map(|c| hex(c, 4)).collect();
                self.cells.push((length(from)?, cells?));
            }
            ["bytes", from, bytes] => self.bytes.push((length(from)?, hex_bytes(bytes)?)),
            ["held", words @ ..] => self.held = Some(fields(words)?.0),
            ["start"] => self.operations.push(Operation::Start),
            ["go", allowance] => {
                let allowance = number(allowance, 65535)? as u16;
                self.operations.push(Operation::Go(allowance));
            }
            _ => return Err(format!("a '{}' line of {} words is no line of a case", words[0], words.len())),
        }
        Ok(())
    }

    fn whole(self) -> Result<Case, String> {
        let missing = |what: &str| format!("case {} has no '{what}' line", self.name);
        let case = Case {
            shape: self.shape.ok_or_else(|| missing("pack"))?,
            storage_len: self.storage_len.ok_or_else(|| missing("storage"))?,
            cells_len: self.cells_len.ok_or_else(|| missing("cells"))?,
            held: self.held.unwrap_or_else(fresh_bytes),
            name: self.name,
            bytes: self.bytes,
            cells: self.cells,
            operations: self.operations,
        };
        if case.operations.is_empty() {
            return Err(format!("case {} has no operation", case.name));
        }
        Ok(case)
    }
}

fn read_cases(file: &str) -> Result<Vec<Case>, String> {
    let text = lines(file)?;
    let mut cases: Vec<Case> = Vec::new();
    let mut names = std::collections::HashSet::new();
    let mut draft: Option<Draft> = None;
    each_line(file, &text, |words| {
        match (words, draft.take()) {
            (["case", name], None) => {
                if !names.insert(name.to_string()) {
                    return Err(format!("there are two cases {name}"));
                }
                draft = Some(Draft { name: name.to_string(), ..Draft::default() });
            }
            (["end"], Some(open)) => cases.push(open.whole()?),
            (_, None) => return Err("a line outside a case".to_string()),
            (_, Some(mut open)) => {
                open.line(words)?;
                draft = Some(open);
            }
        }
        Ok(())
    })?;
    match draft {
        Some(open) => Err(format!("{file}: case {} has no 'end'", open.name)),
        None => Ok(cases),
    }
}

fn read_expected(file: &str) -> Result<ByOperation<Wanted>, String> {
    let text = lines(file)?;
    let mut all: ByOperation<Wanted> = HashMap::new();
    let mut open: Option<(String, usize)> = None;
    each_line(file, &text, |words| {
        let last = open.as_ref().and_then(|key| all.get_mut(key));
        match (words, last) {
            (["S", from, bytes @ ..], Some(wanted)) => {
                let bytes: Result<Vec<u8>, String> = bytes.iter().map(|b| hex_byte(b)).collect();
                wanted.bytes.push((length(from)?, bytes?));
            }
            (["C", from, cells @ ..], Some(wanted)) => {
                let cells: Result<Vec<u16>, String> = cells.iter().map(|c| hex(c, 4)).collect();
                wanted.cells.push((length(from)?, cells?));
            }
            ([name, "op", k, answer, words @ ..], _) => {
                let answer = answer.strip_prefix("answer=").ok_or(format!("'{answer}' is not answer=N"))?;
                let (held, named) = fields(words)?;
                if named != FIELDS {
                    return Err(format!("{named} fields of {FIELDS}"));
                }
                let wanted = Wanted { answer: number(answer, 7)? as u8, held, bytes: Vec::new(), cells: Vec::new() };
                let key = (name.to_string(), length(k)?);
                if all.insert(key.clone(), wanted).is_some() {
                    return Err(format!("{name} op {k} stands twice"));
                }
                open = Some(key);
            }
            _ => return Err(format!("a '{}' line of {} words is none of the format", words[0], words.len())),
        }
        Ok(())
    })?;
    Ok(all)
}

fn read_uses(file: &str) -> Result<ByOperation<Vec<u8>>, String> {
    let text = lines(file)?;
    let mut all = HashMap::new();
    each_line(file, &text, |words| match words {
        [name, "op", k, codes @ ..] => {
            let codes: Result<Vec<u8>, String> = codes.iter().map(|c| hex_byte(c)).collect();
            match all.insert((name.to_string(), length(k)?), codes?) {
                Some(_) => Err(format!("{name} op {k} stands twice")),
                None => Ok(()),
            }
        }
        _ => Err(format!("a '{}' line is not NAME op K CODES", words[0])),
    })?;
    Ok(all)
}

// Every operation of every case has its entry, and there is no other.
fn complete<T>(file: &str, cases: &[Case], all: &ByOperation<T>) -> Result<(), String> {
    let mut operations = 0;
    for case in cases {
        for k in 1..=case.operations.len() {
            if !all.contains_key(&(case.name.clone(), k)) {
                return Err(format!("{file}: {} op {k} is missing", case.name));
            }
        }
        operations += case.operations.len();
    }
    if all.len() > operations {
        return Err(format!("{file}: {} operations, where the cases have {operations}", all.len()));
    }
    Ok(())
}

// ---- running

struct Memory {
    held: Held,
    storage: Vec<u8>,
    cells: Vec<u16>,
}

// What lies past the end is not lent, and left out.
fn write_runs<T: Copy>(runs: &[Run<T>], into: &mut [T]) {
    for (from, values) in runs {
        let lent = into.iter_mut().skip(*from);
        lent.zip(values).for_each(|(to, value)| *to = *value);
    }
}

fn lay(case: &Case) -> Memory {
    let mut storage = vec![0; case.storage_len];
    write_runs(&case.bytes, &mut storage);
    let mut cells = vec![0; case.cells_len];
    write_runs(&case.cells, &mut cells);
    Memory { held: Held::from_bytes(case.held), storage, cells }
}

fn perform(operation: &Operation, shape: Shape, memory: &mut Memory) -> Answer {
    let Memory { held, storage, cells } = memory;
    match operation {
        Operation::Start => start(held, storage, cells, shape),
        Operation::Go(allowance) => go(held, storage, cells, shape, *allowance),
    }
}

fn shown_bytes(bytes: &[u8]) -> String {
    bytes.iter().map(|b| format!("{b:02X}")).collect()
}

fn held_differences(held: &[u8; HELD_SIZE], wanted: &[u8; HELD_SIZE]) -> Vec<String> {
    let differing = PARTS.iter().filter(|(_, at, n)| held[*at..at + n] != wanted[*at..at + n]);
    differing
        .map(|(name, at, n)| {
            let (is, should) = (shown_bytes(&held[*at..at + n]), shown_bytes(&wanted[*at..at + n]));
            format!("held {name} (bytes from {at}) is {is}, not {should}")
        })
        .collect()
}

fn first_difference<T: Copy + PartialEq + std::fmt::UpperHex>(
    what: &str,
    digits: usize,
    is: &[T],
    should: &[T],
) -> Option<String> {
    if is == should {
        return None;
    }
    let mut differing = (0..is.len()).filter(|&i| is[i] != should[i]);
    let first = differing.next()?;
    let more = differing.count();
    Some(format!("{what} {first} is {:0digits$X}, not {:0digits$X}; {more} more differ", is[first], should[first]))
}

fn differences(answer: Answer, is: &Memory, wanted: &Wanted, should: &Memory) -> Vec<String> {
    let mut all = Vec::new();
    if answer.number() != wanted.answer {
        all.push(format!("answer {}, not {}", answer.number(), wanted.answer));
    }
    all.extend(held_differences(is.held.bytes(), &wanted.held));
    all.extend(first_difference("byte", 2, &is.storage, &should.storage));
    all.extend(first_difference("cell", 4, &is.cells, &should.cells));
    all
}

// What is wrong with one operation, if anything. `should` goes on to what it must leave.
fn compare(
    case: &Case,
    k: usize,
    wanted: &Wanted,
    is: &mut Memory,
    should: &mut Memory,
) -> Result<Vec<String>, String> {
    let broken = |wrong| format!("expected, {} op {k}: {wrong}", case.name);
    inside(&wanted.bytes, case.storage_len, "bytes").map_err(broken)?;
    inside(&wanted.cells, case.cells_len, "cells").map_err(broken)?;
    write_runs(&wanted.bytes, &mut should.storage);
    write_runs(&wanted.cells, &mut should.cells);
    let answer = perform(&case.operations[k - 1], case.shape, is);
    Ok(differences(answer, is, wanted, should))
}

#[derive(Default)]
struct Tally {
    operations: usize,
    cases: usize,
    differing: usize,
    places: usize,
}

impl Tally {
    fn report(&mut self, case: &str, k: usize, differences: &[String]) {
        for difference in differences {
            if self.places < SHOWN {
                println!("replay: {case} op {k}: {difference}");
            }
            self.places += 1;
        }
        self.differing += 1;
    }
}

// How many of a case's operations LINE lets run.
fn runnable(case: &Case, uses: &ByOperation<Vec<u8>>, line: Line) -> usize {
    let built = |k: &usize| {
        let codes = uses.get(&(case.name.clone(), *k));
        codes.is_some_and(|codes| codes.iter().all(|&code| line.has(code)))
    };
    (1..=case.operations.len()).take_while(built).count()
}

fn run_case(case: &Case, many: usize, expected: &ByOperation<Wanted>, tally: &mut Tally) -> Result<(), String> {
    let mut is = lay(case);
    let mut should = lay(case);
    for k in 1..=many {
        let wanted = &expected[&(case.name.clone(), k)];
        let wrong = compare(case, k, wanted, &mut is, &mut should)?;
        tally.operations += 1;
        if !wrong.is_empty() {
            tally.report(&case.name, k, &wrong);
            break;
        }
    }
    Ok(())
}

// ---- the command

struct Wish {
    files: [String; 3],
    line: Line,
    at_least: usize,
    only_count: bool,
}

fn wish(words: &[String]) -> Result<Wish, String> {
    let mut plain: Vec<&str> = Vec::new();
    let mut at_least = 0;
    let mut only_count = false;
    let mut rest = words.iter();
    while let Some(word) = rest.next() {
        match word.as_str() {
            "--at-least" => {
                let n = rest.next().ok_or("--at-least needs a number")?;
                at_least = number(n, u64::from(u32::MAX))? as usize;
            }
            "--count" => only_count = true,
            option if option.starts_with("--") => return Err(format!("unknown: '{option}'")),
            plain_word => plain.push(plain_word),
        }
    }
    let (files, line) = match plain[..] {
        [cases, expected, uses] => ([cases, expected, uses], "all"),
        [cases, expected, uses, line] => ([cases, expected, uses], line),
        _ => return Err("CASES, EXPECTED and USES are needed, and at most a LINE".to_string()),
    };
    Ok(Wish {
        files: files.map(str::to_string),
        line: Line::named(line).ok_or(format!("'{line}' is no LINE: control, reads or all"))?,
        at_least,
        only_count,
    })
}

fn replay(wish: &Wish) -> Result<Tally, String> {
    let [cases_file, expected_file, uses_file] = &wish.files;
    let cases = read_cases(cases_file)?;
    let expected = read_expected(expected_file)?;
    let uses = read_uses(uses_file)?;
    complete(expected_file, &cases, &expected)?;
    complete(uses_file, &cases, &uses)?;
    let mut tally = Tally::default();
    for case in &cases {
        let many = runnable(case, &uses, wish.line);
        tally.cases += usize::from(many > 0);
        if wish.only_count {
            tally.operations += many;
        } else if many > 0 {
            run_case(case, many, &expected, &mut tally)?;
        }
    }
    Ok(tally)
}

fn said(wish: &Wish, tally: &Tally) -> ExitCode {
    let ran = format!("{} {} operations in {} cases", wish.line.name(), tally.operations, tally.cases);
    if tally.differing > 0 {
        println!("replay: {ran} ran; {} of the operations differ, in {} places", tally.differing, tally.places);
    } else if wish.only_count {
        println!("{ran}");
    } else {
        println!("replay: {ran} ran, and all agree");
    }
    if tally.operations < wish.at_least {
        println!("replay: that is fewer than {}", wish.at_least);
    }
    ExitCode::from(u8::from(tally.differing > 0 || tally.operations < wish.at_least))
}

fn main() -> ExitCode {
    // A word that is no text is shown with marks in place of what it has.
    let words: Vec<String> = std::env::args_os().skip(1).map(|word| word.to_string_lossy().into_owned()).collect();
    if words.iter().any(|word| word == "--help") {
        println!("{HELP}");
        return ExitCode::SUCCESS;
    }
    let wish = match wish(&words) {
        Ok(wish) => wish,
        Err(wrong) => {
            eprintln!("replay: {wrong}; see replay --help");
            return ExitCode::from(2);
        }
    };
    match replay(&wish) {
        Ok(tally) => said(&wish, &tally),
        Err(wrong) => {
            eprintln!("replay: {wrong}");
            ExitCode::from(2)
        }
    }
}
