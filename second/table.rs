//! The coverage table: how often each answer, Unit Check row, end and program check happened, by command. What can happen
//! and did not is a zero; what document 01 gives no command is a dash, and a count there is as wrong as a zero.
use crate::chains::{COMMANDS, SEARCH_IDS, SEARCH_KEYS};
use crate::opinion::events::{End, Event, Length, Program, Row};
use std::collections::BTreeMap;
use std::fmt::Write;

const ROWS: [(Row, &str); 15] = [
    (Row::Unknown, "unknown"),
    (Row::BadMask, "badmask"),
    (Row::SecondMask, "2ndmask"),
    (Row::WrongBefore, "before"),
    (Row::SeekBarred, "seekbar"),
    (Row::WriteBarred, "wrbar"),
    (Row::SeekBad, "seekbad"),
    (Row::SeekShort, "short"),
    (Row::UnreadableHa, "bad HA"),
    (Row::UnreadableKey, "bad key"),
    (Row::UnreadableData, "baddata"),
    (Row::UnreadableCount, "badcnt"),
    (Row::NoRoom, "noroom"),
    (Row::NoMarker, "nomark"),
    (Row::SecondIndex, "2ndidx"),
];

const PROGRAMS: [(Program, &str); 9] = [
    (Program::Misaligned, "misalign"),
    (Program::Outside, "outside"),
    (Program::TicAfterTic, "tic-tic"),
    (Program::Flags, "flags"),
    (Program::CountZero, "count 0"),
    (Program::CodeDigit, "digit 0"),
    (Program::Beyond, "beyond"),
    (Program::AddressWord, "addrword"),
    (Program::FirstTic, "tic 1st"),
];

/// Ends of a command by length: normal; short or over, of incorrect length or suppressed.
const LENGTHS: [&str; 5] = ["normal", "short 40", "s suppr", "over 40", "o suppr"];
/// And by status: neither, satisfied, Unit Exception.
const STATUSES: [&str; 3] = ["ends", "satisfied", "exceptions"];

/// Stands for every code that is no command.
const NO_COMMAND: u8 = 0;

/// The status and the length of an end, as columns of their parts.
fn end_column(end: &End) -> (usize, usize) {
    let status = if end.satisfied { 1 } else { 2 * usize::from(end.exception) };
    let length = match (end.length, end.incorrect) {
        (Length::Exact, _) => 0,
        (Length::Short, true) => 1,
        (Length::Short, false) => 2,
        (Length::Over, true) => 3,
        (Length::Over, false) => 4,
    };
    (status, length)
}

fn is_search(code: u8) -> bool {
    code == 0x39 || SEARCH_IDS.contains(&code) || SEARCH_KEYS.contains(&code)
}

/// Whether the Unit Check table has this row for this command.
fn can_check(code: u8, row: Row) -> bool {
    let codes: &[u8] = match row {
        Row::Unknown => &[NO_COMMAND],
        Row::BadMask | Row::SecondMask => &[0x1F],
        Row::WrongBefore => &[0x0F, 0x15, 0x1D, 0x05, 0x0D],
        Row::SeekBarred | Row::SeekBad | Row::SeekShort => &[0x07, 0x0B, 0x1B],
        Row::WriteBarred => &[0x19, 0x15, 0x1D, 0x05, 0x0D],
        Row::UnreadableHa => &[0x39, 0x1A, 0x15],
        Row::UnreadableKey => &[0x29, 0x49, 0x69, 0x16, 0x0E, 0x1E, 0x0D],
        Row::UnreadableData => &[0x16, 0x06, 0x0E, 0x1E, 0x05, 0x0D],
        Row::UnreadableCount => &[0x31, 0x51, 0x71, 0x29, 0x49, 0x69, 0x16, 0x12, 0x06, 0x0E, 0x1E, 0x1D, 0x05, 0x0D],
        Row::NoRoom => &[0x15, 0x1D],
        Row::NoMarker => &[0x06, 0x0E, 0x12, 0x1E, 0x29, 0x49, 0x69],
        Row::SecondIndex => &[0x31, 0x51, 0x71, 0x29, 0x49, 0x69],
    };
    codes.contains(&code)
}

fn can_end(code: u8, (status, length): (usize, usize)) -> bool {
    let status_can = match status {
        0 => code != NO_COMMAND,
        1 => is_search(code),
        _ => matches!(code, 0x16 | 0x1E | 0x0E | 0x0D | 0x05 | 0x06),
    };
    // with no data 05 and 06 want nothing, and a count is never 0
    let never_over = matches!(code, 0x03 | 0x0F);
    let never_short =
        never_over || matches!(code, 0x07 | 0x0B | 0x1B | 0x1F) || status == 2 && matches!(code, 0x05 | 0x06);
    let never_exact = status == 2 && matches!(code, 0x05 | 0x06);
    let length_can = match length {
        0 => !never_exact,
        1 | 2 => !never_short,
        _ => !never_over,
    };
    status_can && length_can
}

fn can_answer(start: bool, answer: u8) -> bool {
    if start {
        matches!(answer, 1..=5 | 7)
    } else {
        matches!(answer, 0..=4 | 6)
    }
}

fn can_program(start: bool, program: Program) -> bool {
    match program {
        Program::TicAfterTic => !start,
        Program::AddressWord | Program::FirstTic => start,
        _ => true,
    }
}

#[derive(Default)]
pub struct Table {
    answers: BTreeMap<(bool, u8), usize>,
    programs: BTreeMap<(bool, Program), usize>,
    checks: BTreeMap<(u8, Row), usize>,
    ends: BTreeMap<(u8, (usize, usize)), usize>,
    /// codes that are no command, and codes of a TIC, that ran
    unknown: BTreeMap<u8, usize>,
    tics: BTreeMap<u8, usize>,
}

/// A line of the table: its name, and for each column whether it can be and how often it was.
struct Line(String, Vec<(bool, usize)>);

impl Table {
    pub fn count(&mut self, event: &Event) {
        let command = |code: &u8| if COMMANDS.contains(code) { *code } else { NO_COMMAND };
        *match event {
            Event::Start(answer) => self.answers.entry((true, *answer)).or_default(),
            Event::Go(answer) => self.answers.entry((false, *answer)).or_default(),
            Event::NotStarted(program) => self.programs.entry((true, *program)).or_default(),
            Event::Program(program) => self.programs.entry((false, *program)).or_default(),
            Event::Check(code, row) => self.checks.entry((command(code), *row)).or_default(),
            Event::End(code, end) => self.ends.entry((command(code), end_column(end))).or_default(),
            Event::Tic(code) => self.tics.entry(*code).or_default(),
        } += 1;
        if let Event::Check(code, Row::Unknown) = event {
            *self.unknown.entry(*code).or_default() += 1;
        }
    }

    fn answer_lines(&self) -> Vec<Line> {
        let line = |start: bool| {
            let seen = |answer| self.answers.get(&(start, answer)).copied().unwrap_or(0);
            (0..8).map(|answer| (can_answer(start, answer), seen(answer))).collect()
        };
        vec![Line("start".to_string(), line(true)), Line("go".to_string(), line(false))]
    }

    fn program_lines(&self) -> Vec<Line> {
        let line = |start: bool| {
            let seen = |program| self.programs.get(&(start, program)).copied().unwrap_or(0);
            PROGRAMS.iter().map(|&(program, _)| (can_program(start, program), seen(program))).collect()
        };
        vec![Line("start".to_string(), line(true)), Line("go".to_string(), line(false))]
    }

    fn check_lines(&self) -> Vec<Line> {
        let seen = |code, row| self.checks.get(&(code, row)).copied().unwrap_or(0);
        let line =
            |code| Line(name(code), ROWS.iter().map(|&(row, _)| (can_check(code, row), seen(code, row))).collect());
        codes().map(line).collect()
    }

    fn end_lines(&self, status: usize) -> Vec<Line> {
        let place = |code, length| {
            let column = (status, length);
            (can_end(code, column), self.ends.get(&(code, column)).copied().unwrap_or(0))
        };
        let line = |code| Line(name(code), (0..LENGTHS.len()).map(|length| place(code, length)).collect());
        codes().map(line).collect()
    }

    /// How many codes a TIC has and how many are no command; how many of them are missing must be none.
    fn code_lines(&self) -> Vec<Line> {
        let line = |name: &str, codes: &[u8], seen: &BTreeMap<u8, usize>| {
            let missing = codes.iter().filter(|code| !seen.contains_key(code)).count();
            Line(name.to_string(), vec![(true, codes.len()), (false, missing), (true, seen.values().sum())])
        };
        let all = || 0..=255u8;
        let tics: Vec<u8> = all().filter(|code| code & 15 == 8).collect();
        let none: Vec<u8> = all().filter(|code| code & 7 != 0 && !COMMANDS.contains(code)).collect();
        vec![line("TIC", &tics, &self.tics), line("other", &none, &self.unknown)]
    }

    /// The table, and how many of its places are wrong: a zero where something can happen, a count where nothing can.
    pub fn told(&self) -> (String, usize) {
        let mut text = String::new();
        let digits: Vec<String> = (0..8).map(|answer| answer.to_string()).collect();
        let rows: Vec<&str> = ROWS.iter().map(|&(_, name)| name).collect();
        let programs: Vec<&str> = PROGRAMS.iter().map(|&(_, name)| name).collect();
        let digits: Vec<&str> = digits.iter().map(String::as_str).collect();
        let mut wrong = part(&mut text, "answers", &digits, &self.answer_lines());
        wrong += part(&mut text, "program checks", &programs, &self.program_lines());
        wrong += part(&mut text, "Unit Checks", &rows, &self.check_lines());
        for (status, title) in STATUSES.iter().enumerate() {
            wrong += part(&mut text, title, &LENGTHS, &self.end_lines(status));
        }
        wrong += part(&mut text, "codes", &["codes", "missing", "ran"], &self.code_lines());
        (text, wrong)
    }
}

fn codes() -> impl Iterator<Item = u8> {
    COMMANDS.into_iter().chain([NO_COMMAND])
}

fn name(code: u8) -> String {
    if code == NO_COMMAND {
        "other".to_string()
    } else {
        format!("{code:02X}")
    }
}

/// Prints a part of the table, but for lines without any place; says how many places are wrong.
fn part(text: &mut String, title: &str, columns: &[&str], lines: &[Line]) -> usize {
    let mut wrong = 0;
    let _ = write!(text, "{title:<15}");
    columns.iter().for_each(|column| {
        let _ = write!(text, "{column:>9}");
    });
    text.push('\n');
    for Line(name, places) in lines.iter().filter(|line| line.1.iter().any(|&(can, seen)| can || seen > 0)) {
        let _ = write!(text, "{name:>15}");
        for &(can, seen) in places {
            let shown = match (can, seen) {
                (true, 0) => "zero!".to_string(),
                (true, _) => seen.to_string(),
                (false, 0) => "-".to_string(),
                (false, _) => format!("{seen}!"),
            };
            wrong += usize::from(shown.ends_with('!'));
            let _ = write!(text, "{shown:>9}");
        }
        text.push('\n');
    }
    wrong
}
