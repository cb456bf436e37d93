//! Hard use of poplar: files of random bytes, and good files with one byte changed, for each kind of input. Every call must end with one
//! of its statuses, leave its inputs as they were and write what its answer leaves and nothing else. The cases are the same every time.
mod hard_cases;

use archivist::cli;
use hard_cases::{Call, Kind, Random, KINDS};
use std::ffi::OsString;
use std::fs;
use std::panic::{catch_unwind, AssertUnwindSafe};
use std::path::{Path, PathBuf};
use std::process::{Command, ExitCode};

const HELP: &str = "\
poplar-hard FOLDER CASES [PROGRAM]   CASES random files and CASES changed files for each kind of input, in a new FOLDER
                                     every 20th call is made of PROGRAM, too, and must say the same

Exit status: 0 all as expected; 1 something was not; 2 bad usage.";

/// What a call left.
struct Left {
    status: i32,
    out: Vec<u8>,
    err: Vec<u8>,
}

type Checked = Result<(), String>;

fn inside(words: &[OsString]) -> Result<Left, String> {
    let (mut out, mut err) = (Vec::new(), Vec::new());
    let mut to = cli::To { out: &mut out, err: &mut err, bar: false };
    let call = catch_unwind(AssertUnwindSafe(|| cli::run(words, &mut to)));
    let status = i32::from(call.map_err(|_| "it panics".to_string())?);
    Ok(Left { status, out, err })
}

fn outside(program: &Path, words: &[OsString]) -> Result<Left, String> {
    let left = Command::new(program).args(words).output().map_err(|error| error.to_string())?;
    let status = left.status.code().ok_or("it was killed")?;
    Ok(Left { status, out: left.stdout, err: left.stderr })
}

/// Names and bytes of all files of a folder, its folders too.
fn contents(folder: &Path) -> Result<Vec<(PathBuf, Vec<u8>)>, String> {
    let mut all = Vec::new();
    for entry in fs::read_dir(folder).map_err(|error| error.to_string())? {
        let path = entry.map_err(|error| error.to_string())?.path();
        if path.is_dir() {
            all.push((path.clone(), Vec::new()));
            all.extend(contents(&path)?);
        } else {
            let bytes = fs::read(&path).map_err(|error| error.to_string())?;
            all.push((path, bytes));
        }
    }
    all.sort();
    Ok(all)
}

fn must(holds: bool, what: &str) -> Checked {
    if holds {
        Ok(())
    } else {
        Err(what.to_string())
    }
}

/// What stands in the folder of results must be what the status and the answer leave.
fn check_results(call: &Call, left: &Left, made: &[(PathBuf, Vec<u8>)]) -> Checked {
    let err = String::from_utf8_lossy(&left.err);
    let expected: &[&str] = match (call.writes_folder, left.status) {
        (true, 0) => &["out", "out/pack", "out/storage"],
        (true, 1) => &["out", "out/chain", "out/held", "out/pack", "out/storage"],
        (true, 3) if err.contains("answers 5") => &["out", "out/storage"],
        (false, 0) if call.writes_picture => &["picture.svg"],
        _ => &[],
    };
    let names: Vec<&Path> = made.iter().filter_map(|(path, _)| path.strip_prefix(&call.results).ok()).collect();
    must(names == expected.iter().map(Path::new).collect::<Vec<_>>(), &format!("it leaves {names:?}"))?;
    let says_why = |line: &str| line.starts_with("poplar: ") && !line.starts_with("poplar: note: ");
    must((left.status >= 2) == err.lines().any(says_why), "a refusal says why, and nothing else does")?;
    must(!call.must_refuse || left.status == 2, "what does not belong to the held state is not refused")?;
    must((0..=3).contains(&left.status), &format!("status {}", left.status))?;
    must(!err.contains("panicked"), "it panics")?;
    let storage = made.iter().find(|(path, _)| path.ends_with("out/storage"));
    match (left.status, storage, &call.storage) {
        (3, Some((_, after)), Some(before)) => {
            let mut expected = before.clone();
            expected[68..70].copy_from_slice(&[0x00, 0x20]);
            must(*after == expected, "answer 5 changes bytes 68 and 69 alone")
        }
        _ => Ok(()),
    }
}

/// One call: the inputs stay, the results are what the answer leaves; then they go.
fn check_call(call: &Call, make: &dyn Fn(&[OsString]) -> Result<Left, String>) -> Result<Left, String> {
    let before = contents(&call.inputs)?;
    let left = make(&call.words)?;
    must(contents(&call.inputs)? == before, "an input changed")?;
    check_results(call, &left, &contents(&call.results)?)?;
    fs::remove_dir_all(&call.results)
        .and_then(|()| fs::create_dir(&call.results))
        .map_err(|error| error.to_string())?;
    Ok(left)
}

/// How many calls ended with each status.
type Tally = [usize; 4];

fn check_case(calls: &[Call], program: Option<&Path>, tally: &mut Tally) -> Checked {
    for call in calls {
        let said = |what: String| format!("{what}: poplar {:?}", call.words);
        let left = check_call(call, &inside).map_err(said)?;
        tally[left.status as usize] += 1;
        if let Some(program) = program {
            let again = check_call(call, &|words| outside(program, words)).map_err(said)?;
            let same = (left.status, &left.out, &left.err) == (again.status, &again.out, &again.err);
            must(same, "the program and its parts differ").map_err(said)?;
        }
    }
    Ok(())
}

fn check_kind(kind: Kind, folder: &Path, cases: usize, program: Option<&Path>) -> Checked {
    let mut random = Random::new(kind as u64 + 1);
    let good = hard_cases::good(kind, folder)?;
    let mut tally = [0; 4];
    for number in 0..2 * cases {
        let bytes = if number < cases { random.file(number) } else { random.changed(&good) };
        let calls = hard_cases::calls(kind, folder, bytes, &mut random)?;
        let program = program.filter(|_| number % 20 == 0);
        check_case(&calls, program, &mut tally).map_err(|what| format!("{kind:?}, case {number}: {what}"))?;
    }
    println!("hard: {kind:?}: {cases} random, {cases} changed; calls by exit status 0 to 3: {tally:?}");
    must(tally[2] + tally[3] > 0, "none was refused")?;
    must(kind == Kind::Chain || tally[0] + tally[1] > 0, "all were refused")
}

fn main() -> ExitCode {
    let words: Vec<OsString> = std::env::args_os().skip(1).collect();
    let cases = words.get(1).and_then(|word| word.to_str()).and_then(|word| word.parse().ok());
    let (Some(cases), true) = (cases, (2..=3).contains(&words.len())) else {
        println!("{HELP}");
        return ExitCode::from(2);
    };
    let folder = PathBuf::from(&words[0]);
    let program = words.get(2).map(Path::new);
    let made = hard_cases::prepare(&folder);
    let checked = made.and_then(|()| KINDS.iter().try_for_each(|&kind| check_kind(kind, &folder, cases, program)));
    let _ = fs::remove_dir_all(&folder);
    match checked {
        Ok(()) => ExitCode::SUCCESS,
        Err(what) => {
            println!("hard: {what}");
            ExitCode::from(1)
        }
    }
}
