//! `poplar run`: a channel program on a pack file.
use crate::args::{Args, Takes};
use crate::chain::Lent;
use crate::cli::{To, DONE, DONE_BUT};
use crate::pack::Pack;
use crate::refusal::{refuse, Refusal, Result};
use crate::save::Saved;
use crate::{belongs, changes, files, place, save, text, words};
use poplar::{Answer, HELD_SIZE};
use std::path::Path;

pub const HELP: &str = "\
poplar run PACK --words TEXT    [--allowance N] [--out FOLDER [--force]] [--heads N] [--tell]
poplar run PACK --storage IMAGE [--allowance N] [--out FOLDER [--force]] [--heads N] [--tell]
poplar run PACK --storage IMAGE --resume HELD   .. the same

Starts the channel program of a text of command words, or of a storage image (its address word is at 72), and runs it.
Says what the box answered, the status word and the sense, and what changed.

  --words TEXT     a readable text of command words; poplar run --words-help says its form
  --storage IMAGE  a storage image, 80 to 16,777,216 bytes
  --allowance N    at most so many command words, 0 to 65535; 65535 if it is not given
  --resume HELD    go on with a chain that was held, with the pack and the storage that were written with it; where
                   a file chain lies beside HELD, other ones, or another number of heads, are refused
  --out FOLDER     write the results to a new folder: pack and storage; if the chain is held (answer 1) also held, and
                   chain: a text of the pack's shape and the lengths and sums of pack and storage
  --force          replace that folder, if it holds results and nothing else
  --heads N        heads of the pack, 1 to 10; 10 if it is not given
  --tell           tell every word as it runs

Files that are given are opened for reading alone. Without --out nothing is written. If the box refuses, nothing is written
but what its answer leaves: of answer 5, the storage, and that replaces no folder that holds a pack or a held state.

Results are written beside FOLDER and then take its name. A run that is interrupted may leave an empty FOLDER, beside it
a hidden .poplar-part-.., which holds results or a part of them, and with --force a hidden .poplar-old-.., which holds
what FOLDER held before. No run looks at these names again.

Exit status: 0 the chain ended; 1 the chain is held; 2 refused; 3 the box refused.";

const TAKES: Takes = Takes {
    name: "run",
    file: true,
    options: &["--words", "--storage", "--allowance", "--resume", "--out", "--heads"],
    switches: &["--force", "--tell", "--words-help"],
};

/// A text of words is no longer than this; more would be another file.
const MOST_TEXT: usize = 1 << 20;
/// One more than the box takes, so that it is the box that refuses.
const MOST_STORAGE: usize = (1 << 24) + 1;
const MOST_HELD: usize = HELD_SIZE + 1;

pub fn run(given: &[std::ffi::OsString], to: &mut To) -> Result<u8> {
    let args = TAKES.parse(given)?;
    if args.has("--words-help") {
        writeln!(to.out, "{}", text::help())?;
        return Ok(DONE);
    }
    let allowance = args.number("--allowance", 0..=65535, Some(65535))? as u16;
    let pack = Pack::given(&args)?;
    let storage = storage(&args)?;
    may_write(&args)?;
    let before = (pack.clone(), storage.clone());
    let mut lent = Lent::fresh(storage, pack);
    let mut answer = begin(&args, &mut lent, to)?;
    if answer == Answer::NotEnded {
        answer = match args.has("--tell") {
            true => lent.go_telling(allowance, to.out).map_err(|refusal| refusal.and("nothing was saved"))?,
            false => lent.go(allowance),
        };
    }
    let saved = write_results(&args, &lent, answer);
    if !matches!(answer, Answer::Ended | Answer::NotEnded) {
        return Err(Refusal { text: refused(&args, answer, saved, to), by_box: true });
    }
    let saved = saved?;
    saved.tell(tell(&lent, answer, &before, to), to)?;
    Ok(if answer == Answer::Ended { DONE } else { DONE_BUT })
}

/// Starts a chain, or takes up the held one.
fn begin(args: &Args, lent: &mut Lent, to: &mut To) -> Result<Answer> {
    let Some(path) = args.path("--resume") else { return Ok(lent.start()) };
    lent.held = files::read_up_to(path, "the 64 bytes of a held state", MOST_HELD)?;
    if !belongs::compare(path, &lent.pack, &lent.storage)? {
        let (shown, name) = (path.display(), belongs::NAME);
        to.note(&format!("{shown}: there is no {name} beside it: shape, pack and storage could not be compared"));
    }
    Ok(Answer::NotEnded)
}

fn storage(args: &Args) -> Result<Vec<u8>> {
    match (args.path("--words"), args.path("--storage")) {
        (Some(_), None) if args.path("--resume").is_some() => {
            args.refuse("--resume goes with the --storage that was written with it")
        }
        (Some(path), None) => {
            let bytes = files::read(path, "a text of command words", MOST_TEXT)?;
            text::storage(&path.display().to_string(), &bytes)
        }
        (None, Some(path)) => files::read_up_to(path, "a storage image of 80 to 16777216 bytes", MOST_STORAGE),
        _ => args.refuse("expected one of --words and --storage"),
    }
}

fn may_write(args: &Args) -> Result<()> {
    let Some(place) = args.path("--out") else {
        return match args.has("--force") {
            true => refuse("run: --force goes with --out; see poplar run --help"),
            false => Ok(()),
        };
    };
    let mut inputs = vec![args.file("a pack file")?];
    inputs.extend(["--words", "--storage", "--resume"].iter().filter_map(|name| args.path(name)));
    place::may_write_folder(place, args.has("--force"), &inputs)
}

/// What an answer leaves: pack and storage, of a chain that is held also the held state, of a start that failed the storage.
fn write_results(args: &Args, lent: &Lent, answer: Answer) -> Result<Saved> {
    let Some(place) = args.path("--out") else {
        return Ok(Saved::nothing(match answer {
            Answer::NotEnded => ", and the held state is lost: --out FOLDER saves the results",
            _ => ": --out FOLDER saves the results",
        }));
    };
    let pack = || ("pack", lent.pack.bytes());
    let storage = || ("storage", lent.storage.clone());
    let chain = || (belongs::NAME, belongs::bytes(&lent.pack, &lent.storage));
    let files = match answer {
        Answer::Ended => vec![pack(), storage()],
        Answer::NotEnded => vec![pack(), storage(), ("held", lent.held.clone()), chain()],
        Answer::NotStarted => vec![storage()],
        _ => return Ok(Saved::nothing("")),
    };
    save::folder(place, &files, args.has("--force"))
}

fn refused(args: &Args, answer: Answer, saved: Result<Saved>, to: &mut To) -> String {
    let which = match answer {
        Answer::BadHeld | Answer::NoChain => args.path("--resume"),
        Answer::BadPack => args.file("").ok(),
        _ => args.path("--words").or(args.path("--storage")),
    };
    let file = which.unwrap_or(Path::new("run")).display();
    let left = match saved {
        Ok(saved) => {
            saved.tell_notes(to);
            saved.text
        }
        Err(refusal) => format!("nothing was saved: {}", refusal.text),
    };
    format!("{file}: the box answers {}: {}; {left}", answer.number(), words::answer(answer))
}

fn tell(lent: &Lent, answer: Answer, before: &(Pack, Vec<u8>), to: &mut To) -> Result<()> {
    writeln!(to.out, "answer {}: {}", answer.number(), words::answer(answer))?;
    match (answer, lent.state()) {
        (Answer::Ended, _) => lent.tell_status(to.out)?,
        (_, Some(held)) => writeln!(
            to.out,
            "  next word at {:06X}; cylinder {}, head {}, place {}",
            held.next(),
            held.cylinder(),
            held.head(),
            held.place()
        )?,
        _ => {}
    }
    writeln!(to.out, "what changed:")?;
    changes::tell_cells(&before.0, &lent.pack, to.out)?;
    changes::tell_storage(&before.1, &lent.storage, to.out)
}
