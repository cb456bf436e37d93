//! `poplar demo`: a small pack, formatted and worked on through the box.
use crate::args::Takes;
use crate::chain::Lent;
use crate::cli::{To, DONE};
use crate::pack::Pack;
use crate::refusal::{refuse, Result};
use crate::survey::Survey;
use crate::{changes, place, save, text, track};
use poplar::{Answer, Part, Shape};
use std::io::Write;

pub const HELP: &str = "\
poplar demo [--out FOLDER]

Formats a small sample pack through the box, runs a channel program on it and shows each word in plain language with its
status and its sense, the track as it lies, and what changed. Then one bit of the track is damaged, and the same program
runs again. Nothing is read, and without --out nothing is written.

  --out FOLDER   write the pack as it was formatted (2 heads), and the program's storage, to a new folder: to try run,
                 track and check on

Exit status: 0 done; 2 refused.";

const TAKES: Takes = Takes { name: "demo", file: false, options: &["--out"], switches: &[] };

const SHAPE: Shape = Shape { cylinders: 2, heads: 2 };
const SAMPLE: &str = include_str!("sample.words");

/// The track that the sample works on.
const CYLINDER: u32 = 1;
const HEAD: u32 = 0;

/// A channel program that formats one track: home address, R0, and three records with a key of 4 bytes and data of 24.
fn format_words(cylinder: u32, head: u32) -> String {
    let track = format!("00 {cylinder:02X} 00 {head:02X}");
    let mut words = "\
         set-file-mask mask 1 chain\n\
         seek place 6 chain\n\
         write-ha home 5 chain\n\
         write-r0 r0 16 chain\n\
         write-count-key-data r1 36 chain\n\
         write-count-key-data r2 36 chain\n\
         write-count-key-data r3 36\n\
         mask: bytes C0\n"
        .to_string();
    words += &format!("place: bytes 00 00 {track}\nhome: bytes 00 {track}\nr0: bytes {track} 00 00 00 08\nzeros 8\n");
    for (record, year) in (1..).zip([1966, 1967, 1968]) {
        words += &format!("r{record}: bytes {track} {record:02X} 04 00 18\ntext \"R{record:03}\"\n");
        words += &format!("text \"Ledger {year}, first copy \"\n");
    }
    words
}

/// Runs one chain of words on the pack; its answer must be that it ended.
fn format_track(pack: Pack, cylinder: u32, head: u32) -> Result<Pack> {
    let storage = text::storage("demo", format_words(cylinder, head).as_bytes())?;
    let mut lent = Lent::fresh(storage, pack);
    match (lent.start(), lent.go(100)) {
        (Answer::NotEnded, Answer::Ended) => Ok(lent.pack),
        (_, answer) => refuse(format!("demo: the box answers {}", answer.number())),
    }
}

fn formatted(out: &mut dyn Write) -> Result<Pack> {
    let mut pack = Pack::empty(SHAPE);
    for cylinder in 0..SHAPE.cylinders {
        for head in 0..SHAPE.heads {
            pack = format_track(pack, cylinder, head)?;
        }
    }
    let (cylinders, heads) = (SHAPE.cylinders, SHAPE.heads);
    writeln!(
        out,
        "A pack of {cylinders} cylinders and {heads} heads, formatted through the box: 4 chains of 7 words.\n"
    )?;
    Ok(pack)
}

fn sample_storage() -> Result<Vec<u8>> {
    text::storage("sample.words", SAMPLE.as_bytes())
}

/// Runs the sample on a pack, word by word, and says what changed.
fn sample(pack: Pack, out: &mut dyn Write) -> Result<Pack> {
    let storage = sample_storage()?;
    let before = (pack.clone(), storage.clone());
    let mut lent = Lent::fresh(storage, pack);
    let answer = match lent.start() {
        Answer::NotEnded => lent.go_telling(100, out)?,
        refused => refused,
    };
    writeln!(out, "answer {}", answer.number())?;
    lent.tell_status(out)?;
    writeln!(out, "\nWhat changed:")?;
    changes::tell_cells(&before.0, &lent.pack, out)?;
    changes::tell_storage(&before.1, &lent.storage, out)?;
    Ok(lent.pack)
}

fn draw(pack: &Pack, out: &mut dyn Write) -> Result<()> {
    let cells = pack.track(CYLINDER, HEAD);
    track::draw(&format!("Cylinder {CYLINDER}, head {HEAD}"), cells, &Survey::of(cells)?, out)
}

/// Changes one bit in the middle of record 2's data, where the library says that it lies.
fn damage(pack: &mut Pack, out: &mut dyn Write) -> Result<()> {
    let survey = Survey::of(pack.track(CYLINDER, HEAD))?;
    let Some(cell) = survey.middle_of(2, Part::Data) else { return refuse("demo: record 2 has no data") };
    let place = (CYLINDER * SHAPE.heads + HEAD) as usize * poplar::TRACK_CELLS + cell;
    pack.cells[place] ^= 1;
    writeln!(out, "\nOne bit of cell {cell} of the track is changed, and the same program runs again.\n")?;
    Ok(())
}

/// The sample on a pack that is sound, and on the same with a damaged bit.
fn show(pack: Pack, out: &mut dyn Write) -> Result<()> {
    writeln!(out, "The channel program, word by word:\n")?;
    let mut pack = sample(pack, out)?;
    writeln!(out, "\nThe track as it lies:\n")?;
    draw(&pack, out)?;
    damage(&mut pack, out)?;
    let pack = sample(pack, out)?;
    writeln!(out)?;
    draw(&pack, out)
}

pub fn demo(given: &[std::ffi::OsString], to: &mut To) -> Result<u8> {
    let args = TAKES.parse(given)?;
    if let Some(place) = args.path("--out") {
        place::may_write_folder(place, false, &[])?;
    }
    let pack = formatted(to.out)?;
    show(pack.clone(), to.out)?;
    if let Some(place) = args.path("--out") {
        let files = [("pack", pack.bytes()), ("storage", sample_storage()?)];
        writeln!(to.out)?;
        save::folder(place, &files, false)?.tell(Ok(()), to)?;
    }
    Ok(DONE)
}
