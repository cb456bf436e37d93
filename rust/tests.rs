// Checks of the wrapper and of the library behind it: both sides of every limit, the refusals and their order, the control
// commands, searches, reads and writes with their status words, looks at a track, and that an allowance can be cut. Document 01 is
// what they are held to.
//
// `tests` runs every group and prints how many checks each made; `tests --help` says more.
#[path = "tests/allowance.rs"]
mod allowance;
#[path = "tests/appendix_a.rs"]
mod appendix_a;
#[path = "tests/commands.rs"]
mod commands;
#[path = "tests/dice.rs"]
mod dice;
#[path = "tests/lent.rs"]
mod lent;
#[path = "tests/limits.rs"]
mod limits;
#[path = "tests/look.rs"]
mod look;
#[path = "tests/reads.rs"]
mod reads;
#[path = "tests/searches.rs"]
mod searches;
#[path = "tests/sheet.rs"]
mod sheet;
#[path = "tests/starts.rs"]
mod starts;
#[path = "tests/track.rs"]
mod track;
#[path = "tests/wrapper.rs"]
mod wrapper;
#[path = "tests/writes.rs"]
mod writes;

use lent::Tally;
use std::process::ExitCode;

const HELP: &str = "\
tests          run every group of checks; print how many each made, and what failed
tests GROUP    run that group alone
tests --list   the groups
tests --help   this text

Exit status: 0 all passed; 1 a check failed; 2 bad usage.";

type Group = (&'static str, fn(&mut Tally));

const GROUPS: &[Group] = &[
    ("answers", wrapper::answers),
    ("held-bytes", wrapper::held_bytes),
    ("fresh", wrapper::fresh),
    ("nothing-lent", wrapper::nothing_lent),
    ("storage-limits", limits::storage_limits),
    ("pack-limits", limits::pack_limits),
    ("held-limits", limits::held_limits),
    ("held-mask", limits::held_mask),
    ("held-selection", limits::held_selection),
    ("held-encoding", limits::held_encoding),
    ("held-free", limits::held_free),
    ("refusal-order", limits::refusal_order),
    ("start", starts::start_resets),
    ("start-refused", starts::start_refused),
    ("start-codes", starts::start_codes),
    ("no-op-and-sense", commands::no_op_and_sense),
    ("words-when-they-run", commands::words_when_they_run),
    ("seeks", commands::seeks),
    ("seeks-short", commands::seeks_short),
    ("seeks-full-pack", commands::seeks_full_pack),
    ("file-mask", commands::file_mask),
    ("file-mask-twice", commands::file_mask_twice),
    ("file-mask-seeks", commands::file_mask_seeks),
    ("space-record", commands::space_record),
    ("unknown-codes", commands::unknown_codes),
    ("sense-cleared", commands::sense_cleared),
    ("transfer-in-channel", commands::transfer_in_channel),
    ("program-checks", commands::program_checks),
    ("addresses-wrap", commands::addresses_wrap),
    ("track", track::laid),
    ("look-markers", look::look_markers),
    ("look-areas", look::look_areas),
    ("look-walk", look::look_walk),
    ("look-edges", look::look_edges),
    ("look-damage", look::look_damage),
    ("look-wrong-calls", look::look_wrong_calls),
    ("search-home", searches::search_home),
    ("search-id", searches::search_id),
    ("search-key", searches::search_key),
    ("search-key-selected", searches::search_key_selected),
    ("second-index", searches::second_index),
    ("index-tally", searches::index_tally),
    ("search-rows", searches::search_rows),
    ("search-damage", searches::search_damage),
    ("search-markers", searches::search_markers),
    ("search-goes-on", searches::search_goes_on),
    ("read-home", reads::read_home),
    ("read-r0", reads::read_r0),
    ("read-places", reads::read_places),
    ("read-selected", reads::read_selected),
    ("read-chains", reads::read_chains),
    ("read-without-data", reads::read_without_data),
    ("read-no-marker", reads::read_no_marker),
    ("read-damage", reads::read_damage),
    ("read-off-the-track", reads::read_off_the_track),
    ("read-markers", reads::read_markers),
    ("read-over-words", reads::read_over_words),
    ("read-past-damage", reads::read_past_damage),
    ("read-sense", reads::read_sense),
    ("write-home", writes::write_home),
    ("write-r0", writes::write_r0),
    ("write-record", writes::write_record),
    ("write-update", writes::write_update),
    ("write-licence", writes::write_licence),
    ("write-after", writes::write_after),
    ("write-mask", writes::write_mask),
    ("write-rows", writes::write_rows),
    ("write-damage", writes::write_damage),
    ("write-empty", writes::write_empty),
    ("write-flags", writes::write_flags),
    ("write-later", writes::write_later),
    ("write-room", writes::write_room),
    ("write-far", writes::write_far),
    ("write-read-back", writes::write_read_back),
    ("write-other-tracks", writes::write_other_tracks),
    ("write-then", writes::write_then),
    ("write-from", writes::write_from),
    ("appendix-a-home-list", appendix_a::home_list),
    ("appendix-a-record-list", appendix_a::record_list),
    ("appendix-a-all-tracks", appendix_a::all_tracks),
    ("loop", allowance::endless_loop),
    ("allowance", allowance::allowance),
    ("cuts", allowance::cuts),
    ("cuts-of-work", allowance::cuts_of_work),
    ("cuts-of-writes", allowance::cuts_of_writes),
    ("threads", allowance::threads),
];

fn run(groups: &[Group]) -> ExitCode {
    let mut made = 0;
    let mut failed = 0;
    for (name, group) in groups {
        let mut tally = Tally::default();
        group(&mut tally);
        println!("tests: {name}: {} checks, {} failed", tally.made, tally.failed);
        made += tally.made;
        failed += tally.failed;
    }
    println!("tests: {made} checks in {} groups, {failed} failed", groups.len());
    ExitCode::from(u8::from(failed > 0))
}

fn main() -> ExitCode {
    let words: Vec<String> = std::env::args_os().skip(1).map(|word| word.to_string_lossy().into_owned()).collect();
    let words: Vec<&str> = words.iter().map(String::as_str).collect();
    match words[..] {
        [] => run(GROUPS),
        ["--help"] => {
            println!("{HELP}");
            ExitCode::SUCCESS
        }
        ["--list"] => {
            GROUPS.iter().for_each(|(name, _)| println!("{name}"));
            ExitCode::SUCCESS
        }
        [wanted] => match GROUPS.iter().find(|(name, _)| *name == wanted) {
            Some(group) => run(&[*group]),
            None => {
                eprintln!("tests: there is no group '{wanted}'; see tests --list");
                ExitCode::from(2)
            }
        },
        _ => {
            eprintln!("tests: one group or none; see tests --help");
            ExitCode::from(2)
        }
    }
}
