//! The program; its parts are in `lib.rs`.
use archivist::cli;
use std::ffi::OsString;
use std::io::{self, BufWriter, IsTerminal};
use std::process::ExitCode;

fn main() -> ExitCode {
    let words: Vec<OsString> = std::env::args_os().skip(1).collect();
    let mut out = BufWriter::new(io::stdout().lock());
    let mut err = io::stderr().lock();
    let mut to = cli::To { out: &mut out, err: &mut err, bar: io::stderr().is_terminal() };
    ExitCode::from(cli::run(&words, &mut to))
}
