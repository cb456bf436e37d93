//! Files that are given: opened for reading alone, and read no further than they can be of use.
use crate::refusal::{refuse, system, Result};
use std::fs::{self, File};
use std::io::Read;
use std::path::Path;

/// The first bytes of a file, at most so many.
pub fn read_up_to(path: &Path, what: &str, most: usize) -> Result<Vec<u8>> {
    let shown = path.display();
    let failed = |error| system(format!("{shown}: expected {what}"), error);
    // before it is opened: to open a pipe is to wait until somebody writes to it
    if !fs::metadata(path).map_err(failed)?.is_file() {
        return refuse(format!("{shown}: no regular file; expected {what}"));
    }
    let mut bytes = Vec::new();
    File::open(path).map_err(failed)?.take(most as u64).read_to_end(&mut bytes).map_err(failed)?;
    Ok(bytes)
}

/// All bytes of a file that has at most so many.
pub fn read(path: &Path, what: &str, most: usize) -> Result<Vec<u8>> {
    let bytes = read_up_to(path, what, most + 1)?;
    if bytes.len() > most {
        return refuse(format!("{}: over {most} bytes; expected {what}, of at most {most} bytes", path.display()));
    }
    Ok(bytes)
}
