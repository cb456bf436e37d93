//! Results: written beside their place under a hidden name, synced, then moved into it. What is there already is replaced with `force`
//! alone. On a failure nothing is left beside; what fails once they are in their place is told, but they are written.
use crate::cli::To;
use crate::place::{may_replace, taken, RESULTS};
use crate::refusal::{shown, system, Refusal, Result};
use std::fs::{self, File};
use std::io::{self, ErrorKind, Write};
use std::path::{Path, PathBuf};

/// What was written and where, and what failed after it was in its place.
pub struct Saved {
    pub text: String,
    pub notes: Vec<String>,
}

impl Saved {
    pub fn nothing(why: &str) -> Saved {
        Saved { text: format!("nothing was saved{why}"), notes: Vec::new() }
    }

    /// Ends what a call has told with what was written. Where that cannot be said, the refusal says what was written.
    pub fn tell(&self, told: Result<()>, to: &mut To) -> Result<()> {
        self.tell_notes(to);
        let said = told.and_then(|()| {
            writeln!(to.out, "{}", shown(&self.text))?;
            Ok(to.out.flush()?)
        });
        said.map_err(|refusal| refusal.and(&self.text))
    }

    pub fn tell_notes(&self, to: &mut To) {
        self.notes.iter().for_each(|note| to.note(note));
    }
}

/// A name that a process before left is not used again; so many are tried.
const MOST_NAMES: u32 = 999;

/// Makes something beside a place, under the first of its hidden names that is not taken. They are short: the place's may be as long as can be.
fn make_beside<T>(place: &Path, what: &str, make: fn(PathBuf) -> io::Result<T>) -> io::Result<(PathBuf, T)> {
    let mut number = 0;
    loop {
        let name = place.with_file_name(format!(".poplar-{what}-{:07}-{number:03}", std::process::id()));
        match make(name.clone()) {
            Err(error) if error.kind() == ErrorKind::AlreadyExists && number < MOST_NAMES => number += 1,
            made => return made.map(|made| (name, made)),
        }
    }
}

fn folder_of(place: &Path) -> &Path {
    match place.parent() {
        Some(folder) if !folder.as_os_str().is_empty() => folder,
        _ => Path::new("."),
    }
}

fn sync_folder(folder: &Path) -> io::Result<()> {
    File::open(folder)?.sync_all()
}

fn write(mut file: File, bytes: &[u8]) -> io::Result<()> {
    file.write_all(bytes)?;
    file.sync_all()
}

fn not_written(place: &Path, error: io::Error) -> Refusal {
    match (error.kind(), taken::<()>(place)) {
        (ErrorKind::AlreadyExists, Err(refusal)) => refusal,
        _ => system(format!("{}: could not be written", place.display()), error),
    }
}

/// What to say where the folder that a place is in was not synced.
fn not_synced(place: &Path, error: io::Error) -> String {
    let folder = folder_of(place).display();
    format!(
        "{}: written, but its folder {folder} was not synced: {error}; a loss of power may undo it",
        place.display()
    )
}

/// Moves a file to a place that nothing has. Where there are no hard links, the name is taken first, by an empty file.
fn move_new(part: &Path, place: &Path) -> io::Result<()> {
    match fs::hard_link(part, place) {
        Err(error) if matches!(error.kind(), ErrorKind::PermissionDenied | ErrorKind::Unsupported) => {
            File::create_new(place)?;
            fs::rename(part, place)
        }
        linked => linked,
    }
}

/// Writes a file to a place that `may_write_file` allows.
pub fn file(place: &Path, bytes: &[u8], force: bool) -> Result<Saved> {
    let failed = |error| not_written(place, error);
    let (part, new) = make_beside(place, "part", File::create_new).map_err(failed)?;
    let moved = write(new, bytes).and_then(|()| match force {
        true => fs::rename(&part, place),
        false => move_new(&part, place),
    });
    let removed = fs::remove_file(&part);
    moved.map_err(failed)?;
    let mut notes = Vec::new();
    if let Err(error) = sync_folder(folder_of(place)) {
        notes.push(not_synced(place, error));
    }
    if let Some(error) = removed.err().filter(|error| error.kind() != ErrorKind::NotFound) {
        notes.push(format!("{}: written, but it is left as {}, too: {error}", place.display(), part.display()));
    }
    Ok(Saved { text: format!("{}: written", place.display()), notes })
}

fn write_folder(part: &Path, files: &[(&str, Vec<u8>)]) -> io::Result<()> {
    for (name, bytes) in files {
        write(File::create_new(part.join(name))?, bytes)?;
    }
    sync_folder(part)
}

/// Nothing is moved over what somebody else has put there: the place is taken by an empty folder first, and that one gives way.
fn take_place(part: &Path, place: &Path) -> io::Result<()> {
    fs::create_dir(place)?;
    fs::rename(part, place).inspect_err(|_| {
        let _ = fs::remove_dir(place);
    })
}

/// Puts back what was moved aside; if it cannot, the refusal says where it is.
fn put_back(aside: &Path, place: &Path, refusal: Refusal) -> Refusal {
    match fs::rename(aside, place) {
        Ok(()) => refusal,
        Err(error) => refusal.and(&format!("what was there is now {}: {error}", aside.display())),
    }
}

/// Moves a folder of results aside, to an empty folder that holds the name. It is looked at before, and again where nobody seeks it.
fn move_aside(place: &Path, names: &[&str]) -> Result<PathBuf> {
    may_replace(place, place, names)?;
    let failed = |error| system(format!("{}: could not be moved aside", place.display()), error);
    let (aside, ()) = make_beside(place, "old", fs::create_dir).map_err(failed)?;
    fs::rename(place, &aside).map_err(|error| {
        let _ = fs::remove_dir(&aside);
        failed(error)
    })?;
    may_replace(&aside, place, names).map_err(|refusal| put_back(&aside, place, refusal))?;
    Ok(aside)
}

/// The new folder takes the place; an old one stands aside until it has, and goes back if it has not.
fn put_in_place(part: &Path, place: &Path, names: &[&str], force: bool) -> Result<Option<PathBuf>> {
    let old = match force && fs::symlink_metadata(place).is_ok() {
        true => Some(move_aside(place, names)?),
        false => None,
    };
    match (take_place(part, place), &old) {
        (Ok(()), _) => Ok(old),
        (Err(error), None) => Err(not_written(place, error)),
        (Err(error), Some(aside)) => Err(put_back(aside, place, not_written(place, error))),
    }
}

/// Removes the results of a folder, and then the folder, if nothing else is in it.
fn remove_results(folder: &Path) -> io::Result<()> {
    for name in RESULTS {
        match fs::remove_file(folder.join(name)) {
            Err(error) if error.kind() != ErrorKind::NotFound => return Err(error),
            _ => {}
        }
    }
    fs::remove_dir(folder)
}

/// What is left to do once the new folder has the place. The old one is removed only if the new one lasts.
fn finish(place: &Path, old: Option<PathBuf>) -> Vec<String> {
    let shown = place.display();
    let left = |old: &Path| format!("{shown}: written, but what was there before is left as {}", old.display());
    match (sync_folder(folder_of(place)), old) {
        (Err(error), None) => vec![not_synced(place, error)],
        (Err(error), Some(old)) => vec![not_synced(place, error), left(&old)],
        (Ok(()), None) => vec![],
        (Ok(()), Some(old)) => {
            remove_results(&old).err().iter().map(|error| format!("{}: {error}", left(&old))).collect()
        }
    }
}

/// Writes a folder of results to a place that `may_write_folder` allows: all of them, or none.
pub fn folder(place: &Path, files: &[(&str, Vec<u8>)], force: bool) -> Result<Saved> {
    let names: Vec<&str> = files.iter().map(|(name, _)| *name).collect();
    let failed = |error| not_written(place, error);
    let (part, ()) = make_beside(place, "part", fs::create_dir).map_err(failed)?;
    let written = write_folder(&part, files).map_err(failed);
    let moved = written.and_then(|()| put_in_place(&part, place, &names, force)).inspect_err(|_| {
        let _ = fs::remove_dir_all(&part);
    })?;
    Ok(Saved { text: format!("{}: written: {}", place.display(), names.join(", ")), notes: finish(place, moved) })
}
