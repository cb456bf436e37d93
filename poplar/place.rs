//! Places for results: what may be written there, and what may be replaced.
use crate::refusal::{refuse, system, Result};
use std::fs;
use std::path::Path;

/// The files that a folder of results may hold, and no other.
pub const RESULTS: &[&str] = &["pack", "storage", "held", "chain"];

/// The results that cannot be had again from the others.
const DEAR: &[&str] = &["pack", "held"];

pub fn taken<T>(place: &Path) -> Result<T> {
    refuse(format!("{}: is there already; expected a new name, or --force", place.display()))
}

/// Refuses a place without a name of its own, as `..`: nothing can be made beside it.
fn has_name(place: &Path) -> Result<()> {
    match place.file_name() {
        Some(_) => Ok(()),
        None => refuse(format!("{}: expected a name to write to", place.display())),
    }
}

/// Refuses a place for a file that is taken, or with `force` one that is taken by something that is no file, or by the input.
pub fn may_write_file(place: &Path, force: bool, input: &Path) -> Result<()> {
    let shown = place.display();
    match fs::symlink_metadata(place) {
        Err(_) => has_name(place),
        Ok(_) if !force => taken(place),
        Ok(_) if place.canonicalize().ok() == input.canonicalize().ok() => {
            refuse(format!("{shown}: is an input; it is not overwritten, --force or not"))
        }
        Ok(about) if about.is_file() => Ok(()),
        Ok(_) => refuse(format!("{shown}: is there and no file; it is not overwritten, --force or not")),
    }
}

/// Refuses a place for a folder of results that is taken, or with `force` one that holds anything else, or one of `inputs`.
pub fn may_write_folder(place: &Path, force: bool, inputs: &[&Path]) -> Result<()> {
    let shown = place.display();
    let about = match fs::symlink_metadata(place) {
        Err(_) => return has_name(place),
        Ok(about) => about,
    };
    if !force {
        return taken(place);
    }
    if !about.is_dir() {
        return refuse(format!("{shown}: is there and no folder; it is not overwritten, --force or not"));
    }
    only_results(place, place)?;
    has_name(place)?;
    let lies_in = |input: &&&Path| {
        input.canonicalize().ok().as_deref().and_then(Path::parent) == place.canonicalize().ok().as_deref()
    };
    match inputs.iter().find(lies_in) {
        Some(input) => {
            refuse(format!("{}: is an input and lies in {shown}, which would be overwritten", input.display()))
        }
        None => Ok(()),
    }
}

/// Refuses a folder that holds anything but files of results; `place` is the name that the caller knows it by.
fn only_results(folder: &Path, place: &Path) -> Result<()> {
    let shown = place.display();
    let failed = |error| system(shown.to_string(), error);
    for entry in fs::read_dir(folder).map_err(failed)? {
        let entry = entry.map_err(failed)?;
        let name = entry.file_name();
        let is_file = entry.file_type().map_err(failed)?.is_file();
        if !is_file || !RESULTS.iter().any(|result| name == *result) {
            let name = name.to_string_lossy();
            return refuse(format!(
                "{shown}: holds '{name}', no result of poplar run; it is not overwritten, --force or not"
            ));
        }
    }
    Ok(())
}

/// Refuses a folder that results of these names may not replace: one that holds anything but results, or a pack where they have none.
pub fn may_replace(folder: &Path, place: &Path, names: &[&str]) -> Result<()> {
    only_results(folder, place)?;
    let lost = |name: &&&str| fs::symlink_metadata(folder.join(name)).is_ok();
    match DEAR.iter().filter(|_| !names.contains(&"pack")).find(lost) {
        Some(name) => refuse(format!(
            "{}: holds '{name}', and there is no pack to put in its place; it is not overwritten, --force or not",
            place.display()
        )),
        None => Ok(()),
    }
}
