//! `chain`: what a held state was written with, so that it is not gone on with on another pack, storage or shape.
use crate::files;
use crate::pack::Pack;
use crate::refusal::{refuse, Result};
use std::fmt::{Display, Formatter};
use std::io::ErrorKind;
use std::path::Path;

/// Its name, beside the held state.
pub const NAME: &str = "chain";

const FIRST: &str = "poplar: what the held state beside was written with, and is gone on with";
const BETWEEN: &str = " bytes, FNV-1a ";
/// The text has some 200 bytes; much more is another file.
const MOST: usize = 4096;

/// What is kept of a file: its length, and a sum of its bytes (FNV-1a, 64 bits).
struct Sum {
    bytes: usize,
    sum: u64,
}

impl Sum {
    fn of(bytes: &[u8]) -> Sum {
        let add = |sum: u64, byte: &u8| (sum ^ u64::from(*byte)).wrapping_mul(0x0000_0100_0000_01B3);
        Sum { bytes: bytes.len(), sum: bytes.iter().fold(0xCBF2_9CE4_8422_2325, add) }
    }

    fn parse(text: &str) -> Option<Sum> {
        let (bytes, sum) = text.split_once(BETWEEN)?;
        Some(Sum { bytes: bytes.parse().ok()?, sum: u64::from_str_radix(sum, 16).ok()? })
    }
}

impl Display for Sum {
    fn fmt(&self, to: &mut Formatter) -> std::fmt::Result {
        write!(to, "{}{BETWEEN}{:016X}", self.bytes, self.sum)
    }
}

struct Belongs {
    cylinders: u32,
    heads: u32,
    pack: Sum,
    storage: Sum,
}

impl Belongs {
    fn of(pack: &Pack, storage: &[u8]) -> Belongs {
        let (cylinders, heads) = (pack.shape.cylinders, pack.shape.heads);
        Belongs { cylinders, heads, pack: Sum::of(&pack.bytes()), storage: Sum::of(storage) }
    }

    fn lines(&self) -> [(&'static str, String); 4] {
        [
            ("cylinders", self.cylinders.to_string()),
            ("heads", self.heads.to_string()),
            ("pack", self.pack.to_string()),
            ("storage", self.storage.to_string()),
        ]
    }

    fn text(&self) -> String {
        let lines = self.lines().map(|(name, value)| format!("{name} {value}\n"));
        format!("{FIRST}\n{}", lines.concat())
    }

    /// Only the very text that is written for some pack and storage.
    fn parse(text: &str) -> Option<Belongs> {
        let mut lines = text.lines().skip(1);
        let mut value = |name: &str| lines.next()?.strip_prefix(name)?.strip_prefix(' ');
        let cylinders = value("cylinders")?.parse().ok()?;
        let heads = value("heads")?.parse().ok()?;
        let pack = Sum::parse(value("pack")?)?;
        let storage = Sum::parse(value("storage")?)?;
        let parsed = Belongs { cylinders, heads, pack, storage };
        Some(parsed).filter(|parsed| parsed.text() == text)
    }
}

/// The bytes of the file that goes with a held state.
pub fn bytes(pack: &Pack, storage: &[u8]) -> Vec<u8> {
    Belongs::of(pack, storage).text().into_bytes()
}

/// Refuses a pack and a storage that the held state was not written with; whether there was a file to compare them with.
pub fn compare(held: &Path, pack: &Pack, storage: &[u8]) -> Result<bool> {
    let path = held.with_file_name(NAME);
    if matches!(path.symlink_metadata(), Err(error) if error.kind() == ErrorKind::NotFound) {
        return Ok(false);
    }
    let what = "a text that poplar run wrote with a held state";
    let bytes = files::read(&path, what, MOST)?;
    let Some(written) = std::str::from_utf8(&bytes).ok().and_then(Belongs::parse) else {
        return refuse(format!("{}: found something else; expected {what}; nothing is written", path.display()));
    };
    let given = Belongs::of(pack, storage);
    let pairs = written.lines().into_iter().zip(given.lines()).filter(|(written, given)| written != given);
    let differ: Vec<String> =
        pairs.map(|((name, written), (_, given))| format!("{name}: expected {written}, found {given}")).collect();
    if differ.is_empty() {
        return Ok(true);
    }
    refuse(format!(
        "{}: was not written with what is given, as {} says: {}; nothing is written",
        held.display(),
        path.display(),
        differ.join("; ")
    ))
}
