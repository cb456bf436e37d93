//! The cases of hard use: random numbers, good files, and the calls that each kind of input gets.
use archivist::cli;
use std::ffi::OsString;
use std::fs;
use std::path::{Path, PathBuf};

#[derive(Clone, Copy, Debug, PartialEq)]
pub enum Kind {
    Pack,
    Storage,
    Words,
    Held,
    Chain,
}

pub const KINDS: [Kind; 5] = [Kind::Pack, Kind::Storage, Kind::Words, Kind::Held, Kind::Chain];

/// A call, the folders of its inputs and of its results, and what it may write there.
pub struct Call {
    pub words: Vec<OsString>,
    pub inputs: PathBuf,
    pub results: PathBuf,
    pub writes_folder: bool,
    pub writes_picture: bool,
    /// The storage that the box is lent, if it is a file.
    pub storage: Option<Vec<u8>>,
    pub must_refuse: bool,
}

/// Numbers that are the same every time (splitmix64).
pub struct Random(u64);

impl Random {
    pub fn new(seed: u64) -> Random {
        Random(seed)
    }

    fn next(&mut self) -> u64 {
        self.0 = self.0.wrapping_add(0x9E37_79B9_7F4A_7C15);
        let mixed = (self.0 ^ (self.0 >> 30)).wrapping_mul(0xBF58_476D_1CE4_E5B9);
        let mixed = (mixed ^ (mixed >> 27)).wrapping_mul(0x94D0_49BB_1331_11EB);
        mixed ^ (mixed >> 31)
    }

    /// A number below `bound`.
    pub fn below(&mut self, bound: usize) -> usize {
        (self.next() % bound as u64) as usize
    }

    /// A file of up to 64 KiB. Of every four, one has whole cylinders of two heads, one has bytes of few values, one is text.
    pub fn file(&mut self, number: usize) -> Vec<u8> {
        let length = self.below(65537);
        match number % 4 {
            1 => self.bytes(length.max(16384) / 16384 * 16384),
            2 => self.bytes(length).iter().map(|byte| byte & 3).collect(),
            3 => self.text(length % 200),
            _ => self.bytes(length),
        }
    }

    fn bytes(&mut self, length: usize) -> Vec<u8> {
        (0..length).map(|_| self.next() as u8).collect()
    }

    /// Lines of a text of words, each by itself mostly right.
    fn text(&mut self, length: usize) -> Vec<u8> {
        const PIECES: &[&str] = &[
            "\n",
            "\nseek 300 6 chain",
            "\ntic 256",
            "\nno-op chain",
            "\nbytes 0C FF",
            "\ntext \"some\"",
            "\n1D 0x200 20",
            "\nzeros 3",
        ];
        (0..length).flat_map(|_| PIECES[self.below(PIECES.len())].bytes()).collect()
    }

    /// A good file with one byte changed.
    pub fn changed(&mut self, good: &[u8]) -> Vec<u8> {
        let mut bytes = good.to_vec();
        let at = self.below(bytes.len());
        bytes[at] ^= 1 + self.below(255) as u8;
        bytes
    }
}

/// A pack of one cylinder and two heads, whose first track is formatted.
const FORMAT: &str = "\
storage 1024
set-file-mask mask 1 chain
write-ha home 5 chain
write-r0 r0 16 chain
write-count-key-data r1 20 chain
write-count-key-data r2 20
mask: bytes C0
home: bytes 00 00 00 00 00
r0: bytes 00 00 00 00 00 00 00 08
zeros 8
r1: bytes 00 00 00 00 01 04 00 08
text \"R001one     \"
r2: bytes 00 00 00 00 02 04 00 08
text \"R002two     \"
";

/// Finds record 2, reads it, writes it anew.
const WORDS: &str = "\
# hard use
storage 1024
look:   search-id id 5 chain
        tic look
        read-count-key-data 0x300 20 chain any-length
again:  search-id id 5 chain
        tic again
        write-data new 8
id:     bytes 00 00 00 00 02
new:    text \"other   \"
";

fn text<T>(result: std::io::Result<T>) -> Result<T, String> {
    result.map_err(|error| error.to_string())
}

fn call(words: &[&str], folder: &Path) -> Call {
    let inputs = folder.join("in");
    let results = folder.join("results");
    let at = |word: &&str| match word.split_once('/') {
        Some(("in", name)) => inputs.join(name).into_os_string(),
        Some(("results", name)) => results.join(name).into_os_string(),
        _ => OsString::from(word),
    };
    let words: Vec<OsString> = words.iter().map(at).collect();
    let has = |name: &str| words.iter().any(|word| word == name);
    let (writes_folder, writes_picture) = (has("--out"), has("--svg"));
    Call { words, inputs, results, writes_folder, writes_picture, storage: None, must_refuse: false }
}

/// The good files: a formatted pack, a text of words, and in `in/stopped` what a chain that is held leaves; its pack is the formatted one.
pub fn prepare(folder: &Path) -> Result<(), String> {
    text(fs::create_dir_all(folder.join("in")))?;
    text(fs::create_dir(folder.join("results")))?;
    let inputs = folder.join("in");
    text(fs::write(inputs.join("blank"), vec![0; 32768 / 2]))?;
    text(fs::write(inputs.join("format"), FORMAT))?;
    text(fs::write(inputs.join("words"), WORDS))?;
    let formatted = call(&["run", "in/blank", "--heads", "2", "--words", "in/format", "--out", "in/formatted"], folder);
    made(&formatted, 0)?;
    text(fs::rename(inputs.join("formatted/pack"), inputs.join("pack")))?;
    let stopped = ["run", "in/pack", "--heads", "2", "--words", "in/words", "--allowance", "3", "--out", "in/stopped"];
    made(&call(&stopped, folder), 1)?;
    made(&call(&[&["run"], RESUMED, &["--heads", "2"]].concat(), folder), 0)?;
    text(fs::copy(inputs.join("stopped/chain"), inputs.join("chain")))?;
    text(fs::remove_dir_all(inputs.join("formatted")))
}

/// The chain that is held, gone on with as it should be.
const RESUMED: &[&str] = &["in/pack", "--storage", "in/stopped/storage", "--resume", "in/stopped/held"];

fn made(call: &Call, wanted: u8) -> Result<(), String> {
    let mut said = Vec::new();
    let status = cli::run(&call.words, &mut cli::To { out: &mut Vec::new(), err: &mut said, bar: false });
    if status == wanted {
        return Ok(());
    }
    Err(format!("the good files were not made: {}", String::from_utf8_lossy(&said)))
}

pub fn good(kind: Kind, folder: &Path) -> Result<Vec<u8>, String> {
    let name = match kind {
        Kind::Pack => "pack",
        Kind::Storage => "stopped/storage",
        Kind::Words => "words",
        Kind::Held => "stopped/held",
        Kind::Chain => "chain",
    };
    text(fs::read(folder.join("in").join(name)))
}

/// The calls that a file of a kind gets.
pub fn calls(kind: Kind, folder: &Path, bytes: Vec<u8>, random: &mut Random) -> Result<Vec<Call>, String> {
    text(fs::write(folder.join("in/case"), &bytes))?;
    let allowance = random.below(40).to_string();
    let runs = |words: &[&str]| {
        let common = ["--heads", "2", "--allowance", &allowance, "--out", "results/out"];
        let tell = if allowance.len() == 1 { &["--tell"][..] } else { &[] };
        call(&[words, &common, tell].concat(), folder)
    };
    Ok(match kind {
        Kind::Pack => {
            let head = random.below(2).to_string();
            let track = ["track", "in/case", "--heads", "2", "--cylinder", "0", "--head", &head];
            vec![
                runs(&["run", "in/case", "--words", "in/words"]),
                call(&["check", "in/case", "--heads", "2"], folder),
                call(&track, folder),
                call(&[&track[..], &["--whole"]].concat(), folder),
                call(&[&track[..], &["--svg", "results/picture.svg"]].concat(), folder),
            ]
        }
        Kind::Storage => {
            let mut run = runs(&["run", "in/pack", "--storage", "in/case"]);
            run.storage = Some(bytes);
            vec![run]
        }
        Kind::Words => vec![runs(&["run", "in/pack", "--words", "in/case"])],
        Kind::Held => vec![runs(&["run", "in/pack", "--storage", "in/stopped/storage", "--resume", "in/case"])],
        // no file but the one that was written belongs to this held state
        Kind::Chain => {
            text(fs::write(folder.join("in/stopped/chain"), &bytes))?;
            vec![Call { must_refuse: true, ..runs(&[&["run"], RESUMED].concat()) }]
        }
    })
}
