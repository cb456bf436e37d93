//! Why a call of the program ends without what was asked for.
use std::fmt::Display;
use std::io;

/// One sentence or more: what was found, where, and what was expected.
#[derive(Debug)]
pub struct Refusal {
    pub text: String,
    /// The box refused, not the program.
    pub by_box: bool,
}

impl Refusal {
    /// Says this, too.
    pub fn and(self, text: &str) -> Refusal {
        Refusal { text: format!("{}; {text}", self.text), ..self }
    }
}

pub type Result<T> = std::result::Result<T, Refusal>;

pub fn refuse<T>(text: impl Into<String>) -> Result<T> {
    Err(Refusal { text: text.into(), by_box: false })
}

/// What an error of the system did to a file.
pub fn system(what: impl Display, error: io::Error) -> Refusal {
    Refusal { text: format!("{what}: {error}"), by_box: false }
}

/// A message as it can be shown: control characters, which a file or a name may hold, are written out.
pub fn shown(text: &str) -> String {
    let sign = |sign: char| match sign.is_control() {
        true => sign.escape_default().to_string(),
        false => sign.to_string(),
    };
    text.chars().map(sign).collect()
}

impl From<io::Error> for Refusal {
    fn from(error: io::Error) -> Refusal {
        system("what was to be said could not be written", error)
    }
}
