//! The words of a call: one or no file, options with a value, switches.
use crate::refusal::{refuse, Result};
use std::ffi::{OsStr, OsString};
use std::ops::RangeInclusive;
use std::path::Path;

/// What a subcommand takes.
pub struct Takes {
    pub name: &'static str,
    pub file: bool,
    pub options: &'static [&'static str],
    pub switches: &'static [&'static str],
}

/// What a call gave.
pub struct Args {
    name: &'static str,
    file: Option<OsString>,
    options: Vec<(&'static str, OsString)>,
    switches: Vec<&'static str>,
}

impl Takes {
    pub fn parse(&self, words: &[OsString]) -> Result<Args> {
        let mut args = Args { name: self.name, file: None, options: Vec::new(), switches: Vec::new() };
        let mut words = words.iter();
        while let Some(word) = words.next() {
            if let Some(name) = self.options.iter().find(|name| word == *name) {
                let Some(value) = words.next() else { return args.refuse(format!("{name} wants a value")) };
                if args.option(name).is_some() {
                    return args.refuse(format!("{name} stands twice"));
                }
                if value.is_empty() {
                    return args.refuse(format!("{name} '': expected a value that is not empty"));
                }
                args.options.push((name, value.clone()));
            } else if let Some(name) = self.switches.iter().find(|name| word == *name) {
                args.switches.push(name);
            } else if self.file && args.file.is_none() && !word.to_string_lossy().starts_with('-') {
                args.file = Some(word.clone());
            } else {
                return args.refuse(format!("'{}' is not expected", word.to_string_lossy()));
            }
        }
        Ok(args)
    }
}

impl Args {
    pub fn refuse<T>(&self, text: impl Into<String>) -> Result<T> {
        refuse(format!("{}: {}; see poplar {} --help", self.name, text.into(), self.name))
    }

    pub fn file(&self, what: &str) -> Result<&Path> {
        match &self.file {
            Some(file) => Ok(Path::new(file)),
            None => self.refuse(format!("expected {what}")),
        }
    }

    fn option(&self, name: &str) -> Option<&OsStr> {
        self.options.iter().find(|(given, _)| *given == name).map(|(_, value)| value.as_os_str())
    }

    pub fn path(&self, name: &str) -> Option<&Path> {
        self.option(name).map(Path::new)
    }

    pub fn has(&self, switch: &str) -> bool {
        self.switches.contains(&switch)
    }

    /// A number in these bounds, in decimal; `otherwise` if it was not given.
    pub fn number(&self, name: &str, bounds: RangeInclusive<u32>, otherwise: Option<u32>) -> Result<u32> {
        let value = match (self.option(name), otherwise) {
            (Some(value), _) => value,
            (None, Some(number)) => return Ok(number),
            (None, None) => return self.refuse(format!("expected {name}")),
        };
        let digits = value.to_str().filter(|text| text.bytes().all(|byte| byte.is_ascii_digit()));
        match digits.and_then(|text| text.parse().ok()).filter(|number| bounds.contains(number)) {
            Some(number) => Ok(number),
            None => {
                let (first, last) = (bounds.start(), bounds.end());
                self.refuse(format!("{name} '{}': expected a number from {first} to {last}", value.to_string_lossy()))
            }
        }
    }
}
