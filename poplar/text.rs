//! A readable text of command words, made into a storage image.
use crate::refusal::{Refusal, Result};
use crate::words;
use std::collections::{BTreeMap, HashMap};

pub const HELP: &str = "\
A text of words is read line by line; # begins a comment. A name and a colon before a line name its address; they may
stand alone on a line before it. Numbers are decimal, or hex after 0x. Words and bytes go one after another from 256 on,
none over another; a command word goes to a multiple of 8.

  storage N                        bytes of storage, 80 to 16,777,216; 4,096 if not said
  key N                            the key of the address word, 0 to 15; 0 if not said
  at N                             go on at this address, 80 or more; also back, to room that is not used yet
  COMMAND ADDRESS COUNT [chain] [any-length]
                                   a command word: its name or its code in hex, a number or a name, a number, flags
  tic ADDRESS                      a transfer in channel
  no-op [chain], space-record [chain]
                                   address 0, count 1
  bytes HH HH ..                   bytes in hex
  text \"..\"                        the characters, in ASCII
  zeros N                          so many bytes of zero, as storage also is where nothing is laid

The chain begins at the line named start, else at the first command word. Command names:";

/// What is at fault in a line.
struct Fault(String);

type Parsed<T> = std::result::Result<T, Fault>;

fn fault<T>(found: &str, expected: impl std::fmt::Display) -> Parsed<T> {
    let found: String = found.chars().take(40).collect();
    Err(Fault(format!("'{found}': expected {expected}")))
}

enum Item {
    Word { code: u8, address: String, count: u16, flags: u8 },
    Bytes(Vec<u8>),
}

struct Line {
    number: usize,
    at: usize,
    item: Item,
}

#[derive(Default)]
struct Text {
    size: usize,
    key: u8,
    at: usize,
    first: Option<usize>,
    names: HashMap<String, usize>,
    /// Names whose line is still to come: it may be a word, and go to a multiple of 8.
    waiting: Vec<String>,
    lines: Vec<Line>,
    /// What is laid: from each of these addresses up to another, by a line.
    laid: BTreeMap<usize, (usize, usize)>,
}

const ADDRESS_WORD: usize = 72;
const FREE: usize = 80;
const MOST: usize = 1 << 24;

fn number(token: &str, least: usize, most: usize) -> Parsed<usize> {
    let parsed = match token.strip_prefix("0x") {
        Some(digits) if !digits.starts_with('+') => usize::from_str_radix(digits, 16).ok(),
        None if !token.starts_with('+') => token.parse().ok(),
        _ => None,
    };
    match parsed.filter(|number| (least..=most).contains(number)) {
        Some(number) => Ok(number),
        None => fault(token, format_args!("a number from {least} to {most}")),
    }
}

fn hex_byte(token: &str) -> Parsed<u8> {
    let digits = token.len() == 2 && token.bytes().all(|byte| byte.is_ascii_hexdigit());
    match u8::from_str_radix(token, 16) {
        Ok(byte) if digits => Ok(byte),
        _ => fault(token, "a byte as two hex digits"),
    }
}

/// The line without its comment, which begins at a # that is not between quotes.
fn without_comment(line: &str) -> &str {
    let mut quoted = false;
    for (at, sign) in line.char_indices() {
        match sign {
            '"' => quoted = !quoted,
            '#' if !quoted => return &line[..at],
            _ => {}
        }
    }
    line
}

fn is_name(token: &str) -> bool {
    token.starts_with(|sign: char| sign.is_ascii_alphabetic())
        && token.bytes().all(|byte| byte.is_ascii_alphanumeric() || byte == b'-')
}

fn quoted(rest: &str) -> Parsed<Vec<u8>> {
    let inner = rest.strip_prefix('"').and_then(|rest| rest.strip_suffix('"'));
    match inner.filter(|inner| inner.bytes().all(|byte| (b' '..=b'~').contains(&byte) && byte != b'"')) {
        Some(inner) => Ok(inner.as_bytes().to_vec()),
        None => fault(rest, "ASCII characters between quotes"),
    }
}

fn flags(tokens: &[&str]) -> Parsed<u8> {
    let mut flags = 0;
    for token in tokens {
        flags |= match *token {
            "chain" => 0x40,
            "any-length" => 0x20,
            other => return fault(other, "chain, any-length or the line's end"),
        };
    }
    Ok(flags)
}

/// No-op and Space Record use neither address nor count, and may stand without.
fn is_bare(code: u8, tokens: &[&str]) -> bool {
    matches!(code, 0x03 | 0x0F) && matches!(tokens.first(), None | Some(&"chain" | &"any-length"))
}

fn word(code: u8, tokens: &[&str]) -> Parsed<Item> {
    let (address, count, rest) = match tokens {
        [address] if words::is_tic(code) => (*address, 0, &[][..]),
        _ if words::is_tic(code) => return fault(&tokens.join(" "), "the address of a transfer in channel"),
        _ if is_bare(code, tokens) => ("0", 1, tokens),
        [address, count, rest @ ..] => (*address, number(count, 0, 65535)? as u16, rest),
        _ => return fault(&tokens.join(" "), "an address and a count"),
    };
    Ok(Item::Word { code, address: address.to_string(), count, flags: flags(rest)? })
}

impl Text {
    fn place(&mut self, number: usize, item: Item) -> Parsed<()> {
        let len = match &item {
            Item::Word { .. } => 8,
            Item::Bytes(bytes) => bytes.len(),
        };
        if self.size - self.at < len {
            return fault(&self.next(len), format_args!("room in the {} bytes of storage", self.size));
        }
        if matches!(item, Item::Word { .. }) {
            self.first.get_or_insert(self.at);
        }
        self.lines.push(Line { number, at: self.at, item });
        self.take(number, len)
    }

    fn next(&self, len: usize) -> String {
        format!("{} at {}", words::counted(len, "byte"), self.at)
    }

    /// The next bytes of storage are laid by this line, and not by an earlier one.
    fn take(&mut self, number: usize, len: usize) -> Parsed<()> {
        self.settle();
        let end = self.at + len;
        if let Some((_, &(laid, line))) = self.laid.range(..end).next_back() {
            if laid > self.at && len > 0 {
                return fault(&self.next(len), format_args!("room that is not used yet; line {line} uses it"));
            }
        }
        if len > 0 {
            self.laid.insert(self.at, (end, number));
        }
        self.at = end;
        Ok(())
    }

    fn name(&mut self, name: &str) -> Parsed<()> {
        if !is_name(name) {
            return fault(name, "a name of letters, digits and hyphens before the colon");
        }
        if self.at == MOST {
            return fault(name, format_args!("a name of an address below {MOST}, but here storage ends"));
        }
        if self.names.insert(name.to_string(), self.at).is_some() {
            return fault(name, "a name that is not taken");
        }
        self.waiting.push(name.to_string());
        Ok(())
    }

    /// The names that wait are of this address.
    fn settle(&mut self) {
        for name in self.waiting.drain(..) {
            self.names.insert(name, self.at);
        }
    }

    fn align(&mut self) {
        self.at = self.at.next_multiple_of(8).min(self.size);
    }

    /// One line, without its comment.
    fn line(&mut self, number_of: usize, line: &str) -> Parsed<()> {
        let (name, line) = match line.split_once(':') {
            Some((name, rest)) if !name.contains('"') => (Some(name.trim()), rest.trim()),
            _ => (None, line.trim()),
        };
        let (head, rest) = line.split_once(char::is_whitespace).unwrap_or((line, ""));
        let code = words::code_of(head).or_else(|| hex_byte(head).ok());
        if code.is_some() {
            self.align();
        }
        if let Some(name) = name {
            self.name(name)?;
        }
        if head.is_empty() {
            return Ok(());
        }
        let rest = rest.trim();
        let tokens: Vec<&str> = rest.split_whitespace().collect();
        match (head, code) {
            (_, Some(code)) => self.place(number_of, word(code, &tokens)?),
            ("bytes", _) => {
                let bytes: Parsed<Vec<u8>> = tokens.iter().map(|token| hex_byte(token)).collect();
                self.place(number_of, Item::Bytes(bytes?))
            }
            ("text", _) => self.place(number_of, Item::Bytes(quoted(rest)?)),
            ("zeros", _) => {
                let len = number(rest, 0, self.size - self.at)?;
                self.take(number_of, len)
            }
            _ => self.setting(head, rest),
        }
    }

    fn setting(&mut self, head: &str, rest: &str) -> Parsed<()> {
        match head {
            "at" => {
                self.settle();
                self.at = number(rest, FREE, self.size)?;
            }
            "key" => self.key = number(rest, 0, 15)? as u8,
            "storage" if self.lines.is_empty() && self.laid.is_empty() => {
                self.size = number(rest, FREE, MOST)?;
                self.at = self.at.min(self.size);
            }
            "storage" => return fault(head, "storage before the first word or byte"),
            _ => return fault(head, "a command's name or code, bytes, text, zeros, at, key or storage"),
        }
        Ok(())
    }

    fn address(&self, operand: &str) -> Parsed<usize> {
        match self.names.get(operand) {
            Some(at) => Ok(*at),
            None if operand.starts_with(|sign: char| sign.is_ascii_digit()) => number(operand, 0, MOST - 1),
            None => fault(operand, "an address, or a name that stands before a line"),
        }
    }

    fn lay(&self, line: &Line, storage: &mut [u8]) -> Parsed<()> {
        let bytes = match &line.item {
            Item::Bytes(bytes) => bytes.clone(),
            Item::Word { code, address, count, flags } => {
                let mut word = (self.address(address)? as u32).to_be_bytes().to_vec();
                word[0] = *code;
                word.extend([*flags, 0]);
                word.extend(count.to_be_bytes());
                word
            }
        };
        storage[line.at..line.at + bytes.len()].copy_from_slice(&bytes);
        Ok(())
    }
}

/// The storage image of a text: its words and bytes, and the address word.
pub fn storage(file: &str, bytes: &[u8]) -> Result<Vec<u8>> {
    let at_line =
        |number: usize, Fault(text): Fault| Refusal { text: format!("{file}: line {number}: {text}"), by_box: false };
    let text = std::str::from_utf8(bytes).map_err(|error| {
        let number = 1 + bytes[..error.valid_up_to()].iter().filter(|&&byte| byte == b'\n').count();
        at_line(number, Fault("expected text, in UTF-8".to_string()))
    })?;
    let mut parsed = Text { size: 4096, at: 256, ..Text::default() };
    for (number, line) in (1..).zip(text.lines()) {
        parsed.line(number, without_comment(line)).map_err(|fault| at_line(number, fault))?;
    }
    parsed.settle();
    let mut storage = vec![0; parsed.size];
    for line in &parsed.lines {
        parsed.lay(line, &mut storage).map_err(|fault| at_line(line.number, fault))?;
    }
    let named = parsed.names.get("start").copied();
    let Some(first) = named.or(parsed.first) else {
        return Err(at_line(text.lines().count().max(1), Fault("the text ends: expected a command word".to_string())));
    };
    storage[ADDRESS_WORD..ADDRESS_WORD + 4].copy_from_slice(&(first as u32).to_be_bytes());
    storage[ADDRESS_WORD] = parsed.key << 4;
    Ok(storage)
}

/// The text of help, with every command's name.
pub fn help() -> String {
    let mut text = HELP.to_string();
    for (code, name, plain) in words::names() {
        text += &format!("\n  {name:<24} {code:02X}  {plain}");
    }
    text
}
