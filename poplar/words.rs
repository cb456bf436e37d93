//! Plain language: commands, command words, status words, sense bytes, answers.
use poplar::Answer;

/// The command codes of document 01, their names in a text of words, and in plain language.
const COMMANDS: &[(u8, &str, &str)] = &[
    (0x03, "no-op", "No-op"),
    (0x04, "sense", "Sense"),
    (0x07, "seek", "Seek"),
    (0x0B, "seek-cylinder", "Seek Cylinder"),
    (0x1B, "seek-head", "Seek Head"),
    (0x1F, "set-file-mask", "Set File Mask"),
    (0x0F, "space-record", "Space Record"),
    (0x08, "tic", "Transfer In Channel"),
    (0x39, "search-ha", "Search Home Address"),
    (0x31, "search-id", "Search ID equal"),
    (0x51, "search-id-high", "Search ID high"),
    (0x71, "search-id-equal-high", "Search ID equal or high"),
    (0x29, "search-key", "Search Key equal"),
    (0x49, "search-key-high", "Search Key high"),
    (0x69, "search-key-equal-high", "Search Key equal or high"),
    (0x1A, "read-ha", "Read Home Address"),
    (0x16, "read-r0", "Read R0"),
    (0x12, "read-count", "Read Count"),
    (0x06, "read-data", "Read Data"),
    (0x0E, "read-key-data", "Read Key and Data"),
    (0x1E, "read-count-key-data", "Read Count Key Data"),
    (0x19, "write-ha", "Write Home Address"),
    (0x15, "write-r0", "Write R0"),
    (0x1D, "write-count-key-data", "Write Count Key Data"),
    (0x05, "write-data", "Write Data"),
    (0x0D, "write-key-data", "Write Key and Data"),
];

/// Every name that a text of words may use.
pub fn names() -> impl Iterator<Item = (u8, &'static str, &'static str)> {
    COMMANDS.iter().copied()
}

pub fn code_of(name: &str) -> Option<u8> {
    COMMANDS.iter().find(|(_, short, _)| *short == name).map(|(code, ..)| *code)
}

pub fn is_tic(code: u8) -> bool {
    code & 0x0F == 8
}

pub fn is_search(code: u8) -> bool {
    COMMANDS.iter().any(|(listed, name, _)| *listed == code && name.starts_with("search"))
}

pub fn name_of(code: u8) -> String {
    let known = if is_tic(code) { 0x08 } else { code };
    match COMMANDS.iter().find(|(listed, ..)| *listed == known) {
        Some((_, _, plain)) => plain.to_string(),
        None => format!("unknown code {code:02X}"),
    }
}

pub fn address_of(word: &[u8; 8]) -> u32 {
    u32::from_be_bytes([0, word[1], word[2], word[3]])
}

/// What a command word asks for, but its name.
pub fn asks(word: &[u8; 8]) -> String {
    let address = address_of(word);
    if is_tic(word[0]) {
        return format!("to {address:06X}");
    }
    let count = u16::from_be_bytes([word[6], word[7]]);
    let mut text = format!("{} at {address:06X}", counted(count.into(), "byte"));
    for (flag, means) in [(0x40, "chained"), (0x20, "any length")] {
        if word[4] & flag != 0 {
            text += ", ";
            text += means;
        }
    }
    if word[4] & !0x60 != 0 {
        text += &format!(", flags {:02X}", word[4]);
    }
    text
}

/// The unit's byte and the channel's byte of a status word.
pub fn ended_by(unit: u8, channel: u8) -> String {
    let unit = match unit {
        0x0C => "normal end".to_string(),
        0x4C => "search satisfied".to_string(),
        0x0E => "Unit Check".to_string(),
        0x0D => "Unit Exception".to_string(),
        0x00 => String::new(),
        other => format!("unit status {other:02X}"),
    };
    let channel = match channel {
        0x00 => String::new(),
        0x20 => "program check".to_string(),
        0x40 => "incorrect length".to_string(),
        other => format!("channel status {other:02X}"),
    };
    [unit, channel].into_iter().filter(|text| !text.is_empty()).collect::<Vec<_>>().join(", ")
}

/// The Unit Check rows of document 01, by their sense bytes 0 and 1.
pub fn cause(sense: [u8; 2]) -> Option<&'static str> {
    Some(match sense {
        [0x80, 0x00] => "unknown code, or bad mask byte",
        [0x80, 0x10] => "second mask, or wrong command before",
        [0x00, 0x04] => "seek barred by the file mask",
        [0x80, 0x04] => "write barred by the file mask",
        [0x81, 0x00] => "seek address bad or short",
        [0x08, 0x00] => "unreadable home address, key or data",
        [0x08, 0x80] => "unreadable count",
        [0x00, 0x40] => "no room on the track",
        [0x00, 0x02] => "no marker on the track",
        [0x00, 0x08] => "second index point passed",
        _ => return None,
    })
}

/// Sense bytes 0 and 1 with their cause.
pub fn sense(sense: [u8; 2]) -> String {
    let bytes = format!("{:02X} {:02X}", sense[0], sense[1]);
    match cause(sense) {
        Some(cause) => format!("{bytes} ({cause})"),
        None => bytes,
    }
}

/// What an answer of the box says, in document 01's words.
pub fn answer(answer: Answer) -> &'static str {
    match answer {
        Answer::Ended => "the chain ended",
        Answer::NotEnded => "the chain is held: the allowance was used before it ended",
        Answer::BadStorage => "storage under 80 or over 16,777,216 bytes",
        Answer::BadPack => "cylinders, heads or cell count wrong",
        Answer::BadHeld => {
            "held state wrong; expected the 64 bytes of a held state, with the pack and the storage that a run wrote with it"
        }
        Answer::NotStarted => {
            "not started: bad address word at 72, or its first command word is bad or a TIC; bytes 68 and 69 of storage became 00 20"
        }
        Answer::NoChain => "no chain is going: there is nothing to resume",
        Answer::ChainGoing => "a chain is going already",
        Answer::Other(_) => "no answer of document 01",
    }
}

/// 'n things'.
pub fn counted(number: usize, thing: &str) -> String {
    let s = if number == 1 { "" } else { "s" };
    format!("{number} {thing}{s}")
}

pub fn hex(bytes: &[u8]) -> String {
    bytes.iter().map(|byte| format!("{byte:02X}")).collect::<Vec<_>>().join(" ")
}
