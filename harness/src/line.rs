//! One line of a table of messages.

use crate::decode::decode;

/// What a line holds, without its line end.
#[derive(Clone, Debug, PartialEq, Eq)]
pub enum Line {
    Skipped,
    Bad,
    Message(Vec<u8>),
}

/// Reads a line: empty or a comment, `-` for no octets, else hex digits.
pub fn read_line(line: &[u8]) -> Line {
    match line {
        [] | [b'#', ..] => Line::Skipped,
        [b'-'] => Line::Message(Vec::new()),
        _ => octets(line).map_or(Line::Bad, Line::Message),
    }
}

/// The octets of an even number of hex digits.
pub fn octets(digits: &[u8]) -> Option<Vec<u8>> {
    let octet = |two: &[u8]| match *two {
        [high, low] => Some(digit(high)? * 16 + digit(low)?),
        _ => None,
    };
    digits.chunks(2).map(octet).collect()
}

fn digit(character: u8) -> Option<u8> {
    let value = char::from(character).to_digit(16)?;
    u8::try_from(value).ok()
}

/// The answer to a line, or None where it is skipped.
pub fn answer(line: &[u8]) -> Option<String> {
    match read_line(line) {
        Line::Skipped => None,
        Line::Bad => Some("bad line".to_string()),
        Line::Message(octets) => Some(decode(&octets).to_string()),
    }
}
