//! The notation for octets in a case.
//!
//! `TYPE FLAG/VALUE [ELEMENTS]` is a message; TYPE is a name or `type=85`.
//! Behind FLAG/VALUE may stand `length=N`, another length field, and
//! `octet7=00`. An element is one of
//!
//! ```text
//! 59                 with 5C, 5E and 70: the element of the paper's P1
//! 08(80 90)          octet 2 80, the right length, these contents
//! 5C/E0(00 00)       another octet 2
//! 5C=3(00 00)        another content length
//! 42(00*470)         an octet many times
//! "42 80 00"         octets as they stand
//! ```
//!
//! `shown TYPE FLAG/VALUE [ELEMENTS] RECORD` has a message before its record.
//!
//! `reload [FIELDS]` is a saved form. A field is `03(00*8)`, a tag with its
//! contents, or `03=7(00*8)` with another length, or octets as they stand.

use crate::compose::{header, hex, p1_elements, raw, raw_field, FLAG};
use crate::line::octets;
use crate::types::KNOWN;

/// What composes an element or a field from the words before its contents, its
/// length and its contents.
type Compose = fn(&str, usize, &[u8]) -> Result<Vec<u8>, String>;

/// An event line with its octets in hex.
pub fn expand(text: &str) -> Result<String, String> {
    let Some((head, parts)) = text.split_once('[') else {
        return Ok(text.to_string());
    };
    if let Some(head) = head.strip_prefix("shown ") {
        return shown(head, parts);
    }
    let parts = parts.strip_suffix(']').ok_or("no ] at the end")?;
    let words: Vec<&str> = head.split_whitespace().collect();
    let (front, octets) = match words.as_slice() {
        ["offer", _, _, _] => (4, read_parts(parts, element)?),
        ["message", _, _, _, kind, reference, options @ ..] => {
            let body = read_parts(parts, element)?;
            (4, message(kind, reference, options, &body)?)
        }
        ["reload"] => (1, read_parts(parts, field)?),
        _ => return Err(format!("octets in an event that has none: {head}")),
    };
    Ok(format!("{} {}", words[..front].join(" "), hex(&octets)))
}

/// A message before its record, from the words on both sides of `[`.
fn shown(head: &str, parts: &str) -> Result<String, String> {
    let words: Vec<&str> = head.split_whitespace().collect();
    let (parts, record) = parts.rsplit_once("] ").ok_or("no record behind ]")?;
    let [kind, reference, options @ ..] = words.as_slice() else {
        return Err(format!("no message: {head}"));
    };
    let octets = message(kind, reference, options, &read_parts(parts, element)?)?;
    Ok(format!("shown {} {record}", hex(&octets)))
}

fn element(head: &str, length: usize, contents: &[u8]) -> Result<Vec<u8>, String> {
    let (id, octet2) = head.split_once('/').unwrap_or((head, "80"));
    Ok(raw(octet(id)?, octet(octet2)?, length, contents))
}

fn field(tag: &str, length: usize, contents: &[u8]) -> Result<Vec<u8>, String> {
    Ok(raw_field(octet(tag)?, length, contents))
}

fn message(kind: &str, reference: &str, options: &[&str], body: &[u8]) -> Result<Vec<u8>, String> {
    let (mut length, mut octet7) = (body.len(), 0x80);
    for option in options {
        match option.split_once('=') {
            Some(("length", number)) => length = decimal(number)?,
            Some(("octet7", word)) => octet7 = octet(word)?,
            _ => return Err(format!("unknown option {option}")),
        }
    }
    let mut octets = header(read_reference(reference)?, read_type(kind)?, length);
    octets[6] = octet7;
    octets.extend(body);
    Ok(octets)
}

fn read_type(word: &str) -> Result<u8, String> {
    if let Some(number) = word.strip_prefix("type=") {
        return octet(number);
    }
    let known = KNOWN.iter().find(|known| known.1 == word);
    known
        .map(|known| known.0)
        .ok_or(format!("unknown type {word}"))
}

/// FLAG/VALUE.
fn read_reference(word: &str) -> Result<u32, String> {
    let (flag, value) = word.split_once('/').ok_or("no / in a reference")?;
    let value = decimal(value)? as u32;
    match flag {
        "0" => Ok(value),
        "1" => Ok(FLAG + value),
        _ => Err(format!("no flag: {flag}")),
    }
}

fn read_parts(text: &str, compose: Compose) -> Result<Vec<u8>, String> {
    let mut body = Vec::new();
    let mut rest = text.trim_start();
    while !rest.is_empty() {
        let (part, behind) = read_part(rest, compose)?;
        body.extend(part);
        rest = behind.trim_start();
    }
    Ok(body)
}

/// The first element or field of a text, and the text behind it.
fn read_part(text: &str, compose: Compose) -> Result<(Vec<u8>, &str), String> {
    if let Some(text) = text.strip_prefix('"') {
        let (inner, behind) = text.split_once('"').ok_or("no closing quotation mark")?;
        return Ok((contents(inner)?, behind));
    }
    let end = text.find([' ', '(']).unwrap_or(text.len());
    let (head, behind) = text.split_at(end);
    let Some(behind) = behind.strip_prefix('(') else {
        return Ok((usual(head)?, behind));
    };
    let (inner, behind) = behind.split_once(')').ok_or("no closing parenthesis")?;
    let contents = contents(inner)?;
    let (head, length) = match head.split_once('=') {
        Some((head, length)) => (head, decimal(length)?),
        None => (head, contents.len()),
    };
    Ok((compose(head, length, &contents)?, behind))
}

/// The element of P1 with this identifier.
fn usual(word: &str) -> Result<Vec<u8>, String> {
    let id = octet(word)?;
    let mut elements = p1_elements().into_iter();
    let element = elements.find(|element| element[0] == id);
    element.ok_or(format!("{word} is not in P1"))
}

/// Octets in hex with blanks; `00*5` is an octet five times.
fn contents(text: &str) -> Result<Vec<u8>, String> {
    let mut all = Vec::new();
    for word in text.split_whitespace() {
        match word.split_once('*') {
            Some((one, times)) => all.extend(vec![octet(one)?; decimal(times)?]),
            None => all.extend(octets(word.as_bytes()).ok_or(format!("no octets: {word}"))?),
        }
    }
    Ok(all)
}

fn octet(word: &str) -> Result<u8, String> {
    match octets(word.as_bytes()).as_deref() {
        Some(&[octet]) => Ok(octet),
        _ => Err(format!("no octet: {word}")),
    }
}

fn decimal(word: &str) -> Result<usize, String> {
    word.parse().map_err(|_| format!("no number: {word}"))
}
