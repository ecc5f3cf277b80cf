//! Writes messages and elements, right ones and damaged ones, and fields of
//! saved forms.

use crate::decode::{Pair, BEARER, CALLED, CONNECTION, QOS, TRAFFIC};

/// The flag beside a reference.
pub const FLAG: u32 = 0x80_0000;

/// The header, with a flagged reference and a length field.
pub fn header(reference: u32, kind: u8, length: usize) -> Vec<u8> {
    let [_, a, b, c] = reference.to_be_bytes();
    let [.., high, low] = length.to_be_bytes();
    vec![0x09, 0x03, a, b, c, kind, 0x80, high, low]
}

/// A message whose length field is right.
pub fn message(reference: u32, kind: u8, parts: &[&[u8]]) -> Vec<u8> {
    let body = parts.concat();
    let mut octets = header(reference, kind, body.len());
    octets.extend(body);
    octets
}

/// An element whose length may lie.
pub fn raw(id: u8, octet2: u8, length: usize, contents: &[u8]) -> Vec<u8> {
    let [.., high, low] = length.to_be_bytes();
    [&[id, octet2, high, low], contents].concat()
}

/// An element with octet 2 80 and the right length.
pub fn element(id: u8, contents: &[u8]) -> Vec<u8> {
    raw(id, 0x80, contents.len(), contents)
}

/// A field of a saved form whose length may lie.
pub fn raw_field(tag: u8, length: usize, contents: &[u8]) -> Vec<u8> {
    let [.., high, low] = length.to_be_bytes();
    [&[tag, high, low], contents].concat()
}

/// A field of a saved form.
pub fn field(tag: u8, contents: &[u8]) -> Vec<u8> {
    raw_field(tag, contents.len(), contents)
}

/// A connection identifier.
pub fn connection(pair: Pair) -> Vec<u8> {
    let [a, b, c, d] = pair_octets(pair);
    element(CONNECTION, &[0x88, a, b, c, d])
}

/// VPCI and VCI.
pub fn pair_octets(pair: Pair) -> [u8; 4] {
    let ([a, b], [c, d]) = (pair.vpci.to_be_bytes(), pair.vci.to_be_bytes());
    [a, b, c, d]
}

/// The elements of the paper's P1.
pub fn p1_traffic() -> Vec<u8> {
    element(TRAFFIC, &[0x84, 0x00, 0x10, 0x00, 0x85, 0x00, 0x10, 0x00])
}

pub fn p1_qos() -> Vec<u8> {
    element(QOS, &[0x00, 0x00])
}

pub fn p1_bearer() -> Vec<u8> {
    element(BEARER, &[0x81, 0x80])
}

pub fn p1_called() -> Vec<u8> {
    element(CALLED, b"\x915551234")
}

pub fn p1_elements() -> [Vec<u8>; 4] {
    [p1_traffic(), p1_qos(), p1_bearer(), p1_called()]
}

/// The octets in hex, `-` for none.
pub fn hex(octets: &[u8]) -> String {
    const DIGITS: &[u8; 16] = b"0123456789abcdef";
    if octets.is_empty() {
        return "-".to_string();
    }
    let digit = |value: u8| char::from(DIGITS[usize::from(value)]);
    let both = |octet: &u8| [digit(octet >> 4), digit(octet & 15)];
    octets.iter().flat_map(both).collect()
}
