//! A trace as a capture: pcapng, with a packet for each message.
//!
//! The link type is Wireshark's "upper PDU": tags before the octets name the
//! dissector, so that the file opens with no preference set. Times count in
//! milliseconds; the direction stands in the packet's flags and in a tag.

use super::{Packet, Wire};

const SECTION: u32 = 0x0a0d_0d0a;
const INTERFACE: u32 = 1;
const STATISTICS: u32 = 5;
const PACKET: u32 = 6;

pub(super) const UPPER_PDU: u16 = 252;

/// Options of blocks.
pub(super) const COMMENT: u16 = 1;
pub(super) const FLAGS: u16 = 2;
pub(super) const RESOLUTION: u16 = 9;
const NAME: u16 = 2;

/// Tags before the octets of an upper PDU.
pub(super) const DISSECTOR: u16 = 12;
pub(super) const DIRECTION: u16 = 35;

pub(super) const Q2931: &[u8; 8] = b"q2931\0\0\0";

/// The whole file.
pub fn write(wire: &Wire) -> Vec<u8> {
    let mut file = section();
    file.extend(interface());
    for packet in &wire.packets {
        file.extend(enhanced(packet));
    }
    if !wire.behind.is_empty() {
        file.extend(statistics(&wire.behind));
    }
    file
}

/// A block with its length before and behind its body.
fn block(kind: u32, body: &[u8]) -> Vec<u8> {
    let length = (body.len() as u32 + 12).to_le_bytes();
    [&kind.to_le_bytes()[..], &length, body, &length].concat()
}

fn option(code: u16, value: &[u8]) -> Vec<u8> {
    let length = value.len() as u16;
    let head = [code.to_le_bytes(), length.to_le_bytes()].concat();
    [head, padded(value)].concat()
}

/// Filled up to a multiple of four octets.
fn padded(octets: &[u8]) -> Vec<u8> {
    let mut all = octets.to_vec();
    all.resize(octets.len().next_multiple_of(4), 0);
    all
}

fn comments(lines: &[String]) -> Vec<u8> {
    let one = |line: &String| option(COMMENT, line.as_bytes());
    lines.iter().flat_map(one).collect()
}

fn section() -> Vec<u8> {
    let magic = 0x1a2b_3c4d_u32.to_le_bytes();
    let version = [1, 0, 0, 0];
    let unknown_length = [0xff; 8];
    block(SECTION, &[&magic[..], &version, &unknown_length].concat())
}

fn interface() -> Vec<u8> {
    let link = u32::from(UPPER_PDU).to_le_bytes();
    let no_limit = [0; 4];
    let milliseconds = [3];
    let parts = [
        [link, no_limit].concat(),
        option(NAME, b"UNI"),
        option(RESOLUTION, &milliseconds),
        option(0, &[]),
    ];
    block(INTERFACE, &parts.concat())
}

fn enhanced(packet: &Packet) -> Vec<u8> {
    let octets = [tags(packet.from_user), packet.octets.clone()].concat();
    let (high, low) = ((packet.time >> 32) as u32, packet.time as u32);
    let length = octets.len() as u32;
    let head = [0, high, low, length, length].map(u32::to_le_bytes);
    let flags = if packet.from_user { 1_u32 } else { 2 };
    let parts = [
        head.concat(),
        padded(&octets),
        option(FLAGS, &flags.to_le_bytes()),
        comments(&packet.comments),
        option(0, &[]),
    ];
    block(PACKET, &parts.concat())
}

/// The dissector by name, and the direction: 0 sent, 1 received.
fn tags(from_user: bool) -> Vec<u8> {
    let tag = |code: u16, value: &[u8]| {
        let length = value.len() as u16;
        [&code.to_be_bytes()[..], &length.to_be_bytes(), value].concat()
    };
    let direction = u32::from(from_user).to_be_bytes();
    [
        tag(DISSECTOR, Q2931),
        tag(DIRECTION, &direction),
        tag(0, &[]),
    ]
    .concat()
}

/// A last block, which carries the events behind the last packet.
fn statistics(behind: &[String]) -> Vec<u8> {
    let interface_and_time = vec![0; 12];
    let parts = [interface_and_time, comments(behind), option(0, &[])];
    block(STATISTICS, &parts.concat())
}
