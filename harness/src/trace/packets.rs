//! Reads a capture of messages: pcapng or pcap, of link type upper PDU with
//! Q.2931 (`capture` writes it) or of one of the sixteen user types, whose
//! packets are messages from their first octet on.

use super::capture::{COMMENT, DIRECTION, DISSECTOR, FLAGS, Q2931, RESOLUTION, UPPER_PDU};
use super::{Packet, Wire};

const USER_TYPES: std::ops::RangeInclusive<u16> = 147..=162;

const CUT: &str = "the capture is cut";

/// Numbers of a file in its order of octets.
#[derive(Clone, Copy)]
struct Order {
    is_little: bool,
}

impl Order {
    fn short(self, octets: &[u8], at: usize) -> Result<u16, String> {
        let two = octets.get(at..at + 2).ok_or(CUT)?;
        let two = [two[0], two[1]];
        Ok(if self.is_little {
            u16::from_le_bytes(two)
        } else {
            u16::from_be_bytes(two)
        })
    }

    fn long(self, octets: &[u8], at: usize) -> Result<u32, String> {
        let (first, second) = (self.short(octets, at)?, self.short(octets, at + 2)?);
        let (high, low) = if self.is_little {
            (second, first)
        } else {
            (first, second)
        };
        Ok(u32::from(high) << 16 | u32::from(low))
    }
}

/// An interface: its link type, and how many of its ticks are a second.
struct Link {
    kind: u16,
    ticks: u64,
}

/// Reads a file of either kind.
pub fn read(file: &[u8]) -> Result<Wire, String> {
    match file.get(..4) {
        Some([0x0a, 0x0d, 0x0d, 0x0a]) => read_blocks(file),
        Some([0xd4, 0xc3, 0xb2, 0xa1]) => read_records(file, true, 1_000_000),
        Some([0xa1, 0xb2, 0xc3, 0xd4]) => read_records(file, false, 1_000_000),
        Some([0x4d, 0x3c, 0xb2, 0xa1]) => read_records(file, true, 1_000_000_000),
        Some([0xa1, 0xb2, 0x3c, 0x4d]) => read_records(file, false, 1_000_000_000),
        _ => Err("neither pcapng nor pcap".to_string()),
    }
}

/// pcapng: blocks, each with its length.
fn read_blocks(file: &[u8]) -> Result<Wire, String> {
    let mut order = Order { is_little: true };
    let (mut links, mut wire) = (Vec::new(), Wire::default());
    let mut rest = file;
    while !rest.is_empty() {
        let is_section = rest.starts_with(&[0x0a, 0x0d, 0x0d, 0x0a]);
        if is_section {
            order.is_little = rest.get(8) == Some(&0x4d);
            links.clear();
        }
        let length = order.long(rest, 4)? as usize;
        let body = rest.get(8..length.saturating_sub(4)).ok_or(CUT)?;
        match order.long(rest, 0)? {
            1 => links.push(link(order, body)?),
            6 => wire.packets.extend(enhanced(order, body, &links)?),
            5 => wire
                .behind
                .extend(options(order, body.get(12..).ok_or(CUT)?)?.comments),
            _ => {}
        }
        rest = rest.get(length..).ok_or(CUT)?;
    }
    Ok(wire)
}

fn link(order: Order, body: &[u8]) -> Result<Link, String> {
    let found = options(order, body.get(8..).ok_or(CUT)?)?;
    let ticks = match found.resolution {
        None => Some(1_000_000),
        Some(power) if power < 128 => 10_u64.checked_pow(u32::from(power)),
        Some(power) => 1_u64.checked_shl(u32::from(power - 128)),
    };
    Ok(Link {
        kind: order.short(body, 0)?,
        ticks: ticks.ok_or("a resolution of times that is not read")?,
    })
}

fn enhanced(order: Order, body: &[u8], links: &[Link]) -> Result<Option<Packet>, String> {
    let link = links.get(order.long(body, 0)? as usize).ok_or(CUT)?;
    let ticks = u64::from(order.long(body, 4)?) << 32 | u64::from(order.long(body, 8)?);
    let length = order.long(body, 12)?;
    whole(length, order.long(body, 16)?)?;
    let length = length as usize;
    let octets = body.get(20..20 + length).ok_or(CUT)?;
    let behind = 20 + length.next_multiple_of(4);
    let found = options(order, body.get(behind..).unwrap_or_default())?;
    let from_user = match found.flags.map(|flags| flags & 3) {
        Some(1) => Some(true),
        Some(2) => Some(false),
        _ => None,
    };
    let time = milliseconds(ticks, link.ticks);
    let mut packet = payload(link.kind, octets, time, from_user)?;
    if let Some(packet) = &mut packet {
        packet.comments = found.comments;
    }
    Ok(packet)
}

/// What is used of a block's options.
#[derive(Default)]
struct Options {
    comments: Vec<String>,
    flags: Option<u32>,
    resolution: Option<u8>,
}

fn options(order: Order, octets: &[u8]) -> Result<Options, String> {
    let mut found = Options::default();
    let mut rest = octets;
    while rest.len() >= 4 {
        let (code, length) = (order.short(rest, 0)?, order.short(rest, 2)?);
        let length = usize::from(length);
        let value = rest.get(4..4 + length).ok_or(CUT)?;
        match code {
            0 => break,
            COMMENT => found
                .comments
                .push(String::from_utf8_lossy(value).into_owned()),
            FLAGS if length == 4 => found.flags = Some(order.long(value, 0)?),
            RESOLUTION => found.resolution = value.first().copied(),
            _ => {}
        }
        rest = rest
            .get(4 + length.next_multiple_of(4)..)
            .unwrap_or_default();
    }
    Ok(found)
}

/// pcap: a header, then records of time, two lengths and octets.
fn read_records(file: &[u8], is_little: bool, ticks: u64) -> Result<Wire, String> {
    let order = Order { is_little };
    let kind = order.short(file, if is_little { 20 } else { 22 })?;
    let mut wire = Wire::default();
    let mut rest = file.get(24..).ok_or(CUT)?;
    while !rest.is_empty() {
        let seconds = u64::from(order.long(rest, 0)?);
        let part = u64::from(order.long(rest, 4)?);
        let length = order.long(rest, 8)?;
        whole(length, order.long(rest, 12)?)?;
        let end = 16 + length as usize;
        let octets = rest.get(16..end).ok_or(CUT)?;
        let time = seconds * 1_000 + part / (ticks / 1_000);
        wire.packets.extend(payload(kind, octets, time, None)?);
        rest = &rest[end..];
    }
    Ok(wire)
}

/// A packet was captured to its end.
fn whole(captured: u32, length: u32) -> Result<(), String> {
    if captured == length {
        return Ok(());
    }
    Err(format!("a packet of {length} octets is cut to {captured}"))
}

fn milliseconds(ticks: u64, in_a_second: u64) -> u64 {
    let all = u128::from(ticks) * 1_000 / u128::from(in_a_second);
    u64::try_from(all).unwrap_or(u64::MAX)
}

/// The message of a packet; none where it is of another protocol. Where
/// nothing says its direction it is the user's.
fn payload(
    kind: u16,
    octets: &[u8],
    time: u64,
    from_user: Option<bool>,
) -> Result<Option<Packet>, String> {
    let found = match kind {
        UPPER_PDU => untag(octets)?,
        kind if USER_TYPES.contains(&kind) => Some(Untagged {
            octets,
            from_user: None,
        }),
        kind => return Err(format!("link type {kind} is not read")),
    };
    Ok(found.map(|found| Packet {
        time,
        from_user: from_user.or(found.from_user).unwrap_or(true),
        octets: found.octets.to_vec(),
        comments: Vec::new(),
    }))
}

/// What stands behind the tags of an upper PDU, and the direction if a tag
/// says it.
struct Untagged<'a> {
    octets: &'a [u8],
    from_user: Option<bool>,
}

/// None where the tags name another protocol than Q.2931.
fn untag(octets: &[u8]) -> Result<Option<Untagged<'_>>, String> {
    let order = Order { is_little: false };
    let (mut is_ours, mut from_user) = (false, None);
    let mut octets = octets;
    loop {
        let (code, length) = (order.short(octets, 0)?, order.short(octets, 2)?);
        let end = 4 + usize::from(length);
        let value = octets.get(4..end).ok_or(CUT)?;
        octets = &octets[end..];
        match code {
            0 => return Ok(is_ours.then_some(Untagged { octets, from_user })),
            DISSECTOR => is_ours = Q2931.starts_with(value) && value.starts_with(&Q2931[..5]),
            DIRECTION if value.len() == 4 => from_user = Some(value[3] == 1),
            _ => {}
        }
    }
}
