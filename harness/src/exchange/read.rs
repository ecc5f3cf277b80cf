//! Reads one event.

use super::{LINE_LIMIT, ROOM_LIMIT};
use crate::controller::{Request, Wanted};
use crate::line::octets;

/// The longest list of numbers in a start, and the longest octets.
const LIST_LIMIT: u64 = 64;
const OCTETS_LIMIT: usize = 4_096;

/// What a line holds, without its line end.
#[derive(Clone, Debug, PartialEq, Eq)]
pub enum Line {
    Skipped,
    Bad,
    Event(Event),
    /// A message and a record, of which one is shown; no table is asked.
    Shown(Vec<u8>, Vec<u8>),
}

#[derive(Clone, Debug, PartialEq, Eq)]
pub enum Event {
    Start {
        ranges: Vec<u16>,
        pairs: Vec<u16>,
    },
    Message(Request, Vec<u8>),
    Tick(Request),
    Connect(Request, u64),
    Clear(Request, u64, u64),
    Offer(Request, Vec<u8>),
    Restart(Request, Wanted),
    PutBack(Request),
    /// With the length of the room.
    Save(usize),
    Reload(Vec<u8>),
}

impl Event {
    /// The word that begins its line.
    pub fn word(&self) -> &'static str {
        match self {
            Event::Start { .. } => "start",
            Event::Message(..) => "message",
            Event::Tick(_) => "tick",
            Event::Connect(..) => "connect",
            Event::Clear(..) => "clear",
            Event::Offer(..) => "offer",
            Event::Restart(..) => "restart",
            Event::PutBack(_) => "putback",
            Event::Save(_) => "save",
            Event::Reload(_) => "reload",
        }
    }

    /// What every event but start, save and reload carries.
    pub fn request(&self) -> Option<&Request> {
        match self {
            Event::Start { .. } | Event::Save(_) | Event::Reload(_) => None,
            Event::Message(request, _)
            | Event::Tick(request)
            | Event::Connect(request, _)
            | Event::Clear(request, _, _)
            | Event::Offer(request, _)
            | Event::Restart(request, _)
            | Event::PutBack(request) => Some(request),
        }
    }
}

/// Reads a line: empty or a comment, else an event.
pub fn read_event(line: &[u8]) -> Line {
    match line {
        [] | [b'#', ..] => Line::Skipped,
        _ if line.len() > LINE_LIMIT => Line::Bad,
        _ => shown(line)
            .or_else(|| event(line).map(Line::Event))
            .unwrap_or(Line::Bad),
    }
}

fn shown(line: &[u8]) -> Option<Line> {
    let words: Vec<&[u8]> = line.split(|&octet| octet == b' ').collect();
    let [b"shown", message, record] = *words.as_slice() else {
        return None;
    };
    Some(Line::Shown(read_octets(message)?, read_octets(record)?))
}

fn event(line: &[u8]) -> Option<Event> {
    let words: Vec<&[u8]> = line.split(|&octet| octet == b' ').collect();
    match *words.as_slice() {
        [b"start", ref lists @ ..] => start(lists),
        [b"message", label, reading, room, octets] => Some(Event::Message(
            request(label, reading, room)?,
            read_octets(octets)?,
        )),
        [b"tick", label, reading, room] => Some(Event::Tick(request(label, reading, room)?)),
        [b"connect", label, reading, room, slot] => Some(Event::Connect(
            request(label, reading, room)?,
            number(slot)?,
        )),
        [b"clear", label, reading, room, slot, cause] => Some(Event::Clear(
            request(label, reading, room)?,
            number(slot)?,
            number(cause)?,
        )),
        [b"offer", label, reading, room, octets] => Some(Event::Offer(
            request(label, reading, room)?,
            read_octets(octets)?,
        )),
        [b"restart", label, reading, room, ref pairs @ ..] => Some(Event::Restart(
            request(label, reading, room)?,
            wanted(pairs)?,
        )),
        [b"putback", label, reading, room] => Some(Event::PutBack(request(label, reading, room)?)),
        [b"save", length] => Some(Event::Save(room(length)?)),
        [b"reload", octets] => Some(Event::Reload(read_octets(octets)?)),
        _ => None,
    }
}

fn start(words: &[&[u8]]) -> Option<Event> {
    let (ranges, words) = list(words)?;
    let (pairs, words) = list(words)?;
    words.is_empty().then_some(Event::Start { ranges, pairs })
}

/// A count and as many numbers of 16 bits, and the words behind them.
fn list<'a, 'b>(words: &'a [&'b [u8]]) -> Option<(Vec<u16>, &'a [&'b [u8]])> {
    let (count, words) = words.split_first()?;
    let count = number(count).filter(|&count| count <= LIST_LIMIT)?;
    let (numbers, words) = words.split_at_checked(count as usize)?;
    let short = |word: &&[u8]| u16::try_from(number(word)?).ok();
    let numbers: Option<Vec<u16>> = numbers.iter().map(short).collect();
    Some((numbers?, words))
}

/// `all`, or `one` with VPCI and VCI.
fn wanted(words: &[&[u8]]) -> Option<Wanted> {
    match *words {
        [b"all"] => Some(Wanted::All),
        [b"one", vpci, vci] => Some(Wanted::One {
            vpci: number(vpci)?,
            vci: number(vci)?,
        }),
        _ => None,
    }
}

fn request(label: &[u8], reading: &[u8], length: &[u8]) -> Option<Request> {
    Some(Request {
        label: number(label)?,
        reading: number(reading)?,
        room: room(length)?,
    })
}

/// The length of the room that is lent.
fn room(word: &[u8]) -> Option<usize> {
    Some(number(word)?.min(ROOM_LIMIT) as usize)
}

/// A decimal number of 64 bits; leading zeros are read.
fn number(word: &[u8]) -> Option<u64> {
    if word.is_empty() {
        return None;
    }
    word.iter().try_fold(0u64, |value, octet| {
        let digit = char::from(*octet).to_digit(10)?;
        value.checked_mul(10)?.checked_add(u64::from(digit))
    })
}

/// Octets in hex, `-` for none.
fn read_octets(word: &[u8]) -> Option<Vec<u8>> {
    match word {
        b"" => None,
        b"-" => Some(Vec::new()),
        _ if word.len() > 2 * OCTETS_LIMIT => None,
        _ => octets(word),
    }
}
