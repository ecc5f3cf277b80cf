//! Messages, events and answers in a few words.

use super::{on_wire, Said};
use crate::controller::Wanted;
use crate::decode::{decode, receive, Outcome, Part};
use crate::exchange::Event;
use crate::types;

/// A message: its type, FLAG/VALUE, and what it says of a pair, a state or a
/// cause.
pub fn message(octets: &[u8]) -> String {
    let Outcome::Decoded(read) = decode(octets) else {
        return format!("{} octets, no message of ours", octets.len());
    };
    let flag = u8::from(read.flag);
    let mut text = format!("{} {flag}/{}", kind(read.kind), read.reference);
    if let Part::Readable(pair) = &read.connection {
        text += &format!(", pair {}/{}", pair.vpci, pair.vci);
    }
    if let Part::Readable(state) = &read.call_state {
        text += &format!(", state {state}");
    }
    if let Part::Readable(cause) = &read.cause {
        text += &format!(", cause {cause}");
    }
    text
}

/// Type, flag, reference and cause, for comparing with another decoder:
/// `SETUP 0 1 -`. Nothing where the octets are no message.
pub fn summary(octets: &[u8]) -> Option<String> {
    let received = receive(octets).ok()?;
    let cause = match decode(octets) {
        Outcome::Decoded(read) => match read.cause {
            Part::Readable(cause) => cause.to_string(),
            _ => "-".to_string(),
        },
        Outcome::Ignored(_) => return None,
    };
    let flag = u8::from(received.flag);
    let name = kind(received.kind);
    Some(format!("{name} {flag} {} {cause}", received.reference))
}

fn kind(kind: u8) -> String {
    match types::name(kind) {
        "unknown" => format!("type {kind:02X}"),
        name => name.replace('-', " "),
    }
}

/// What the host asks for; nothing where the event is a message.
pub fn request(event: &Event) -> Option<String> {
    Some(match event {
        Event::Message(..) => return None,
        Event::Connect(_, slot) => format!("connect slot {slot}"),
        Event::Clear(_, slot, cause) => format!("clear slot {slot}, cause {cause}"),
        Event::Restart(_, Wanted::One { vpci, vci }) => format!("restart pair {vpci}/{vci}"),
        Event::Restart(_, Wanted::All) => "restart all".to_string(),
        Event::PutBack(_) => "put back".to_string(),
        event => event.word().to_string(),
    })
}

/// What the host hears.
pub fn told(event: &Event, answer: &Said) -> Vec<String> {
    match answer {
        Said::Else(text) => vec![text.clone()],
        Said::Answer {
            refusal: number,
            reply,
            notice,
            flags,
            more,
        } => {
            let is_form = !on_wire(event) && !reply.is_empty();
            let parts = [
                (*number != 0).then(|| refusal(*number)),
                is_form.then(|| format!("saved: {} octets", reply.len())),
                noticed(*notice).map(|words| format!("{words}: slot {flags}")),
                more.then(|| "another timer is due".to_string()),
            ];
            parts.into_iter().flatten().collect()
        }
    }
}

fn noticed(notice: u8) -> Option<&'static str> {
    match notice {
        1 => Some("call asked"),
        2 => Some("call answered"),
        3 => Some("calls gone"),
        _ => None,
    }
}

/// A refusal with its number.
pub fn refusal(number: u8) -> String {
    let why = match number {
        1 => "room too small",
        2 => "clock label not 1",
        3 => "reading too large",
        4 => "reading went back",
        5 => "message length",
        6 => "slot over 31 or empty",
        7 => "wrong state",
        8 => "cause not the host's",
        9 => "a rule is broken",
        10 => "offer body",
        11 => "no empty slot",
        12 => "no permitted pair free",
        13 => "RESTART under way, or pair not permitted",
        _ => "unknown number",
    };
    format!("refused {number}: {why}")
}
