//! A capture as a script.

use super::{usual, Packet, Wire};
use crate::compose::hex;
use crate::exchange::{read_event, Event, Line};

/// The events, each on a line; what we sent is a comment.
pub fn script(wire: &Wire) -> String {
    let mut text = String::new();
    for packet in &wire.packets {
        text += &lines(packet);
    }
    for line in wire.behind.iter().filter(|line| event(line).is_some()) {
        text += &format!("{line}\n");
    }
    text
}

fn event(line: &str) -> Option<Event> {
    match read_event(line.as_bytes()) {
        Line::Event(event) => Some(event),
        _ => None,
    }
}

/// The events that a packet's comments hold, and the message.
fn lines(packet: &Packet) -> String {
    let mut text = String::new();
    let mut is_said = false;
    for line in &packet.comments {
        let Some(event) = event(line) else { continue };
        is_said = is_said || matches!(event, Event::Message(..));
        text += &format!("{line}\n");
    }
    if !packet.from_user {
        text += &format!("# out {}\n", hex(&packet.octets));
    } else if !is_said {
        text += &format!("{}\n", usual(packet.time, &packet.octets));
    }
    text
}
