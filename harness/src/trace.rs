//! A script with its answers as a trace: who said what to whom, and when.
//!
//! `capture` writes it for Wireshark, `ladder` draws it, and `packets` reads a
//! capture, which `replay` turns into a script.

pub mod capture;
pub mod ladder;
pub mod packets;
pub mod replay;
mod words;

use crate::compose::hex;
use crate::exchange::{read_event, Event, Line};
use crate::line::octets;
pub use words::{message, summary};

/// An event line and the line that answers it.
#[derive(Clone, Debug, PartialEq, Eq)]
pub struct Step {
    pub line: String,
    pub event: Event,
    /// The reading, or that of the step before where the event has none.
    pub time: u64,
    pub answer: Said,
}

/// What an answer line says.
#[derive(Clone, Debug, PartialEq, Eq)]
pub enum Said {
    Answer {
        refusal: u8,
        reply: Vec<u8>,
        notice: u8,
        flags: String,
        more: bool,
    },
    /// `no table` and the like.
    Else(String),
}

/// Puts the answers beside the events of a script. Bad lines, which are no
/// events, and lines for people are left out.
pub fn steps(script: &str, answers: &str) -> Result<Vec<Step>, String> {
    let is_said = |line: &&str| !line.is_empty() && !line.starts_with('#');
    let events: Vec<&str> = script.split('\n').filter(is_said).collect();
    let answers: Vec<&str> = answers.lines().filter(is_said).collect();
    if events.len() != answers.len() {
        return Err(format!(
            "{} events and {} answers",
            events.len(),
            answers.len()
        ));
    }
    let mut steps = Vec::new();
    let mut time = 0;
    for (line, answer) in events.iter().zip(answers) {
        let Line::Event(event) = read_event(line.as_bytes()) else {
            continue;
        };
        time = event.request().map_or(time, |request| request.reading);
        steps.push(Step {
            line: line.to_string(),
            event,
            time,
            answer: said(answer)?,
        });
    }
    Ok(steps)
}

fn said(line: &str) -> Result<Said, String> {
    let words: Vec<&str> = line.split(' ').collect();
    let read = || match *words.as_slice() {
        [refusal, reply, notice, flags, more] => Some(Said::Answer {
            refusal: refusal.parse().ok()?,
            reply: read_hex(reply)?,
            notice: notice.parse().ok()?,
            flags: flags.to_string(),
            more: more == "1",
        }),
        [_, _] => Some(Said::Else(line.to_string())),
        _ => None,
    };
    read().ok_or(format!("no answer: {line}"))
}

/// Octets in hex, `-` for none.
fn read_hex(word: &str) -> Option<Vec<u8>> {
    if word == "-" {
        return Some(Vec::new());
    }
    octets(word.as_bytes())
}

/// A message on the wire.
#[derive(Clone, Debug, Default, PartialEq, Eq)]
pub struct Packet {
    /// Milliseconds since start-up.
    pub time: u64,
    /// From the user; from us otherwise.
    pub from_user: bool,
    pub octets: Vec<u8>,
    /// The events that were no messages since the packet before, and why a
    /// message was refused.
    pub comments: Vec<String>,
}

/// What stood on the wire, in order, and the events behind the last packet.
#[derive(Clone, Debug, Default, PartialEq, Eq)]
pub struct Wire {
    pub packets: Vec<Packet>,
    pub behind: Vec<String>,
}

pub fn wire(steps: &[Step]) -> Wire {
    let mut wire = Wire::default();
    for step in steps {
        wire.take(step);
    }
    wire
}

impl Wire {
    fn take(&mut self, step: &Step) {
        if let Event::Message(_, octets) = &step.event {
            if step.line != usual(step.time, octets) {
                self.behind.push(step.line.clone());
            }
            self.behind.extend(refused(&step.answer));
            self.push(step.time, true, octets);
        } else {
            self.behind.push(step.line.clone());
        }
        match &step.answer {
            Said::Answer { reply, .. } if !reply.is_empty() && on_wire(&step.event) => {
                self.push(step.time, false, reply);
            }
            _ => {}
        }
    }

    fn push(&mut self, time: u64, from_user: bool, octets: &[u8]) {
        self.packets.push(Packet {
            time,
            from_user,
            octets: octets.to_vec(),
            comments: std::mem::take(&mut self.behind),
        });
    }
}

/// The line of a message that comes with the right label and room.
fn usual(time: u64, octets: &[u8]) -> String {
    format!("message 1 {time} 1024 {}", hex(octets))
}

/// The reply of a save is a form, and no message.
fn on_wire(event: &Event) -> bool {
    !matches!(event, Event::Save(_))
}

/// Why a message was refused.
fn refused(answer: &Said) -> Option<String> {
    match answer {
        Said::Answer { refusal: 0, .. } => None,
        Said::Answer { refusal, .. } => Some(words::refusal(*refusal)),
        Said::Else(text) => Some(text.clone()),
    }
}
