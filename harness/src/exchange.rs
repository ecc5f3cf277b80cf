//! The line protocol: one event on a line, one answer on a line.

mod read;

pub use read::{read_event, Event, Line};

use crate::compose::hex;
use crate::controller::{Answer, Flags, Table};
use crate::rows::Row;
use crate::shown::{shown, Shown};
use std::fmt;
use std::io::{self, BufRead, Read};

/// The longest line that is read; a longer one is a bad line.
pub const LINE_LIMIT: usize = 65_536;

/// The longest reply room that is lent.
pub const ROOM_LIMIT: u64 = 4_096;

/// What a line gets.
#[derive(Clone, Debug, PartialEq, Eq)]
pub enum Outcome {
    Skipped,
    BadLine,
    NoTable,
    Answer(Answer),
    Shown(Shown),
}

/// The table since the last accepted start or reload.
#[derive(Clone, Debug, Default)]
pub struct Exchange {
    pub table: Option<Table>,
}

impl Exchange {
    /// Takes a line without its line end.
    pub fn take(&mut self, line: &[u8]) -> Outcome {
        match read_event(line) {
            Line::Skipped => Outcome::Skipped,
            Line::Bad => Outcome::BadLine,
            Line::Event(event) => self.event(&event),
            Line::Shown(message, record) => Outcome::Shown(shown(&message, &record)),
        }
    }

    pub fn event(&mut self, event: &Event) -> Outcome {
        Outcome::Answer(match (event, &mut self.table) {
            (Event::Start { ranges, pairs }, table) => {
                renew(table, Table::start(ranges, pairs), Row::StartAccepted)
            }
            (Event::Reload(octets), table) => {
                renew(table, Table::reload(octets), Row::ReloadAccepted)
            }
            (_, None) => return Outcome::NoTable,
            (Event::Message(request, octets), Some(table)) => table.message(request, octets),
            (Event::Tick(request), Some(table)) => table.tick(request),
            (Event::Connect(request, slot), Some(table)) => table.connect(request, *slot),
            (Event::Clear(request, slot, cause), Some(table)) => {
                table.clear(request, *slot, *cause)
            }
            (Event::Offer(request, body), Some(table)) => table.offer(request, body),
            (Event::Restart(request, wanted), Some(table)) => table.send_restart(request, *wanted),
            (Event::PutBack(request), Some(table)) => table.put_back(request),
            (Event::Save(room), Some(table)) => table.save(*room),
        })
    }
}

/// A refused start or reload leaves no table.
fn renew(table: &mut Option<Table>, renewed: Result<Table, Row>, accepted: Row) -> Answer {
    let row = *renewed.as_ref().err().unwrap_or(&accepted);
    *table = renewed.ok();
    Answer::nothing(row)
}

/// Reads the next line into `line` without its end; false if there is none.
/// Of a longer line than the limit only the front is kept.
pub fn next_line(input: &mut impl BufRead, line: &mut Vec<u8>) -> io::Result<bool> {
    line.clear();
    let limit = LINE_LIMIT as u64 + 1;
    if input.by_ref().take(limit).read_until(b'\n', line)? == 0 {
        return Ok(false);
    }
    if line.last() == Some(&b'\n') {
        line.pop();
    } else if line.len() > LINE_LIMIT {
        input.skip_until(b'\n')?;
    }
    Ok(true)
}

impl fmt::Display for Outcome {
    fn fmt(&self, f: &mut fmt::Formatter<'_>) -> fmt::Result {
        match self {
            Outcome::Skipped => Ok(()),
            Outcome::BadLine => f.write_str("bad line"),
            Outcome::NoTable => f.write_str("no table"),
            Outcome::Answer(answer) => answer.fmt(f),
            Outcome::Shown(shown) => shown.fmt(f),
        }
    }
}

impl fmt::Display for Answer {
    fn fmt(&self, f: &mut fmt::Formatter<'_>) -> fmt::Result {
        let (refusal, notice) = (self.row.refusal(), self.notice as u8);
        let more = u8::from(self.more);
        write!(f, "{refusal} {} {notice} ", hex(&self.reply))?;
        write!(f, "{} {more}", self.flags)
    }
}

impl fmt::Display for Flags {
    fn fmt(&self, f: &mut fmt::Formatter<'_>) -> fmt::Result {
        let slots: Vec<String> = self.slots().map(|slot| slot.to_string()).collect();
        if slots.is_empty() {
            return f.write_str("-");
        }
        f.write_str(&slots.join(","))
    }
}
