//! Counts how often a script reaches each row of the paper.

mod acknowledges;
mod answers;
mod calls;
mod commands;
mod doubts;
mod history;
mod hosts;
mod lines;
mod marks;
mod refusals;
mod restarts;
mod saved_marks;
mod saves;
mod setups;
mod starts;
mod steps;
mod timers;
mod waiting;

use crate::controller::{Answer, Call, Reference, State, Table};
use crate::decode::{receive, Received};
use crate::exchange::{read_event, Event, Exchange, Line, Outcome};
use crate::rows::Row;
use crate::shown::shown;
use std::collections::HashMap;

/// The rows with their words and counts, in the order of listing.
#[derive(Clone, Debug, Default)]
pub struct Rows {
    places: HashMap<String, usize>,
    list: Vec<(String, String, u64)>,
}

impl Rows {
    fn add(&mut self, id: impl Into<String>, words: impl Into<String>) {
        let (id, place) = (id.into(), self.list.len());
        let before = self.places.insert(id.clone(), place);
        assert!(before.is_none(), "{id} is listed twice");
        self.list.push((id, words.into(), 0));
    }

    fn hit(&mut self, id: &str) {
        let place = self.places.get(id);
        let place = *place.unwrap_or_else(|| panic!("{id} is not listed"));
        self.list[place].2 += 1;
    }

    fn hit_if(&mut self, holds: bool, id: &str) {
        if holds {
            self.hit(id);
        }
    }
}

/// An answered event and what it met.
struct Seen<'a> {
    /// The table before the event.
    before: Option<&'a Table>,
    event: &'a Event,
    answer: &'a Answer,
    /// The message, if it passes steps 1 and 2.
    received: Option<Received<'a>>,
    /// The live call that the event names.
    call: Option<(usize, Call)>,
    /// The table after the event.
    after: Option<&'a Table>,
    /// The table that the last reload gave, if no start came since.
    reloaded: Option<&'a Table>,
}

impl Seen<'_> {
    fn row(&self) -> Row {
        self.answer.row
    }

    /// The event is accepted.
    fn accepted(&self) -> bool {
        self.row().refusal() == 0
    }
}

/// The live call that an event names.
fn named(table: Option<&Table>, event: &Event) -> Option<(usize, Call)> {
    let table = table?;
    let slot = match event {
        Event::Message(_, octets) => table.find(Reference::of(&receive(octets).ok()?))?,
        Event::Connect(_, slot) | Event::Clear(_, slot, _) => usize::try_from(*slot).ok()?,
        _ => return None,
    };
    Some((slot, table.calls.get(slot).copied().flatten()?))
}

/// A state and who began the call, in a word.
fn place(call: &Call) -> String {
    let side = if call.reference.flag {
        "network"
    } else {
        "user"
    };
    format!("N{}-{side}", call.state.number())
}

/// The states that a live call can be in.
const PLACES: [&str; 7] = [
    "N3-user",
    "N6-network",
    "N9-network",
    "N10-user",
    "N10-network",
    "N12-user",
    "N12-network",
];

/// The timer that runs in a state.
fn timer(state: State) -> &'static str {
    match state {
        State::N3 | State::N10 => "none",
        State::N6 { .. } => "T303",
        State::N9 { .. } => "T310",
        State::N12(clearing) if clearing.second => "T308-second",
        State::N12(_) => "T308-first",
    }
}

/// Runs scripts and counts.
#[derive(Clone, Debug)]
pub struct Coverage {
    rows: Rows,
    exchange: Exchange,
    reloaded: Option<Table>,
    doubts: doubts::History,
    restarts: history::History,
}

impl Default for Coverage {
    fn default() -> Coverage {
        let mut rows = Rows::default();
        lines::list(&mut rows);
        for row in Row::ALL {
            rows.add(row.id(), row.words());
        }
        starts::list(&mut rows);
        refusals::list(&mut rows);
        steps::list(&mut rows);
        setups::list(&mut rows);
        calls::list(&mut rows);
        restarts::list(&mut rows);
        hosts::list(&mut rows);
        timers::list(&mut rows);
        answers::list(&mut rows);
        saves::list(&mut rows);
        doubts::list(&mut rows);
        commands::list(&mut rows);
        acknowledges::list(&mut rows);
        waiting::list(&mut rows);
        marks::list(&mut rows);
        saved_marks::list(&mut rows);
        Coverage {
            rows,
            exchange: Exchange::default(),
            reloaded: None,
            doubts: doubts::History::default(),
            restarts: history::History::default(),
        }
    }
}

impl Coverage {
    /// Takes a line without its end.
    pub fn take(&mut self, line: &[u8]) {
        let before = self.exchange.table.clone();
        let read = read_event(line);
        let outcome = match &read {
            Line::Skipped => Outcome::Skipped,
            Line::Bad => Outcome::BadLine,
            Line::Event(event) => self.exchange.event(event),
            Line::Shown(message, record) => Outcome::Shown(shown(message, record)),
        };
        lines::hit(&mut self.rows, before.as_ref(), &read, &outcome);
        if let (Line::Event(event), Outcome::Answer(answer)) = (&read, &outcome) {
            self.count(before.as_ref(), event, answer);
            match event {
                Event::Reload(_) => self.reloaded = self.exchange.table.clone(),
                Event::Start { .. } => self.reloaded = None,
                _ => {}
            }
        }
    }

    fn count(&mut self, before: Option<&Table>, event: &Event, answer: &Answer) {
        let received = match event {
            Event::Message(_, octets) => receive(octets).ok(),
            _ => None,
        };
        let seen = Seen {
            before,
            event,
            answer,
            received,
            call: named(before, event),
            after: self.exchange.table.as_ref(),
            reloaded: self.reloaded.as_ref(),
        };
        let rows = &mut self.rows;
        rows.hit(&saves::id(event, answer.row));
        starts::hit(rows, &seen);
        refusals::hit(rows, &seen);
        steps::hit(rows, &seen);
        setups::hit(rows, &seen);
        calls::hit(rows, &seen);
        restarts::hit(rows, &seen);
        hosts::hit(rows, &seen);
        timers::hit(rows, &seen);
        answers::hit(rows, &seen);
        saves::hit(rows, &seen);
        doubts::hit(rows, &seen, &mut self.doubts);
        commands::hit(rows, &seen, &self.restarts);
        acknowledges::hit(rows, &seen, &self.restarts);
        waiting::hit(rows, &seen, &self.restarts);
        marks::hit(rows, &seen, &mut self.restarts);
        saved_marks::hit(rows, &seen);
        self.restarts.take(&seen);
    }

    /// The table of rows, and a last line on those not reached.
    pub fn text(&self) -> String {
        let lines: String = self.rows.list.iter().map(line).collect();
        lines + &self.summary()
    }

    /// The rows that are not reached.
    pub fn missed(&self) -> String {
        let list = self.rows.list.iter();
        list.filter(|row| row.2 == 0).map(line).collect()
    }

    /// How many rows there are, and how many of them are not reached.
    pub fn summary(&self) -> String {
        let missed = self.rows.list.iter().filter(|row| row.2 == 0).count();
        format!("{} rows, {missed} not reached\n", self.rows.list.len())
    }
}

/// A row with its count.
fn line((id, words, count): &(String, String, u64)) -> String {
    format!("{count:>9}  {id:<34}  {words}\n")
}
