//! Lines that are no events, and events before a start.

use super::Rows;
use crate::controller::Table;
use crate::exchange::{Line, Outcome};

const WORDS: [&str; 8] = [
    "message", "tick", "connect", "clear", "offer", "restart", "putback", "save",
];

pub fn list(rows: &mut Rows) {
    rows.add("LI-skip", "an empty line or a comment");
    rows.add("LI-bad", "a bad line with a table");
    rows.add("LI-bad-early", "a bad line with no table");
    for word in WORDS {
        rows.add(format!("LI-none-{word}"), format!("{word} with no table"));
    }
    rows.add("LI-again", "start with a table there");
}

pub fn hit(rows: &mut Rows, before: Option<&Table>, line: &Line, outcome: &Outcome) {
    match (line, outcome) {
        (Line::Skipped, _) => rows.hit("LI-skip"),
        (Line::Bad, _) if before.is_some() => rows.hit("LI-bad"),
        (Line::Bad, _) => rows.hit("LI-bad-early"),
        (Line::Shown(..), _) => {}
        (Line::Event(event), Outcome::NoTable) => {
            rows.hit(&format!("LI-none-{}", event.word()));
        }
        (Line::Event(event), _) => {
            rows.hit_if(event.word() == "start" && before.is_some(), "LI-again");
        }
    }
}
