//! Pairs out of service: how they come, and what is not free.

use super::history::History;
use super::{Rows, Seen};
use crate::controller::{Marks, Named, Table};
use crate::decode::Pair;
use crate::rows::Row;

const MARKED: [(&str, &str); 10] = [
    ("MK-first", "the first single pair is marked"),
    ("MK-64", "the sixty-fourth single pair is marked"),
    ("MK-below", "a pair is marked below another"),
    ("MK-above", "a pair is marked above another"),
    ("MK-again", "a marked pair is marked again"),
    ("MK-under-all", "a pair is marked while all is marked"),
    ("MK-all", "all is marked, no single pair beside it"),
    ("MK-beside", "all is marked beside single pairs"),
    ("MK-beside-64", "all is marked beside sixty-four pairs"),
    ("MK-all-again", "all is marked again"),
];

/// Why no pair is free, behind the row.
const NONE: [(&str, &str); 4] = [
    ("marked", "because single pairs are out of service"),
    ("all", "because all pairs are out of service"),
    ("named", "because our RESTART of a pair waits"),
    ("named-all", "because our RESTART of all waits"),
];

/// Which pair a new call gets, behind the row.
const TAKEN: [(&str, &str); 4] = [
    ("marked", "a lower marked pair is passed over"),
    (
        "named",
        "a lower pair that our RESTART names is passed over",
    ),
    ("back", "a pair that was put back"),
    ("restarted", "a pair that an acknowledge set free"),
];

const USERS: [(&str, &str); 3] = [
    ("RS-9-marked", "80 of a marked pair leaves the mark"),
    ("RS-10-marked", "82 leaves the marks, and calls are gone"),
    ("RS-11-marked", "82 leaves the marks"),
];

pub fn list(rows: &mut Rows) {
    for (id, words) in MARKED.into_iter().chain(USERS) {
        rows.add(id, words);
    }
    for row in [Row::SetupNoPair, Row::OfferNoPair] {
        for (id, words) in NONE {
            rows.add(
                format!("{}-{id}", row.id()),
                format!("{} {words}", row.words()),
            );
        }
    }
    for (row, event) in [(Row::SetupAccepted, "SETUP"), (Row::HostOffer, "offer")] {
        for (id, words) in TAKEN {
            rows.add(format!("{}-{id}", row.id()), format!("{event}: {words}"));
        }
    }
}

pub fn hit(rows: &mut Rows, seen: &Seen<'_>, history: &mut History) {
    let (Some(before), Some(after)) = (seen.before, seen.after) else {
        return;
    };
    match seen.row() {
        Row::T316Second | Row::T316Gone => hit_marked(rows, before, after),
        Row::SetupNoPair | Row::OfferNoPair => hit_none(rows, seen.row(), before),
        Row::SetupAccepted | Row::HostOffer => {
            for slot in seen.answer.flags.slots() {
                let pair = after.calls[slot].map(|call| call.pair);
                pair.iter()
                    .for_each(|&pair| hit_taken(rows, seen.row(), before, pair, history));
            }
        }
        Row::RestartFree => {
            let named = seen
                .received
                .and_then(|received| match received.connection() {
                    crate::decode::Part::Readable(pair) => Some(pair),
                    _ => None,
                });
            let marked = named.is_some_and(|pair| after.marks.single.contains(&pair));
            rows.hit_if(marked, "RS-9-marked");
        }
        Row::RestartAll | Row::RestartNone => {
            let marked = after.marks != Marks::default();
            rows.hit_if(marked, &format!("{}-marked", seen.row().id()));
        }
        _ => {}
    }
}

fn hit_marked(rows: &mut Rows, before: &Table, after: &Table) {
    let (was, is) = (&before.marks, &after.marks);
    match before.under_way.map(|under_way| under_way.named) {
        Some(Named::One(pair)) => {
            rows.hit_if(was.single.is_empty(), "MK-first");
            rows.hit_if(is.full(), "MK-64");
            rows.hit_if(was.single.contains(&pair), "MK-again");
            rows.hit_if(was.all, "MK-under-all");
            rows.hit_if(was.single.last() > Some(&pair), "MK-below");
            let above = was.single.first().is_some_and(|first| *first < pair);
            rows.hit_if(above, "MK-above");
        }
        _ => {
            rows.hit_if(was.all, "MK-all-again");
            rows.hit_if(is.single.is_empty(), "MK-all");
            rows.hit_if(!is.single.is_empty(), "MK-beside");
            rows.hit_if(is.full(), "MK-beside-64");
        }
    }
}

/// What keeps the last pairs from being free.
fn hit_none(rows: &mut Rows, row: Row, before: &Table) {
    let id = |word: &str| format!("{}-{word}", row.id());
    let unmarked = Table {
        marks: Marks::default(),
        ..before.clone()
    };
    let word = if before.marks.all { "all" } else { "marked" };
    rows.hit_if(unmarked.free_pair().is_some(), &id(word));
    let unnamed = Table {
        under_way: None,
        ..before.clone()
    };
    let named = before.under_way.map(|under_way| under_way.named);
    let word = match named {
        Some(Named::All) => "named-all",
        _ => "named",
    };
    rows.hit_if(unnamed.free_pair().is_some(), &id(word));
}

fn hit_taken(rows: &mut Rows, row: Row, before: &Table, pair: Pair, history: &mut History) {
    let id = |word: &str| format!("{}-{word}", row.id());
    let passed = before.marks.single.first().is_some_and(|mark| *mark < pair);
    rows.hit_if(passed, &id("marked"));
    let unnamed = Table {
        under_way: None,
        ..before.clone()
    };
    rows.hit_if(unnamed.free_pair() < Some(pair), &id("named"));
    rows.hit_if(history.put_back.remove(&pair), &id("back"));
    rows.hit_if(history.restarted.remove(&pair), &id("restarted"));
}
