//! save and reload: pairs out of service, and the RESTART under way.

use super::{Rows, Seen};
use crate::controller::{Named, Table, DOUBTS, MARKS, READING_LIMIT, SLOTS, T316};
use crate::exchange::Event;

/// Tables that are saved, and that a reload gives.
const TABLES: [(&str, &str); 10] = [
    ("marks-0", "no pair out of service"),
    ("marks", "single pairs out of service"),
    ("marks-64", "sixty-four pairs out of service"),
    ("all", "all out of service"),
    ("beside", "all out of service beside single pairs"),
    ("no-restart", "no RESTART under way"),
    ("one-first", "a RESTART of a pair, first T316"),
    ("one-second", "a RESTART of a pair, second T316"),
    ("all-first", "a RESTART of all, first T316"),
    ("all-second", "a RESTART of all, second T316"),
];

const RELOADED: [(&str, &str); 11] = [
    ("RL-0-marks-1", "one pair out of service"),
    ("RL-0-marks-63", "sixty-three pairs out of service"),
    ("RL-0-largest", "the largest form"),
    ("RL-0-named-held", "a RESTART of a held pair"),
    ("RL-0-named-doubt", "a RESTART of a pair in doubt"),
    ("RL-0-named-marked", "a RESTART of a marked pair"),
    (
        "RL-0-named-free",
        "a RESTART of a pair that is none of these",
    ),
    ("RL-0-most-T316", "the furthest deadline of T316"),
    ("RL-0-due-T316", "T316 is due already"),
    ("RL-0-past-T316", "T316 past the largest reading"),
    (
        "RL-0-all-named",
        "all out of service, and a RESTART of a pair",
    ),
];

pub fn list(rows: &mut Rows) {
    for (id, words) in TABLES {
        rows.add(format!("SV-0-{id}"), format!("save: {words}"));
        rows.add(format!("RL-0-{id}"), format!("reload: {words}"));
    }
    for (id, words) in RELOADED {
        rows.add(id, format!("reload: {words}"));
    }
}

pub fn hit(rows: &mut Rows, seen: &Seen<'_>) {
    match (seen.event, seen.before, seen.after) {
        (Event::Save(_), Some(table), _) if seen.accepted() => hit_table(rows, table, "SV-0"),
        (Event::Reload(_), _, Some(table)) => {
            hit_table(rows, table, "RL-0");
            hit_reloaded(rows, table);
        }
        _ => {}
    }
}

fn hit_table(rows: &mut Rows, table: &Table, row: &str) {
    let (all, single) = (table.marks.all, table.marks.single.len());
    let mut hit = |word: &str| rows.hit(&format!("{row}-{word}"));
    hit(match (all, single) {
        (false, 0) => "marks-0",
        (false, _) => "marks",
        (true, 0) => "all",
        (true, _) => "beside",
    });
    if single == MARKS {
        hit("marks-64");
    }
    let named = table.under_way.map(|own| (own.named, own.second));
    hit(match named {
        None => "no-restart",
        Some((Named::One(_), false)) => "one-first",
        Some((Named::One(_), true)) => "one-second",
        Some((Named::All, false)) => "all-first",
        Some((Named::All, true)) => "all-second",
    });
}

fn hit_reloaded(rows: &mut Rows, table: &Table) {
    let (single, live) = (&table.marks.single, table.live().count());
    if let 1 | 63 = single.len() {
        rows.hit(&format!("RL-0-marks-{}", single.len()));
    }
    let Some(own) = table.under_way else {
        return;
    };
    rows.hit_if(own.deadline == table.reading + T316, "RL-0-most-T316");
    rows.hit_if(own.deadline <= table.reading, "RL-0-due-T316");
    rows.hit_if(own.deadline > READING_LIMIT, "RL-0-past-T316");
    let Named::One(pair) = own.named else {
        return;
    };
    let (held, doubt) = (table.holds(pair), table.doubts.contains(&pair));
    rows.hit(match (held, doubt, single.contains(&pair)) {
        (true, _, _) => "RL-0-named-held",
        (_, true, _) => "RL-0-named-doubt",
        (_, _, true) => "RL-0-named-marked",
        _ => "RL-0-named-free",
    });
    rows.hit_if(table.marks.all, "RL-0-all-named");
    let full = live == SLOTS && table.doubts.len() == DOUBTS && single.len() == MARKS;
    rows.hit_if(full, "RL-0-largest");
}
