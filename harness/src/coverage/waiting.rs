//! While our RESTART waits, and what its T316 does.

use super::history::History;
use super::{Rows, Seen};
use crate::controller::{Named, Table, UnderWay};
use crate::decode::Part;
use crate::rows::Row;
use crate::types::STATUS;

const FIRED: [(&str, &str); 18] = [
    ("TI-6-one", "T316 first: RESTART of one pair again"),
    ("TI-6-all", "T316 first: RESTART of all again"),
    ("TI-6-held", "T316 first: the call on the pair stays"),
    ("TI-6-doubt", "T316 first: the doubt of the pair stays"),
    ("TI-7-one", "T316 second: one pair is out of service"),
    ("TI-7-all", "T316 second: all pairs are out of service"),
    ("TI-7-one-doubt", "T316 second: the doubt of the pair ends"),
    (
        "TI-7-one-others",
        "T316 second: other calls and doubts stay",
    ),
    ("TI-7-all-doubt", "T316 second of all: every doubt ends"),
    ("TI-8-one", "T316 second: the call on the pair is gone"),
    (
        "TI-8-one-others",
        "T316 second: the call on the pair alone is gone",
    ),
    ("TI-8-all", "T316 second of all: every call is gone"),
    (
        "TI-8-all-doubt",
        "T316 second of all: calls are gone, doubts end",
    ),
    (
        "TI-9-held",
        "T316 with 64 marked: the call on the pair stays",
    ),
    (
        "TI-9-doubt",
        "T316 with 64 marked: the doubt of the pair stays",
    ),
    ("TI-9-marked", "T316 with 64 marked, the pair one of them"),
    ("TI-9-again", "T316 with 64 marked goes again"),
    ("TI-9-done", "T316 after a put-back made room"),
];

/// Events that go on for calls on pairs that a RESTART of ours names.
const GOES_ON: [Row; 10] = [
    Row::HostConnect,
    Row::HostClear,
    Row::CallProceeding,
    Row::Connect,
    Row::Release,
    Row::ReleaseComplete,
    Row::T303,
    Row::T310,
    Row::T308First,
    Row::T308Second,
];

/// Rows of a user's RESTART that is acknowledged.
const USERS: [Row; 4] = [
    Row::RestartHeld,
    Row::RestartFree,
    Row::RestartAll,
    Row::RestartNone,
];

const STATES: [u8; 4] = [81, 82, 96, 100];

pub fn list(rows: &mut Rows) {
    for (id, words) in FIRED {
        rows.add(id, words);
    }
    for row in GOES_ON {
        let words = format!("while it is restarted, {}", row.words());
        rows.add(format!("WA-{}", row.id()), words);
    }
    for row in USERS {
        let words = format!("while ours waits, {}", row.words());
        rows.add(format!("{}-waits", row.id()), words);
    }
    rows.add("RS-8-same", "80 of the held pair that ours names");
    rows.add("RS-9-same", "80 of the pair that ours names, no call");
    for cause in STATES {
        let words = format!("global STATUS {cause} shows 61 while ours waits");
        rows.add(format!("GS-{cause}"), words);
    }
    rows.add("GS-30", "STATUS 30 on no call shows 0 while ours waits");
}

pub fn hit(rows: &mut Rows, seen: &Seen<'_>, history: &History) {
    let (Some(before), Some(after)) = (seen.before, seen.after) else {
        return;
    };
    let Some(under_way) = before.under_way else {
        return;
    };
    match seen.row() {
        Row::T316First => hit_first(rows, before, under_way),
        Row::T316Second | Row::T316Gone => {
            rows.hit_if(history.waited, "TI-9-done");
            hit_second(rows, seen, before, after, under_way.named);
        }
        Row::T316Waits => {
            rows.hit_if(history.waited, "TI-9-again");
            hit_full(rows, before, under_way.named);
        }
        row => {
            hit_going_on(rows, row, before, after);
            hit_users(rows, seen, under_way.named);
        }
    }
    hit_status(rows, seen);
}

/// The named pair is held, and it is in doubt.
fn ways(before: &Table, named: Named) -> (bool, bool) {
    match named {
        Named::One(pair) => (before.holds(pair), before.doubts.contains(&pair)),
        Named::All => (false, false),
    }
}

fn hit_first(rows: &mut Rows, before: &Table, under_way: UnderWay) {
    rows.hit(match under_way.named {
        Named::One(_) => "TI-6-one",
        Named::All => "TI-6-all",
    });
    let (held, doubt) = ways(before, under_way.named);
    rows.hit_if(held, "TI-6-held");
    rows.hit_if(doubt, "TI-6-doubt");
}

fn hit_second(rows: &mut Rows, seen: &Seen<'_>, before: &Table, after: &Table, named: Named) {
    let which = match named {
        Named::One(_) => "one",
        Named::All => "all",
    };
    let id = format!("{}-{which}", seen.row().id());
    rows.hit(&id);
    let ended = before.doubts.len() > after.doubts.len();
    rows.hit_if(ended, &format!("{id}-doubt"));
    let others = after.live().next().is_some() && !after.doubts.is_empty();
    rows.hit_if(others, &format!("{id}-others"));
}

fn hit_full(rows: &mut Rows, before: &Table, named: Named) {
    let (held, doubt) = ways(before, named);
    rows.hit_if(held, "TI-9-held");
    rows.hit_if(doubt, "TI-9-doubt");
    if let Named::One(pair) = named {
        rows.hit_if(before.marks.single.contains(&pair), "TI-9-marked");
    }
}

fn hit_going_on(rows: &mut Rows, row: Row, before: &Table, after: &Table) {
    let was = before.calls.iter().zip(&after.calls);
    let changed = was.filter(|(was, is)| was != is);
    let mut named = changed.filter_map(|(was, _)| was.filter(|call| before.names(call.pair)));
    if named.next().is_some() && GOES_ON.contains(&row) {
        rows.hit(&format!("WA-{}", row.id()));
    }
}

fn hit_users(rows: &mut Rows, seen: &Seen<'_>, named: Named) {
    let (row, Some(received)) = (seen.row(), seen.received) else {
        return;
    };
    if !USERS.contains(&row) {
        return;
    }
    rows.hit(&format!("{}-waits", row.id()));
    let pair = match received.connection() {
        Part::Readable(pair) => Some(Named::One(pair)),
        _ => None,
    };
    let one = [Row::RestartHeld, Row::RestartFree].contains(&row);
    rows.hit_if(one && pair == Some(named), &format!("{}-same", row.id()));
}

fn hit_status(rows: &mut Rows, seen: &Seen<'_>) {
    let reply = crate::decode::receive(&seen.answer.reply);
    let (Ok(reply), Some(received)) = (reply, seen.received) else {
        return;
    };
    rows.hit_if(seen.row() == Row::NoCallEnquiry, "GS-30");
    if let (STATUS, 0, Part::Readable(cause)) = (reply.kind, received.reference, reply.cause()) {
        assert_eq!(reply.call_state(), Part::Readable(61));
        rows.hit(&format!("GS-{cause}"));
    }
}
