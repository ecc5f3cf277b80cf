//! save and reload, and what goes on after a reload.

use super::{place, Rows, Seen, PLACES};
use crate::controller::{Call, State, Table, DOUBTS, READING_LIMIT, SLOTS, T303, T308, T310};
use crate::exchange::Event;
use crate::rows::Row;

const SAVES: [(&str, &str); 9] = [
    ("SV-0-exact", "save: a room of the form's length"),
    ("SV-0-4096", "save: a room of 4,096 or more"),
    ("SV-0-none", "save: no live call"),
    ("SV-0-full", "save: thirty-two live calls"),
    ("SV-0-doubts-0", "save: no pair in doubt"),
    ("SV-0-doubts", "save: pairs in doubt"),
    ("SV-0-doubts-64", "save: sixty-four pairs in doubt"),
    ("SV-1-less", "save: a room one octet smaller"),
    ("SV-1-0", "save: a room of 0 octets"),
];

const RELOADS: [(&str, &str); 22] = [
    ("RL-0-early", "reload with no table there"),
    ("RL-0-same", "reload of the table that is there"),
    ("RL-0-back", "reload goes back to an earlier reading"),
    ("RL-0-none", "reload: no live call"),
    ("RL-0-full", "reload: thirty-two live calls"),
    ("RL-0-gap", "reload: an empty slot below a call"),
    ("RL-0-apart", "reload: pairs in another order than slots"),
    ("RL-0-limit", "reload: the largest reading"),
    ("RL-0-due", "reload: a deadline that is due already"),
    ("RL-0-past", "reload: a deadline past the largest reading"),
    ("RL-0-over-32", "reload: a network-originated value over 32"),
    ("RL-0-8388607", "reload: the largest value"),
    ("RL-0-ranges-4", "reload: four ranges"),
    ("RL-0-pairs-0", "reload: no permanent pair"),
    ("RL-0-pairs-8", "reload: eight permanent pairs"),
    ("RL-0-doubts-0", "reload: no pair in doubt"),
    ("RL-0-doubts-1", "reload: one pair in doubt"),
    ("RL-0-doubts-63", "reload: sixty-three pairs in doubt"),
    ("RL-0-doubts-64", "reload: sixty-four pairs in doubt"),
    (
        "RL-0-doubts-full",
        "reload: sixty-four pairs in doubt and thirty-two live calls",
    ),
    (
        "RL-0-doubts-last",
        "reload: every permitted pair is held or in doubt",
    ),
    ("RL-9-none", "reload of no octets"),
];

/// Calls in an accepted form, with a row for each kind of field.
const KINDS: [&str; 11] = [
    "N3-user",
    "N6-network",
    "N9-network",
    "N10-user",
    "N10-network",
    "N12-user-first",
    "N12-user-second",
    "N12-network-first",
    "N12-network-second",
    "N12-network-first-102",
    "N12-network-second-102",
];

pub fn list(rows: &mut Rows) {
    for (id, words) in SAVES.into_iter().chain(RELOADS) {
        rows.add(id, words);
    }
    for kind in KINDS {
        rows.add(format!("RL-0-{kind}"), format!("reload: a call in {kind}"));
    }
    for timer in ["T303", "T310", "T308"] {
        let words = format!("reload: the furthest deadline of {timer}");
        rows.add(format!("RL-0-most-{timer}"), words);
    }
    for row in Row::ALL.iter().filter(|row| start_rule(**row)) {
        let words = format!("lists that start refuses: {}", row.words());
        rows.add(format!("RL-{}", row.id()), words);
    }
    for place in PLACES {
        let words = format!("an event on a reloaded call in {place}");
        rows.add(format!("AF-{place}"), words);
    }
    rows.add("AF-4", "a reading older than the saved one gets 4");
    rows.add(
        "AF-apart",
        "a new call's pair is not that of its slot's number",
    );
}

/// A rule that a start's lists break.
fn start_rule(row: Row) -> bool {
    row.id().starts_with("ST-9")
}

/// The row that decided, apart for lists that a reload has.
pub fn id(event: &Event, row: Row) -> String {
    match event {
        Event::Reload(_) if start_rule(row) => format!("RL-{}", row.id()),
        _ => row.id().to_string(),
    }
}

pub fn hit(rows: &mut Rows, seen: &Seen<'_>) {
    match seen.event {
        Event::Save(room) => hit_save(rows, seen, *room),
        Event::Reload(octets) => {
            rows.hit_if(octets.is_empty(), "RL-9-none");
            let after = seen.after.iter();
            after.for_each(|after| hit_reload(rows, seen.before, after));
        }
        _ => hit_after(rows, seen),
    }
}

fn hit_save(rows: &mut Rows, seen: &Seen<'_>, room: usize) {
    let Some(table) = seen.before else {
        return;
    };
    let (length, live) = (table.form().len(), table.live().count());
    if !seen.accepted() {
        rows.hit_if(room + 1 == length, "SV-1-less");
        rows.hit_if(room == 0, "SV-1-0");
        return;
    }
    rows.hit_if(room == length, "SV-0-exact");
    rows.hit_if(room == 4_096, "SV-0-4096");
    rows.hit_if(live == 0, "SV-0-none");
    rows.hit_if(live == SLOTS, "SV-0-full");
    let doubts = table.doubts.len();
    rows.hit(match doubts {
        0 => "SV-0-doubts-0",
        _ => "SV-0-doubts",
    });
    rows.hit_if(doubts == DOUBTS, "SV-0-doubts-64");
}

fn hit_reload(rows: &mut Rows, before: Option<&Table>, after: &Table) {
    let live = after.live().count();
    let back = before.is_some_and(|before| before.reading > after.reading);
    let pairs = after.live().map(|(_, call)| call.pair);
    rows.hit_if(before.is_none(), "RL-0-early");
    rows.hit_if(before == Some(after), "RL-0-same");
    rows.hit_if(back, "RL-0-back");
    rows.hit_if(live == 0, "RL-0-none");
    rows.hit_if(live == SLOTS, "RL-0-full");
    rows.hit_if(after.live().any(|(slot, _)| slot >= live), "RL-0-gap");
    rows.hit_if(!pairs.is_sorted(), "RL-0-apart");
    rows.hit_if(after.reading == READING_LIMIT, "RL-0-limit");
    rows.hit_if(after.pool.ranges.len() == 4, "RL-0-ranges-4");
    rows.hit_if(after.pool.permanent.is_empty(), "RL-0-pairs-0");
    rows.hit_if(after.pool.permanent.len() == 8, "RL-0-pairs-8");
    for (_, call) in after.live() {
        hit_call(rows, after, &call);
    }
    hit_doubts(rows, after, live);
}

fn hit_doubts(rows: &mut Rows, after: &Table, live: usize) {
    let doubts = after.doubts.len();
    if let 0 | 1 | 63 | 64 = doubts {
        rows.hit(&format!("RL-0-doubts-{doubts}"));
    }
    let most = doubts == DOUBTS && live == SLOTS;
    rows.hit_if(most, "RL-0-doubts-full");
    let mut permitted = after.pool.permitted();
    let none =
        doubts > 0 && permitted.all(|pair| after.holds(pair) || after.doubts.contains(&pair));
    rows.hit_if(none, "RL-0-doubts-last");
}

fn hit_call(rows: &mut Rows, table: &Table, call: &Call) {
    let (timer, length) = match call.state {
        State::N3 | State::N10 => ("", 0),
        State::N6 { .. } => ("T303", T303),
        State::N9 { .. } => ("T310", T310),
        State::N12(_) => ("T308", T308),
    };
    if let Some(deadline) = call.state.deadline() {
        let most = deadline == table.reading + length;
        rows.hit_if(most, &format!("RL-0-most-{timer}"));
        rows.hit_if(deadline <= table.reading, "RL-0-due");
        rows.hit_if(deadline > READING_LIMIT, "RL-0-past");
    }
    let reference = call.reference;
    let over = reference.flag && reference.value > 32;
    rows.hit_if(over, "RL-0-over-32");
    rows.hit_if(reference.value == 8_388_607, "RL-0-8388607");
    rows.hit(&format!("RL-0-{}", kind(call)));
}

fn kind(call: &Call) -> String {
    let State::N12(clearing) = call.state else {
        return place(call);
    };
    let times = if clearing.second { "second" } else { "first" };
    let own = if clearing.cause == 102 { "-102" } else { "" };
    format!("{}-{times}{own}", place(call))
}

/// Events on a table that was reloaded.
fn hit_after(rows: &mut Rows, seen: &Seen<'_>) {
    let (Some(before), Some(after), Some(reloaded)) = (seen.before, seen.after, seen.reloaded)
    else {
        return;
    };
    let old = before == reloaded && seen.row() == Row::ReadingBack;
    rows.hit_if(old, "AF-4");
    if let (Some((slot, call)), true) = (seen.call, seen.accepted()) {
        let kept = reloaded.calls[slot] == Some(call);
        rows.hit_if(kept, &format!("AF-{}", place(&call)));
    }
    if let Row::SetupAccepted | Row::HostOffer = seen.row() {
        for slot in seen.answer.flags.slots() {
            let pair = after.calls[slot].map(|call| call.pair);
            let apart = after.pool.permitted().nth(slot) != pair;
            rows.hit_if(apart, "AF-apart");
        }
    }
}
