//! Pairs in doubt: how they come, what they keep from others, how they end.

use super::{Rows, Seen};
use crate::controller::{Call, Table, DOUBTS, SLOTS};
use crate::decode::{Pair, Part};
use crate::exchange::Event;
use crate::rows::Row;
use crate::types::RESTART;
use std::collections::BTreeSet;

const BEGUN: [(&str, &str); 8] = [
    ("DB-first", "the first pair goes in doubt"),
    ("DB-64", "the sixty-fourth pair goes in doubt"),
    ("DB-below", "a pair goes in doubt below another in doubt"),
    ("DB-above", "a pair goes in doubt above another in doubt"),
    ("DB-wait-again", "a waiting call waits again"),
    (
        "DB-wait-done",
        "a waiting call tries again after a RESTART, its pair in doubt",
    ),
    ("DB-wait-gone", "a waiting call goes by a message"),
    (
        "DB-wait-more",
        "a call waits, and another timer is due afterwards",
    ),
];

const ENDED: [(&str, &str); 9] = [
    ("RS-8-doubt", "80 of a held pair leaves the doubts"),
    ("RS-9-doubt", "80 ends the doubt of its pair, notice 0"),
    ("RS-9-doubt-64", "80 ends one of sixty-four doubts"),
    ("RS-9-doubt-other", "80 of a free pair leaves the doubts"),
    ("RS-10-doubt", "82 ends doubts, and calls are gone"),
    (
        "RS-10-doubt-64",
        "82 ends sixty-four doubts, and calls are gone",
    ),
    ("RS-11-doubt", "82 ends doubts alone, notice 0"),
    ("S5-doubt", "RESTART with a wrong length ends no doubt"),
    ("AF-doubt", "RESTART ends a doubt that was reloaded"),
];

const FREE: [(&str, &str); 8] = [
    ("SE-45-doubt", "SETUP: 45 where a pair is in doubt"),
    ("SE-45-doubt-only", "SETUP: 45 where no call holds a pair"),
    ("RF-12-doubt", "offer: 12 where a pair is in doubt"),
    ("RF-12-doubt-only", "offer: 12 where no call holds a pair"),
    ("SE-0-doubt", "SETUP: a lower pair in doubt is passed over"),
    ("HO-3-doubt", "offer: a lower pair in doubt is passed over"),
    ("SE-0-ended", "SETUP: a pair whose doubt a RESTART ended"),
    ("HO-3-ended", "offer: a pair whose doubt a RESTART ended"),
];

/// The rows of a RESTART that gets STATUS.
const REFUSED: [Row; 7] = [
    Row::RestartIndicatorAbsent,
    Row::RestartIndicatorUnreadable,
    Row::RestartConnectionAbsent,
    Row::RestartConnectionUnreadable,
    Row::RestartVpci,
    Row::RestartVci,
    Row::RestartPermanent,
];

/// What came of doubts since the last start or reload.
#[derive(Clone, Debug, Default)]
pub struct History {
    /// The calls whose second T308 started again.
    waiting: [Option<Call>; SLOTS],
    /// The pairs whose doubt a RESTART ended.
    ended: BTreeSet<Pair>,
}

pub fn list(rows: &mut Rows) {
    for (id, words) in BEGUN.into_iter().chain(ENDED).chain(FREE) {
        rows.add(id, words);
    }
    for row in REFUSED {
        let id = row.id();
        rows.add(format!("{id}-doubt"), format!("{id} ends no doubt"));
    }
    for row in &REFUSED[..2] {
        let id = row.id();
        let words = format!("{id} with the 5A of a pair in doubt");
        rows.add(format!("{id}-doubt-named"), words);
    }
}

pub fn hit(rows: &mut Rows, seen: &Seen<'_>, history: &mut History) {
    if let Event::Start { .. } | Event::Reload(_) = seen.event {
        *history = History::default();
        return;
    }
    let (Some(before), Some(after)) = (seen.before, seen.after) else {
        return;
    };
    hit_waiting(rows, seen, history, (before, after));
    match seen.row() {
        Row::T308Second => hit_begun(rows, before, after),
        Row::RestartHeld | Row::RestartFree | Row::RestartAll | Row::RestartNone => {
            let ended = before.doubts.difference(&after.doubts);
            history.ended.extend(ended);
            hit_ended(rows, seen, before, after);
        }
        Row::SetupNoPair => hit_none(rows, before, "SE-45-doubt"),
        Row::OfferNoPair => hit_none(rows, before, "RF-12-doubt"),
        Row::SetupAccepted => hit_taken(rows, seen, history, "SE-0"),
        Row::HostOffer => hit_taken(rows, seen, history, "HO-3"),
        _ if !before.doubts.is_empty() => hit_refused(rows, seen, before),
        _ => {}
    }
}

fn hit_begun(rows: &mut Rows, before: &Table, after: &Table) {
    let begun = after.doubts.difference(&before.doubts).next();
    rows.hit_if(before.doubts.is_empty(), "DB-first");
    rows.hit_if(after.doubts.len() == DOUBTS, "DB-64");
    rows.hit_if(begun < before.doubts.last(), "DB-below");
    let first = before.doubts.first();
    rows.hit_if(first.is_some() && first < begun, "DB-above");
}

/// Calls that begin to wait, wait on, or go.
fn hit_waiting(
    rows: &mut Rows,
    seen: &Seen<'_>,
    history: &mut History,
    (before, after): (&Table, &Table),
) {
    for slot in 0..SLOTS {
        let (was, is) = (before.calls[slot], after.calls[slot]);
        if was == is {
            continue;
        }
        let waited = was.is_some() && history.waiting[slot] == was;
        match seen.row() {
            Row::T308Waits => {
                rows.hit_if(waited, "DB-wait-again");
                rows.hit_if(seen.answer.more, "DB-wait-more");
                history.waiting[slot] = is;
            }
            Row::T308Second => rows.hit_if(waited, "DB-wait-done"),
            Row::T316Gone => {}
            _ => rows.hit_if(waited, "DB-wait-gone"),
        }
    }
}

fn hit_ended(rows: &mut Rows, seen: &Seen<'_>, before: &Table, after: &Table) {
    let were = before.doubts.len();
    let ended = were - after.doubts.len();
    match seen.row() {
        Row::RestartHeld => rows.hit_if(were > 0, "RS-8-doubt"),
        Row::RestartFree => {
            rows.hit_if(ended > 0, "RS-9-doubt");
            rows.hit_if(ended > 0 && were == DOUBTS, "RS-9-doubt-64");
            rows.hit_if(were > 0 && ended == 0, "RS-9-doubt-other");
        }
        Row::RestartAll => {
            rows.hit_if(ended > 0, "RS-10-doubt");
            rows.hit_if(ended == DOUBTS, "RS-10-doubt-64");
        }
        _ => rows.hit_if(ended > 0, "RS-11-doubt"),
    }
    let mut gone = before.doubts.difference(&after.doubts);
    let kept = |table: &Table| gone.any(|pair| table.doubts.contains(pair));
    rows.hit_if(seen.reloaded.is_some_and(kept), "AF-doubt");
}

fn hit_none(rows: &mut Rows, before: &Table, id: &str) {
    let doubts = !before.doubts.is_empty();
    rows.hit_if(doubts, id);
    let only = doubts && before.live().next().is_none();
    rows.hit_if(only, &format!("{id}-only"));
}

/// The pair of a new call.
fn hit_taken(rows: &mut Rows, seen: &Seen<'_>, history: &mut History, id: &str) {
    let Some(after) = seen.after else {
        return;
    };
    for slot in seen.answer.flags.slots() {
        let pair = after.calls[slot].map(|call| call.pair);
        let first = after.doubts.first().copied();
        let passed = first.is_some() && first < pair;
        rows.hit_if(passed, &format!("{id}-doubt"));
        let ended = pair.is_some_and(|pair| history.ended.remove(&pair));
        rows.hit_if(ended, &format!("{id}-ended"));
    }
}

/// A RESTART that is not acted on, with pairs in doubt.
fn hit_refused(rows: &mut Rows, seen: &Seen<'_>, before: &Table) {
    let (Some(received), row) = (seen.received, seen.row()) else {
        return;
    };
    let id = row.id();
    rows.hit_if(REFUSED.contains(&row), &format!("{id}-doubt"));
    let global = received.kind == RESTART && received.reference == 0;
    rows.hit_if(global && row == Row::LengthField, "S5-doubt");
    if let (Part::Readable(pair), true) = (received.connection(), REFUSED[..2].contains(&row)) {
        let named = before.doubts.contains(&pair);
        rows.hit_if(named, &format!("{id}-doubt-named"));
    }
}
