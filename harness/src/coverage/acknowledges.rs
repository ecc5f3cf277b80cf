//! RESTART ACKNOWLEDGE: of what, and what it does.

use super::history::{Ended, History};
use super::{place, Rows, Seen, PLACES};
use crate::controller::{Named, Table, UnderWay, READING_LIMIT};
use crate::decode::{Pair, Part, Received, Walk, CONNECTION, RESTART};
use crate::rows::Row;

const TAKEN: [(&str, &str); 16] = [
    ("AK-1-others", "other calls and doubts stay"),
    ("AK-2-others", "no call on the pair, others stay"),
    ("AK-2-doubt", "the doubt of the pair ends, notice 0"),
    ("AK-3-doubt", "of all: doubts end, and calls are gone"),
    ("AK-4-doubt", "of all: doubts end, notice 0"),
    ("AK-2-marked", "the mark of the pair stays"),
    ("AK-4-marked", "of all: the marks of single pairs stay"),
    ("AK-all", "the mark of all stays"),
    ("AK-first", "while the first T316 runs"),
    ("AK-second", "while the second T316 runs"),
    ("AK-late", "after the deadline of T316"),
    ("AK-past", "with T316 past the largest reading"),
    ("AK-reloaded", "of a RESTART that was reloaded"),
    ("AK-turned", "5A before 79"),
    ("AK-again", "another 79 or 5A behind the right one"),
    ("AK-5A", "of all: a 5A is not looked at"),
];

const DISCARDED: [(&str, &str); 12] = [
    ("AK-5-one", "79 absent while one pair waits"),
    ("AK-5-all", "79 absent while all waits"),
    ("AK-6-one", "79 unreadable while one pair waits"),
    ("AK-6-all", "79 unreadable while all waits"),
    ("AK-7-same", "82 with the 5A of the pair"),
    ("AK-7-calls", "82 for one pair: every call stays"),
    ("AK-8-held", "80 of a held pair for all: its call stays"),
    ("AK-11-held", "80 of another pair: its call stays"),
    ("AK-11-doubt", "80 of another pair: its doubt stays"),
    ("AK-11-vpci", "80 of another VPCI with the same VCI"),
    ("AK-11-vci", "80 of another VCI with the same VPCI"),
    (
        "AK-11-again",
        "80 of another pair, with the right one behind it",
    ),
];

const NONE: [(&str, &str); 3] = [
    ("S3-G2-again", "a second acknowledge of a RESTART: 101"),
    ("S3-G2-late", "an acknowledge after the second T316: 101"),
    (
        "S3-G3-waits",
        "an acknowledge with flag 0 while one waits: 81",
    ),
];

pub fn list(rows: &mut Rows) {
    for state in PLACES {
        for row in [Row::AcknowledgeHeld, Row::AcknowledgeAll] {
            let id = row.id();
            let words = format!("{id}: a call in {state} goes");
            rows.add(format!("{id}-{state}"), words);
        }
    }
    for (id, words) in TAKEN.into_iter().chain(DISCARDED).chain(NONE) {
        rows.add(id, format!("RESTART ACKNOWLEDGE: {words}"));
    }
}

pub fn hit(rows: &mut Rows, seen: &Seen<'_>, history: &History) {
    let (Some(before), Some(received)) = (seen.before, seen.received) else {
        return;
    };
    if seen.row() == Row::GlobalAcknowledge {
        rows.hit_if(history.ended == Some(Ended::Acknowledged), "S3-G2-again");
        rows.hit_if(history.ended == Some(Ended::GivenUp), "S3-G2-late");
    }
    let Some(under_way) = before.under_way else {
        return;
    };
    let acknowledge = received.kind == crate::types::RESTART_ACKNOWLEDGE;
    let wrong = seen.row() == Row::GlobalElse && acknowledge;
    rows.hit_if(wrong && !received.flag, "S3-G3-waits");
    match seen.row() {
        Row::AcknowledgeHeld
        | Row::AcknowledgeFree
        | Row::AcknowledgeAll
        | Row::AcknowledgeNone => {
            hit_gone(rows, seen, before);
            hit_kept(rows, seen, before, under_way);
            hit_when(rows, seen, under_way);
            hit_elements(rows, &received, under_way);
        }
        _ => hit_discarded(rows, seen.row(), &received, before, under_way.named),
    }
}

fn hit_gone(rows: &mut Rows, seen: &Seen<'_>, before: &Table) {
    for slot in seen.answer.flags.slots() {
        let call = before.calls[slot].iter();
        call.for_each(|call| rows.hit(&format!("{}-{}", seen.row().id(), place(call))));
    }
}

fn hit_kept(rows: &mut Rows, seen: &Seen<'_>, before: &Table, under_way: UnderWay) {
    let Some(after) = seen.after else {
        return;
    };
    let others = after.live().next().is_some() && !after.doubts.is_empty();
    let ended = before.doubts.len() > after.doubts.len();
    let single = &after.marks.single;
    match (seen.row(), under_way.named) {
        (Row::AcknowledgeHeld, _) => rows.hit_if(others, "AK-1-others"),
        (Row::AcknowledgeFree, Named::One(pair)) => {
            rows.hit_if(others, "AK-2-others");
            rows.hit_if(ended, "AK-2-doubt");
            rows.hit_if(single.contains(&pair), "AK-2-marked");
        }
        (Row::AcknowledgeAll, _) => rows.hit_if(ended, "AK-3-doubt"),
        _ => {
            rows.hit_if(ended, "AK-4-doubt");
            rows.hit_if(!single.is_empty(), "AK-4-marked");
        }
    }
    rows.hit_if(after.marks.all, "AK-all");
}

fn hit_when(rows: &mut Rows, seen: &Seen<'_>, under_way: UnderWay) {
    let second = under_way.second;
    rows.hit(if second { "AK-second" } else { "AK-first" });
    let reading = seen.event.request().map_or(0, |request| request.reading);
    rows.hit_if(under_way.deadline <= reading, "AK-late");
    rows.hit_if(under_way.deadline > READING_LIMIT, "AK-past");
    let reloaded = seen.reloaded.and_then(|table| table.under_way);
    rows.hit_if(reloaded == Some(under_way), "AK-reloaded");
}

/// The elements of an acknowledge that is taken.
fn hit_elements(rows: &mut Rows, received: &Received<'_>, under_way: UnderWay) {
    let ids = Walk::new(received.body).map(|element| element.id);
    let ids: Vec<u8> = ids
        .filter(|id| [CONNECTION, RESTART].contains(id))
        .collect();
    if under_way.named == Named::All {
        rows.hit_if(ids.contains(&CONNECTION), "AK-5A");
    } else {
        rows.hit_if(ids[0] == CONNECTION, "AK-turned");
        rows.hit_if(ids.len() > 2, "AK-again");
    }
}

fn hit_discarded(rows: &mut Rows, row: Row, received: &Received<'_>, before: &Table, named: Named) {
    let pair = match received.connection() {
        Part::Readable(pair) => Some(pair),
        _ => None,
    };
    let held = pair.is_some_and(|pair| before.holds(pair));
    match (row, named) {
        (Row::AcknowledgeIndicatorAbsent | Row::AcknowledgeIndicatorUnreadable, Named::One(_)) => {
            rows.hit(&format!("{}-one", row.id()));
        }
        (Row::AcknowledgeIndicatorAbsent | Row::AcknowledgeIndicatorUnreadable, Named::All) => {
            rows.hit(&format!("{}-all", row.id()));
        }
        (Row::AcknowledgeOfAll, Named::One(named)) => {
            rows.hit_if(pair == Some(named), "AK-7-same");
            rows.hit_if(before.live().next().is_some(), "AK-7-calls");
        }
        (Row::AcknowledgeOfOne, _) => rows.hit_if(held, "AK-8-held"),
        (Row::AcknowledgeOfOther, Named::One(named)) => {
            rows.hit_if(held, "AK-11-held");
            pair.iter()
                .for_each(|&pair| hit_other(rows, received, before, (pair, named)));
        }
        _ => {}
    }
}

/// Another pair than the one that waits.
fn hit_other(
    rows: &mut Rows,
    received: &Received<'_>,
    before: &Table,
    (other, named): (Pair, Pair),
) {
    rows.hit_if(before.doubts.contains(&other), "AK-11-doubt");
    rows.hit_if(other.vci == named.vci, "AK-11-vpci");
    rows.hit_if(other.vpci == named.vpci, "AK-11-vci");
    let right = crate::compose::connection(named);
    let mut behind = Walk::new(received.body).filter(|element| element.id == CONNECTION);
    let again = behind.any(|element| element.contents == Some(&right[4..]));
    rows.hit_if(again, "AK-11-again");
}
