//! restart and put-back: what is asked for, and what there is.

use super::history::History;
use super::{Rows, Seen};
use crate::controller::{Named, Table, UnderWay, Wanted, MARKS, READING_LIMIT};
use crate::decode::Pair;
use crate::exchange::Event;
use crate::rows::Row;

const REFUSED: [(&str, &str); 9] = [
    ("RF-13-1-one", "restart of one pair while one waits"),
    ("RF-13-1-all", "restart of all while one waits"),
    ("RF-13-1-same", "restart of the pair that waits"),
    ("RF-13-2-range", "restart of a pair in no range"),
    ("RF-13-2-permanent", "restart of a permanent pair"),
    ("RF-13-2-vpci", "restart of a VPCI over 16 bits"),
    ("RF-13-2-vci", "restart of a VCI over 16 bits"),
    ("RF-13-both", "a pair not permitted while one waits"),
    ("RF-13-after", "1 to 4 where 13 applies too"),
];

const SENT: [(&str, &str); 12] = [
    ("HO-4-free", "restart of a free pair"),
    ("HO-4-held", "restart of a held pair"),
    ("HO-4-doubt", "restart of a pair in doubt"),
    ("HO-4-marked", "restart of a marked pair"),
    ("HO-4-all", "restart of a pair while all is marked"),
    ("HO-4-again", "restart after another one ended"),
    ("HO-4-past", "T316 runs past the largest reading"),
    ("HO-5-calls", "restart of all with calls"),
    ("HO-5-doubt", "restart of all with pairs in doubt"),
    ("HO-5-marked", "restart of all with marked pairs"),
    ("HO-5-all", "restart of all while all is marked"),
    ("HO-5-none", "restart of all where no pair is permitted"),
];

const PUT_BACK: [(&str, &str); 7] = [
    ("HO-6-none", "put-back of nothing"),
    ("HO-6-single", "put-back of single pairs"),
    ("HO-6-64", "put-back of sixty-four pairs"),
    ("HO-6-all", "put-back of all"),
    (
        "HO-6-beside",
        "put-back of all and of single pairs beside it",
    ),
    ("HO-6-waits", "put-back while T316 runs"),
    (
        "HO-6-same",
        "put-back of the pair that waits, which stays not free",
    ),
];

pub fn list(rows: &mut Rows) {
    for (id, words) in REFUSED.into_iter().chain(SENT).chain(PUT_BACK) {
        rows.add(id, words);
    }
}

pub fn hit(rows: &mut Rows, seen: &Seen<'_>, history: &History) {
    let Some(table) = seen.before else {
        return;
    };
    match (seen.event, seen.row()) {
        (Event::Restart(_, wanted), Row::RestartSecond) => hit_second(rows, table, *wanted),
        (Event::Restart(_, wanted), Row::RestartNotPermitted) => hit_other(rows, table, *wanted),
        (Event::Restart(_, wanted), Row::HostRestartOne | Row::HostRestartAll) => {
            hit_sent(rows, table, *wanted);
            rows.hit_if(history.has_ended(), "HO-4-again");
            let past = seen.after.and_then(|after| after.under_way);
            let past = past.is_some_and(|under_way| under_way.deadline > READING_LIMIT);
            rows.hit_if(past, "HO-4-past");
        }
        (Event::Restart(_, wanted), _) => {
            let thirteen = table.under_way.is_some() || !permitted(table, *wanted);
            rows.hit_if(thirteen, "RF-13-after");
        }
        (_, Row::HostPutBack) => hit_put_back(rows, table),
        _ => {}
    }
}

fn permitted(table: &Table, wanted: Wanted) -> bool {
    let right = |pair: Pair| table.pool.within(pair) && !table.pool.is_permanent(pair);
    match wanted.named() {
        None => false,
        Some(Named::All) => true,
        Some(Named::One(pair)) => right(pair),
    }
}

fn hit_second(rows: &mut Rows, table: &Table, wanted: Wanted) {
    let named = table.under_way.map(|under_way| under_way.named);
    rows.hit(match wanted {
        Wanted::One { .. } => "RF-13-1-one",
        Wanted::All => "RF-13-1-all",
    });
    let same = wanted != Wanted::All && wanted.named() == named;
    rows.hit_if(same, "RF-13-1-same");
    rows.hit_if(!permitted(table, wanted), "RF-13-both");
}

fn hit_other(rows: &mut Rows, table: &Table, wanted: Wanted) {
    let Wanted::One { vpci, vci } = wanted else {
        return;
    };
    rows.hit_if(vpci > 0xffff, "RF-13-2-vpci");
    rows.hit_if(vci > 0xffff, "RF-13-2-vci");
    if let Some(Named::One(pair)) = wanted.named() {
        let permanent = table.pool.is_permanent(pair);
        rows.hit_if(permanent, "RF-13-2-permanent");
        rows.hit_if(!permanent, "RF-13-2-range");
    }
}

fn hit_sent(rows: &mut Rows, table: &Table, wanted: Wanted) {
    let (marks, single) = (&table.marks, !table.marks.single.is_empty());
    match wanted.named() {
        Some(Named::One(pair)) => {
            let (held, doubt) = (table.holds(pair), table.doubts.contains(&pair));
            rows.hit_if(held, "HO-4-held");
            rows.hit_if(doubt, "HO-4-doubt");
            rows.hit_if(marks.single.contains(&pair), "HO-4-marked");
            rows.hit_if(marks.all, "HO-4-all");
            rows.hit_if(!held && !doubt && !marks.has(pair), "HO-4-free");
        }
        _ => {
            rows.hit_if(table.live().next().is_some(), "HO-5-calls");
            rows.hit_if(!table.doubts.is_empty(), "HO-5-doubt");
            rows.hit_if(single, "HO-5-marked");
            rows.hit_if(marks.all, "HO-5-all");
            let none = table.pool.permitted().next().is_none();
            rows.hit_if(none, "HO-5-none");
        }
    }
}

fn hit_put_back(rows: &mut Rows, table: &Table) {
    let marks = &table.marks;
    rows.hit(match (marks.all, marks.single.len()) {
        (false, 0) => "HO-6-none",
        (false, MARKS) => "HO-6-64",
        (false, _) => "HO-6-single",
        (true, 0) => "HO-6-all",
        (true, _) => "HO-6-beside",
    });
    if let Some(UnderWay { named, .. }) = table.under_way {
        rows.hit("HO-6-waits");
        let same = marks.single.iter().any(|&pair| named == Named::One(pair));
        rows.hit_if(same, "HO-6-same");
    }
}
