//! RESTART: what its pair is, and which calls go.

use super::setups::damage_id;
use super::{place, Rows, Seen, PLACES};
use crate::controller::Pool;
use crate::decode::{Pair, Part, CONNECTION, RESTART};
use crate::rows::Row;

const CASES: [(&str, &str); 11] = [
    ("RS-5-vci", "an unknown VPCI comes before a VCI under 32"),
    ("RS-6-31", "VCI 31"),
    ("RS-6-pair", "VCI under 32, VPCI of a permanent pair alone"),
    ("RS-9-permitted", "a permitted pair that is free"),
    ("RS-9-outside", "a pair outside every range, VPCI known"),
    ("RS-9-pair", "VPCI of a permanent pair alone, another VCI"),
    ("RS-10-full", "all thirty-two calls are gone"),
    ("RS-10-both", "calls of both sides are gone"),
    ("RS-10-5A", "82 with an unreadable 5A"),
    (
        "RS-ack-turned",
        "5A before 79, acknowledged in the usual order",
    ),
    ("RS-10-permanent", "82 where permanent pairs are"),
];

pub fn list(rows: &mut Rows) {
    for state in PLACES {
        rows.add(
            format!("RS-8-{state}"),
            format!("a call in {state} goes by 80"),
        );
        rows.add(
            format!("RS-10-{state}"),
            format!("a call in {state} goes by 82"),
        );
    }
    for (id, words) in CASES {
        rows.add(id, words);
    }
}

pub fn hit(rows: &mut Rows, seen: &Seen<'_>) {
    let (Some(received), Some(before)) = (seen.received, seen.before) else {
        return;
    };
    let row = seen.row();
    match (row, received.restart(), received.connection()) {
        (Row::RestartIndicatorUnreadable, Part::Unreadable(damage), _) => {
            rows.hit(&damage_id(RESTART, damage));
        }
        (Row::RestartConnectionUnreadable, _, Part::Unreadable(damage)) => {
            rows.hit(&damage_id(CONNECTION, damage));
        }
        (_, Part::Readable(_), Part::Readable(pair)) => hit_pair(rows, row, &before.pool, pair),
        _ => {}
    }
    if let Row::RestartHeld | Row::RestartAll = row {
        for slot in seen.answer.flags.slots() {
            let call = before.calls[slot].iter();
            call.for_each(|call| rows.hit(&format!("{}-{}", row.id(), place(call))));
        }
    }
    if let Row::RestartHeld | Row::RestartFree = row {
        let ids = crate::decode::Walk::new(received.body).map(|element| element.id);
        let first = ids
            .into_iter()
            .find(|id| [CONNECTION, RESTART].contains(id));
        rows.hit_if(first == Some(CONNECTION), "RS-ack-turned");
    }
    if row == Row::RestartAll {
        hit_all(rows, seen, received.connection().damage().is_some());
    }
}

fn hit_pair(rows: &mut Rows, row: Row, pool: &Pool, pair: Pair) {
    let within = pool.ranges.iter().any(|range| range.has(pair));
    let alone = !pool.ranges.iter().any(|range| range.vpci == pair.vpci);
    rows.hit_if(row == Row::RestartVpci && pair.vci < 32, "RS-5-vci");
    rows.hit_if(row == Row::RestartVci && pair.vci == 31, "RS-6-31");
    rows.hit_if(row == Row::RestartVci && alone, "RS-6-pair");
    let free = row == Row::RestartFree;
    rows.hit_if(free && within, "RS-9-permitted");
    rows.hit_if(free && !within && !alone, "RS-9-outside");
    rows.hit_if(free && alone, "RS-9-pair");
}

fn hit_all(rows: &mut Rows, seen: &Seen<'_>, damaged: bool) {
    let Some(before) = seen.before else {
        return;
    };
    let sides = |flag: bool| before.live().any(|(_, call)| call.reference.flag == flag);
    rows.hit_if(before.empty_slot().is_none(), "RS-10-full");
    rows.hit_if(sides(false) && sides(true), "RS-10-both");
    rows.hit_if(damaged, "RS-10-5A");
    rows.hit_if(!before.pool.permanent.is_empty(), "RS-10-permanent");
}
