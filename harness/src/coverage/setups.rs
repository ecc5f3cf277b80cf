//! SETUP: the elements that refuse it, the order of the causes, and what is
//! accepted.

use super::{Rows, Seen};
use crate::controller::SLOTS;
use crate::decode::*;
use crate::rows::Row;

/// The ways in which each element can be unreadable.
pub const DAMAGES: [(u8, &[Damage]); 8] = {
    use Damage::*;
    [
        (CAUSE, &[Overrun, Octet2, Length, Value(1), Value(2)]),
        (CALL_STATE, &[Overrun, Octet2, Length, Value(1)]),
        (TRAFFIC, &[Overrun, Octet2, Unknown, Cut, Twice]),
        (CONNECTION, &[Overrun, Octet2, Length, Value(1)]),
        (QOS, &[Overrun, Octet2, Length, Value(1), Value(2)]),
        (
            BEARER,
            &[Overrun, Octet2, Length, Value(1), Value(2), Value(3)],
        ),
        (CALLED, &[Overrun, Octet2, Length, Value(1), Value(2)]),
        (RESTART, &[Overrun, Octet2, Length, Value(1)]),
    ]
};

pub fn damage_id(id: u8, damage: Damage) -> String {
    let name = match damage {
        Damage::Overrun => "overrun".to_string(),
        Damage::Octet2 => "octet2".to_string(),
        Damage::Length => "length".to_string(),
        Damage::Value(place) => format!("value-{place}"),
        Damage::Unknown => "unknown".to_string(),
        Damage::Cut => "cut".to_string(),
        Damage::Twice => "twice".to_string(),
    };
    format!("EL-{id:02X}-{name}")
}

const ORDER: [(&str, &str); 6] = [
    ("SE-96-100", "96 where 100 applies too"),
    ("SE-100-65", "100 where 65 applies too"),
    ("SE-65-73", "65 where 73 applies too"),
    ("SE-73-47", "73 where 47 applies too"),
    ("SE-47-45", "47 where 45 applies too"),
    ("SE-73-45", "73 where 45 applies too"),
];

const ACCEPTED: [(&str, &str); 14] = [
    ("SE-0-network", "value of a live network-originated call"),
    ("SE-0-gap", "lowest empty slot under a full one"),
    ("SE-0-last", "slot 31"),
    ("SE-0-range", "a pair not of the first range"),
    ("SE-0-permanent", "a permanent pair is passed over"),
    ("SE-0-5A", "a 5A in SETUP is looked at by nobody"),
    (
        "SE-0-other",
        "a damaged 08, 14 or 79 in SETUP is looked at by nobody",
    ),
    ("SE-0-BE", "BE with 84 85"),
    ("SE-0-BF", "BF without BE"),
    ("SE-0-10", "5E of three octets"),
    ("SE-0-82", "70 with 20 octets"),
    ("SE-0-E0", "QoS with octet 2 E0"),
    ("SE-0-falling", "the four elements not in ascending order"),
    ("SE-0-again", "a repeat of one of the four behind it"),
];

const WALKS: [(&str, &str); 5] = [
    ("EW-left-1", "1 octet left ends the walk"),
    ("EW-left-2", "2 octets left end the walk"),
    ("EW-left-3", "3 octets left end the walk"),
    ("EW-unknown", "an unknown identifier is skipped"),
    (
        "EW-overrun",
        "an unknown element that overruns ends the walk",
    ),
];

pub fn list(rows: &mut Rows) {
    for (id, damages) in DAMAGES {
        for &damage in damages {
            let words = format!("{id:02X} present and unreadable, decisive");
            rows.add(damage_id(id, damage), words);
        }
    }
    for cause in ["96", "100"] {
        for id in MANDATORY {
            rows.add(
                format!("SE-{cause}-{id:02X}"),
                format!("{cause} names {id:02X}"),
            );
        }
        rows.add(
            format!("SE-{cause}-several"),
            format!("{cause} names several"),
        );
    }
    rows.add("SE-73-84", "84 absent");
    rows.add("SE-73-85", "85 absent");
    rows.add("SE-73-BE", "BE with any but 84 85 BF");
    rows.add("SE-73-empty", "an empty 59");
    for (id, words) in ORDER.into_iter().chain(ACCEPTED).chain(WALKS) {
        rows.add(id, words);
    }
    rows.add(
        "EW-bad-good",
        "first unreadable and second readable is unreadable",
    );
    rows.add(
        "EW-good-bad",
        "first readable and second damaged is readable",
    );
}

pub fn hit(rows: &mut Rows, seen: &Seen<'_>) {
    let Some(received) = seen.received else {
        return;
    };
    match seen.row() {
        Row::SetupMissing => hit_missing(rows, &received),
        Row::SetupUnreadable => hit_unreadable(rows, &received),
        Row::SetupMulti => {
            rows.hit_if(!passes(&received), "SE-65-73");
        }
        Row::SetupTraffic => hit_traffic(rows, seen, &received),
        Row::SetupNoSlot => {
            let none = seen.before.is_some_and(|table| table.free_pair().is_none());
            rows.hit_if(none, "SE-47-45");
        }
        Row::SetupAccepted => {
            hit_place(rows, seen);
            hit_accepted(rows, &received);
        }
        Row::SetupNoPair => {}
        _ => return,
    }
    hit_walk(rows, &received);
}

fn passes(received: &Received<'_>) -> bool {
    matches!(received.traffic(), Part::Readable(subfields) if subfields.pass())
}

/// The damages of the four elements of a SETUP.
fn damages(received: &Received<'_>) -> [(u8, Option<Damage>); 4] {
    [
        (TRAFFIC, received.traffic().damage()),
        (QOS, received.qos().damage()),
        (BEARER, received.bearer().damage()),
        (CALLED, received.called().damage()),
    ]
}

fn hit_missing(rows: &mut Rows, received: &Received<'_>) {
    let present = |id: u8| Walk::new(received.body).any(|element| element.id == id);
    let missing: Vec<u8> = MANDATORY.into_iter().filter(|&id| !present(id)).collect();
    for id in &missing {
        rows.hit(&format!("SE-96-{id:02X}"));
    }
    rows.hit_if(missing.len() > 1, "SE-96-several");
    let damaged = damages(received).iter().any(|damage| damage.1.is_some());
    rows.hit_if(damaged, "SE-96-100");
}

fn hit_unreadable(rows: &mut Rows, received: &Received<'_>) {
    let mut number = 0;
    for (id, damage) in damages(received) {
        let Some(damage) = damage else {
            continue;
        };
        number += 1;
        rows.hit(&format!("SE-100-{id:02X}"));
        rows.hit(&damage_id(id, damage));
        let mut behind = Walk::new(received.body)
            .filter(|element| element.id == id)
            .skip(1);
        let again = behind.any(|element| readable_alone(id, &element));
        rows.hit_if(again, "EW-bad-good");
    }
    rows.hit_if(number > 1, "SE-100-several");
    let multi = received.bearer() == Part::Readable(Bearer::Multi);
    rows.hit_if(multi, "SE-100-65");
}

/// Whether an element would be readable if it were the only one.
fn readable_alone(id: u8, element: &Element<'_>) -> bool {
    let Some(contents) = element.contents else {
        return false;
    };
    let body = crate::compose::raw(id, element.octet2, contents.len(), contents);
    let alone = Received {
        flag: false,
        reference: 1,
        kind: 0,
        length_right: true,
        body: &body,
    };
    damages(&alone).iter().all(|damage| damage.1.is_none())
}

fn hit_traffic(rows: &mut Rows, seen: &Seen<'_>, received: &Received<'_>) {
    let Part::Readable(subfields) = received.traffic() else {
        return;
    };
    let both = subfields.has(0x84) && subfields.has(0x85);
    rows.hit_if(!subfields.has(0x84), "SE-73-84");
    rows.hit_if(!subfields.has(0x85), "SE-73-85");
    rows.hit_if(both, "SE-73-BE");
    rows.hit_if(subfields == Subfields::default(), "SE-73-empty");
    let (slot, pair) = seen.before.map_or((None, None), |table| {
        (table.empty_slot(), table.free_pair())
    });
    rows.hit_if(slot.is_none(), "SE-73-47");
    rows.hit_if(slot.is_some() && pair.is_none(), "SE-73-45");
}

fn hit_place(rows: &mut Rows, seen: &Seen<'_>) {
    let (Some(before), Some(after)) = (seen.before, seen.after) else {
        return;
    };
    let slot = seen.answer.flags.slots().next().unwrap_or(SLOTS);
    let Some(call) = after.calls.get(slot).copied().flatten() else {
        return;
    };
    let value = call.reference.value;
    let network = before
        .live()
        .any(|(_, live)| live.reference.flag && live.reference.value == value);
    let range = after
        .pool
        .ranges
        .iter()
        .position(|range| range.has(call.pair));
    let passed = after
        .pool
        .permanent
        .iter()
        .any(|&pair| pair < call.pair && after.pool.ranges.iter().any(|range| range.has(pair)));
    rows.hit_if(network, "SE-0-network");
    rows.hit_if(before.live().any(|(live, _)| live > slot), "SE-0-gap");
    rows.hit_if(slot == SLOTS - 1, "SE-0-last");
    rows.hit_if(range > Some(0), "SE-0-range");
    rows.hit_if(passed, "SE-0-permanent");
}

fn hit_accepted(rows: &mut Rows, received: &Received<'_>) {
    let Part::Readable(subfields) = received.traffic() else {
        return;
    };
    let first = |id: u8| Walk::new(received.body).find(|element| element.id == id);
    let contents = |id: u8| {
        first(id)
            .and_then(|element| element.contents)
            .unwrap_or(&[])
    };
    let others = [received.cause().damage(), received.call_state().damage()];
    let other = others.iter().any(Option::is_some) || received.restart().damage().is_some();
    let ids = Walk::new(received.body).map(|element| element.id);
    let four: Vec<u8> = ids.filter(|id| MANDATORY.contains(id)).collect();
    rows.hit_if(first(CONNECTION).is_some(), "SE-0-5A");
    rows.hit_if(other, "SE-0-other");
    rows.hit_if(subfields.has(0xbe), "SE-0-BE");
    rows.hit_if(subfields.has(0xbf) && !subfields.has(0xbe), "SE-0-BF");
    rows.hit_if(contents(BEARER).first() == Some(&0x10), "SE-0-10");
    rows.hit_if(contents(CALLED).first() == Some(&0x82), "SE-0-82");
    rows.hit_if(first(QOS).is_some_and(|qos| qos.octet2 == 0xe0), "SE-0-E0");
    rows.hit_if(!four.is_sorted(), "SE-0-falling");
    rows.hit_if(four.len() > 4, "SE-0-again");
    let damaged = Walk::new(received.body)
        .any(|element| MANDATORY.contains(&element.id) && !readable_alone(element.id, &element));
    rows.hit_if(damaged, "EW-good-bad");
}

fn hit_walk(rows: &mut Rows, received: &Received<'_>) {
    let mut walk = Walk::new(received.body);
    let known = |id: u8| DAMAGES.iter().any(|damage| damage.0 == id);
    for element in walk.by_ref() {
        let unknown = !known(element.id);
        rows.hit_if(unknown && element.contents.is_some(), "EW-unknown");
        rows.hit_if(unknown && element.contents.is_none(), "EW-overrun");
    }
    if let left @ 1..=3 = walk.left() {
        rows.hit(&format!("EW-left-{left}"));
    }
}
