//! Steps 3 to 5 of the order of checks, by type, flag and state.

use super::{place, Rows, Seen, PLACES};
use crate::rows::Row;
use crate::types::{name, KNOWN};

/// Types that a state does not expect; SETUP does not reach step 4.
fn unexpected(place: &str) -> Vec<&'static str> {
    let mut types = vec!["RESTART", "RESTART-ACKNOWLEDGE"];
    if place != "N6-network" {
        types.push("CALL-PROCEEDING");
    }
    if !matches!(place, "N6-network" | "N9-network") {
        types.push("CONNECT");
    }
    if !place.starts_with("N10") {
        types.push("CONNECT-ACKNOWLEDGE");
    }
    types
}

/// Types by which a message on a live call can reach step 5.
const EXPECTED: [&str; 7] = [
    "CALL-PROCEEDING",
    "CONNECT",
    "CONNECT-ACKNOWLEDGE",
    "RELEASE",
    "RELEASE-COMPLETE",
    "STATUS-ENQUIRY",
    "STATUS",
];

/// Rows that are decided before the length field is looked at.
const EARLY: [Row; 10] = [
    Row::GlobalStatus,
    Row::GlobalAcknowledge,
    Row::GlobalElse,
    Row::SetupFlag,
    Row::SetupLive,
    Row::NoCallComplete,
    Row::NoCallEnquiry,
    Row::NoCallElse,
    Row::UnknownType,
    Row::NotExpected,
];

pub fn list(rows: &mut Rows) {
    list_global(rows);
    list_no_call(rows);
    list_live(rows);
    for state in EXPECTED {
        rows.add(
            format!("S5-live-{state}"),
            format!("{state}, length field wrong: ignored"),
        );
    }
    rows.add("S5-SETUP", "SETUP, length field wrong: ignored");
    rows.add(
        "S5-STATUS",
        "STATUS on no call, length field wrong: ignored",
    );
    rows.add("S5-RESTART", "global RESTART, length field wrong: ignored");
    rows.add(
        "S5-RESTART-ACKNOWLEDGE",
        "RESTART ACKNOWLEDGE for our RESTART, length field wrong: ignored",
    );
    for row in EARLY {
        let words = format!("length field wrong, yet {}", row.words());
        rows.add(format!("S5-after-{}", row.id()), words);
    }
}

fn list_global(rows: &mut Rows) {
    let names = KNOWN.map(|known| known.1);
    for name in names.iter().chain(&["unknown"]) {
        for flag in 0..2 {
            if let ("STATUS", _) | ("RESTART", 0) | ("RESTART-ACKNOWLEDGE", 1) = (*name, flag) {
                continue;
            }
            let words = format!("global {name} with flag {flag}: STATUS 81");
            rows.add(format!("S3-G3-{name}-{flag}"), words);
        }
    }
    for flag in 0..2 {
        let words = format!("global STATUS with flag {flag}: nothing");
        rows.add(format!("S3-G1-{flag}"), words);
    }
}

fn list_no_call(rows: &mut Rows) {
    let names = [
        "CALL-PROCEEDING",
        "CONNECT",
        "CONNECT-ACKNOWLEDGE",
        "RESTART",
        "RELEASE",
        "RESTART-ACKNOWLEDGE",
        "unknown",
    ];
    for flag in 0..2 {
        for name in names {
            let words = format!("no call, {name} with flag {flag}: 81");
            rows.add(format!("S3-N3-{name}-{flag}"), words);
        }
        for row in [Row::NoCallComplete, Row::NoCallEnquiry] {
            let words = format!("{}, flag {flag}", row.words());
            rows.add(format!("{}-{flag}", row.id()), words);
        }
    }
    rows.add(
        "S3-S1-live",
        "SETUP with flag 1 on a live network-originated call",
    );
    for state in ["N3", "N10", "N12"] {
        rows.add(
            format!("S3-S2-{state}"),
            format!("SETUP on a live call in {state}"),
        );
    }
}

fn list_live(rows: &mut Rows) {
    for state in PLACES {
        rows.add(
            format!("S4-97-{state}"),
            format!("unknown type in {state}: 97"),
        );
        for name in unexpected(state) {
            rows.add(
                format!("S4-101-{state}-{name}"),
                format!("{name} in {state}: 101"),
            );
        }
    }
}

pub fn hit(rows: &mut Rows, seen: &Seen<'_>) {
    let Some(received) = seen.received else {
        return;
    };
    let (row, id) = (seen.row(), seen.row().id());
    let (name, flag) = (name(received.kind), u8::from(received.flag));
    let state = seen.call.map_or(String::new(), |(_, call)| place(&call));
    match row {
        Row::GlobalElse | Row::NoCallElse => rows.hit(&format!("{id}-{name}-{flag}")),
        Row::GlobalStatus | Row::NoCallComplete | Row::NoCallEnquiry => {
            rows.hit(&format!("{id}-{flag}"));
        }
        Row::SetupFlag => rows.hit_if(seen.call.is_some(), "S3-S1-live"),
        Row::SetupLive => rows.hit(&format!("{id}-{}", state.replace("-user", ""))),
        Row::UnknownType => rows.hit(&format!("{id}-{state}")),
        Row::NotExpected => rows.hit(&format!("{id}-{state}-{name}")),
        Row::LengthField if seen.call.is_some() => rows.hit(&format!("S5-live-{name}")),
        Row::LengthField => rows.hit(&format!("S5-{name}")),
        _ => {}
    }
    let early = EARLY.contains(&row) && !received.length_right;
    if early {
        rows.hit(&format!("S5-after-{id}"));
    }
}
