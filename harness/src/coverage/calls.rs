//! Expected messages on live calls, by state, and STATUS on no call.

use super::setups::damage_id;
use super::{place, timer, Rows, Seen, PLACES};
use crate::decode::{Part, CALL_STATE, CAUSE};
use crate::rows::Row;

/// Rows that can be reached in any state.
const ANYWHERE: [Row; 5] = [
    Row::ReleaseComplete,
    Row::Enquiry,
    Row::StatusUnread,
    Row::StatusGone,
    Row::StatusElse,
];

/// Rows of RELEASE in a state but N12.
const RELEASES: [Row; 3] = [Row::Release, Row::ReleaseAbsent, Row::ReleaseUnreadable];

pub fn list(rows: &mut Rows) {
    for state in PLACES {
        let late = state.starts_with("N12");
        let releases: &[Row] = if late { &[Row::ReleaseN12] } else { &RELEASES };
        for row in ANYWHERE.iter().chain(releases) {
            rows.add(
                format!("{}-{state}", row.id()),
                format!("{}, in {state}", row.words()),
            );
        }
    }
    list_forms(rows);
    rows.add("CO-N6", "CONNECT in N6");
    rows.add("CO-N9", "CONNECT in N9");
    rows.add("CA-user", "CONNECT ACKNOWLEDGE in N10, the user's call");
    rows.add(
        "CA-network",
        "CONNECT ACKNOWLEDGE in N10, the network's call",
    );
    for timer in ["T303", "T310", "T308-first", "T308-second"] {
        let words = format!("a message after the deadline of {timer} acts on the call");
        rows.add(format!("TD-{timer}"), words);
    }
}

/// Cause and Call state, absent, unreadable or readable.
fn list_forms(rows: &mut Rows) {
    for name in ["absent", "unreadable", "readable"] {
        rows.add(
            format!("RE-1-{name}"),
            format!("RELEASE in N12, Cause {name}"),
        );
    }
    for row in [Row::StatusUnread, Row::NoCallStatusUnread] {
        for name in ["absent", "unreadable"] {
            let words = format!("{}: {name}", row.words());
            rows.add(format!("{}-{name}", row.id()), words);
        }
    }
    for flag in 0..2 {
        let words = format!("STATUS on no call, flag {flag}: RELEASE COMPLETE 101");
        rows.add(format!("SU-5-{flag}"), words);
    }
    rows.add("SU-5-1-state", "no call and state 1: 101");
    rows.add("SU-5-63-state", "no call and state 63: 101");
}

fn form<T>(part: &Part<T>) -> &'static str {
    match part {
        Part::Absent => "absent",
        Part::Unreadable(_) => "unreadable",
        Part::Readable(_) => "readable",
    }
}

pub fn hit(rows: &mut Rows, seen: &Seen<'_>) {
    let Some(received) = seen.received else {
        return;
    };
    let (row, id) = (seen.row(), seen.row().id());
    match row {
        Row::NoCallStatusUnread => {
            rows.hit(&format!("{id}-{}", form(&received.call_state())));
        }
        Row::NoCallStatusState => {
            rows.hit(&format!("{id}-{}", u8::from(received.flag)));
            let state = received.call_state();
            rows.hit_if(state == Part::Readable(1), "SU-5-1-state");
            rows.hit_if(state == Part::Readable(63), "SU-5-63-state");
        }
        _ => hit_live(rows, seen),
    }
    if let (Row::StatusUnread | Row::NoCallStatusUnread, Some(damage)) =
        (row, received.call_state().damage())
    {
        rows.hit(&damage_id(CALL_STATE, damage));
    }
    if let (Row::ReleaseUnreadable, Some(damage)) = (row, received.cause().damage()) {
        rows.hit(&damage_id(CAUSE, damage));
    }
}

fn hit_live(rows: &mut Rows, seen: &Seen<'_>) {
    let (Some(received), Some((_, call))) = (seen.received, seen.call) else {
        return;
    };
    let (row, id) = (seen.row(), seen.row().id());
    let state = place(&call);
    match row {
        Row::Connect => rows.hit(&format!("{id}-N{}", call.state.number())),
        Row::ConnectAcknowledge => rows.hit(&state.replace("N10", id)),
        Row::CallProceeding => {}
        _ if ANYWHERE.contains(&row) || RELEASES.contains(&row) || row == Row::ReleaseN12 => {
            rows.hit(&format!("{id}-{state}"));
        }
        _ => return,
    }
    match row {
        Row::ReleaseN12 => rows.hit(&format!("{id}-{}", form(&received.cause()))),
        Row::StatusUnread => rows.hit(&format!("{id}-{}", form(&received.call_state()))),
        _ => {}
    }
    let reading = seen.event.request().map(|request| request.reading);
    let late = call
        .state
        .deadline()
        .is_some_and(|deadline| Some(deadline) <= reading);
    if late {
        rows.hit(&format!("TD-{}", timer(call.state)));
    }
}
