//! Ticks: which timer fires, and when.

use super::{timer, Rows, Seen};
use crate::controller::{Table, READING_LIMIT, SLOTS};
use crate::exchange::Event;
use crate::rows::Row;

const TIMERS: [&str; 6] = [
    "T303",
    "T310",
    "T308-first",
    "T308-second",
    "T316-first",
    "T316-second",
];

const CASES: [(&str, &str); 14] = [
    ("TI-tie", "equal deadlines: the lowest slot"),
    ("TI-order", "a smaller deadline in a higher slot goes first"),
    ("TI-more", "another is due afterwards"),
    ("TI-last", "none is due afterwards"),
    ("TI-idle", "a tick with no timer running"),
    ("TI-102", "RELEASE 102 with its diagnostic again"),
    ("TI-host", "RELEASE with the host's cause again"),
    ("TI-past", "a deadline past the largest reading"),
    ("TI-refused", "a refused tick with a timer due"),
    (
        "TI-T316-tie",
        "equal deadlines: a slot first, T316 is due afterwards",
    ),
    (
        "TI-T316-order",
        "T316 goes before a slot of a larger deadline",
    ),
    (
        "TI-T316-after",
        "T316 goes after a slot of a smaller deadline",
    ),
    ("TI-T316-alone", "T316 goes where no call has a timer"),
    (
        "TI-T316-past",
        "T316 with a deadline past the largest reading never goes",
    ),
];

/// A timer that runs; T316 stands behind the slots.
#[derive(Clone, Copy)]
struct Running {
    deadline: u64,
    place: usize,
    name: &'static str,
}

/// The place of T316.
const RESTART: usize = SLOTS;

fn running(table: &Table) -> Vec<Running> {
    let slots = table.live().filter_map(|(place, call)| {
        let (deadline, name) = (call.state.deadline()?, timer(call.state));
        Some(Running {
            deadline,
            place,
            name,
        })
    });
    let restart = table.under_way.map(|under_way| Running {
        deadline: under_way.deadline,
        place: RESTART,
        name: match under_way.second {
            true => "T316-second",
            false => "T316-first",
        },
    });
    slots.chain(restart).collect()
}

pub fn list(rows: &mut Rows) {
    for timer in TIMERS {
        rows.add(
            format!("TI-{timer}-before"),
            format!("{timer}: deadline minus 1 not due"),
        );
        rows.add(format!("TI-{timer}-at"), format!("{timer}: deadline due"));
        rows.add(
            format!("TI-{timer}-late"),
            format!("{timer}: fired after its deadline"),
        );
        rows.add(
            format!("TI-{timer}-reloaded"),
            format!("{timer} of a reloaded table fires"),
        );
    }
    for (id, words) in CASES {
        rows.add(id, words);
    }
}

pub fn hit(rows: &mut Rows, seen: &Seen<'_>) {
    let (Event::Tick(request), Some(before)) = (seen.event, seen.before) else {
        return;
    };
    let running = running(before);
    let due = running
        .iter()
        .filter(|timer| timer.deadline <= request.reading);
    let due: Vec<Running> = due.copied().collect();
    if !seen.accepted() {
        rows.hit_if(!due.is_empty(), "TI-refused");
        return;
    }
    rows.hit_if(running.is_empty(), "TI-idle");
    for timer in &running {
        let before = request.reading + 1 == timer.deadline;
        rows.hit_if(before, &format!("TI-{}-before", timer.name));
        let past = timer.deadline > READING_LIMIT;
        rows.hit_if(past, "TI-past");
        let last = request.reading == READING_LIMIT;
        rows.hit_if(past && last && timer.place == RESTART, "TI-T316-past");
    }
    hit_fired(rows, seen, request.reading, &due);
}

/// The timer that a tick fires.
fn hit_fired(rows: &mut Rows, seen: &Seen<'_>, reading: u64, due: &[Running]) {
    let first = due.iter().min_by_key(|timer| (timer.deadline, timer.place));
    let Some(&fired) = first else {
        return;
    };
    let when = if fired.deadline == reading {
        "at"
    } else {
        "late"
    };
    rows.hit(&format!("TI-{}-{when}", fired.name));
    let (before, reloaded) = (seen.before, seen.reloaded);
    let kept = match fired.place {
        RESTART => before.map(|table| table.under_way) == reloaded.map(|table| table.under_way),
        slot => before.map(|table| table.calls[slot]) == reloaded.map(|table| table.calls[slot]),
    };
    rows.hit_if(kept, &format!("TI-{}-reloaded", fired.name));
    let others = due.iter().filter(|other| other.place != fired.place);
    let others: Vec<Running> = others.copied().collect();
    if fired.place == RESTART {
        rows.hit_if(!others.is_empty(), "TI-T316-order");
        let live = seen.before.is_some_and(|table| running(table).len() == 1);
        rows.hit_if(live, "TI-T316-alone");
    } else {
        hit_slot(rows, fired, &others);
    }
    rows.hit_if(seen.answer.more, "TI-more");
    rows.hit_if(!seen.answer.more, "TI-last");
    if seen.row() == Row::T308First {
        let own = seen.answer.reply.get(14) == Some(&(102 + 0x80));
        rows.hit(if own { "TI-102" } else { "TI-host" });
    }
}

/// A slot's timer that fires with these others due.
fn hit_slot(rows: &mut Rows, fired: Running, others: &[Running]) {
    let slots = || others.iter().filter(|other| other.place != RESTART);
    let tie = slots().any(|other| other.deadline == fired.deadline);
    rows.hit_if(tie, "TI-tie");
    let order = slots().any(|other| other.place < fired.place);
    rows.hit_if(order, "TI-order");
    for restart in others.iter().filter(|other| other.place == RESTART) {
        let tie = restart.deadline == fired.deadline;
        rows.hit(if tie { "TI-T316-tie" } else { "TI-T316-after" });
    }
}
