//! connect, clear and offer.

use super::{place, Rows, Seen, PLACES};
use crate::controller::{Reference, HOST_CAUSES, SLOTS};
use crate::decode::{offer_fault, OfferFault};
use crate::exchange::Event;
use crate::rows::Row;

const OFFERS: [(&str, &str); 6] = [
    ("HO-3-user", "value of a live user-originated call"),
    ("HO-3-gap", "lowest value from 1 under one in use"),
    ("HO-3-N12", "a value in use by a call in N12 is passed over"),
    ("HO-3-slot", "lowest empty slot under a full one"),
    ("HO-3-last", "slot 31"),
    ("HO-3-others", "a body with more than the four elements"),
];

const ORDER: [(&str, &str); 5] = [
    ("RF-07-08", "7 where 8 applies too"),
    ("RF-06-08", "6 where 8 applies too"),
    ("RF-10-11", "10 where 11 applies too"),
    ("RF-10-12", "10 where 12 applies too"),
    ("RF-11-12", "11 where 12 applies too"),
];

pub fn list(rows: &mut Rows) {
    for state in PLACES.iter().filter(|state| !state.starts_with("N12")) {
        rows.add(format!("HO-2-{state}"), format!("clear in {state}"));
    }
    for cause in HOST_CAUSES {
        rows.add(
            format!("HO-2-cause-{cause}"),
            format!("clear with cause {cause}"),
        );
    }
    rows.add("HO-2-slot-31", "clear of slot 31");
    for (id, words) in OFFERS.into_iter().chain(ORDER) {
        rows.add(id, words);
    }
}

pub fn hit(rows: &mut Rows, seen: &Seen<'_>) {
    match seen.event {
        Event::Clear(_, slot, cause) => hit_clear(rows, seen, *slot, *cause),
        Event::Offer(_, body) => hit_offer(rows, seen, body),
        _ => {}
    }
}

fn hit_clear(rows: &mut Rows, seen: &Seen<'_>, slot: u64, cause: u64) {
    let listed = HOST_CAUSES.iter().any(|&host| u64::from(host) == cause);
    rows.hit_if(seen.row() == Row::WrongState && !listed, "RF-07-08");
    rows.hit_if(seen.row() == Row::Slot && !listed, "RF-06-08");
    if let (Row::HostClear, Some((_, call))) = (seen.row(), seen.call) {
        rows.hit(&format!("HO-2-{}", place(&call)));
        rows.hit(&format!("HO-2-cause-{cause}"));
        rows.hit_if(slot == 31, "HO-2-slot-31");
    }
}

fn hit_offer(rows: &mut Rows, seen: &Seen<'_>, body: &[u8]) {
    let (Some(before), Some(after)) = (seen.before, seen.after) else {
        return;
    };
    let (full, none) = (before.empty_slot().is_none(), before.free_pair().is_none());
    let long = offer_fault(body) == Some(OfferFault::Long);
    let fault = seen.row().refusal() == 10;
    rows.hit_if(fault && full && !long, "RF-10-11");
    rows.hit_if(fault && none && !full, "RF-10-12");
    rows.hit_if(seen.row() == Row::OfferNoSlot && none, "RF-11-12");
    let Some(slot) = seen.answer.flags.slots().next() else {
        return;
    };
    let Some(call) = after.calls[slot] else {
        return;
    };
    let value = call.reference.value;
    let user = Reference { flag: false, value };
    let network = || before.live().filter(|(_, live)| live.reference.flag);
    let clearing = |number: u8| number == 12;
    rows.hit_if(before.find(user).is_some(), "HO-3-user");
    rows.hit_if(
        network().any(|(_, live)| live.reference.value > value),
        "HO-3-gap",
    );
    let passed =
        network().any(|(_, live)| live.reference.value < value && clearing(live.state.number()));
    rows.hit_if(passed, "HO-3-N12");
    rows.hit_if(before.live().any(|(live, _)| live > slot), "HO-3-slot");
    rows.hit_if(slot == SLOTS - 1, "HO-3-last");
    let others = crate::decode::Walk::new(body).count() > 4;
    rows.hit_if(others, "HO-3-others");
}
