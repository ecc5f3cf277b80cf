//! What the field of a call says, changed.

use super::draft::{timer, Draft, Entry};
use super::Damage;
use crate::compose::FLAG;
use crate::controller::HOST_CAUSES;
use crate::decode::Pair;

/// Damage of the call at a place.
pub type Kind = fn(&Draft, usize) -> Vec<Damage>;

pub const KINDS: [Kind; 11] = [
    slots, references, pairs, twins, copies, states, sides, tails, deadlines, times, causes,
];

/// The states of a live call.
const STATES: [u8; 5] = [3, 6, 9, 10, 12];

const SIDES: [bool; 2] = [false, true];

fn slots(draft: &Draft, place: usize) -> Vec<Damage> {
    let call = draft.calls[place];
    let at = |entry: Entry, slot| Entry { slot, ..entry };
    let with = |slot| draft.with(place, at(call, slot));
    let two = |one, other| draft.with(place, one).with(place + 1, other);
    let last = place + 1 == draft.calls.len();
    let mut list = vec![Damage::draft("slot 31", &with(31), last)];
    for slot in [32, 33, 64, 128, 255] {
        list.push(Damage::draft("a slot over 31", &with(slot), false));
    }
    if let Some(&next) = draft.calls.get(place + 1) {
        list.push(Damage::draft("a slot twice", &with(next.slot), false));
        let turned = two(next, call);
        list.push(Damage::draft("slots in no order", &turned, false));
        let (here, there) = (call.slot, next.slot);
        let turned = two(at(call, there), at(next, here));
        list.push(Damage::draft("slots in no order", &turned, false));
        let changed = two(at(next, here), at(call, there));
        list.push(Damage::draft("two calls change slots", &changed, true));
    }
    list
}

fn references(draft: &Draft, place: usize) -> Vec<Damage> {
    let call = draft.calls[place];
    let with = |reference| draft.with(place, Entry { reference, ..call });
    let mut list = Vec::new();
    for reference in [0, FLAG] {
        list.push(Damage::draft("reference 0", &with(reference), false));
    }
    for value in [1, 32, 33, 256, 0x40_0000, 0x7f_ffff] {
        let reference = call.reference & FLAG | value;
        let free = !draft.named_elsewhere(place, reference);
        list.push(Damage::draft("another reference", &with(reference), free));
    }
    list
}

fn pairs(draft: &Draft, place: usize) -> Vec<Damage> {
    let call = draft.calls[place];
    let with = |pair| draft.with(place, Entry { pair, ..call });
    let refused = |what, vpci, vci| Damage::draft(what, &with(Pair { vpci, vci }), false);
    let mut list = Vec::new();
    for vci in [0, 31] {
        list.push(refused("a VCI under 32", call.pair.vpci, vci));
    }
    list.push(refused(
        "VPCI over 255",
        call.pair.vpci + 256,
        call.pair.vci,
    ));
    for two in draft.pairs.chunks(2) {
        list.push(refused("a permanent pair", two[0], two[1]));
    }
    if let [vpci, first, ..] = draft.ranges[..] {
        list.push(refused("before the ranges", vpci, first - 1));
    }
    if let [.., vpci, _, last @ ..=65_534] = draft.ranges[..] {
        list.push(refused("behind the ranges", vpci, last + 1));
    }
    for &Pair { vpci, vci } in &draft.doubts {
        list.push(refused("a pair in doubt", vpci, vci));
    }
    for &Pair { vpci, vci } in &draft.marks {
        list.push(refused("a pair out of service", vpci, vci));
    }
    let free = draft.free_pair().map(with);
    list.extend(free.map(|draft| Damage::draft("a free pair", &draft, true)));
    list
}

/// The reference or the pair of each other call.
fn twins(draft: &Draft, place: usize) -> Vec<Damage> {
    let call = draft.calls[place];
    let mut list = Vec::new();
    for other in draft.calls.iter().filter(|other| other.slot != call.slot) {
        let (reference, pair) = (other.reference, other.pair);
        let named = draft.with(place, Entry { reference, ..call });
        list.push(Damage::draft("a reference twice", &named, false));
        let placed = draft.with(place, Entry { pair, ..call });
        list.push(Damage::draft("a pair twice", &placed, false));
    }
    list
}

/// The call a second time in a free slot, under its own or another reference,
/// on its own or another pair.
fn copies(draft: &Draft, place: usize) -> Vec<Damage> {
    let call = draft.calls[place];
    let again = draft.and(call);
    let mut list = vec![Damage::draft("a call twice", &again, false)];
    let Some(slot) = draft.free_slot() else {
        return list;
    };
    let network = call.reference & FLAG != 0;
    let other = draft.and(Entry { slot, ..call });
    let added = other.calls.iter().position(|call| call.slot == slot);
    let reference = other.reference(added.unwrap_or(0), network);
    let copy = Entry { slot, ..call };
    let named = Entry { reference, ..copy };
    list.push(Damage::draft("a call in two slots", &other, false));
    list.push(Damage::draft("a pair twice", &draft.and(named), false));
    if let Some(pair) = draft.free_pair() {
        let same = draft.and(Entry { pair, ..copy });
        list.push(Damage::draft("a reference twice", &same, false));
        let more = draft.and(Entry { pair, ..named });
        list.push(Damage::draft("a call more", &more, true));
        let reference = call.reference ^ FLAG;
        let twin = Entry {
            reference,
            pair,
            ..copy
        };
        let free = !draft.named_elsewhere(place, reference);
        let twin = draft.and(twin.in_state(10, 0));
        list.push(Damage::draft("the value with the other flag", &twin, free));
    }
    list
}

/// Every number for a state, with the octets behind it as they were.
fn states(draft: &Draft, place: usize) -> Vec<Damage> {
    let call = draft.calls[place];
    let with = |state| {
        let known = STATES.contains(&state);
        let draft = draft.with(place, Entry { state, ..call });
        let taken = if known { None } else { Some(false) };
        Damage::new("another state", draft.octets(), taken)
    };
    (0..=255).map(with).collect()
}

/// The call as one of a side in a state.
fn turned(draft: &Draft, place: usize, network: bool, state: u8) -> Entry {
    let reference = draft.reference(place, network);
    let call = Entry {
        reference,
        ..draft.calls[place]
    };
    call.in_state(state, draft.reading)
}

/// Every state on both sides.
fn sides(draft: &Draft, place: usize) -> Vec<Damage> {
    let mut list = Vec::new();
    for state in STATES {
        for network in SIDES {
            let taken = match state {
                3 => !network,
                6 | 9 => network,
                _ => true,
            };
            let draft = draft.with(place, turned(draft, place, network, state));
            list.push(Damage::draft("a state on a side", &draft, taken));
        }
    }
    list
}

/// Every state with what stands behind another.
fn tails(draft: &Draft, place: usize) -> Vec<Damage> {
    let mut list = Vec::new();
    for state in STATES {
        let network = matches!(state, 6 | 9);
        let right = turned(draft, place, network, state);
        let (deadline, cause) = (Some(draft.reading), Some(16));
        for (deadline, times, cause) in [
            (None, None, None),
            (deadline, None, None),
            (deadline, Some(1), None),
            (deadline, Some(1), cause),
            (None, Some(1), cause),
        ] {
            let tail = Entry {
                deadline,
                times,
                cause,
                ..right
            };
            let draft = draft.with(place, tail);
            let what = "a state with a timer or cause";
            list.push(Damage::draft(what, &draft, tail == right));
        }
    }
    list
}

/// Deadlines around the furthest, and far beyond.
fn deadlines(draft: &Draft, place: usize) -> Vec<Damage> {
    let mut list = Vec::new();
    for state in [6, 9, 12] {
        let call = turned(draft, place, true, state);
        let most = draft.reading + timer(state).unwrap_or(0);
        let low = [0, 1, draft.reading.saturating_sub(1), draft.reading];
        let far = [most + (1 << 16), most + (1 << 32), 1 << 63, u64::MAX];
        let tries = [low, [most - 1, most, most + 1, most + 2], far].concat();
        for deadline in tries {
            let deadlined = Entry {
                deadline: Some(deadline),
                ..call
            };
            let draft = draft.with(place, deadlined);
            list.push(Damage::draft("a deadline", &draft, deadline <= most));
        }
    }
    list
}

/// First T308, second T308 and neither.
fn times(draft: &Draft, place: usize) -> Vec<Damage> {
    let mut list = Vec::new();
    for network in SIDES {
        for times in [0, 1, 2, 3, 16, 129, 255] {
            let call = Entry {
                times: Some(times),
                ..turned(draft, place, network, 12)
            };
            let draft = draft.with(place, call);
            list.push(Damage::draft("T308", &draft, (1..=2).contains(&times)));
        }
    }
    list
}

/// Every cause on both sides.
fn causes(draft: &Draft, place: usize) -> Vec<Damage> {
    let mut list = Vec::new();
    for network in SIDES {
        for cause in 0..=255 {
            let call = Entry {
                cause: Some(cause),
                ..turned(draft, place, network, 12)
            };
            let taken = HOST_CAUSES.contains(&cause) || cause == 102 && network;
            let draft = draft.with(place, call);
            list.push(Damage::draft("a cause", &draft, taken));
        }
    }
    list
}
