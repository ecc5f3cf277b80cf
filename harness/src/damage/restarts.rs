//! What the field of the RESTART under way says, changed.

use super::draft::{Draft, Waiting};
use super::{Damage, Kind};
use crate::compose::field;
use crate::controller::T316;
use crate::decode::Pair;

pub const KINDS: [Kind; 5] = [others, not_permitted, times, deadlines, shapes];

/// The draft's RESTART, or one of all whose T316 runs on.
fn own(draft: &Draft) -> Waiting {
    draft.restart.unwrap_or(Waiting {
        times: 1,
        deadline: draft.reading + T316,
        pair: None,
    })
}

fn naming(draft: &Draft, pair: Option<Pair>) -> Draft {
    draft.waiting(Some(Waiting { pair, ..own(draft) }))
}

/// None, and one of all, of a pair that a call holds, in doubt, marked, free.
fn others(draft: &Draft) -> Vec<Damage> {
    let none = draft.waiting(None);
    let mut list = vec![Damage::draft("no RESTART", &none, true)];
    let all = naming(draft, None);
    list.push(Damage::draft("a RESTART of all", &all, true));
    let held = draft.calls.iter().map(|call| call.pair);
    let listed = draft.doubts.iter().chain(&draft.marks).copied();
    for pair in held.chain(listed).chain(draft.free_pair()) {
        let one = naming(draft, Some(pair));
        list.push(Damage::draft("a RESTART of another pair", &one, true));
    }
    list
}

/// Pairs in no range, and permanent ones.
fn not_permitted(draft: &Draft) -> Vec<Damage> {
    let refused = |what, vpci, vci| {
        let pair = Some(Pair { vpci, vci });
        Damage::draft(what, &naming(draft, pair), false)
    };
    let mut list = Vec::new();
    for two in draft.pairs.chunks(2) {
        list.push(refused("a RESTART of a permanent pair", two[0], two[1]));
    }
    if let [vpci, first, ..] = draft.ranges[..] {
        list.push(refused("a RESTART before the ranges", vpci, first - 1));
        list.push(refused("a RESTART of VPCI over 255", vpci + 256, first));
        list.push(refused("a RESTART of a VCI under 32", vpci, 31));
    }
    if let [.., vpci, _, last @ ..=65_534] = draft.ranges[..] {
        list.push(refused("a RESTART behind the ranges", vpci, last + 1));
    }
    list
}

/// First T316, second T316 and neither.
fn times(draft: &Draft) -> Vec<Damage> {
    let with = |times: u8| {
        let own = own(draft);
        let draft = draft.waiting(Some(Waiting { times, ..own }));
        Damage::draft("T316", &draft, (1..=2).contains(&times))
    };
    [0, 1, 2, 3, 16, 129, 130, 255].map(with).into()
}

/// Deadlines around the furthest, and far beyond.
fn deadlines(draft: &Draft) -> Vec<Damage> {
    let most = draft.reading + T316;
    let low = [0, 1, draft.reading.saturating_sub(1), draft.reading];
    let far = [most + (1 << 16), most + (1 << 32), 1 << 63, u64::MAX];
    let tries = [low, [most - 1, most, most + 1, most + 2], far].concat();
    let with = |deadline: u64| {
        let own = own(draft);
        let draft = draft.waiting(Some(Waiting { deadline, ..own }));
        Damage::draft("T316's deadline", &draft, deadline <= most)
    };
    tries.into_iter().map(with).collect()
}

/// No field at all, and every length from 1 to 20 of an octet, a deadline and
/// more.
fn shapes(draft: &Draft) -> Vec<Damage> {
    let fields = draft.fields();
    let with = |own: &[u8]| [&fields[..5].concat(), own, &fields[6..].concat()].concat();
    let mut list = vec![Damage::refused("no field of the RESTART", with(&[]))];
    let mut contents = vec![1];
    contents.extend(draft.reading.to_be_bytes());
    contents.extend([0; 11]);
    for length in (1..=20).filter(|length| ![9, 13].contains(length)) {
        let octets = with(&field(0x07, &contents[..length]));
        list.push(Damage::refused("a RESTART of a wrong length", octets));
    }
    list
}
