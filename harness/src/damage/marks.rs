//! What the field of pairs out of service says, changed.

use super::{wider, Damage, Draft, Kind};
use crate::compose::field;
use crate::controller::MARKS;
use crate::decode::Pair;

pub const KINDS: [Kind; 7] = [
    fewer,
    every,
    numbers,
    order,
    not_permitted,
    two_ways,
    shapes,
];

/// The draft with one more pair marked, in its place.
fn with(draft: &Draft, pair: Pair) -> Draft {
    draft.marking([&draft.marks[..], &[pair]].concat())
}

/// Marks left out.
fn fewer(draft: &Draft) -> Vec<Damage> {
    let [first, rest @ ..] = &draft.marks[..] else {
        return Vec::new();
    };
    let tries = [Vec::new(), rest.to_vec(), vec![*first]];
    let fewer = tries.map(|marks| draft.marking(marks));
    let damages = fewer.map(|draft| Damage::draft("fewer marks", &draft, true));
    damages.into()
}

/// Octets for "all"; with calls or doubts only 00 is right.
fn every(draft: &Draft) -> Vec<Damage> {
    let alone = draft.calls.is_empty() && draft.doubts.is_empty();
    let with = |all: u8| {
        let draft = Draft {
            all,
            ..draft.clone()
        };
        let taken = all == 0 || all == 1 && alone;
        Damage::draft("all marked", &draft, taken)
    };
    let mut list: Vec<Damage> = [0, 1, 2, 3, 16, 128, 129, 255].map(with).into();
    if draft.all == 0 && !alone {
        let bare = Draft {
            all: 1,
            doubts: Vec::new(),
            calls: Vec::new(),
            ..draft.clone()
        };
        list.push(Damage::draft("all marked, no call or doubt", &bare, true));
        let doubts = Draft {
            doubts: draft.doubts.clone(),
            ..bare.clone()
        };
        let taken = draft.doubts.is_empty();
        list.push(Damage::draft("all marked, doubts alone", &doubts, taken));
        let calls = Draft {
            calls: draft.calls.clone(),
            ..bare
        };
        let taken = draft.calls.is_empty();
        list.push(Damage::draft("all marked, calls alone", &calls, taken));
    }
    list
}

/// One more, as many as there can be, and one over.
fn numbers(draft: &Draft) -> Vec<Damage> {
    let wide = wider(draft);
    let mut list = Vec::new();
    for count in [draft.marks.len() + 1, MARKS, MARKS + 1] {
        let missing = count.saturating_sub(draft.marks.len());
        let more = wide.free_pairs(missing);
        if more.len() == missing {
            let draft = wide.marking([&draft.marks[..], &more].concat());
            let fits = draft.marks.len() <= MARKS;
            list.push(Damage::draft("more marks", &draft, fits));
        }
    }
    list
}

/// Pairs twice, and pairs that fall.
fn order(draft: &Draft) -> Vec<Damage> {
    let mut list = Vec::new();
    for place in 0..draft.marks.len() {
        let twice = with(draft, draft.marks[place]);
        list.push(Damage::draft("a mark twice", &twice, false));
        if place > 0 {
            let mut turned = draft.clone();
            turned.marks.swap(place - 1, place);
            list.push(Damage::draft("marks in no order", &turned, false));
        }
    }
    if let [first, .., last] = draft.marks[..] {
        let mut again = draft.clone();
        again.marks.push(first);
        list.push(Damage::draft("marks in no order", &again, false));
        let mut again = draft.clone();
        again.marks.insert(0, last);
        list.push(Damage::draft("marks in no order", &again, false));
    }
    list
}

/// Pairs in no range, and permanent ones.
fn not_permitted(draft: &Draft) -> Vec<Damage> {
    let refused = |what, vpci, vci| Damage::draft(what, &with(draft, Pair { vpci, vci }), false);
    let mut list = Vec::new();
    for two in draft.pairs.chunks(2) {
        list.push(refused("a permanent pair marked", two[0], two[1]));
    }
    if let [vpci, first, ..] = draft.ranges[..] {
        list.push(refused("a mark before the ranges", vpci, first - 1));
        list.push(refused("a mark with VPCI over 255", vpci + 256, first));
        list.push(refused("a mark with a VCI under 32", vpci, 31));
    }
    if let [.., vpci, _, last @ ..=65_534] = draft.ranges[..] {
        list.push(refused("a mark behind the ranges", vpci, last + 1));
    }
    list
}

/// The pair of each call and each pair in doubt; the pair under RESTART may be
/// marked.
fn two_ways(draft: &Draft) -> Vec<Damage> {
    let held: Vec<Pair> = draft.calls.iter().map(|call| call.pair).collect();
    let pairs = held.iter().chain(&draft.doubts);
    let marked = pairs.map(|&pair| with(draft, pair));
    let what = "a held or doubtful pair marked";
    let damages = marked.map(|draft| Damage::draft(what, &draft, false));
    let mut list: Vec<Damage> = damages.collect();
    if let Some(pair) = draft.restart.and_then(|restart| restart.pair) {
        let taken = [&held, &draft.doubts, &draft.marks]
            .iter()
            .all(|pairs| !pairs.contains(&pair));
        let fits = draft.marks.len() < MARKS;
        let draft = with(draft, pair);
        let what = "the pair under RESTART marked";
        list.push(Damage::draft(what, &draft, taken && fits));
    }
    list
}

/// No field at all, no octet for all, and no whole number of pairs.
fn shapes(draft: &Draft) -> Vec<Damage> {
    let fields = draft.fields();
    let with = |own: &[u8]| [&fields[..4].concat(), own, &fields[5..].concat()].concat();
    let pairs = &fields[4][4..];
    let mut list = vec![
        Damage::refused("no field of marks", with(&[])),
        Damage::refused("no octet for all", with(&field(0x06, pairs))),
    ];
    for more in 1..4 {
        let contents = [&fields[4][3..], &[0; 3][..more]].concat();
        let octets = with(&field(0x06, &contents));
        list.push(Damage::refused("a part of a mark", octets));
    }
    list
}
