//! What the field of pairs in doubt says, changed.

use super::{wider, Damage, Draft, Kind};
use crate::compose::field;
use crate::controller::DOUBTS;
use crate::decode::Pair;

pub const KINDS: [Kind; 6] = [fewer, numbers, order, not_permitted, held, shapes];

/// The draft with one more pair in doubt, in its place.
fn with(draft: &Draft, pair: Pair) -> Draft {
    draft.doubting([&draft.doubts[..], &[pair]].concat())
}

/// Doubts left out.
fn fewer(draft: &Draft) -> Vec<Damage> {
    let [first, rest @ ..] = &draft.doubts[..] else {
        return Vec::new();
    };
    let tries = [Vec::new(), rest.to_vec(), vec![*first]];
    let fewer = tries.map(|doubts| draft.doubting(doubts));
    let damages = fewer.map(|draft| Damage::draft("fewer pairs in doubt", &draft, true));
    damages.into()
}

/// One more, as many as there can be, and one over.
fn numbers(draft: &Draft) -> Vec<Damage> {
    let wide = wider(draft);
    let mut list = Vec::new();
    for count in [draft.doubts.len() + 1, DOUBTS, DOUBTS + 1] {
        let missing = count.saturating_sub(draft.doubts.len());
        let more = wide.free_pairs(missing);
        if more.len() == missing {
            let draft = wide.doubting([&draft.doubts[..], &more].concat());
            let fits = draft.doubts.len() <= DOUBTS && draft.all == 0;
            list.push(Damage::draft("more pairs in doubt", &draft, fits));
        }
    }
    list
}

/// Pairs twice, and pairs that fall.
fn order(draft: &Draft) -> Vec<Damage> {
    let mut list = Vec::new();
    for place in 0..draft.doubts.len() {
        let twice = with(draft, draft.doubts[place]);
        list.push(Damage::draft("a pair in doubt twice", &twice, false));
        if place > 0 {
            let mut turned = draft.clone();
            turned.doubts.swap(place - 1, place);
            list.push(Damage::draft("doubts in no order", &turned, false));
        }
    }
    if let [first, .., last] = draft.doubts[..] {
        let mut again = draft.clone();
        again.doubts.push(first);
        list.push(Damage::draft("doubts in no order", &again, false));
        let mut again = draft.clone();
        again.doubts.insert(0, last);
        list.push(Damage::draft("doubts in no order", &again, false));
    }
    list
}

/// Pairs in no range, and permanent ones.
fn not_permitted(draft: &Draft) -> Vec<Damage> {
    let refused = |what, vpci, vci| Damage::draft(what, &with(draft, Pair { vpci, vci }), false);
    let mut list = Vec::new();
    for two in draft.pairs.chunks(2) {
        list.push(refused("a permanent pair in doubt", two[0], two[1]));
    }
    if let [vpci, first, ..] = draft.ranges[..] {
        list.push(refused("a doubt before the ranges", vpci, first - 1));
        list.push(refused("a doubt with VPCI over 255", vpci + 256, first));
        list.push(refused("a doubt with a VCI under 32", vpci, 31));
    }
    if let [.., vpci, _, last @ ..=65_534] = draft.ranges[..] {
        list.push(refused("a doubt behind the ranges", vpci, last + 1));
    }
    list
}

/// The pair of each call, and each marked pair.
fn held(draft: &Draft) -> Vec<Damage> {
    let what = "a held or marked pair in doubt";
    let pairs = draft.calls.iter().map(|call| call.pair);
    let doubted = pairs.chain(draft.marks.iter().copied());
    let doubted = doubted.map(|pair| with(draft, pair));
    let damages = doubted.map(|draft| Damage::draft(what, &draft, false));
    damages.collect()
}

/// No field at all, and contents that are no whole number of pairs.
fn shapes(draft: &Draft) -> Vec<Damage> {
    let fields = draft.fields();
    let with = |own: &[u8]| [&fields[..3].concat(), own, &fields[4..].concat()].concat();
    let mut list = vec![Damage::refused("no field of doubts", with(&[]))];
    for more in 1..4 {
        let contents = [&fields[3][3..], &[0; 3][..more]].concat();
        let octets = with(&field(0x05, &contents));
        list.push(Damage::refused("a part of a doubt", octets));
    }
    list
}
