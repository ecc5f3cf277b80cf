//! What the fields 01, 02 and 03 say, changed.

use super::draft::{timer, Draft};
use super::Damage;
use crate::controller::{READING_LIMIT, T316};
use crate::decode::Pair;

pub fn all(draft: &Draft) -> Vec<Damage> {
    let mut list = Vec::new();
    for ranges in broken_ranges(&draft.ranges) {
        let draft = Draft {
            ranges,
            ..draft.clone()
        };
        list.push(Damage::draft("ranges that start refuses", &draft, false));
    }
    for pairs in broken_pairs(&draft.pairs) {
        let draft = Draft {
            pairs,
            ..draft.clone()
        };
        list.push(Damage::draft("pairs that start refuses", &draft, false));
    }
    list.extend(wider(draft));
    list.extend(narrower(draft));
    list.extend(permanent(draft));
    list.extend(readings(draft));
    list
}

/// Each breaks a rule of start, whatever the ranges were.
fn broken_ranges(ranges: &[u16]) -> Vec<Vec<u16>> {
    let &[.., vpci, first, last] = ranges else {
        return Vec::new();
    };
    let end = ranges.len();
    let and = |more: &[u16]| [ranges, more].concat();
    let but = |place: usize, numbers: &[u16]| {
        let behind = place + numbers.len();
        [&ranges[..place], numbers, &ranges[behind..]].concat()
    };
    vec![
        Vec::new(),
        and(&[vpci]),
        and(&[vpci, last]),
        ranges[..end - 1].to_vec(),
        (0..5).flat_map(|vpci| [vpci, 32, 40]).collect(),
        but(end - 3, &[256]),
        but(end - 3, &[vpci + 0x100]),
        but(1, &[31]),
        but(1, &[0]),
        but(1, &[31, 31]),
        but(end - 2, &[41, 40]),
        and(&[vpci, first, last]),
        and(&[vpci, last, last]),
        and(&[0, 32, 33]),
    ]
}

/// Each breaks a rule of start, whatever the pairs were.
fn broken_pairs(pairs: &[u16]) -> Vec<Vec<u16>> {
    let and = |more: &[u16]| [pairs, more].concat();
    let mut list = vec![
        and(&[0]),
        (32..41).flat_map(|vci| [0, vci]).collect(),
        and(&[256, 32]),
        and(&[255, 31]),
        vec![0, 31],
        and(&[255, 65_535, 255, 65_535]),
        vec![0, 33, 0, 32],
        vec![1, 32, 0, 32],
    ];
    if let &[.., vpci, vci] = pairs {
        list.push(and(&[vpci, vci]));
        list.push(and(&[0, 32]));
        list.push(pairs[1..].to_vec());
    }
    list
}

/// The last range with one pair more.
fn wider(draft: &Draft) -> Option<Damage> {
    let mut draft = draft.clone();
    let last = draft.ranges.last_mut()?;
    *last = last.checked_add(1)?;
    Some(Damage::draft("a pair more is permitted", &draft, true))
}

/// A range that begins behind the pair of a call, or behind a pair in doubt,
/// out of service or under RESTART.
fn narrower(draft: &Draft) -> Vec<Damage> {
    let held = draft.calls.first().map(|call| call.pair);
    let (doubt, mark) = (draft.doubts.first(), draft.marks.first());
    let named = draft.restart.and_then(|restart| restart.pair);
    let tries = [
        ("a call's pair out of range", held),
        ("a pair in doubt out of range", doubt.copied()),
        ("a marked pair out of range", mark.copied()),
        ("a pair under RESTART out of range", named),
    ];
    let mut list = Vec::new();
    for (what, pair) in tries {
        let narrowed = pair.and_then(|pair| behind(draft, pair));
        list.extend(narrowed.map(|draft| Damage::draft(what, &draft, false)));
    }
    list
}

/// The range that holds a pair begins behind it.
fn behind(draft: &Draft, Pair { vpci, vci }: Pair) -> Option<Draft> {
    let mut draft = draft.clone();
    let holds = |range: &[u16]| range[0] == vpci && (range[1]..range[2]).contains(&vci);
    let place = draft.ranges.chunks(3).position(holds)?;
    draft.ranges[3 * place + 1] = vci + 1;
    Some(draft)
}

/// One permanent pair more: of a call, in doubt, out of service, under RESTART,
/// or free.
fn permanent(draft: &Draft) -> Vec<Damage> {
    let held = draft.calls.last().map(|call| call.pair);
    let doubt = draft.doubts.last().copied();
    let mark = draft.marks.last().copied();
    let named = draft.restart.and_then(|restart| restart.pair);
    let room = draft.pairs.len() < 16;
    let tries = [
        ("a call's pair made permanent", held, false),
        ("a pair in doubt made permanent", doubt, false),
        ("a marked pair made permanent", mark, false),
        ("a pair under RESTART made permanent", named, false),
        ("a free pair made permanent", draft.free_pair(), room),
    ];
    let mut list = Vec::new();
    for (what, pair, taken) in tries {
        let Some(pair) = pair else { continue };
        let mut pairs: Vec<[u16; 2]> = draft.pairs.chunks(2).map(|two| [two[0], two[1]]).collect();
        pairs.push([pair.vpci, pair.vci]);
        pairs.sort_unstable();
        let draft = Draft {
            pairs: pairs.concat(),
            ..draft.clone()
        };
        list.push(Damage::draft(what, &draft, taken));
    }
    list
}

/// Readings at and over the limit, and so low that a deadline is as far as it
/// can be, or one further.
fn readings(draft: &Draft) -> Vec<Damage> {
    let calls = draft.calls.iter();
    let least = calls.filter_map(|call| Some(call.deadline?.saturating_sub(timer(call.state)?)));
    let restart = draft.restart.iter();
    let restart = restart.map(|restart| restart.deadline.saturating_sub(T316));
    let least = least.chain(restart).max().unwrap_or(0);
    let mut tries = vec![
        ("the largest reading", READING_LIMIT, true),
        ("a reading over the limit", READING_LIMIT + 1, false),
        ("a reading over the limit", 1 << 42, false),
        ("a reading over the limit", 1 << 63, false),
        ("a reading over the limit", u64::MAX, false),
        ("the lowest reading", least, true),
    ];
    if let Some(less) = least.checked_sub(1) {
        tries.push(("a reading one too low", less, false));
    }
    let with = |(what, reading, taken)| {
        let draft = Draft {
            reading,
            ..draft.clone()
        };
        Damage::draft(what, &draft, taken)
    };
    tries.into_iter().map(with).collect()
}
