//! Tables that no events gave, but that keep the rules.

use super::draft::{timer, Draft, Entry, Waiting};
use crate::compose::FLAG;
use crate::controller::{Pool, DOUBTS, HOST_CAUSES, MARKS, READING_LIMIT, SLOTS, T316};
use crate::decode::Pair;
use crate::random::Random;

/// The states of each side.
const USER: [u8; 3] = [3, 10, 12];
const NETWORK: [u8; 4] = [6, 9, 10, 12];

/// The lists of a start.
type Lists = (Vec<u16>, Vec<u16>);

/// How many there are to be, as far as there are pairs.
struct Wish {
    calls: usize,
    doubts: usize,
    marks: usize,
    /// All pairs are out of service, so there are no calls and no doubts.
    all: bool,
    /// So many of a hundred have a RESTART under way.
    restart: u64,
}

/// A draft that keeps the rules, with at most so many calls and twice as many
/// pairs in doubt and out of service.
pub fn made(random: &mut Random, most: usize) -> Draft {
    let lists = lists(random);
    let reading = match random.below(4) {
        0 => random.pick(&[0, 1, 3_999, 40_000]),
        1 => READING_LIMIT - random.pick(&[0, 0, 1, 29_999, 30_000]),
        _ => random.within(0, READING_LIMIT),
    };
    let calls = match random.below(4) {
        0 => most,
        1 => random.below(4).min(most),
        _ => random.below(most + 1),
    };
    let doubts = random.pick(&[0, 0, 0, 1, 2, 5, 63, 64]).min(2 * most);
    let marks = random.pick(&[0, 0, 0, 1, 2, 5, 63, 64]).min(2 * most);
    let wish = Wish {
        calls,
        doubts,
        marks,
        all: random.chance(15),
        restart: 60,
    };
    if most == SLOTS && random.chance(8) {
        return full(random, reading);
    }
    filled(random, lists, reading, &wish)
}

/// As many calls, doubts and marks as there can be.
fn full(random: &mut Random, reading: u64) -> Draft {
    let wish = Wish {
        calls: SLOTS,
        doubts: DOUBTS,
        marks: MARKS,
        all: false,
        restart: 90,
    };
    let lists = (vec![0, 32, 100, 255, 65_400, 65_535], vec![0, 40]);
    filled(random, lists, reading, &wish)
}

/// A draft with these lists that keeps the rules, most often with as many
/// pairs in doubt as can be, or nearly.
pub fn doubtful(random: &mut Random, lists: Lists) -> Draft {
    let wish = Wish {
        calls: random.below(SLOTS + 1),
        doubts: random.pick(&[1, 3, 62, 63, 63, 64, 64, 64]),
        marks: random.pick(&[0, 0, 0, 1, 2]),
        all: false,
        restart: 20,
    };
    let reading = random.within(0, 100_000);
    filled(random, lists, reading, &wish)
}

/// A draft with these lists that keeps the rules, most often with as many
/// pairs out of service as can be, or nearly.
pub fn marked(random: &mut Random, lists: Lists) -> Draft {
    let wish = Wish {
        calls: random.below(16),
        doubts: random.pick(&[0, 1, 2, 5, 9]),
        marks: random.pick(&[1, 3, 62, 63, 63, 64, 64, 64]),
        all: random.chance(20),
        restart: 80,
    };
    let reading = random.within(0, 100_000);
    filled(random, lists, reading, &wish)
}

fn filled(random: &mut Random, (ranges, pairs): Lists, reading: u64, wish: &Wish) -> Draft {
    let mut draft = Draft {
        ranges,
        pairs,
        reading,
        doubts: Vec::new(),
        all: u8::from(wish.all),
        marks: Vec::new(),
        restart: None,
        calls: Vec::new(),
    };
    let mut free = draft.free_pairs(usize::MAX);
    random.shuffle(&mut free);
    let mut take = |most: usize| free.split_off(free.len() - most.min(free.len()));
    let (doubts, marks) = (take(wish.doubts), take(wish.marks));
    draft = draft.marking(marks);
    if !wish.all {
        draft = draft.doubting(doubts);
        add_calls(random, &mut draft, wish.calls, free);
    }
    if random.chance(wish.restart) {
        draft.restart = Some(restart(random, &draft));
    }
    draft
}

/// A RESTART under way, of all or of a pair of any kind.
fn restart(random: &mut Random, draft: &Draft) -> Waiting {
    let held = draft.calls.iter().map(|call| call.pair).collect();
    let (doubts, marks) = (draft.doubts.clone(), draft.marks.clone());
    let mut kinds: Vec<Vec<Pair>> = vec![held, doubts, marks, draft.free_pairs(9)];
    kinds.retain(|kind| !kind.is_empty());
    let pair = (!kinds.is_empty() && random.chance(80)).then(|| {
        let kind = &kinds[random.below(kinds.len())];
        random.pick(kind)
    });
    let (reading, most) = (draft.reading, draft.reading + T316);
    let calls = draft.calls.iter();
    let running: Vec<u64> = calls.filter_map(|call| call.deadline).collect();
    let deadline = match random.below(8) {
        0 => 0,
        1 => reading,
        2 => most,
        3 => random.within(0, most),
        4..6 if !running.is_empty() => random.pick(&running),
        _ => random.within(reading, most),
    };
    Waiting {
        times: random.pick(&[1, 2]),
        deadline,
        pair,
    }
}

/// Lists that start accepts.
fn lists(random: &mut Random) -> Lists {
    loop {
        let count = random.within(1, 4);
        let mut ranges: Vec<[u16; 3]> = (0..count).map(|_| range(random)).collect();
        ranges.sort_unstable();
        let count = random.pick(&[0, 0, 1, 2, 5, 7, 8, 8]);
        let mut pairs: Vec<[u16; 2]> = (0..count).map(|_| near(random, &ranges)).collect();
        pairs.sort_unstable();
        let (ranges, pairs) = (ranges.concat(), pairs.concat());
        if Pool::new(&ranges, &pairs).is_ok() {
            return (ranges, pairs);
        }
    }
}

fn range(random: &mut Random) -> [u16; 3] {
    let vpci = random.pick(&[0, 0, 1, 2, 200, 255]);
    let first = match random.below(4) {
        0 => 32,
        1 => random.pick(&[33, 40, 255, 256, 65_500, 65_535]),
        _ => random.within(32, 65_535) as u16,
    };
    let more = random.pick(&[0, 1, 2, 7, 20, 40, 300]);
    [vpci, first, first.saturating_add(more)]
}

/// A pair in a range or close to one.
fn near(random: &mut Random, ranges: &[[u16; 3]]) -> [u16; 2] {
    let [vpci, first, last] = random.pick(ranges);
    match random.below(6) {
        0 => [vpci, first],
        1 => [vpci, last],
        2 => [vpci, last.saturating_add(1)],
        3 => [random.below(256) as u16, random.within(32, 65_535) as u16],
        _ => [
            vpci,
            random.within(u64::from(first), u64::from(last)) as u16,
        ],
    }
}

/// Calls on these pairs and in slots of any order, as far as there are pairs.
fn add_calls(random: &mut Random, draft: &mut Draft, count: usize, pairs: Vec<Pair>) {
    let mut slots: Vec<u8> = (0..SLOTS as u8).collect();
    random.shuffle(&mut slots);
    for (slot, pair) in slots.into_iter().zip(pairs).take(count) {
        let reference = reference(random, draft);
        let entry = Entry {
            slot,
            reference,
            pair,
            state: 0,
            deadline: None,
            times: None,
            cause: None,
        };
        let entry = stated(random, entry, draft.reading);
        draft.calls.push(entry);
    }
    draft.calls.sort_unstable_by_key(|call| call.slot);
}

/// A flagged reference that no call has yet.
fn reference(random: &mut Random, draft: &Draft) -> u32 {
    loop {
        let value = match random.below(4) {
            0 => random.within(1, 40),
            1 => random.pick(&[1, 32, 33, 255, 256, 0x1_0000, 0x40_0000, 0x7f_ffff]),
            _ => random.within(1, 0x7f_ffff),
        };
        let reference = value as u32 + random.pick(&[0, FLAG]);
        if !draft.calls.iter().any(|call| call.reference == reference) {
            return reference;
        }
    }
}

/// A state of the call's side, with all that goes with it.
fn stated(random: &mut Random, entry: Entry, reading: u64) -> Entry {
    let network = entry.reference & FLAG != 0;
    let state = if network {
        random.pick(&NETWORK)
    } else {
        random.pick(&USER)
    };
    let most = reading + timer(state).unwrap_or(0);
    let deadline = match random.below(6) {
        0 => 0,
        1 => reading,
        2 => most,
        3 => random.within(0, most),
        _ => random.within(reading, most),
    };
    let mut entry = entry.in_state(state, deadline);
    if state == 12 {
        entry.times = Some(random.pick(&[1, 2]));
        let own = network && random.chance(40);
        entry.cause = Some(if own { 102 } else { random.pick(&HOST_CAUSES) });
    }
    entry
}
