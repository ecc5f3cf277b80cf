//! A saved form whose fields can say anything.

use crate::compose::{field, pair_octets, FLAG};
use crate::controller::{Call, Named, Pool, State, Table, UnderWay};
use crate::controller::{SLOTS, T303, T308, T310};
use crate::decode::Pair;
use std::collections::BTreeSet;

#[derive(Clone, Debug, PartialEq, Eq)]
pub struct Draft {
    pub ranges: Vec<u16>,
    pub pairs: Vec<u16>,
    pub reading: u64,
    pub doubts: Vec<Pair>,
    /// The octet that says if all pairs are out of service.
    pub all: u8,
    pub marks: Vec<Pair>,
    pub restart: Option<Waiting>,
    pub calls: Vec<Entry>,
}

/// The RESTART under way in a draft; without a pair it names all.
#[derive(Clone, Copy, Debug, PartialEq, Eq)]
pub struct Waiting {
    pub times: u8,
    pub deadline: u64,
    pub pair: Option<Pair>,
}

/// A call in a draft; what is None is not written.
#[derive(Clone, Copy, Debug, PartialEq, Eq)]
pub struct Entry {
    pub slot: u8,
    /// The reference with its flag.
    pub reference: u32,
    pub pair: Pair,
    pub state: u8,
    pub deadline: Option<u64>,
    pub times: Option<u8>,
    pub cause: Option<u8>,
}

/// How long the timer of a state runs.
pub fn timer(state: u8) -> Option<u64> {
    match state {
        6 => Some(T303),
        9 => Some(T310),
        12 => Some(T308),
        _ => None,
    }
}

impl Draft {
    pub fn of(table: &Table) -> Draft {
        let ranges = table.pool.ranges.iter();
        let pairs = table.pool.permanent.iter();
        Draft {
            ranges: ranges.flat_map(|r| [r.vpci, r.first, r.last]).collect(),
            pairs: pairs.flat_map(|pair| [pair.vpci, pair.vci]).collect(),
            reading: table.reading,
            doubts: table.doubts.iter().copied().collect(),
            all: u8::from(table.marks.all),
            marks: table.marks.single.iter().copied().collect(),
            restart: table.under_way.map(Waiting::of),
            calls: table.live().map(Entry::of).collect(),
        }
    }

    /// The fields with their right lengths.
    pub fn fields(&self) -> Vec<Vec<u8>> {
        let list = |numbers: &[u16]| -> Vec<u8> {
            let octets = numbers.iter().flat_map(|number| number.to_be_bytes());
            octets.collect()
        };
        let marks = [vec![self.all], pairs_octets(&self.marks)].concat();
        let restart = self.restart.map_or(Vec::new(), Waiting::octets);
        let mut fields = vec![
            field(1, &list(&self.ranges)),
            field(2, &list(&self.pairs)),
            field(3, &self.reading.to_be_bytes()),
            field(5, &pairs_octets(&self.doubts)),
            field(6, &marks),
            field(7, &restart),
        ];
        fields.extend(self.calls.iter().map(|call| field(4, &call.octets())));
        fields
    }

    pub fn octets(&self) -> Vec<u8> {
        self.fields().concat()
    }

    /// The same with another call at a place.
    pub fn with(&self, place: usize, entry: Entry) -> Draft {
        let mut draft = self.clone();
        draft.calls[place] = entry;
        draft
    }

    /// The same with one more call, in slot order.
    pub fn and(&self, entry: Entry) -> Draft {
        let mut draft = self.clone();
        draft.calls.push(entry);
        draft.calls.sort_by_key(|call| call.slot);
        draft
    }

    /// Another call than that at a place has this flagged reference.
    pub fn named_elsewhere(&self, place: usize, reference: u32) -> bool {
        let mut calls = self.calls.iter().enumerate();
        calls.any(|(other, call)| other != place && call.reference == reference)
    }

    /// A reference of this side that no other call has: the call's own value
    /// if it may be, else the lowest.
    pub fn reference(&self, place: usize, network: bool) -> u32 {
        let flag = if network { FLAG } else { 0 };
        let own = self.calls[place].reference & !FLAG;
        let mut values = [own].into_iter().chain(1..);
        let free = values.find(|value| !self.named_elsewhere(place, flag + value));
        flag + free.unwrap_or(own)
    }

    pub fn free_slot(&self) -> Option<u8> {
        let taken = |slot: u8| self.calls.iter().any(|call| call.slot == slot);
        (0..SLOTS as u8).find(|&slot| !taken(slot))
    }

    /// The same with these pairs in doubt, ascending.
    pub fn doubting(&self, mut doubts: Vec<Pair>) -> Draft {
        doubts.sort_unstable();
        Draft {
            doubts,
            ..self.clone()
        }
    }

    /// The same with these single pairs out of service, ascending.
    pub fn marking(&self, mut marks: Vec<Pair>) -> Draft {
        marks.sort_unstable();
        Draft {
            marks,
            ..self.clone()
        }
    }

    /// The same with another RESTART under way, or none.
    pub fn waiting(&self, restart: Option<Waiting>) -> Draft {
        Draft {
            restart,
            ..self.clone()
        }
    }

    /// So many of the permitted pairs that are neither held nor in doubt nor
    /// marked by themselves, and that no RESTART names by itself.
    pub fn free_pairs(&self, most: usize) -> Vec<Pair> {
        let pool = Pool::new(&self.ranges, &self.pairs);
        let permitted = pool.iter().flat_map(Pool::permitted);
        let held = self.calls.iter().map(|call| call.pair);
        let named = self.restart.and_then(|restart| restart.pair);
        let listed = self.doubts.iter().chain(&self.marks).copied();
        let taken: BTreeSet<Pair> = held.chain(named).chain(listed).collect();
        let free = permitted.filter(|pair| !taken.contains(pair));
        free.take(most).collect()
    }

    pub fn free_pair(&self) -> Option<Pair> {
        self.free_pairs(1).pop()
    }
}

fn pairs_octets(pairs: &[Pair]) -> Vec<u8> {
    let octets = pairs.iter().flat_map(|&pair| pair_octets(pair));
    octets.collect()
}

impl Waiting {
    fn of(under_way: UnderWay) -> Waiting {
        Waiting {
            times: if under_way.second { 2 } else { 1 },
            deadline: under_way.deadline,
            pair: match under_way.named {
                Named::One(pair) => Some(pair),
                Named::All => None,
            },
        }
    }

    fn octets(self) -> Vec<u8> {
        let mut octets = vec![self.times];
        octets.extend(self.deadline.to_be_bytes());
        octets.extend(self.pair.map(pair_octets).iter().flatten());
        octets
    }
}

impl Entry {
    fn of((slot, call): (usize, Call)) -> Entry {
        let clearing = match call.state {
            State::N12(clearing) => Some(clearing),
            _ => None,
        };
        Entry {
            slot: slot as u8,
            reference: call.reference.received(),
            pair: call.pair,
            state: call.state.number(),
            deadline: call.state.deadline(),
            times: clearing.map(|clearing| if clearing.second { 2 } else { 1 }),
            cause: clearing.map(|clearing| clearing.cause),
        }
    }

    /// The same call in a state, with what goes with it.
    pub fn in_state(self, state: u8, deadline: u64) -> Entry {
        Entry {
            state,
            deadline: timer(state).map(|_| deadline),
            times: (state == 12).then_some(1),
            cause: (state == 12).then_some(16),
            ..self
        }
    }

    fn octets(self) -> Vec<u8> {
        let [_, high, middle, low] = self.reference.to_be_bytes();
        let mut octets = vec![self.slot, high, middle, low];
        octets.extend(pair_octets(self.pair));
        octets.push(self.state);
        octets.extend(self.deadline.map(u64::to_be_bytes).iter().flatten());
        octets.extend(self.times);
        octets.extend(self.cause);
        octets
    }
}
