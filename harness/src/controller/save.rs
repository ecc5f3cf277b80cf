//! Writes the saved form of a table.

use super::{Answer, Call, Marks, Named, State, Table, UnderWay};
use crate::compose::{field, pair_octets};
use crate::decode::Pair;
use crate::rows::Row;

impl Table {
    /// The saved form, if a room of so many octets holds it.
    pub fn save(&self, room: usize) -> Answer {
        let form = self.form();
        if form.len() > room {
            return Answer::nothing(Row::SaveRoom);
        }
        Answer::reply(Row::SaveAccepted, form)
    }

    /// The fields: ranges, permanent pairs, last reading, pairs in doubt, pairs
    /// out of service, the RESTART under way, live calls.
    pub fn form(&self) -> Vec<u8> {
        let ranges = self.pool.ranges.iter();
        let ranges = ranges.flat_map(|range| [range.vpci, range.first, range.last]);
        let ranges: Vec<u8> = ranges.flat_map(u16::to_be_bytes).collect();
        let mut form = field(0x01, &ranges);
        form.extend(field(0x02, &pairs_octets(&self.pool.permanent)));
        form.extend(field(0x03, &self.reading.to_be_bytes()));
        form.extend(field(0x05, &pairs_octets(&self.doubts)));
        form.extend(field(0x06, &marks_octets(&self.marks)));
        form.extend(field(0x07, &restart_octets(self.under_way)));
        for (slot, call) in self.live() {
            form.extend(field(0x04, &call_octets(slot, &call)));
        }
        form
    }
}

fn pairs_octets<'a>(pairs: impl IntoIterator<Item = &'a Pair>) -> Vec<u8> {
    let octets = pairs.into_iter().flat_map(|&pair| pair_octets(pair));
    octets.collect()
}

fn marks_octets(marks: &Marks) -> Vec<u8> {
    [vec![u8::from(marks.all)], pairs_octets(&marks.single)].concat()
}

/// Nothing where there is none.
fn restart_octets(under_way: Option<UnderWay>) -> Vec<u8> {
    let Some(UnderWay {
        named,
        second,
        deadline,
    }) = under_way
    else {
        return Vec::new();
    };
    let mut octets = vec![1 + u8::from(second)];
    octets.extend(deadline.to_be_bytes());
    if let Named::One(pair) = named {
        octets.extend(pair_octets(pair));
    }
    octets
}

fn call_octets(slot: usize, call: &Call) -> Vec<u8> {
    let [_, high, middle, low] = call.reference.received().to_be_bytes();
    let mut octets = vec![slot as u8, high, middle, low];
    octets.extend(pair_octets(call.pair));
    octets.push(call.state.number());
    octets.extend(call.state.deadline().map(u64::to_be_bytes).iter().flatten());
    if let State::N12(clearing) = call.state {
        octets.extend([1 + u8::from(clearing.second), clearing.cause]);
    }
    octets
}
