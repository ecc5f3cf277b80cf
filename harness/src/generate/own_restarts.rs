//! RESTART of ours: the host's commands and the user's acknowledges.

use super::elements::{readable, unreadable};
use super::Generator;
use crate::compose::{connection, element, FLAG};
use crate::controller::{Named, Table};
use crate::decode::{Pair, CONNECTION, RESTART};
use crate::types::RESTART_ACKNOWLEDGE;

/// What a number is more than another of 16 bits that it must not wrap to.
const WIDE: [u64; 4] = [1 << 16, 1 << 17, 1 << 32, 1 << 63];

impl Generator {
    pub(super) fn restart_line(&mut self) -> Vec<u8> {
        let wanted = match self.random.below(4) {
            0 => "all".to_string(),
            _ => self.wanted_pair(),
        };
        let request = self.request(false);
        format!("restart {request} {wanted}").into_bytes()
    }

    pub(super) fn put_back_line(&mut self) -> Vec<u8> {
        format!("putback {}", self.request(false)).into_bytes()
    }

    /// VPCI and VCI, now and then too wide.
    fn wanted_pair(&mut self) -> String {
        let pair = self.own_pair();
        let (mut vpci, mut vci) = (u64::from(pair.vpci), u64::from(pair.vci));
        match self.random.below(20) {
            0 => vpci += self.random.pick(&WIDE),
            1 => vci += self.random.pick(&WIDE),
            _ => {}
        }
        let (vpci, vci) = (self.number_word(vpci), self.number_word(vci));
        format!("one {vpci} {vci}")
    }

    /// A pair that some row of our RESTART is about.
    fn own_pair(&mut self) -> Pair {
        let held = self.live_call().map(|(_, call)| call.pair);
        let (draw, place) = (self.random.below(20), self.random.below(64));
        let near = self.table().and_then(|table| match draw {
            0..7 => held,
            7..11 => nth(table.doubts.iter(), place),
            11..14 => nth(table.marks.single.iter(), place),
            14..17 => table.free_pair(),
            17 => table.pool.permitted().nth(place),
            _ => None,
        });
        // a user's RESTART has the pairs that are not permitted too
        near.unwrap_or_else(|| self.restart_pair())
    }

    /// RESTART ACKNOWLEDGE, most often of what is under way.
    pub(super) fn acknowledge(&mut self) -> Vec<u8> {
        let elements = self.acknowledge_elements();
        let reference = if self.random.chance(4) { 0 } else { FLAG };
        self.compose(reference, RESTART_ACKNOWLEDGE, &elements)
    }

    pub(super) fn acknowledge_elements(&mut self) -> Vec<Vec<u8>> {
        let under_way = self.table().and_then(|table| table.under_way);
        let Some(under_way) = under_way else {
            return self.restart_elements();
        };
        let mut list = match under_way.named {
            Named::One(pair) => vec![element(RESTART, &[0x80]), connection(pair)],
            Named::All => vec![element(RESTART, &[0x82])],
        };
        match self.random.below(24) {
            0 => drop(list.remove(0)),
            1 => list[0] = unreadable(&mut self.random, RESTART),
            2 | 3 => {
                list[0] = element(RESTART, &[0x80]);
                self.another(&mut list, true);
            }
            4 | 5 => list[0] = element(RESTART, &[0x82]),
            6 => list.truncate(1),
            7 | 8 => self.another(&mut list, false),
            9 => self.another(&mut list, true),
            10 => list.insert(0, unreadable(&mut self.random, CONNECTION)),
            11 => list.push(unreadable(&mut self.random, CONNECTION)),
            12 => list.reverse(),
            13 => list.insert(0, readable(&mut self.random, 0x42)),
            14 => return self.restart_elements(),
            _ => {}
        }
        self.disturbed(list)
    }

    /// Another pair before the right one, or in its place.
    fn another(&mut self, list: &mut Vec<Vec<u8>>, also: bool) {
        if !also {
            list.truncate(1);
        }
        let mut pair = self.own_pair();
        let named = self.table().and_then(|table| table.under_way);
        match named.map(|under_way| under_way.named) {
            Some(Named::One(named)) if self.random.chance(20) => {
                pair = Pair {
                    vpci: named.vpci ^ 1,
                    ..named
                };
            }
            _ => {}
        }
        list.insert(0, connection(pair));
    }
}

/// One of some pairs.
fn nth<'a>(mut pairs: impl ExactSizeIterator<Item = &'a Pair>, place: usize) -> Option<Pair> {
    let count = pairs.len().max(1);
    pairs.nth(place % count).copied()
}

/// The deadline of T316, if it runs.
pub fn deadline(table: &Table) -> Option<u64> {
    table.under_way.map(|under_way| under_way.deadline)
}
