//! RESTART of every kind.

use super::elements::{readable, unreadable};
use super::Generator;
use crate::compose::{connection, element};
use crate::controller::{Table, DOUBTS};
use crate::decode::{Pair, CONNECTION, RESTART};
use crate::types;

impl Generator {
    pub(super) fn restart(&mut self) -> Vec<u8> {
        let elements = self.restart_elements();
        self.compose(0, types::RESTART, &elements)
    }

    pub(super) fn restart_elements(&mut self) -> Vec<Vec<u8>> {
        let mut list = Vec::new();
        match self.random.below(20) {
            0 => {}
            1 | 2 => list.push(unreadable(&mut self.random, RESTART)),
            3 | 4 => list.push(element(RESTART, &[0x82])),
            _ => list.push(element(RESTART, &[0x80])),
        }
        match self.random.below(20) {
            0 => {}
            1 | 2 => list.push(unreadable(&mut self.random, CONNECTION)),
            _ => list.push(connection(self.restart_pair())),
        }
        if self.random.chance(25) {
            list.reverse();
        }
        if self.random.chance(10) {
            let extra = readable(&mut self.random, 0x42);
            super::elements::insert(&mut self.random, &mut list, extra);
        }
        self.disturbed(list)
    }

    pub(super) fn restart_pair(&mut self) -> Pair {
        let any = Pair {
            vpci: self.random.below(300) as u16,
            vci: self.random.next() as u16,
        };
        let draw = self.random.next();
        let held = self.live_call().map(|(_, call)| call.pair);
        let place = self.random.below(DOUBTS);
        let Some(table) = self.exchange.table.as_ref() else {
            return any;
        };
        let doubt = table.doubts.iter().nth(place % table.doubts.len().max(1));
        if let (Some(doubt), 0..8) = (doubt, draw >> 32 & 15) {
            return *doubt;
        }
        pair_near(table, draw, held, any).unwrap_or(any)
    }
}

/// A pair that some row of RESTART is about.
fn pair_near(table: &Table, draw: u64, held: Option<Pair>, any: Pair) -> Option<Pair> {
    let place = (draw >> 8) as usize;
    let range = table.pool.ranges[place % table.pool.ranges.len()];
    let permanent = table
        .pool
        .permanent
        .get(place % table.pool.permanent.len().max(1));
    let vpci = range.vpci;
    match draw % 20 {
        0..6 => held,
        6 | 7 => table.free_pair(),
        8..11 => permanent.copied(),
        11 | 12 => Some(Pair {
            vpci,
            vci: any.vci % 32,
        }),
        13 => Some(Pair {
            vci: any.vci % 32,
            ..*permanent?
        }),
        14 => Some(Pair {
            vci: permanent?.vci ^ 1,
            ..*permanent?
        }),
        15 => Some(Pair {
            vpci,
            vci: range.last.saturating_add(1),
        }),
        16 => Some(Pair {
            vpci,
            vci: range.first - 1,
        }),
        17 => Some(Pair {
            vpci: vpci ^ 0x100,
            vci: range.first % 64,
        }),
        _ => None,
    }
}
