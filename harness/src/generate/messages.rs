//! Messages on calls, on no call and on the global reference.

use super::elements::{self, any_id, disturb, four, insert, readable, unreadable};
use super::Generator;
use crate::compose::{element, header, FLAG};
use crate::controller::{Reference, State, Table};
use crate::decode::{CALL_STATE, CAUSE, CONNECTION, HEADER};
use crate::types::*;

const UNKNOWN: [u8; 8] = [0x00, 0x01, 0x45, 0x4f, 0x82, 0x85, 0xcd, 0xff];

impl Generator {
    pub(super) fn setup(&mut self) -> Vec<u8> {
        let reference = self.setup_reference();
        let elements = self.setup_elements();
        self.compose(reference, SETUP, &elements)
    }

    fn setup_elements(&mut self) -> Vec<Vec<u8>> {
        let random = &mut self.random;
        let mut list = four(random);
        match random.below(20) {
            0 => list.push(elements::multipoint(random)),
            1 => list.insert(0, elements::multipoint(random)),
            2 => list.insert(0, elements::broken_traffic(random)),
            3 => {
                list.insert(0, elements::broken_traffic(random));
                list.insert(0, elements::multipoint(random));
            }
            4..7 => {
                let id = any_id(random);
                let extra = readable(random, id);
                insert(random, &mut list, extra);
            }
            7 => {
                let extra = readable(random, CONNECTION);
                insert(random, &mut list, extra);
            }
            _ => {}
        }
        self.disturbed(list)
    }

    /// Elements, disturbed as often as the plan says.
    pub(super) fn disturbed(&mut self, mut list: Vec<Vec<u8>>) -> Vec<Vec<u8>> {
        while self.random.chance(self.plan.disturbed) {
            disturb(&mut self.random, &mut list);
        }
        list
    }

    /// A user's reference, most often of no live call.
    fn setup_reference(&mut self) -> u32 {
        let live = self.live();
        match self.random.below(40) {
            0 | 1 if !live.is_empty() => self.random.pick(&live).1.reference.received(),
            2..6 if !live.is_empty() => self.random.pick(&live).1.reference.value,
            6 => FLAG + self.random.within(1, 40) as u32,
            7 => self.random.pick(&[0x7f_ffff, 0x40_0000, 0x100, 0x1_0000]),
            _ => self.unused(false),
        }
    }

    /// A reference of no live call.
    fn unused(&mut self, flag: bool) -> u32 {
        loop {
            let value = self.random.within(1, 80) as u32;
            let reference = Reference { flag, value };
            let live = |table: &Table| table.find(reference).is_some();
            if !self.table().is_some_and(live) {
                return reference.received();
            }
        }
    }

    pub(super) fn no_call(&mut self) -> Vec<u8> {
        let flag = self.random.chance(40);
        let reference = self.unused(flag);
        let kind = match self.random.below(10) {
            0..3 => STATUS,
            3 => STATUS_ENQUIRY,
            _ => self.any_type(),
        };
        let elements = self.elements_of(kind);
        self.compose(reference, kind, &elements)
    }

    pub(super) fn global(&mut self) -> Vec<u8> {
        let reference = self.random.pick(&[0, FLAG]);
        let kind = self.any_type();
        let elements = self.elements_of(kind);
        self.compose(reference, kind, &elements)
    }

    fn any_type(&mut self) -> u8 {
        if self.random.chance(12) {
            return self.random.pick(&UNKNOWN);
        }
        self.random.pick(&KNOWN).0
    }

    pub(super) fn on_call(&mut self) -> Vec<u8> {
        let Some((_, call)) = self.live_call() else {
            return self.setup();
        };
        let clearing = self.random.chance(self.plan.clearing);
        let kind = if clearing {
            self.random
                .pick(&[RELEASE, RELEASE, RELEASE_COMPLETE, STATUS])
        } else {
            self.kind_in(call.state)
        };
        let mut elements = self.elements_of(kind);
        if kind == STATUS && self.random.chance(80) {
            let state = self.random.pick(&[1, 3, 6, 9, 10, 12, 63, 64]);
            let state = if clearing { 0 } else { state };
            elements = vec![element(CALL_STATE, &[state])];
        }
        let other = if self.random.chance(3) { FLAG } else { 0 };
        self.compose(call.reference.received() ^ other, kind, &elements)
    }

    /// A type that seldom clears a call in this state.
    fn kind_in(&mut self, state: State) -> u8 {
        let next = match state {
            State::N3 => STATUS_ENQUIRY,
            State::N6 { .. } => self
                .random
                .pick(&[CALL_PROCEEDING, CALL_PROCEEDING, CONNECT]),
            State::N9 { .. } => self.random.pick(&[CONNECT, STATUS_ENQUIRY]),
            State::N10 => CONNECT_ACKNOWLEDGE,
            State::N12(_) => STATUS,
        };
        let quiet = [
            CALL_PROCEEDING,
            SETUP,
            CONNECT,
            CONNECT_ACKNOWLEDGE,
            RESTART,
            RESTART_ACKNOWLEDGE,
            STATUS_ENQUIRY,
            STATUS,
        ];
        match self.random.below(10) {
            0..5 => next,
            5 => self.random.pick(&UNKNOWN),
            _ => self.random.pick(&quiet),
        }
    }

    /// Elements that go with a type.
    fn elements_of(&mut self, kind: u8) -> Vec<Vec<u8>> {
        let random = &mut self.random;
        let list = match kind {
            SETUP => return self.setup_elements(),
            RESTART => return self.restart_elements(),
            RESTART_ACKNOWLEDGE => return self.acknowledge_elements(),
            RELEASE if random.chance(10) => vec![],
            RELEASE if random.chance(15) => vec![unreadable(random, CAUSE)],
            RELEASE => vec![readable(random, CAUSE)],
            STATUS if random.chance(10) => vec![readable(random, CAUSE)],
            STATUS if random.chance(15) => vec![unreadable(random, CALL_STATE)],
            STATUS => vec![readable(random, CALL_STATE), readable(random, CAUSE)],
            _ if random.chance(60) => vec![],
            _ => {
                let id = any_id(random);
                vec![readable(random, id)]
            }
        };
        self.disturbed(list)
    }

    /// A message, its length field now and then wrong.
    pub(super) fn compose(&mut self, reference: u32, kind: u8, elements: &[Vec<u8>]) -> Vec<u8> {
        let body = elements.concat();
        let length = match self.random.below(100) {
            0 => body.len() + 1,
            1 => body.len().wrapping_sub(1) & 0xffff,
            2 => body.len() + HEADER,
            3 => self.random.pick(&[0, 0xffff, 0x100]),
            4 => body.len().swap_bytes() >> 48,
            _ => body.len(),
        };
        let mut octets = header(reference, kind, length);
        if self.random.chance(5) {
            octets[6] = self.random.octet();
        }
        octets.extend(body);
        octets
    }
}
