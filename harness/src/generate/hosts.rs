//! Lines of the host: tick, connect, clear and offer.

use super::elements::{any_id, broken_traffic, four, insert, multipoint, readable, unreadable};
use super::Generator;
use crate::compose::{connection, element};
use crate::controller::{State, HOST_CAUSES};
use crate::decode::{Pair, CONNECTION, OFFER_LIMIT};

/// Numbers that are no slot, some that would be one if they wrapped.
const NO_SLOT: [u64; 8] = [32, 33, 63, 255, 256, 65_536, 1 << 32, u64::MAX];

/// Numbers that are no cause of the host.
const NO_CAUSE: [u64; 12] = [
    0,
    2,
    30,
    45,
    102,
    127,
    144,
    256 + 16,
    65_536 + 16,
    (1 << 32) + 16,
    (1 << 63) + 16,
    u64::MAX,
];

impl Generator {
    pub(super) fn tick_line(&mut self) -> Vec<u8> {
        format!("tick {}", self.request(true)).into_bytes()
    }

    pub(super) fn connect_line(&mut self) -> Vec<u8> {
        let live = self.live();
        let asked = live.iter().filter(|(_, call)| call.state == State::N3);
        let asked: Vec<u64> = asked.map(|(slot, _)| *slot as u64).collect();
        let slot = if !asked.is_empty() && self.random.chance(75) {
            self.random.pick(&asked)
        } else {
            self.any_slot()
        };
        let request = self.request(false);
        let slot = self.number_word(slot);
        format!("connect {request} {slot}").into_bytes()
    }

    fn any_slot(&mut self) -> u64 {
        match (self.random.below(10), self.live_call()) {
            (0, _) => self.random.pick(&NO_SLOT),
            (1, _) | (_, None) => self.random.within(0, 31),
            (_, Some((slot, _))) => slot as u64,
        }
    }

    pub(super) fn clear_line(&mut self) -> Vec<u8> {
        let slot = self.any_slot();
        let cause = match self.random.below(10) {
            0 => self.random.pick(&NO_CAUSE),
            _ => u64::from(self.random.pick(&HOST_CAUSES)),
        };
        let request = self.request(false);
        let (slot, cause) = (self.number_word(slot), self.number_word(cause));
        format!("clear {request} {slot} {cause}").into_bytes()
    }

    pub(super) fn offer_line(&mut self) -> Vec<u8> {
        let list = self.offer_elements();
        let mut body = self.disturbed(list).concat();
        match self.random.below(60) {
            0 => body.clear(),
            1..4 => self.pad(&mut body),
            _ => {}
        }
        let request = self.request(false);
        let octets = self.octets_word(&body);
        format!("offer {request} {octets}").into_bytes()
    }

    fn offer_elements(&mut self) -> Vec<Vec<u8>> {
        let random = &mut self.random;
        let mut list = four(random);
        let extra = match random.below(24) {
            0 => connection(Pair { vpci: 0, vci: 32 }),
            1 => unreadable(random, CONNECTION),
            2..4 => {
                let id = any_id(random);
                readable(random, id)
            }
            4 => {
                let id = random.pick(&[0x08, 0x14, 0x79]);
                unreadable(random, id)
            }
            5 => {
                list.retain(|element| element[0] != 0x5e);
                multipoint(random)
            }
            6 => {
                list.retain(|element| element[0] != 0x59);
                broken_traffic(random)
            }
            _ => return list,
        };
        insert(random, &mut list, extra);
        list
    }

    /// Fills a body up to the limit or one octet over it.
    fn pad(&mut self, body: &mut Vec<u8>) {
        let octets = OFFER_LIMIT + self.random.below(2);
        let contents = vec![0x5a; octets.saturating_sub(body.len() + 4)];
        body.extend(element(0x42, &contents));
    }
}
