//! Events of the host: connect, clear and offer.

use super::write::{bare, cleared};
use super::{hold, Answer, Call, Clearing, Flags, Notice, Reference, Request, State, Table};
use super::{SLOTS, T303, T308};
use crate::compose::{connection, message};
use crate::decode::{offer_fault, OfferFault, Pair};
use crate::rows::Row;
use crate::types::{CONNECT, RELEASE, SETUP};

/// The cause numbers that the host may use.
pub const HOST_CAUSES: [u8; 17] = [
    1, 3, 16, 17, 18, 21, 22, 27, 28, 31, 41, 47, 49, 57, 58, 63, 88,
];

impl Table {
    pub fn connect(&mut self, request: &Request, slot: u64) -> Answer {
        match self.check_connect(request, slot) {
            Ok((slot, call)) => {
                self.reading = request.reading;
                self.enter(slot, call, State::N10);
                Answer::reply(Row::HostConnect, bare(call.reference, CONNECT))
            }
            Err(row) => Answer::nothing(row),
        }
    }

    fn check_connect(&self, request: &Request, slot: u64) -> Result<(usize, Call), Row> {
        self.check(request)?;
        let (slot, call) = self.occupied(slot)?;
        hold(call.state == State::N3, Row::WrongState)?;
        Ok((slot, call))
    }

    /// The call in a slot.
    fn occupied(&self, slot: u64) -> Result<(usize, Call), Row> {
        let slot = usize::try_from(slot).map_err(|_| Row::Slot)?;
        let call = self.calls.get(slot).copied().flatten();
        call.map(|call| (slot, call)).ok_or(Row::Slot)
    }

    pub fn clear(&mut self, request: &Request, slot: u64, cause: u64) -> Answer {
        match self.check_clear(request, slot, cause) {
            Ok((slot, call, cause)) => {
                self.reading = request.reading;
                let reply = self.clear_call(slot, call, cause, &[]);
                Answer::reply(Row::HostClear, reply)
            }
            Err(row) => Answer::nothing(row),
        }
    }

    fn check_clear(
        &self,
        request: &Request,
        slot: u64,
        cause: u64,
    ) -> Result<(usize, Call, u8), Row> {
        self.check(request)?;
        let (slot, call) = self.occupied(slot)?;
        hold(!matches!(call.state, State::N12(_)), Row::WrongState)?;
        let listed = |number: &u8| u64::from(*number) == cause;
        let cause = HOST_CAUSES.into_iter().find(listed);
        Ok((slot, call, cause.ok_or(Row::HostCause)?))
    }

    /// RELEASE, N12 and the first T308.
    pub(super) fn clear_call(
        &mut self,
        slot: usize,
        call: Call,
        cause: u8,
        diagnostic: &'static [u8],
    ) -> Vec<u8> {
        let state = State::N12(Clearing {
            deadline: self.reading + T308,
            second: false,
            cause,
            diagnostic,
        });
        self.enter(slot, call, state);
        cleared(call.reference, RELEASE, cause, diagnostic)
    }

    pub fn offer(&mut self, request: &Request, body: &[u8]) -> Answer {
        match self.check_offer(request, body) {
            Ok((slot, pair)) => {
                self.reading = request.reading;
                self.offer_call(slot, pair, body)
            }
            Err(row) => Answer::nothing(row),
        }
    }

    fn check_offer(&self, request: &Request, body: &[u8]) -> Result<(usize, Pair), Row> {
        self.check(request)?;
        if let Some(fault) = offer_fault(body) {
            return Err(fault_row(fault));
        }
        let slot = self.empty_slot().ok_or(Row::OfferNoSlot)?;
        let pair = self.free_pair().ok_or(Row::OfferNoPair)?;
        Ok((slot, pair))
    }

    fn offer_call(&mut self, slot: usize, pair: Pair, body: &[u8]) -> Answer {
        let reference = self.network_reference();
        let deadline = self.reading + T303;
        self.calls[slot] = Some(Call {
            reference,
            pair,
            state: State::N6 { deadline },
        });
        let reply = message(reference.sent(), SETUP, &[&connection(pair), body]);
        Answer::reply(Row::HostOffer, reply).notice(Notice::Asked, Flags::one(slot))
    }

    /// The lowest network-originated value from 1 not in use. With an empty
    /// slot there is one among the first 32.
    fn network_reference(&self) -> Reference {
        let named = |value| Reference { flag: true, value };
        let mut references = (1..SLOTS as u32).map(named);
        let free = references.find(|&reference| self.find(reference).is_none());
        free.unwrap_or(named(SLOTS as u32))
    }
}

fn fault_row(fault: OfferFault) -> Row {
    match fault {
        OfferFault::Long => Row::OfferLong,
        OfferFault::Broken => Row::OfferBroken,
        OfferFault::Missing => Row::OfferMissing,
        OfferFault::Repeated => Row::OfferRepeated,
        OfferFault::Connection => Row::OfferConnection,
        OfferFault::Unreadable => Row::OfferUnreadable,
        OfferFault::Multi => Row::OfferMulti,
        OfferFault::Traffic => Row::OfferTraffic,
    }
}
