//! SETUP from the user.

use super::write::cleared;
use super::{Answer, Call, Flags, Notice, Reference, State, Table};
use crate::compose::{connection, message};
use crate::decode::*;
use crate::rows::Row;
use crate::types::{CALL_PROCEEDING, RELEASE_COMPLETE};

/// Why a SETUP is refused.
struct Refusal {
    row: Row,
    cause: u8,
    diagnostic: Vec<u8>,
}

impl Refusal {
    fn new(row: Row, cause: u8) -> Refusal {
        Refusal {
            row,
            cause,
            diagnostic: Vec::new(),
        }
    }
}

impl Table {
    pub(super) fn setup(&mut self, received: &Received<'_>) -> Answer {
        let reference = Reference::of(received);
        match self.admit(received) {
            Ok((slot, pair)) => {
                self.calls[slot] = Some(Call {
                    reference,
                    pair,
                    state: State::N3,
                });
                let reply = message(reference.sent(), CALL_PROCEEDING, &[&connection(pair)]);
                Answer::reply(Row::SetupAccepted, reply).notice(Notice::Asked, Flags::one(slot))
            }
            Err(refusal) => {
                let diagnostic = &refusal.diagnostic;
                let reply = cleared(reference, RELEASE_COMPLETE, refusal.cause, diagnostic);
                Answer::reply(refusal.row, reply)
            }
        }
    }

    /// The slot and the pair of a SETUP that nothing refuses.
    fn admit(&self, received: &Received<'_>) -> Result<(usize, Pair), Refusal> {
        check_contents(received)?;
        let slot = self.empty_slot();
        let slot = slot.ok_or(Refusal::new(Row::SetupNoSlot, 47))?;
        let pair = self.free_pair();
        let pair = pair.ok_or(Refusal::new(Row::SetupNoPair, 45))?;
        Ok((slot, pair))
    }
}

/// Causes 96, 100, 65 and 73.
fn check_contents(received: &Received<'_>) -> Result<(), Refusal> {
    let (traffic, bearer) = (received.traffic(), received.bearer());
    let (qos, called) = (received.qos(), received.called());
    let absent = [
        traffic == Part::Absent,
        qos == Part::Absent,
        bearer == Part::Absent,
        called == Part::Absent,
    ];
    check_four(absent, Row::SetupMissing, 96)?;
    let damaged = [
        traffic.damage().is_some(),
        qos.damage().is_some(),
        bearer.damage().is_some(),
        called.damage().is_some(),
    ];
    check_four(damaged, Row::SetupUnreadable, 100)?;
    if bearer == Part::Readable(Bearer::Multi) {
        return Err(Refusal::new(Row::SetupMulti, 65));
    }
    match traffic {
        Part::Readable(subfields) if subfields.pass() => Ok(()),
        _ => Err(Refusal::new(Row::SetupTraffic, 73)),
    }
}

/// Refuses with those of the four elements that have a fault.
fn check_four(faults: [bool; 4], row: Row, cause: u8) -> Result<(), Refusal> {
    let faulty = MANDATORY
        .into_iter()
        .zip(faults)
        .filter(|(_, fault)| *fault);
    let diagnostic: Vec<u8> = faulty.map(|(id, _)| id).collect();
    if diagnostic.is_empty() {
        return Ok(());
    }
    Err(Refusal {
        diagnostic,
        ..Refusal::new(row, cause)
    })
}
