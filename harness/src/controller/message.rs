//! The order of message checks, and the messages on a live call.

use super::write::{bare, cleared, status};
use super::{Answer, Call, Flags, Notice, Reference, State, Table, T310};
use crate::decode::{receive, Ignored, Part, Received};
use crate::rows::Row;
use crate::types::*;

impl Table {
    /// Steps 1 to 3.
    pub(super) fn receive(&mut self, octets: &[u8]) -> Answer {
        match receive(octets) {
            Err(Ignored::Short) => Answer::nothing(Row::Short),
            Err(Ignored::First) => Answer::nothing(Row::FirstOctet),
            Err(Ignored::Second) => Answer::nothing(Row::SecondOctet),
            Ok(received) if received.reference == 0 => self.global(&received),
            Ok(received) => self.local(&received),
        }
    }

    fn global(&mut self, received: &Received<'_>) -> Answer {
        let (reference, state) = (Reference::of(received), self.global_state());
        let kind = received.kind;
        match (kind, received.flag) {
            (STATUS, _) => Answer::nothing(Row::GlobalStatus),
            (RESTART, false) if received.length_right => self.restart(received),
            (RESTART, false) => Answer::nothing(Row::LengthField),
            (RESTART_ACKNOWLEDGE, true) => self.global_acknowledge(received),
            _ => Answer::reply(Row::GlobalElse, status(reference, state, 81, &[])),
        }
    }

    /// With a RESTART of ours under way it goes on to step 5.
    fn global_acknowledge(&mut self, received: &Received<'_>) -> Answer {
        match self.under_way {
            None => {
                let reply = status(Reference::of(received), 0, 101, &[received.kind]);
                Answer::reply(Row::GlobalAcknowledge, reply)
            }
            Some(_) if !received.length_right => Answer::nothing(Row::LengthField),
            Some(under_way) => self.acknowledged(received, under_way.named),
        }
    }

    fn local(&mut self, received: &Received<'_>) -> Answer {
        let found = self.find(Reference::of(received));
        let call = found.and_then(|slot| Some((slot, self.calls[slot]?)));
        match (received.kind, call) {
            (SETUP, _) if received.flag => Answer::nothing(Row::SetupFlag),
            (SETUP, Some(_)) => Answer::nothing(Row::SetupLive),
            (_, None) => self.no_call(received),
            (_, Some((slot, call))) => self.on_call(received, slot, call),
        }
    }

    /// The rest of step 3 and all that follows it where there is no call.
    fn no_call(&mut self, received: &Received<'_>) -> Answer {
        let reference = Reference::of(received);
        match received.kind {
            RELEASE_COMPLETE => Answer::nothing(Row::NoCallComplete),
            STATUS_ENQUIRY => Answer::reply(Row::NoCallEnquiry, status(reference, 0, 30, &[])),
            SETUP | STATUS if !received.length_right => Answer::nothing(Row::LengthField),
            SETUP => self.setup(received),
            STATUS => no_call_status(received),
            _ => {
                let reply = cleared(reference, RELEASE_COMPLETE, 81, &[]);
                Answer::reply(Row::NoCallElse, reply)
            }
        }
    }

    /// Steps 4 to 6 on a live call.
    fn on_call(&mut self, received: &Received<'_>, slot: usize, call: Call) -> Answer {
        let kind = received.kind;
        let unexpected = |row: Row, cause: u8| {
            let reply = status(call.reference, call.state.number(), cause, &[kind]);
            Answer::reply(row, reply)
        };
        match expected(kind, call.state) {
            None => unexpected(Row::UnknownType, 97),
            Some(false) => unexpected(Row::NotExpected, 101),
            Some(true) if !received.length_right => Answer::nothing(Row::LengthField),
            Some(true) => self.expected(received, slot, call),
        }
    }

    fn expected(&mut self, received: &Received<'_>, slot: usize, call: Call) -> Answer {
        match received.kind {
            RELEASE => self.release(received, slot, call),
            RELEASE_COMPLETE => self.gone(Row::ReleaseComplete, Flags::one(slot)),
            STATUS_ENQUIRY => {
                let reply = status(call.reference, call.state.number(), 30, &[]);
                Answer::reply(Row::Enquiry, reply)
            }
            STATUS => self.status(received, slot),
            CALL_PROCEEDING => {
                let deadline = self.reading + T310;
                self.enter(slot, call, State::N9 { deadline });
                Answer::nothing(Row::CallProceeding)
            }
            CONNECT => {
                self.enter(slot, call, State::N10);
                let reply = bare(call.reference, CONNECT_ACKNOWLEDGE);
                Answer::reply(Row::Connect, reply).notice(Notice::Answered, Flags::one(slot))
            }
            _ => Answer::nothing(Row::ConnectAcknowledge),
        }
    }

    /// Puts a call in another state; the old timer goes with the old state.
    pub(super) fn enter(&mut self, slot: usize, call: Call, state: State) {
        self.calls[slot] = Some(Call { state, ..call });
    }

    fn release(&mut self, received: &Received<'_>, slot: usize, call: Call) -> Answer {
        if matches!(call.state, State::N12(_)) {
            return self.gone(Row::ReleaseN12, Flags::one(slot));
        }
        let refuse = |cause| cleared(call.reference, RELEASE_COMPLETE, cause, &[0x08]);
        let (row, reply) = match received.cause() {
            Part::Absent => (Row::ReleaseAbsent, refuse(96)),
            Part::Unreadable(_) => (Row::ReleaseUnreadable, refuse(100)),
            Part::Readable(_) => (Row::Release, bare(call.reference, RELEASE_COMPLETE)),
        };
        Answer {
            reply,
            ..self.gone(row, Flags::one(slot))
        }
    }

    fn status(&mut self, received: &Received<'_>, slot: usize) -> Answer {
        match received.call_state() {
            Part::Readable(0) => self.gone(Row::StatusGone, Flags::one(slot)),
            Part::Readable(_) => Answer::nothing(Row::StatusElse),
            _ => Answer::nothing(Row::StatusUnread),
        }
    }
}

fn no_call_status(received: &Received<'_>) -> Answer {
    match received.call_state() {
        Part::Readable(0) => Answer::nothing(Row::NoCallStatusElse),
        Part::Readable(_) => {
            let reply = cleared(Reference::of(received), RELEASE_COMPLETE, 101, &[]);
            Answer::reply(Row::NoCallStatusState, reply)
        }
        _ => Answer::nothing(Row::NoCallStatusUnread),
    }
}

/// Whether a type is expected in a live state; None if it is unknown.
fn expected(kind: u8, state: State) -> Option<bool> {
    match kind {
        RELEASE | RELEASE_COMPLETE | STATUS_ENQUIRY | STATUS => Some(true),
        CALL_PROCEEDING => Some(matches!(state, State::N6 { .. })),
        CONNECT => Some(matches!(state, State::N6 { .. } | State::N9 { .. })),
        CONNECT_ACKNOWLEDGE => Some(state == State::N10),
        SETUP | RESTART | RESTART_ACKNOWLEDGE => Some(false),
        _ => None,
    }
}
