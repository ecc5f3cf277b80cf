//! RESTART from us: the host's command, the acknowledge and T316.

use super::{hold, Answer, Request, Table, T316};
use crate::compose::{connection, element, message};
use crate::decode::{Pair, Part, Received, Restart, RESTART};
use crate::rows::Row;
use crate::types;

/// The pairs that a RESTART names, of ours or of the user.
#[derive(Clone, Copy, Debug, PartialEq, Eq)]
pub enum Named {
    One(Pair),
    All,
}

/// A RESTART of ours that waits for its acknowledge, and its T316.
#[derive(Clone, Copy, Debug, PartialEq, Eq)]
pub struct UnderWay {
    pub named: Named,
    /// T316 runs for the second time.
    pub second: bool,
    pub deadline: u64,
}

/// What the host wants restarted; the numbers may be too wide for a pair.
#[derive(Clone, Copy, Debug, PartialEq, Eq)]
pub enum Wanted {
    One { vpci: u64, vci: u64 },
    All,
}

impl Wanted {
    /// The pairs, if the numbers are those of a pair.
    pub fn named(self) -> Option<Named> {
        let Wanted::One { vpci, vci } = self else {
            return Some(Named::All);
        };
        let (vpci, vci) = (u16::try_from(vpci).ok()?, u16::try_from(vci).ok()?);
        Some(Named::One(Pair { vpci, vci }))
    }
}

impl Named {
    pub fn has(self, pair: Pair) -> bool {
        match self {
            Named::One(named) => named == pair,
            Named::All => true,
        }
    }

    /// 79, and for one pair 5A behind it.
    pub fn elements(self) -> Vec<u8> {
        match self {
            Named::One(pair) => [element(RESTART, &[0x80]), connection(pair)].concat(),
            Named::All => element(RESTART, &[0x82]),
        }
    }

    /// RESTART with the global reference and flag 0.
    fn message(self) -> Vec<u8> {
        message(0, types::RESTART, &[&self.elements()])
    }

    /// An acknowledge names the same, or why it does not.
    fn same(self, received: &Received<'_>) -> Result<(), Row> {
        match (received.restart(), self) {
            (Part::Absent, _) => Err(Row::AcknowledgeIndicatorAbsent),
            (Part::Unreadable(_), _) => Err(Row::AcknowledgeIndicatorUnreadable),
            (Part::Readable(Restart::All), Named::All) => Ok(()),
            (Part::Readable(Restart::All), Named::One(_)) => Err(Row::AcknowledgeOfAll),
            (Part::Readable(Restart::Indicated), Named::All) => Err(Row::AcknowledgeOfOne),
            (Part::Readable(Restart::Indicated), Named::One(pair)) => match received.connection() {
                Part::Absent => Err(Row::AcknowledgeConnectionAbsent),
                Part::Unreadable(_) => Err(Row::AcknowledgeConnectionUnreadable),
                Part::Readable(other) => hold(other == pair, Row::AcknowledgeOfOther),
            },
        }
    }
}

impl Table {
    /// The host's command.
    pub fn send_restart(&mut self, request: &Request, wanted: Wanted) -> Answer {
        match self.check_restart(request, wanted) {
            Ok(named) => {
                self.reading = request.reading;
                let row = match named {
                    Named::One(_) => Row::HostRestartOne,
                    Named::All => Row::HostRestartAll,
                };
                Answer::reply(row, self.wait(named, false))
            }
            Err(row) => Answer::nothing(row),
        }
    }

    fn check_restart(&self, request: &Request, wanted: Wanted) -> Result<Named, Row> {
        self.check(request)?;
        hold(self.under_way.is_none(), Row::RestartSecond)?;
        let named = wanted.named().ok_or(Row::RestartNotPermitted)?;
        if let Named::One(pair) = named {
            let permitted = self.pool.within(pair) && !self.pool.is_permanent(pair);
            hold(permitted, Row::RestartNotPermitted)?;
        }
        Ok(named)
    }

    /// Sends RESTART and starts T316.
    fn wait(&mut self, named: Named, second: bool) -> Vec<u8> {
        self.under_way = Some(UnderWay {
            named,
            second,
            deadline: self.reading + T316,
        });
        named.message()
    }

    /// RESTART ACKNOWLEDGE with flag 1 while a RESTART waits, behind step 5.
    pub(super) fn acknowledged(&mut self, received: &Received<'_>, named: Named) -> Answer {
        if let Err(row) = named.same(received) {
            return Answer::nothing(row);
        }
        self.under_way = None;
        let rows = match named {
            Named::One(_) => (Row::AcknowledgeHeld, Row::AcknowledgeFree),
            Named::All => (Row::AcknowledgeAll, Row::AcknowledgeNone),
        };
        self.empty(named, rows)
    }

    /// T316: first RESTART again, then the pairs are out of service. Where no
    /// more single pairs can be marked, RESTART again and nothing else.
    pub(super) fn give_up(&mut self, UnderWay { named, second, .. }: UnderWay) -> Answer {
        if !second {
            return Answer::reply(Row::T316First, self.wait(named, true));
        }
        if named != Named::All && self.marks.full() {
            return Answer::reply(Row::T316Waits, self.wait(named, true));
        }
        self.under_way = None;
        self.marks.mark(named);
        self.empty(named, (Row::T316Gone, Row::T316Second))
    }

    /// The state that STATUS on the global reference shows.
    pub(super) fn global_state(&self) -> u8 {
        const RESTART_REQUEST: u8 = 61;
        match self.under_way {
            Some(_) => RESTART_REQUEST,
            None => 0,
        }
    }
}
