//! RESTART from the user.

use super::pool::VCI_LEAST;
use super::write::status;
use super::{Answer, Named, Reference, Table};
use crate::compose::{message, pair_octets};
use crate::decode::{Part, Received, Restart, CONNECTION, RESTART};
use crate::rows::Row;
use crate::types::RESTART_ACKNOWLEDGE;

impl Table {
    pub(super) fn restart(&mut self, received: &Received<'_>) -> Answer {
        let (reference, state) = (Reference::of(received), self.global_state());
        let refuse = |row, cause| Answer::reply(row, status(reference, state, cause, &[RESTART]));
        match received.restart() {
            Part::Absent => refuse(Row::RestartIndicatorAbsent, 96),
            Part::Unreadable(_) => refuse(Row::RestartIndicatorUnreadable, 100),
            Part::Readable(Restart::Indicated) => self.restart_indicated(received),
            Part::Readable(Restart::All) => {
                let rows = (Row::RestartAll, Row::RestartNone);
                self.acknowledge(reference, Named::All, rows)
            }
        }
    }

    fn restart_indicated(&mut self, received: &Received<'_>) -> Answer {
        let (reference, state) = (Reference::of(received), self.global_state());
        let refuse = |row, cause, diagnostic: &[u8]| {
            Answer::reply(row, status(reference, state, cause, diagnostic))
        };
        let pair = match received.connection() {
            Part::Absent => return refuse(Row::RestartConnectionAbsent, 96, &[CONNECTION]),
            Part::Unreadable(_) => {
                return refuse(Row::RestartConnectionUnreadable, 100, &[CONNECTION]);
            }
            Part::Readable(pair) => pair,
        };
        if !self.pool.knows(pair.vpci) {
            return refuse(Row::RestartVpci, 100, &[CONNECTION]);
        }
        if pair.vci < VCI_LEAST {
            return refuse(Row::RestartVci, 82, &pair_octets(pair));
        }
        if self.pool.is_permanent(pair) {
            return refuse(Row::RestartPermanent, 82, &pair_octets(pair));
        }
        let rows = (Row::RestartHeld, Row::RestartFree);
        self.acknowledge(reference, Named::One(pair), rows)
    }

    /// Removes the calls on the pairs named, ends their doubts and
    /// acknowledges. Neither a mark nor a RESTART of ours ends by it.
    fn acknowledge(&mut self, reference: Reference, named: Named, rows: (Row, Row)) -> Answer {
        let reply = message(reference.sent(), RESTART_ACKNOWLEDGE, &[&named.elements()]);
        Answer {
            reply,
            ..self.empty(named, rows)
        }
    }
}
