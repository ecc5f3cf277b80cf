//! What came of our RESTARTs, for rows about what follows them.

use super::Seen;
use crate::decode::Pair;
use crate::exchange::Event;
use crate::rows::Row;
use std::collections::BTreeSet;

/// How the last RESTART of ours ended.
#[derive(Clone, Copy, Debug, PartialEq, Eq)]
pub enum Ended {
    Acknowledged,
    GivenUp,
}

/// What came of our RESTARTs since the last start or reload.
#[derive(Clone, Debug, Default)]
pub struct History {
    pub ended: Option<Ended>,
    /// T316 of the one under way found no room for a mark.
    pub waited: bool,
    /// The pairs that an acknowledge set free, and those put back.
    pub restarted: BTreeSet<Pair>,
    pub put_back: BTreeSet<Pair>,
}

impl History {
    pub fn has_ended(&self) -> bool {
        self.ended.is_some()
    }

    /// Takes an event in, behind its rows.
    pub fn take(&mut self, seen: &Seen<'_>) {
        if let Event::Start { .. } | Event::Reload(_) = seen.event {
            *self = History::default();
            return;
        }
        let Some(before) = seen.before else {
            return;
        };
        match seen.row() {
            Row::T316Waits => self.waited = true,
            Row::T316Second | Row::T316Gone => self.end(Ended::GivenUp),
            Row::AcknowledgeHeld
            | Row::AcknowledgeFree
            | Row::AcknowledgeAll
            | Row::AcknowledgeNone => {
                self.end(Ended::Acknowledged);
                let held = before.live().map(|(_, call)| call.pair);
                let pairs = held.chain(before.doubts.iter().copied());
                self.restarted
                    .extend(pairs.filter(|&pair| before.names(pair)));
            }
            Row::HostPutBack => {
                let all = before.pool.permitted().take(64);
                let all = all.filter(|_| before.marks.all);
                self.put_back
                    .extend(all.chain(before.marks.single.iter().copied()));
            }
            _ => {}
        }
    }

    fn end(&mut self, ended: Ended) {
        self.ended = Some(ended);
        self.waited = false;
    }
}
