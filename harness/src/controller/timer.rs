//! Timers and the tick that fires them.

use super::write::cleared;
use super::{Answer, Call, Clearing, Flags, Request, State, Table, UnderWay, DOUBTS};
use crate::rows::Row;
use crate::types::RELEASE;

/// How long the timers run, in milliseconds.
pub const T303: u64 = 4_000;
pub const T308: u64 = 30_000;
pub const T310: u64 = 10_000;
pub const T316: u64 = 120_000;

/// A timer that is due: of the call in a slot, or T316.
enum Due {
    Call(usize, Call),
    Restart(UnderWay),
}

impl Table {
    pub fn tick(&mut self, request: &Request) -> Answer {
        if let Err(row) = self.check(request) {
            return Answer::nothing(row);
        }
        self.reading = request.reading;
        let answer = match self.due() {
            None => return Answer::nothing(Row::TickNone),
            Some(Due::Call(slot, call)) => self.fire(slot, call),
            Some(Due::Restart(under_way)) => self.give_up(under_way),
        };
        Answer {
            more: self.due().is_some(),
            ..answer
        }
    }

    /// The due timer with the smallest deadline, then the lowest slot; T316
    /// comes after slots of equal deadline.
    fn due(&self) -> Option<Due> {
        let slots = self.live().filter_map(|(slot, call)| {
            let deadline = call.state.deadline()?;
            Some((deadline, Due::Call(slot, call)))
        });
        let restart = self.under_way.iter();
        let restart = restart.map(|&own| (own.deadline, Due::Restart(own)));
        // of equal ones the first is taken
        let running = slots.chain(restart).min_by_key(|timer| timer.0);
        let (deadline, timer) = running?;
        (deadline <= self.reading).then_some(timer)
    }

    fn fire(&mut self, slot: usize, call: Call) -> Answer {
        match call.state {
            State::N9 { .. } => {
                let reply = self.clear_call(slot, call, 102, b"310");
                Answer::reply(Row::T310, reply)
            }
            State::N12(clearing) if !clearing.second => self.repeat(slot, call, clearing),
            State::N12(clearing) => self.doubt(slot, call, clearing),
            _ => self.gone(Row::T303, Flags::one(slot)),
        }
    }

    /// The first T308: RELEASE as before, and T308 again.
    fn repeat(&mut self, slot: usize, call: Call, clearing: Clearing) -> Answer {
        self.second(slot, call, clearing);
        let reply = cleared(call.reference, RELEASE, clearing.cause, clearing.diagnostic);
        Answer::reply(Row::T308First, reply)
    }

    /// The second T308: gone, with the pair in doubt. Where no more can be in
    /// doubt, T308 again and nothing else.
    fn doubt(&mut self, slot: usize, call: Call, clearing: Clearing) -> Answer {
        if self.doubts.len() == DOUBTS {
            self.second(slot, call, clearing);
            return Answer::nothing(Row::T308Waits);
        }
        self.doubts.insert(call.pair);
        self.gone(Row::T308Second, Flags::one(slot))
    }

    /// Starts the second T308.
    fn second(&mut self, slot: usize, call: Call, clearing: Clearing) {
        let state = State::N12(Clearing {
            deadline: self.reading + T308,
            second: true,
            ..clearing
        });
        self.enter(slot, call, state);
    }
}
