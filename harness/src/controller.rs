//! The call controller: the table of calls and what each event does to it.

mod call;
mod host;
mod marks;
mod message;
mod pool;
mod reload;
mod restart;
mod save;
mod setup;
mod timer;
mod under_way;
mod write;

pub use call::{Call, Clearing, Reference, State};
pub use host::HOST_CAUSES;
pub use marks::{Marks, MARKS};
pub use pool::{Pool, Range};
pub use timer::{T303, T308, T310, T316};
pub use under_way::{Named, UnderWay, Wanted};

use crate::decode::Pair;
use crate::rows::Row;
use std::collections::BTreeSet;

pub const SLOTS: usize = 32;

/// As many pairs can be in doubt.
pub const DOUBTS: usize = 64;

/// The smallest reply room.
pub const ROOM: usize = 1_024;

/// The largest reading.
pub const READING_LIMIT: u64 = 4_000_000_000_000;

/// The longest message.
pub const MESSAGE_LIMIT: usize = 1_024;

/// What every event but start, save and reload carries.
#[derive(Clone, Copy, Debug, PartialEq, Eq)]
pub struct Request {
    pub label: u64,
    pub reading: u64,
    /// The length of the reply room.
    pub room: usize,
}

#[derive(Clone, Copy, Debug, PartialEq, Eq)]
pub enum Notice {
    None,
    Asked,
    Answered,
    Gone,
}

/// Thirty-two flags, one for each slot.
#[derive(Clone, Copy, Debug, Default, PartialEq, Eq)]
pub struct Flags(u32);

impl Flags {
    fn one(slot: usize) -> Flags {
        Flags(1 << slot)
    }

    /// The slots whose flag is set, ascending.
    pub fn slots(self) -> impl Iterator<Item = usize> {
        (0..SLOTS).filter(move |slot| self.0 >> slot & 1 == 1)
    }
}

/// The answer to an event, with the row that decided it.
#[derive(Clone, Debug, PartialEq, Eq)]
pub struct Answer {
    pub row: Row,
    pub reply: Vec<u8>,
    pub notice: Notice,
    pub flags: Flags,
    /// For a tick, whether another timer is due.
    pub more: bool,
}

impl Answer {
    /// No reply, notice 0.
    pub fn nothing(row: Row) -> Answer {
        Answer::reply(row, Vec::new())
    }

    /// A reply, notice 0.
    fn reply(row: Row, reply: Vec<u8>) -> Answer {
        Answer {
            row,
            reply,
            notice: Notice::None,
            flags: Flags::default(),
            more: false,
        }
    }

    fn notice(self, notice: Notice, flags: Flags) -> Answer {
        Answer {
            notice,
            flags,
            ..self
        }
    }
}

/// The table of calls on one interface.
#[derive(Clone, Debug, PartialEq, Eq)]
pub struct Table {
    pub calls: [Option<Call>; SLOTS],
    /// The last accepted reading.
    pub reading: u64,
    pub pool: Pool,
    /// The pairs in doubt, ascending by VPCI and then VCI.
    pub doubts: BTreeSet<Pair>,
    /// The pairs out of service.
    pub marks: Marks,
    /// The RESTART that we sent and that waits for its acknowledge.
    pub under_way: Option<UnderWay>,
}

impl Table {
    /// A fresh table from the two lists, or why they are refused.
    pub fn start(ranges: &[u16], pairs: &[u16]) -> Result<Table, Row> {
        Ok(Table {
            calls: [None; SLOTS],
            reading: 0,
            pool: Pool::new(ranges, pairs)?,
            doubts: BTreeSet::new(),
            marks: Marks::default(),
            under_way: None,
        })
    }

    pub fn message(&mut self, request: &Request, octets: &[u8]) -> Answer {
        let checked = self.check(request).and_then(|()| {
            let fits = (1..=MESSAGE_LIMIT).contains(&octets.len());
            hold(fits, Row::MessageLength)
        });
        match checked {
            Ok(()) => {
                self.reading = request.reading;
                self.receive(octets)
            }
            Err(row) => Answer::nothing(row),
        }
    }

    /// Refusals 1 to 4.
    fn check(&self, request: &Request) -> Result<(), Row> {
        hold(request.room >= ROOM, Row::Room)?;
        hold(request.label == 1, Row::Label)?;
        hold(request.reading <= READING_LIMIT, Row::ReadingLarge)?;
        hold(request.reading >= self.reading, Row::ReadingBack)
    }

    /// The slot of the live call with this reference.
    pub fn find(&self, reference: Reference) -> Option<usize> {
        let named = |call: &Option<Call>| call.is_some_and(|call| call.reference == reference);
        self.calls.iter().position(named)
    }

    /// The live calls with their slots.
    pub fn live(&self) -> impl Iterator<Item = (usize, Call)> + '_ {
        let calls = self.calls.iter().enumerate();
        calls.filter_map(|(slot, call)| Some((slot, (*call)?)))
    }

    pub fn empty_slot(&self) -> Option<usize> {
        self.calls.iter().position(Option::is_none)
    }

    /// A live call holds the pair.
    pub fn holds(&self, pair: Pair) -> bool {
        self.live().any(|(_, call)| call.pair == pair)
    }

    /// The lowest free pair.
    pub fn free_pair(&self) -> Option<Pair> {
        self.pool.permitted().find(|&pair| self.leaves_free(pair))
    }

    /// The pair is neither held nor in doubt nor out of service, and the
    /// RESTART under way does not name it.
    fn leaves_free(&self, pair: Pair) -> bool {
        let taken = self.holds(pair) || self.doubts.contains(&pair);
        !taken && !self.marks.has(pair) && !self.names(pair)
    }

    /// The RESTART under way names the pair.
    pub fn names(&self, pair: Pair) -> bool {
        let named = self.under_way.map(|under_way| under_way.named);
        named.is_some_and(|named| named.has(pair))
    }

    /// Empties the slots of calls on the pairs named and ends their doubts. The
    /// rows are for some calls and none.
    fn empty(&mut self, named: Named, (some, none): (Row, Row)) -> Answer {
        self.doubts.retain(|pair| !named.has(*pair));
        let bit = |(slot, call): (usize, Call)| u32::from(named.has(call.pair)) << slot;
        let flags = Flags(self.live().map(bit).sum());
        if flags == Flags::default() {
            return Answer::nothing(none);
        }
        self.gone(some, flags)
    }

    /// Empties slots and says so.
    fn gone(&mut self, row: Row, flags: Flags) -> Answer {
        for slot in flags.slots() {
            self.calls[slot] = None;
        }
        Answer::nothing(row).notice(Notice::Gone, flags)
    }
}

/// The row if a rule does not hold.
fn hold(holds: bool, row: Row) -> Result<(), Row> {
    if holds {
        Ok(())
    } else {
        Err(row)
    }
}
