//! One call.

use crate::compose::FLAG;
use crate::decode::{Pair, Received};

/// A reference with its flag as received: set for a network-originated call.
#[derive(Clone, Copy, Debug, PartialEq, Eq)]
pub struct Reference {
    pub flag: bool,
    pub value: u32,
}

impl Reference {
    pub fn of(received: &Received<'_>) -> Reference {
        Reference {
            flag: received.flag,
            value: received.reference,
        }
    }

    /// The flagged reference of what we send: the other flag.
    pub fn sent(self) -> u32 {
        self.value + if self.flag { 0 } else { FLAG }
    }

    /// The flagged reference of what we receive.
    pub fn received(self) -> u32 {
        self.value + if self.flag { FLAG } else { 0 }
    }
}

#[derive(Clone, Copy, Debug, PartialEq, Eq)]
pub struct Call {
    pub reference: Reference,
    pub pair: Pair,
    pub state: State,
}

/// A state with its running timer: T303 in N6, T310 in N9, T308 in N12.
#[derive(Clone, Copy, Debug, PartialEq, Eq)]
pub enum State {
    N3,
    N6 { deadline: u64 },
    N9 { deadline: u64 },
    N10,
    N12(Clearing),
}

/// What a call in N12 keeps.
#[derive(Clone, Copy, Debug, PartialEq, Eq)]
pub struct Clearing {
    pub deadline: u64,
    /// T308 runs for the second time.
    pub second: bool,
    pub cause: u8,
    pub diagnostic: &'static [u8],
}

impl State {
    /// The number shown in Call state.
    pub fn number(self) -> u8 {
        match self {
            State::N3 => 3,
            State::N6 { .. } => 6,
            State::N9 { .. } => 9,
            State::N10 => 10,
            State::N12(_) => 12,
        }
    }

    /// The deadline of the running timer.
    pub fn deadline(self) -> Option<u64> {
        match self {
            State::N3 | State::N10 => None,
            State::N6 { deadline } | State::N9 { deadline } => Some(deadline),
            State::N12(clearing) => Some(clearing.deadline),
        }
    }
}
