//! What a part of a script is about, from one start to the next.

use crate::random::Random;

/// The kinds of events, in the order of the weights of a plan.
#[derive(Clone, Copy, Debug, PartialEq, Eq)]
pub enum Class {
    Setup,
    OnCall,
    NoCall,
    Global,
    Restart,
    Offer,
    Connect,
    Clear,
    Tick,
    Junk,
    Bad,
    OwnRestart,
    Acknowledge,
    PutBack,
}

const CLASSES: [Class; 14] = [
    Class::Setup,
    Class::OnCall,
    Class::NoCall,
    Class::Global,
    Class::Restart,
    Class::Offer,
    Class::Connect,
    Class::Clear,
    Class::Tick,
    Class::Junk,
    Class::Bad,
    Class::OwnRestart,
    Class::Acknowledge,
    Class::PutBack,
];

/// How many pairs a start permits.
#[derive(Clone, Copy, Debug, PartialEq, Eq)]
pub enum Supply {
    None,
    Scarce,
    Some,
    /// As many as there are slots.
    Exact,
    Wide,
}

/// How a plan begins: with a start, or with a reload, most often of many pairs
/// in doubt or out of service.
#[derive(Clone, Copy, Debug, PartialEq, Eq)]
pub enum Begins {
    Start,
    Doubtful,
    Marked,
}

#[derive(Clone, Copy, Debug, PartialEq, Eq)]
pub struct Plan {
    pub name: &'static str,
    weights: [u64; 14],
    pub supply: Supply,
    /// So many of a hundred messages on a call clear it.
    pub clearing: u64,
    /// So many of a hundred bodies are disturbed.
    pub disturbed: u64,
    /// The largest usual step of the reading.
    pub pace: u64,
    /// The readings begin near the limit.
    pub late: bool,
    pub begins: Begins,
}

const MIXED: Plan = Plan {
    name: "mixed",
    weights: [16, 30, 6, 4, 3, 10, 6, 6, 14, 3, 2, 2, 2, 1],
    supply: Supply::Some,
    clearing: 20,
    disturbed: 15,
    pace: 400,
    late: false,
    begins: Begins::Start,
};

const PLANS: [Plan; 17] = [
    MIXED,
    Plan {
        name: "full",
        weights: [36, 10, 3, 1, 0, 34, 5, 1, 6, 3, 1, 0, 1, 0],
        supply: Supply::Wide,
        clearing: 5,
        disturbed: 10,
        pace: 30,
        ..MIXED
    },
    Plan {
        name: "calls",
        weights: [8, 50, 2, 1, 1, 12, 8, 4, 8, 1, 1, 1, 1, 0],
        clearing: 15,
        disturbed: 10,
        ..MIXED
    },
    Plan {
        name: "as many pairs as slots",
        weights: [36, 12, 3, 1, 1, 32, 6, 2, 6, 2, 1, 0, 1, 0],
        supply: Supply::Exact,
        clearing: 5,
        disturbed: 8,
        pace: 30,
        ..MIXED
    },
    Plan {
        name: "scarce",
        weights: [28, 26, 4, 2, 2, 20, 4, 3, 8, 2, 1, 2, 2, 1],
        supply: Supply::Scarce,
        ..MIXED
    },
    Plan {
        name: "none permitted",
        weights: [30, 10, 8, 4, 8, 20, 2, 2, 4, 6, 2, 2, 2, 1],
        supply: Supply::None,
        ..MIXED
    },
    Plan {
        name: "timers",
        weights: [10, 14, 2, 1, 1, 24, 4, 14, 34, 1, 1, 2, 1, 1],
        clearing: 8,
        disturbed: 5,
        pace: 3_000,
        ..MIXED
    },
    Plan {
        name: "restarts",
        weights: [24, 10, 3, 10, 24, 16, 3, 3, 4, 2, 1, 3, 4, 1],
        clearing: 10,
        ..MIXED
    },
    Plan {
        name: "damage",
        weights: [30, 22, 8, 6, 8, 14, 3, 3, 3, 12, 3, 3, 5, 1],
        disturbed: 60,
        ..MIXED
    },
    Plan {
        name: "late",
        weights: [14, 20, 2, 1, 1, 20, 4, 12, 24, 1, 1, 3, 2, 1],
        clearing: 8,
        disturbed: 5,
        pace: 900,
        late: true,
        ..MIXED
    },
    Plan {
        name: "full, then cleared",
        weights: [30, 14, 3, 2, 1, 26, 6, 8, 12, 3, 1, 1, 1, 0],
        supply: Supply::Wide,
        clearing: 12,
        pace: 600,
        ..MIXED
    },
    Plan {
        name: "in doubt",
        weights: [12, 6, 1, 1, 6, 14, 2, 16, 40, 1, 1, 2, 2, 0],
        supply: Supply::Wide,
        clearing: 4,
        disturbed: 5,
        pace: 3_000,
        begins: Begins::Doubtful,
        ..MIXED
    },
    Plan {
        name: "scarce, in doubt",
        weights: [20, 6, 1, 2, 14, 16, 2, 12, 26, 1, 1, 4, 3, 1],
        supply: Supply::Scarce,
        clearing: 4,
        disturbed: 8,
        pace: 3_000,
        begins: Begins::Doubtful,
        ..MIXED
    },
    Plan {
        name: "restarts of ours",
        weights: [10, 22, 1, 3, 4, 14, 3, 6, 22, 1, 1, 12, 14, 1],
        clearing: 8,
        disturbed: 8,
        pace: 2_000,
        ..MIXED
    },
    Plan {
        name: "scarce, restarts of ours",
        weights: [20, 6, 1, 2, 5, 16, 2, 7, 22, 1, 1, 9, 8, 2],
        supply: Supply::Scarce,
        clearing: 8,
        disturbed: 5,
        pace: 9_000,
        ..MIXED
    },
    Plan {
        name: "out of service",
        weights: [8, 4, 1, 1, 2, 8, 2, 5, 50, 1, 1, 14, 2, 1],
        supply: Supply::Wide,
        clearing: 4,
        disturbed: 5,
        pace: 9_000,
        begins: Begins::Marked,
        ..MIXED
    },
    Plan {
        name: "scarce, out of service",
        weights: [20, 5, 1, 1, 5, 16, 2, 6, 26, 1, 1, 10, 4, 2],
        supply: Supply::Scarce,
        clearing: 4,
        disturbed: 5,
        pace: 9_000,
        begins: Begins::Marked,
        ..MIXED
    },
];

impl Plan {
    pub fn draw(random: &mut Random) -> Plan {
        random.pick(&PLANS)
    }

    pub fn class(&self, random: &mut Random) -> Class {
        CLASSES[random.weighted(&self.weights)]
    }
}
