//! Saved forms, damaged: octets, whole fields, and what the fields say.

mod calls;
mod doubts;
mod draft;
mod fields;
mod lists;
mod made;
mod marks;
mod octets;
mod restarts;

pub use draft::Draft;
pub use made::{doubtful, made, marked};

use crate::random::Random;

/// Octets made from a saved form.
#[derive(Clone, Debug, PartialEq, Eq)]
pub struct Damage {
    pub what: &'static str,
    pub octets: Vec<u8>,
    /// Whether they are a saved form, where the damage itself says so.
    pub taken: Option<bool>,
}

impl Damage {
    fn new(what: &'static str, octets: Vec<u8>, taken: Option<bool>) -> Damage {
        Damage {
            what,
            octets,
            taken,
        }
    }

    fn refused(what: &'static str, octets: Vec<u8>) -> Damage {
        Damage::new(what, octets, Some(false))
    }

    /// A draft that keeps the rules or does not.
    fn draft(what: &'static str, draft: &Draft, taken: bool) -> Damage {
        Damage::new(what, draft.octets(), Some(taken))
    }
}

/// Damage of a draft in one way.
type Kind = fn(&Draft) -> Vec<Damage>;

/// The last range with a hundred pairs more, as far as there are so many.
fn wider(draft: &Draft) -> Draft {
    let mut draft = draft.clone();
    if let Some(last) = draft.ranges.last_mut() {
        *last = last.saturating_add(100);
    }
    draft
}

/// Damage of every kind: every octet and every field, the lists and the
/// reading, the pairs in doubt and out of service, the RESTART under way, and
/// one of the calls.
pub fn all(random: &mut Random, draft: &Draft) -> Vec<Damage> {
    let mut list = octets::all(random, draft);
    list.extend(fields::all(draft));
    list.extend(lists::all(draft));
    let kinds = doubts::KINDS.iter().chain(&marks::KINDS);
    for kind in kinds.chain(&restarts::KINDS) {
        list.extend(kind(draft));
    }
    if !draft.calls.is_empty() {
        let place = random.below(draft.calls.len());
        for kind in calls::KINDS {
            list.extend(kind(draft, place));
        }
    }
    let form = draft.octets();
    list.retain(|damage| damage.octets != form);
    list
}

/// Damage of one kind.
pub fn one(random: &mut Random, draft: &Draft) -> Damage {
    let mut list = match random.below(36) {
        0..3 => Vec::new(),
        3..6 => fields::all(draft),
        6..12 => lists::all(draft),
        12..17 => random.pick(&doubts::KINDS)(draft),
        17..23 => random.pick(&marks::KINDS)(draft),
        23..27 => random.pick(&restarts::KINDS)(draft),
        _ if draft.calls.is_empty() => Vec::new(),
        _ => random.pick(&calls::KINDS)(draft, random.below(draft.calls.len())),
    };
    if list.is_empty() {
        return octets::one(random, draft);
    }
    let place = random.below(list.len());
    list.swap_remove(place)
}
