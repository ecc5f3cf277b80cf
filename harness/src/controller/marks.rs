//! Pairs out of service.

use super::{Answer, Named, Request, Table};
use crate::decode::Pair;
use crate::rows::Row;
use std::collections::BTreeSet;

/// As many single pairs can be marked.
pub const MARKS: usize = 64;

/// "All" is one mark; it stands beside those of single pairs.
#[derive(Clone, Debug, Default, PartialEq, Eq)]
pub struct Marks {
    pub all: bool,
    /// Ascending by VPCI and then VCI.
    pub single: BTreeSet<Pair>,
}

impl Marks {
    /// The pair is out of service.
    pub fn has(&self, pair: Pair) -> bool {
        self.all || self.single.contains(&pair)
    }

    /// No more single pairs can be marked.
    pub fn full(&self) -> bool {
        self.single.len() == MARKS
    }

    pub(super) fn mark(&mut self, named: Named) {
        match named {
            Named::All => self.all = true,
            Named::One(pair) => {
                self.single.insert(pair);
            }
        }
    }
}

impl Table {
    /// Takes every mark away. A RESTART under way stays.
    pub fn put_back(&mut self, request: &Request) -> Answer {
        if let Err(row) = self.check(request) {
            return Answer::nothing(row);
        }
        self.reading = request.reading;
        self.marks = Marks::default();
        Answer::nothing(Row::HostPutBack)
    }
}
