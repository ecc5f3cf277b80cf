//! Reads pairs in doubt, pairs out of service and the RESTART under way.

use crate::controller::{hold, Marks, Named, Pool, Table, UnderWay, DOUBTS, MARKS, T316};
use crate::decode::Pair;
use crate::rows::Row;
use std::collections::BTreeSet;

/// Why a list of pairs is refused.
struct Reasons {
    length: Row,
    many: Row,
    range: Row,
    permanent: Row,
    twice: Row,
    order: Row,
}

const DOUBTFUL: Reasons = Reasons {
    length: Row::ReloadDoubtsLength,
    many: Row::ReloadDoubtsMany,
    range: Row::ReloadDoubtsRange,
    permanent: Row::ReloadDoubtsPermanent,
    twice: Row::ReloadDoubtsTwice,
    order: Row::ReloadDoubtsOrder,
};

const MARKED: Reasons = Reasons {
    length: Row::ReloadMarksLength,
    many: Row::ReloadMarksMany,
    range: Row::ReloadMarksRange,
    permanent: Row::ReloadMarksPermanent,
    twice: Row::ReloadMarksTwice,
    order: Row::ReloadMarksOrder,
};

impl Table {
    pub(super) fn read_doubts(&mut self, contents: &[u8]) -> Result<(), Row> {
        self.doubts = ascending(&self.pool, contents, DOUBTS, &DOUBTFUL)?;
        Ok(())
    }

    /// The pairs in doubt are known before.
    pub(super) fn read_marks(&mut self, contents: &[u8]) -> Result<(), Row> {
        let (&all, pairs) = contents.split_first().ok_or(Row::ReloadMarksLength)?;
        let single = ascending(&self.pool, pairs, MARKS, &MARKED)?;
        hold(all <= 1, Row::ReloadMarksAll)?;
        let all = all == 1;
        hold(!all || self.doubts.is_empty(), Row::ReloadAllDoubt)?;
        let apart = single.is_disjoint(&self.doubts);
        hold(apart, Row::ReloadMarksDoubt)?;
        self.marks = Marks { all, single };
        Ok(())
    }

    pub(super) fn read_restart(&mut self, contents: &[u8]) -> Result<(), Row> {
        let Some((&times, rest)) = contents.split_first() else {
            return Ok(());
        };
        let (deadline, pair) = rest
            .split_first_chunk::<8>()
            .ok_or(Row::ReloadRestartLength)?;
        let named = match *pair {
            [] => Named::All,
            [a, b, c, d] => Named::One(read_pair([a, b, c, d])),
            _ => return Err(Row::ReloadRestartLength),
        };
        hold((1..=2).contains(&times), Row::ReloadRestartTimes)?;
        let deadline = u64::from_be_bytes(*deadline);
        hold(self.is_near(deadline, T316), Row::ReloadRestartDeadline)?;
        if let Named::One(pair) = named {
            hold(self.pool.within(pair), Row::ReloadRestartRange)?;
            let permanent = self.pool.is_permanent(pair);
            hold(!permanent, Row::ReloadRestartPermanent)?;
        }
        self.under_way = Some(UnderWay {
            named,
            second: times == 2,
            deadline,
        });
        Ok(())
    }
}

/// Permitted pairs that strictly ascend, at most so many.
fn ascending(
    pool: &Pool,
    contents: &[u8],
    most: usize,
    reasons: &Reasons,
) -> Result<BTreeSet<Pair>, Row> {
    let (fours, rest) = contents.as_chunks::<4>();
    hold(rest.is_empty(), reasons.length)?;
    hold(fours.len() <= most, reasons.many)?;
    let mut pairs = BTreeSet::new();
    for four in fours {
        let pair = read_pair(*four);
        hold(pool.within(pair), reasons.range)?;
        hold(!pool.is_permanent(pair), reasons.permanent)?;
        let last = pairs.last().copied();
        hold(last != Some(pair), reasons.twice)?;
        hold(last < Some(pair), reasons.order)?;
        pairs.insert(pair);
    }
    Ok(pairs)
}

pub(super) fn read_pair([a, b, c, d]: [u8; 4]) -> Pair {
    Pair {
        vpci: u16::from_be_bytes([a, b]),
        vci: u16::from_be_bytes([c, d]),
    }
}
