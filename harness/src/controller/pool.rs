//! The permitted ranges and the permanent pairs.

use super::hold;
use crate::decode::Pair;
use crate::rows::Row;

const RANGES: usize = 4;
const PAIRS: usize = 8;
const VPCI_LIMIT: u16 = 255;
pub const VCI_LEAST: u16 = 32;

#[derive(Clone, Copy, Debug, PartialEq, Eq)]
pub struct Range {
    pub vpci: u16,
    pub first: u16,
    pub last: u16,
}

impl Range {
    fn pairs(self) -> impl Iterator<Item = Pair> {
        let vpci = self.vpci;
        (self.first..=self.last).map(move |vci| Pair { vpci, vci })
    }

    pub fn has(self, pair: Pair) -> bool {
        self.vpci == pair.vpci && (self.first..=self.last).contains(&pair.vci)
    }
}

/// What a start gives: ranges and permanent pairs, both ascending.
#[derive(Clone, Debug, PartialEq, Eq)]
pub struct Pool {
    pub ranges: Vec<Range>,
    pub permanent: Vec<Pair>,
}

impl Pool {
    pub fn new(ranges: &[u16], pairs: &[u16]) -> Result<Pool, Row> {
        Ok(Pool {
            ranges: read_ranges(ranges)?,
            permanent: read_pairs(pairs)?,
        })
    }

    /// The pair is in a range.
    pub fn within(&self, pair: Pair) -> bool {
        self.ranges.iter().any(|range| range.has(pair))
    }

    pub fn is_permanent(&self, pair: Pair) -> bool {
        self.permanent.contains(&pair)
    }

    /// The VPCI is in a range or in a permanent pair.
    pub fn knows(&self, vpci: u16) -> bool {
        self.ranges.iter().any(|range| range.vpci == vpci)
            || self.permanent.iter().any(|pair| pair.vpci == vpci)
    }

    /// The permitted pairs by VPCI and then VCI.
    pub fn permitted(&self) -> impl Iterator<Item = Pair> + '_ {
        let pairs = self.ranges.iter().flat_map(|range| range.pairs());
        pairs.filter(|&pair| !self.is_permanent(pair))
    }
}

fn read_ranges(numbers: &[u16]) -> Result<Vec<Range>, Row> {
    let (triples, rest) = numbers.as_chunks::<3>();
    hold(rest.is_empty(), Row::StartRangeLength)?;
    hold(!triples.is_empty(), Row::StartNoRange)?;
    hold(triples.len() <= RANGES, Row::StartManyRanges)?;
    for &[vpci, first, last] in triples {
        hold(vpci <= VPCI_LIMIT, Row::StartRangeVpci)?;
        hold(first >= VCI_LEAST && last >= VCI_LEAST, Row::StartRangeVci)?;
        hold(first <= last, Row::StartRangeTurned)?;
    }
    for two in triples.windows(2) {
        let ([vpci, _, last], [next, first, _]) = (two[0], two[1]);
        hold((vpci, last) < (next, first), Row::StartRangeOrder)?;
    }
    let range = |&[vpci, first, last]: &[u16; 3]| Range { vpci, first, last };
    Ok(triples.iter().map(range).collect())
}

fn read_pairs(numbers: &[u16]) -> Result<Vec<Pair>, Row> {
    let (twos, rest) = numbers.as_chunks::<2>();
    hold(rest.is_empty(), Row::StartPairLength)?;
    hold(twos.len() <= PAIRS, Row::StartManyPairs)?;
    for &[vpci, vci] in twos {
        hold(vpci <= VPCI_LIMIT, Row::StartPairVpci)?;
        hold(vci >= VCI_LEAST, Row::StartPairVci)?;
    }
    let ascend = twos.windows(2).all(|two| two[0] < two[1]);
    hold(ascend, Row::StartPairOrder)?;
    let pair = |&[vpci, vci]: &[u16; 2]| Pair { vpci, vci };
    Ok(twos.iter().map(pair).collect())
}
