//! Starts, accepted and refused.

use super::plan::Supply;
use crate::random::Random;

/// The two lists of a start.
type Lists = (Vec<u16>, Vec<u16>);

/// Lists that are accepted, with so many pairs.
pub fn good(random: &mut Random, supply: Supply) -> Lists {
    match supply {
        Supply::None => none(random),
        Supply::Scarce => scarce(random),
        Supply::Some => some(random),
        Supply::Exact => exact(random),
        Supply::Wide => wide(random),
    }
}

/// Thirty-two pairs.
fn exact(random: &mut Random) -> Lists {
    match random.below(3) {
        0 => (vec![0, 32, 63], vec![]),
        1 => (vec![1, 40, 56, 1, 60, 75], vec![1, 41]),
        _ => (vec![0, 32, 47, 9, 65_520, 65_535], vec![0, 48, 8, 32]),
    }
}

/// Every pair of the ranges is permanent.
fn none(random: &mut Random) -> Lists {
    match random.below(3) {
        0 => (vec![0, 32, 32], vec![0, 32]),
        1 => {
            let pairs = (65_528..=65_535).flat_map(|vci| [255, vci]).collect();
            (vec![255, 65_528, 65_535], pairs)
        }
        _ => (
            vec![0, 40, 41, 0, 42, 42, 7, 32, 32],
            vec![0, 40, 0, 41, 0, 42, 7, 32, 9, 100],
        ),
    }
}

fn scarce(random: &mut Random) -> Lists {
    match random.below(4) {
        0 => (vec![0, 32, 33], vec![]),
        1 => (vec![3, 65_535, 65_535], vec![3, 65_534, 4, 32]),
        2 => (vec![0, 32, 34, 0, 36, 36, 1, 32, 32], vec![0, 33]),
        _ => {
            let first = random.within(32, 60_000) as u16;
            let vpci = random.below(256) as u16;
            let last = first + random.below(6) as u16;
            (vec![vpci, first, last], vec![vpci, first])
        }
    }
}

fn some(random: &mut Random) -> Lists {
    match random.below(4) {
        0 => (vec![0, 32, 47], vec![]),
        1 => (vec![0, 32, 40, 0, 41, 50, 2, 32, 40], vec![0, 35, 1, 77]),
        2 => (
            vec![0, 100, 103, 1, 32, 39, 255, 65_530, 65_535],
            vec![0, 32, 255, 65_535],
        ),
        _ => {
            let first = random.within(32, 1_000) as u16;
            (vec![5, first, first + 19], vec![5, first + 1, 5, first + 3])
        }
    }
}

/// More pairs than slots.
fn wide(random: &mut Random) -> Lists {
    match random.below(4) {
        0 => (vec![0, 32, 65_535], vec![]),
        1 => {
            let pairs = (32..40).flat_map(|vci| [0, vci]).collect();
            (vec![0, 32, 48, 0, 50, 60, 1, 32, 32, 1, 34, 90], pairs)
        }
        2 => (vec![3, 1_000, 1_099], vec![3, 1_001]),
        _ => (
            vec![0, 32, 63, 0, 64, 64, 254, 32, 40],
            vec![0, 65, 200, 32],
        ),
    }
}

/// Lists that break a rule.
pub fn bad(random: &mut Random) -> Lists {
    let (mut ranges, mut pairs) = some(random);
    let place = random.below(ranges.len() / 3) * 3;
    match random.below(14) {
        0 => drop(ranges.pop()),
        1 => ranges.clear(),
        2 => ranges = (0..5).flat_map(|vpci| [vpci, 32, 40]).collect(),
        3 => ranges[place] = random.pick(&[256, 65_535]),
        4 => ranges[place + 1] = random.pick(&[31, 0]),
        5 => (ranges[place + 1], ranges[place + 2]) = (41, 40),
        6 => ranges.extend(overlapping(random, &ranges)),
        7 => pairs.push(32),
        8 => pairs = (32..41).flat_map(|vci| [0, vci]).collect(),
        9 => pairs.extend([256, 32]),
        10 => pairs.extend([255, random.pick(&[0, 31])]),
        11 => {
            pairs = random
                .pick(&[[0, 32, 0, 32], [0, 33, 0, 32], [1, 32, 0, 40]])
                .to_vec()
        }
        12 => ranges = vec![0; random.pick(&[1, 2, 15, 63, 64])],
        _ => pairs = vec![32; random.pick(&[1, 17, 18, 63, 64])],
    }
    (ranges, pairs)
}

/// A range that does not lie behind the last one.
fn overlapping(random: &mut Random, ranges: &[u16]) -> [u16; 3] {
    match *ranges {
        [.., vpci, first, last] => {
            random.pick(&[[vpci, last, last], [vpci, first, last], [0, 32, 33]])
        }
        _ => [0, 32, 31],
    }
}

/// The line of a start.
pub fn line((ranges, pairs): &Lists) -> String {
    let mut words = vec!["start".to_string()];
    for list in [ranges, pairs] {
        words.push(list.len().to_string());
        words.extend(list.iter().map(u16::to_string));
    }
    words.join(" ")
}
