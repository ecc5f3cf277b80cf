//! Elements, readable and damaged, and bodies of them.

use crate::compose::{element, p1_elements, raw};
use crate::decode::*;
use crate::random::Random;

/// Subfields of a readable traffic descriptor that passes the rule.
const PASSING: [&[u8]; 8] = [
    &[0x84, 0x85],
    &[0x84, 0x85],
    &[0x85, 0x84],
    &[0x84, 0x85, 0xbf],
    &[0x84, 0x85, 0xbe],
    &[0xbf, 0xbe, 0x85, 0x84],
    &[0x82, 0x83, 0x84, 0x85, 0x88, 0x89, 0x90, 0x91],
    &[0xa0, 0xa1, 0xb0, 0xb1, 0x84, 0x85, 0xbf],
];

/// Subfields of a readable traffic descriptor that breaks the rule.
const BREAKING: [&[u8]; 9] = [
    &[],
    &[0x84],
    &[0x85],
    &[0x84, 0xbe],
    &[0x85, 0xbe, 0xbf],
    &[0xbe],
    &[0x84, 0x85, 0xbe, 0xa0],
    &[0x82, 0x84, 0x85, 0xbe, 0xbf],
    &[0x84, 0x85, 0xb1, 0xbe],
];

fn subfield(random: &mut Random, id: u8) -> Vec<u8> {
    let octets = match id {
        0xbe => 0,
        0xbf => 1,
        _ => 3,
    };
    let mut subfield = vec![id];
    subfield.extend(random.octets(octets));
    subfield
}

fn subfields(random: &mut Random, ids: &[u8]) -> Vec<u8> {
    ids.iter().flat_map(|&id| subfield(random, id)).collect()
}

/// A traffic descriptor that passes the rule.
fn traffic(random: &mut Random) -> Vec<u8> {
    let ids = random.pick(&PASSING);
    subfields(random, ids)
}

/// A traffic descriptor that is readable and breaks the rule.
pub fn broken_traffic(random: &mut Random) -> Vec<u8> {
    let ids = if random.chance(70) {
        random.pick(&BREAKING).to_vec()
    } else {
        vec![0x84, 0x85, 0xbe, random.pick(&SUBFIELDS[..2])]
    };
    let contents = subfields(random, &ids);
    element(TRAFFIC, &contents)
}

fn bearer(random: &mut Random, low_bits: u8) -> Vec<u8> {
    let last = 0x80 | random.octet() & 0x7c | low_bits;
    match random.below(4) {
        0 | 1 => vec![0x81, last],
        2 => vec![0x83, last],
        _ => vec![0x10, 0x80 | random.octet(), last],
    }
}

/// A multipoint bearer capability.
pub fn multipoint(random: &mut Random) -> Vec<u8> {
    let contents = bearer(random, 1);
    element(BEARER, &contents)
}

fn called(random: &mut Random) -> Vec<u8> {
    let digits = match random.below(4) {
        0 => return [&[0x82], random.octets(20).as_slice()].concat(),
        1 => random.pick(&[1, 2, 14, 15]),
        _ => random.within(1, 15) as usize,
    };
    let mut contents = vec![0x91];
    contents.extend((0..digits).map(|_| 0x30 + random.below(10) as u8));
    contents
}

/// Readable contents of a listed element.
pub fn contents(random: &mut Random, id: u8) -> Vec<u8> {
    match id {
        CAUSE => {
            let mut contents = vec![0x80 | random.octet(), 0x80 | random.octet()];
            let more = random.pick(&[0, 0, 0, 1, 4]);
            contents.extend(random.octets(more));
            contents
        }
        CALL_STATE => vec![random.pick(&[0, 1, 3, 6, 9, 10, 12, 62, 63])],
        TRAFFIC => traffic(random),
        CONNECTION => [&[0x88], random.octets(4).as_slice()].concat(),
        QOS => vec![random.below(5) as u8, random.below(5) as u8],
        BEARER => bearer(random, 0),
        CALLED => called(random),
        RESTART => vec![random.pick(&[0x80, 0x82])],
        _ => {
            let number = random.below(6);
            random.octets(number)
        }
    }
}

/// A readable listed element or an unknown one.
pub fn readable(random: &mut Random, id: u8) -> Vec<u8> {
    let contents = contents(random, id);
    let octet2 = match id {
        CAUSE | QOS if random.chance(25) => 0xe0,
        0x42..=0x44 if random.chance(50) => random.octet(),
        _ => 0x80,
    };
    raw(id, octet2, contents.len(), &contents)
}

/// Contents that break one rule of a listed element.
fn bad_contents(random: &mut Random, id: u8) -> Vec<u8> {
    let list: &[&[u8]] = match id {
        CAUSE => &[&[], &[0x80], &[0x00, 0x90], &[0x80, 0x10], &[0x7f, 0xff]],
        CALL_STATE => &[&[], &[0, 0], &[64], &[0x80], &[0xff], &[3, 0]],
        TRAFFIC => return bad_traffic(random),
        CONNECTION => &[
            &[],
            &[0x88, 0, 0, 0],
            &[0x88, 0, 0, 0, 32, 0],
            &[0x08, 0, 0, 0, 32],
            &[0x89, 0, 0, 0, 32],
        ],
        QOS => &[&[], &[0], &[0, 0, 0], &[5, 0], &[0, 5], &[0x80, 0x80]],
        BEARER => &[
            &[],
            &[0x81],
            &[0x83, 0x80, 0x80],
            &[0x10, 0x80],
            &[0x10, 0x80, 0x80, 0x80],
            &[0x82, 0x80],
            &[0x90, 0x80, 0x80],
            &[0x10, 0x7f, 0x80],
            &[0x81, 0x00],
            &[0x83, 0x82],
            &[0x10, 0x80, 0x83],
            &[0x10, 0x81, 0x01],
        ],
        CALLED => return bad_called(random),
        _ => &[&[], &[0x80, 0x80], &[0x81], &[0x00], &[0x83], &[0x02]],
    };
    random.pick(list).to_vec()
}

fn bad_traffic(random: &mut Random) -> Vec<u8> {
    let mut contents = subfields(random, &[0x84, 0x85]);
    match random.below(4) {
        0 => contents.extend([random.pick(&[0x00, 0x81, 0x86, 0xa2, 0xff]), 0, 1, 0]),
        1 => {
            let cut = random.pick(&[1, 2, 3]);
            contents.truncate(contents.len() - cut);
        }
        2 => {
            let again = random.pick(&[0x84, 0x85]);
            contents.extend(subfield(random, again));
        }
        _ => contents.extend(random.pick(&[&[0xbf, 0, 0xbf, 0], &[0xbe, 0xbe, 0xbf, 0]])),
    }
    contents
}

fn bad_called(random: &mut Random) -> Vec<u8> {
    match random.below(6) {
        0 => vec![],
        1 => vec![0x91],
        2 => [&[0x91], [0x39; 16].as_slice()].concat(),
        3 => vec![0x91, 0x35, random.pick(&[0x2f, 0x3a, 0x3a, 0xb5])],
        4 => [&[0x82], vec![0x47; random.pick(&[0, 19, 21])].as_slice()].concat(),
        _ => vec![random.pick(&[0x11, 0x81, 0x92, 0x00]), 0x35],
    }
}

/// A listed element that is present and unreadable.
pub fn unreadable(random: &mut Random, id: u8) -> Vec<u8> {
    match random.below(6) {
        0 => {
            let octet2 = random.pick(&[0x00, 0x81, 0x60, 0xe1, 0x88, 0xff]);
            let contents = contents(random, id);
            raw(id, octet2, contents.len(), &contents)
        }
        1 if !matches!(id, CAUSE | QOS) => {
            let contents = contents(random, id);
            raw(id, 0xe0, contents.len(), &contents)
        }
        _ => element(id, &bad_contents(random, id)),
    }
}

/// An element that overruns whatever follows it.
pub fn overrunning(random: &mut Random, id: u8) -> Vec<u8> {
    let contents = contents(random, id);
    let length = random.pick(&[0x7000, 0xffff, contents.len() + 0x400]);
    raw(id, 0x80, length, &contents)
}

/// The four elements of a SETUP that nothing refuses.
pub fn four(random: &mut Random) -> Vec<Vec<u8>> {
    if random.chance(30) {
        return p1_elements().to_vec();
    }
    let mut elements: Vec<Vec<u8>> = MANDATORY.map(|id| readable(random, id)).to_vec();
    if random.chance(30) {
        random.shuffle(&mut elements);
    }
    elements
}

/// Puts an element somewhere in a list.
pub fn insert(random: &mut Random, elements: &mut Vec<Vec<u8>>, element: Vec<u8>) {
    let place = random.below(elements.len() + 1);
    elements.insert(place, element);
}

/// An identifier of any kind.
pub fn any_id(random: &mut Random) -> u8 {
    random.pick(&[
        CAUSE, CALL_STATE, TRAFFIC, CONNECTION, QOS, BEARER, CALLED, RESTART, 0x42, 0x43, 0x44,
    ])
}

/// Changes a list of elements in one way that may break a rule.
pub fn disturb(random: &mut Random, elements: &mut Vec<Vec<u8>>) {
    let place = random.below(elements.len().max(1));
    let id = elements.get(place).map_or(0x42, |element| element[0]);
    match random.below(9) {
        0 if !elements.is_empty() => drop(elements.remove(place)),
        1 | 2 if !elements.is_empty() => elements[place] = unreadable(random, id),
        3 => {
            let other = readable(random, id);
            insert(random, elements, other);
        }
        4 => {
            let other = unreadable(random, id);
            insert(random, elements, other);
        }
        5 => {
            let other = overrunning(random, id);
            insert(random, elements, other);
        }
        6 => {
            let other = overrunning(random, 0x42);
            insert(random, elements, other);
        }
        7 => {
            let mut tail = readable(random, id);
            tail.truncate(random.pick(&[1, 2, 3]));
            elements.push(tail);
        }
        _ => cut(random, elements),
    }
}

/// Cuts the last element.
fn cut(random: &mut Random, elements: &mut [Vec<u8>]) {
    if let Some(last) = elements.last_mut() {
        let left = random.below(last.len());
        last.truncate(left.max(1));
    }
}
