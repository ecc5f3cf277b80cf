//! Single octets changed, doubled or missing, and forms that are cut.

use super::fields::SINGLE;
use super::{Damage, Draft};
use crate::random::Random;

/// Every octet changed to several values, doubled and left out; every cut.
pub fn all(random: &mut Random, draft: &Draft) -> Vec<Damage> {
    let form = draft.octets();
    let mut list = Vec::new();
    for (place, &octet) in form.iter().enumerate() {
        for value in values(random, octet) {
            list.push(changed(&form, place, value));
        }
        list.push(doubled(&form, place));
        list.push(left_out(&form, place));
        list.push(cut(draft, place));
    }
    list.extend([0x00, 0x01, 0x04, 0xff].map(|octet| longer(&form, octet)));
    list
}

pub fn one(random: &mut Random, draft: &Draft) -> Damage {
    let form = draft.octets();
    let place = random.below(form.len());
    match random.below(6) {
        0 => doubled(&form, place),
        1 => left_out(&form, place),
        2 => cut(draft, place),
        3 => longer(&form, random.octet()),
        4 => several(random, form),
        _ => {
            let values = values(random, form[place]);
            changed(&form, place, random.pick(&values))
        }
    }
}

fn values(random: &mut Random, octet: u8) -> [u8; 6] {
    let flipped = octet ^ 1 << random.below(8);
    let (more, less) = (octet.wrapping_add(1), octet.wrapping_sub(1));
    [more, less, octet ^ 0x80, 0, 255, flipped]
}

fn changed(form: &[u8], place: usize, value: u8) -> Damage {
    let mut octets = form.to_vec();
    octets[place] = value;
    Damage::new("an octet changed", octets, None)
}

/// A few octets changed.
fn several(random: &mut Random, mut form: Vec<u8>) -> Damage {
    for _ in 0..random.within(2, 4) {
        let place = random.below(form.len());
        let values = values(random, form[place]);
        form[place] = random.pick(&values);
    }
    Damage::new("octets changed", form, None)
}

// One octet more or less makes no form: a field of the same length ends where
// no tag stands, and with another length what is behind it does not fit.

fn doubled(form: &[u8], place: usize) -> Damage {
    let (front, back) = (&form[..=place], &form[place..]);
    Damage::refused("an octet doubled", [front, back].concat())
}

fn left_out(form: &[u8], place: usize) -> Damage {
    let (front, back) = (&form[..place], &form[place + 1..]);
    Damage::refused("an octet left out", [front, back].concat())
}

fn longer(form: &[u8], octet: u8) -> Damage {
    Damage::refused("an octet more", [form, &[octet]].concat())
}

/// What is left behind the field of the RESTART, or behind a call's, is a form.
fn cut(draft: &Draft, length: usize) -> Damage {
    let fields = draft.fields();
    let mut ends = (SINGLE..=fields.len()).map(|count| fields[..count].concat().len());
    let whole = ends.any(|end| end == length);
    let octets = draft.octets()[..length].to_vec();
    Damage::new("a form cut", octets, Some(whole))
}
