//! Whole fields doubled, left out, moved or changed.

use super::{Damage, Draft};
use crate::compose::{field, raw_field};

/// The fields that are not calls.
pub const SINGLE: usize = 6;

pub fn all(draft: &Draft) -> Vec<Damage> {
    let fields = draft.fields();
    let mut list = Vec::new();
    for place in 0..fields.len() {
        list.extend(moved(&fields, place));
        list.extend(tagged(&fields, place));
        list.extend(resized(&fields, place));
        list.extend(lying(&fields, place));
        list.extend(before(&fields, place));
    }
    list.extend(before(&fields, fields.len()));
    list
}

/// Doubled, left out, and in another place.
fn moved(fields: &[Vec<u8>], place: usize) -> Vec<Damage> {
    let (front, back) = fields.split_at(place);
    let (own, behind) = (&fields[place..=place], &back[1..]);
    let refused = |what, parts: &[&[Vec<u8>]]| Damage::refused(what, parts.concat().concat());
    let mut list = vec![
        refused("a field doubled", &[front, own, back]),
        refused("a field again at the end", &[fields, own]),
    ];
    let octets = [front, behind].concat().concat();
    let call = place >= SINGLE;
    list.push(Damage::new("a field left out", octets, Some(call)));
    if let [next, rest @ ..] = behind {
        let next = std::slice::from_ref(next);
        list.push(refused("two fields swapped", &[front, next, own, rest]));
        list.push(refused("a field moved to the end", &[front, behind, own]));
    }
    if !front.is_empty() {
        list.push(refused("a field moved to the front", &[own, front, behind]));
    }
    list
}

/// With the place's field replaced.
fn replaced(fields: &[Vec<u8>], place: usize, field: Vec<u8>) -> Vec<u8> {
    [
        fields[..place].concat(),
        field,
        fields[place + 1..].concat(),
    ]
    .concat()
}

fn tagged(fields: &[Vec<u8>], place: usize) -> Vec<Damage> {
    let (own, contents) = (fields[place][0], &fields[place][3..]);
    let tags = [
        0x00, 0x01, 0x02, 0x03, 0x04, 0x05, 0x06, 0x07, 0x08, 0x44, 0x84, 0xff,
    ];
    let others = tags.into_iter().filter(|tag| *tag != own);
    let octets = others.map(|tag| replaced(fields, place, field(tag, contents)));
    octets
        .map(|octets| Damage::refused("another tag", octets))
        .collect()
}

/// An octet more, an octet less and no octet at all, with the length right.
fn resized(fields: &[Vec<u8>], place: usize) -> Vec<Damage> {
    let (tag, contents) = (fields[place][0], &fields[place][3..]);
    let again = |contents: &[u8]| replaced(fields, place, field(tag, contents));
    let mut list = vec![Damage::refused(
        "a field longer",
        again(&[contents, &[0]].concat()),
    )];
    if let [front @ .., _] = contents {
        list.push(Damage::refused("a field shorter", again(front)));
        let may = [0x02, 0x05, 0x07].contains(&tag);
        list.push(Damage::new("a field emptied", again(&[]), Some(may)));
    }
    list
}

/// A length that is not that of the contents.
fn lying(fields: &[Vec<u8>], place: usize) -> Vec<Damage> {
    let (tag, contents) = (fields[place][0], &fields[place][3..]);
    let own = contents.len();
    let next = fields.get(place + 1).map_or(0, Vec::len);
    let lengths = [
        own + 1,
        own.wrapping_sub(1),
        0,
        0xffff,
        own + 256,
        own + next,
    ];
    let lying = lengths.into_iter().filter(|length| *length != own);
    let octets = lying.map(|length| replaced(fields, place, raw_field(tag, length, contents)));
    octets
        .map(|octets| Damage::new("a length that lies", octets, None))
        .collect()
}

/// An empty field before a place.
fn before(fields: &[Vec<u8>], place: usize) -> Vec<Damage> {
    let (front, back) = fields.split_at(place);
    let tags = [0x00, 0x02, 0x04, 0x05, 0x06, 0x07, 0x08, 0xff];
    let octets = tags.map(|tag| [front.concat(), field(tag, &[]), back.concat()].concat());
    let damages = octets.map(|octets| Damage::refused("an empty field more", octets));
    damages.into()
}
