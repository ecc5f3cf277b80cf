//! Group O: bodies that are an offer's, and bodies that are not.

use super::*;

pub fn add(table: &mut Table) {
    add_good(table);
    add_mandatory(table);
    add_contents(table);
    add_ends(table);
    add_limit(table);
}

fn offer(table: &mut Table, purpose: &str, parts: &[&[u8]]) {
    table.add('O', purpose, message(1, SETUP, parts));
}

fn add_good(table: &mut Table) {
    let body = p1_body();
    let mut falling = p1_elements();
    falling.reverse();
    let odd = raw(0x43, 0x00, 1, &[0xff]);
    let extra = raw(0x5c, 0xe0, 2, &[4, 4]);
    let best = [0x84, 0, 1, 0, 0x85, 0, 1, 0, 0xbe, 0xbf, 0];
    offer(table, "good: falling order", &[&falling.concat()]);
    offer(table, "good: unknown in front", &[&unknown(), &body]);
    offer(table, "good: unknown behind", &[&body, &unknown()]);
    offer(
        table,
        "good: unknown twice",
        &[&unknown(), &body, &unknown()],
    );
    offer(table, "good: unknown, odd octet 2", &[&body, &odd]);
    offer(
        table,
        "good: unknown, no contents",
        &[&body, &element(0x42, &[])],
    );
    offer(table, "good: 5C octet 2 E0", &[&p1_with(1, extra)]);
    offer(
        table,
        "good: 84 85 BE BF",
        &[&p1_with(0, element(0x59, &best))],
    );
    let others = [element(0x08, &[]), element(0x14, &[0xff])].concat();
    offer(table, "good: 08 14 unreadable", &[&body, &others]);
    let twice = [element(0x79, &[0x80]), element(0x79, &[0x82])].concat();
    offer(table, "good: 79 twice", &[&body, &twice]);
    let hidden = element(0x42, &element(0x5a, &[0x88, 0, 0, 0, 0x20]));
    let purpose = "good: 5A inside an unknown's contents";
    offer(table, purpose, &[&hidden, &body]);
    let octets = [header(1, SETUP, 3), body].concat();
    table.add('O', "good body, length field wrong", octets);
}

fn add_mandatory(table: &mut Table) {
    let body = p1_body();
    for (index, one) in p1_elements().into_iter().enumerate() {
        let id = one[0];
        let bad = raw(id, 0x81, one.len() - 4, &one[4..]);
        let over = raw(id, 0x80, one.len() - 3, &one[4..]);
        let again = |purpose: &str| format!("bad: {id:02X} {purpose}");
        offer(table, &again("missing"), &[&p1_with(index, vec![])]);
        offer(table, &again("twice"), &[&body, &one]);
        offer(table, &again("octet 2 81"), &[&p1_with(index, bad.clone())]);
        offer(table, &again("again, unreadable"), &[&body, &bad]);
        offer(table, &again("again, overrunning"), &[&body, &over]);
    }
    offer(table, "bad: no element", &[]);
    offer(table, "bad: unknown alone", &[&unknown()]);
}

fn add_contents(table: &mut Table) {
    let body = p1_body();
    let pair = element(0x5a, &[0x88, 0, 0, 0, 0x20]);
    let cases = [
        ("multipoint", 2, element(0x5e, &[0x81, 0x81])),
        ("10, multipoint", 2, element(0x5e, &[0x10, 0x80, 0x81])),
        ("5E low bits 2", 2, element(0x5e, &[0x81, 0x82])),
        ("5C first 5", 1, element(0x5c, &[5, 0])),
        ("70 no digit", 3, element(0x70, &[0x91])),
        ("59 empty", 0, element(0x59, &[])),
        ("84 missing", 0, element(0x59, &[0x85, 0, 1, 0])),
        ("85 missing", 0, element(0x59, &[0x84, 0, 1, 0])),
    ];
    for (purpose, index, other) in cases {
        offer(table, &format!("bad: {purpose}"), &[&p1_with(index, other)]);
    }
    let best = [0x84, 0, 1, 0, 0x85, 0, 1, 0, 0xbe, 0x82, 0, 1, 0];
    let other = element(0x59, &best);
    offer(table, "bad: BE with 82", &[&p1_with(0, other)]);
    offer(table, "bad: 5A in front", &[&pair, &body]);
    offer(table, "bad: 5A behind", &[&body, &pair]);
    offer(table, "bad: 5A unreadable", &[&body, &element(0x5a, &[])]);
    offer(
        table,
        "bad: 5A overruns",
        &[&body, &raw(0x5a, 0x80, 1, &[])],
    );
}

fn add_ends(table: &mut Table) {
    let body = p1_body();
    for left in 1..=3 {
        let purpose = format!("bad: {left} trailing");
        offer(table, &purpose, &[&body, &unknown()[..left]]);
    }
    offer(table, "bad: one trailing 00", &[&body, &[0x00]]);
    let over = unknown_overrunning();
    offer(table, "bad: unknown overruns, behind", &[&body, &over]);
    offer(table, "bad: unknown overruns, in front", &[&over, &body]);
    let over = raw(0x42, 0x80, 3, &[1, 2]);
    offer(table, "bad: unknown overruns by one", &[&body, &over]);
    let cut = &body[..body.len() - 1];
    offer(table, "bad: last element cut by one", &[cut]);
}

/// P1's body and an unknown element, of this many octets in all.
fn padded(octets: usize) -> Vec<u8> {
    let body = p1_body();
    let pad = vec![0x5a; octets - body.len() - 4];
    [body, element(0x42, &pad)].concat()
}

fn add_limit(table: &mut Table) {
    offer(table, "good: exactly 512 octets", &[&padded(512)]);
    offer(table, "bad: 513 octets", &[&padded(513)]);
}
