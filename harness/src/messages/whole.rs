//! Group W: whole messages as a user would send them.

use super::*;
use crate::decode::Pair;

pub fn add(table: &mut Table) {
    add_setups(table);
    add_refused_setups(table);
    add_clearing(table);
    add_status(table);
    add_answers(table);
    add_restarts(table);
}

fn pair(vpci: u16, vci: u16) -> Vec<u8> {
    connection(Pair { vpci, vci })
}

fn add_setups(table: &mut Table) {
    let body = p1_body();
    let mut falling = p1_elements();
    falling.reverse();
    table.add('W', "P1", message(1, SETUP, &[&body]));
    table.add('W', "P2, reference 2", message(2, SETUP, &[&body]));
    table.add('W', "P2, reference 3", message(3, SETUP, &[&body]));
    let octets = message(FLAG + 1, SETUP, &[&body]);
    table.add('W', "SETUP with flag 1", octets);
    table.add('W', "global SETUP", message(0, SETUP, &[&body]));
    let octets = message(4, SETUP, &[&falling.concat()]);
    table.add('W', "SETUP, elements in falling order", octets);
    let octets = message(5, SETUP, &[&body, &pair(0, 33)]);
    table.add('W', "SETUP with a 5A", octets);
    let octets = message(6, SETUP, &[&body, &[0x70, 0x80, 0x00]]);
    table.add('W', "SETUP, 3 octets left", octets);
    let number = element(0x70, &[&[0x82], [0x47; 20].as_slice()].concat());
    let octets = message(8, SETUP, &[&p1_with(3, number)]);
    table.add('W', "SETUP, number of 20 octets", octets);
    for (purpose, length) in [("under", body.len() - 1), ("over", body.len() + 1)] {
        let octets = [header(9, SETUP, length), body.clone()].concat();
        let purpose = format!("SETUP, length field one {purpose}");
        table.add('W', &purpose, octets);
    }
}

fn add_refused_setups(table: &mut Table) {
    let damaged = |id| element(id, &[0x00]);
    for (index, id) in [0x59, 0x5c, 0x5e, 0x70].into_iter().enumerate() {
        let octets = message(10, SETUP, &[&p1_with(index, vec![])]);
        table.add('W', &format!("SETUP without {id:02X}"), octets);
        let octets = message(11, SETUP, &[&p1_with(index, damaged(id))]);
        table.add('W', &format!("SETUP, {id:02X} unreadable"), octets);
    }
    let four = [0x70, 0x5e, 0x5c, 0x59].map(damaged).concat();
    let octets = message(12, SETUP, &[&four]);
    table.add('W', "SETUP, all four unreadable", octets);
    let octets = message(12, SETUP, &[&p1_qos(), &damaged(0x59)]);
    table.add('W', "SETUP, 5E 70 missing, 59 unreadable", octets);
    let multi = p1_with(2, element(0x5e, &[0x81, 0x81]));
    let octets = message(13, SETUP, &[&multi]);
    table.add('W', "SETUP multipoint", octets);
    let peak = p1_with(0, element(0x59, &[0x84, 0, 16, 0]));
    let octets = message(14, SETUP, &[&peak]);
    table.add('W', "SETUP, 85 missing", octets);
}

fn add_clearing(table: &mut Table) {
    let cause = element(0x08, &[0x80, 0x90]);
    let short = element(0x08, &[0x90]);
    table.add('W', "P4", message(7, RELEASE, &[&cause]));
    let octets = message(FLAG + 7, RELEASE, &[&cause]);
    table.add('W', "RELEASE with flag 1", octets);
    table.add('W', "RELEASE without 08", message(1, RELEASE, &[]));
    let octets = message(1, RELEASE, &[&short]);
    table.add('W', "RELEASE, 08 unreadable", octets);
    let octets = message(1, RELEASE, &[&unknown(), &cause, &short]);
    table.add('W', "RELEASE, 08 between others", octets);
    let octets = message(1, RELEASE_COMPLETE, &[&cause]);
    table.add('W', "RELEASE COMPLETE with 08", octets);
    let octets = message(1, RELEASE_COMPLETE, &[]);
    table.add('W', "RELEASE COMPLETE, no element", octets);
}

fn add_status(table: &mut Table) {
    let state = |state| element(0x14, &[state]);
    let cause = element(0x08, &[0x80, 0x9e]);
    table.add('W', "P3", message(5, STATUS_ENQUIRY, &[]));
    for number in [0, 3, 10, 63, 64] {
        let octets = message(1, STATUS, &[&state(number), &cause]);
        table.add('W', &format!("STATUS, state {number}"), octets);
    }
    let octets = message(1, STATUS, &[&cause, &state(0)]);
    table.add('W', "STATUS, 08 before 14", octets);
    table.add('W', "STATUS without 14", message(1, STATUS, &[&cause]));
    table.add('W', "STATUS without 08", message(1, STATUS, &[&state(1)]));
    let octets = message(0, STATUS, &[&state(0), &cause]);
    table.add('W', "global STATUS", octets);
    table.add(
        'W',
        "global STATUS ENQUIRY",
        message(0, STATUS_ENQUIRY, &[]),
    );
}

fn add_answers(table: &mut Table) {
    let octets = message(FLAG + 1, CALL_PROCEEDING, &[&pair(0, 32)]);
    table.add('W', "CALL PROCEEDING with 5A", octets);
    table.add('W', "CONNECT", message(FLAG + 1, CONNECT, &[]));
    let octets = message(FLAG + 1, CONNECT, &[&pair(0, 32), &p1_called()]);
    table.add('W', "CONNECT with elements", octets);
    let octets = message(1, CONNECT_ACKNOWLEDGE, &[]);
    table.add('W', "CONNECT ACKNOWLEDGE", octets);
}

fn add_restarts(table: &mut Table) {
    let one = element(0x79, &[0x80]);
    let all = element(0x79, &[0x82]);
    let odd = element(0x79, &[0x81]);
    let here = pair(0, 32);
    let damaged = element(0x5a, &[0x88, 0x00]);
    let odd_pair = raw(0x5a, 0xe0, 5, &here[4..]);
    let cases: [(&str, &[&[u8]]); 14] = [
        ("80 and 5A", &[&one, &here]),
        ("5A before 80", &[&here, &one]),
        ("80 without 5A", &[&one]),
        ("80, 5A unreadable", &[&one, &damaged]),
        ("80, 5A octet 2 E0", &[&one, &odd_pair]),
        ("80, VCI 31", &[&one, &pair(0, 31)]),
        ("80, VPCI 9", &[&one, &pair(9, 32)]),
        ("80, VCI 65535", &[&one, &pair(0, 65535)]),
        ("82 alone", &[&all]),
        ("82 and 5A", &[&all, &here]),
        ("82, 5A unreadable", &[&all, &damaged]),
        ("79 absent", &[&here]),
        ("79 unreadable", &[&odd, &here]),
        ("no element", &[]),
    ];
    for (purpose, parts) in cases {
        let octets = message(0, RESTART, parts);
        table.add('W', &format!("RESTART, {purpose}"), octets);
    }
    let octets = message(FLAG, RESTART, &[&all]);
    table.add('W', "RESTART with flag 1", octets);
    let octets = message(1, RESTART, &[&all]);
    table.add('W', "RESTART, reference not global", octets);
    let octets = [header(0, RESTART, 4), all.clone()].concat();
    table.add('W', "RESTART, length field wrong", octets);
    for reference in [FLAG, 0] {
        let octets = message(reference, RESTART_ACKNOWLEDGE, &[&all]);
        let flag = reference / FLAG;
        table.add('W', &format!("RESTART ACKNOWLEDGE, flag {flag}"), octets);
    }
}
