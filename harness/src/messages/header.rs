//! Group H: the header.

use super::*;
use crate::decode::HEADER;

pub fn add(table: &mut Table) {
    add_short(table);
    add_first_octets(table);
    add_references(table);
    add_length_fields(table);
    add_types(table);
}

fn add_short(table: &mut Table) {
    let enquiry = header(5, STATUS_ENQUIRY, 0);
    table.add('H', "step 1: no octets", vec![]);
    table.add('H', "step 1: 1 octet, 09", vec![0x09]);
    table.add('H', "step 1: 1 octet, not 09", vec![0x08]);
    table.add('H', "step 1: 2 octets", enquiry[..2].to_vec());
    table.add('H', "step 1: 2 octets, second wrong too", vec![0x09, 0x04]);
    table.add('H', "step 1: 8 octets", enquiry[..8].to_vec());
    table.add('H', "9 octets, header alone", enquiry);
}

fn add_first_octets(table: &mut Table) {
    for octet in [0x08, 0x0a, 0x89, 0x00] {
        let mut octets = header(5, STATUS_ENQUIRY, 0);
        octets[0] = octet;
        table.add('H', "step 1: first octet not 09", octets);
    }
    for octet in [0x02, 0x04, 0x83, 0x00] {
        let mut octets = header(5, STATUS_ENQUIRY, 0);
        octets[1] = octet;
        table.add('H', "step 2: octet 2 not 03", octets);
    }
    let mut octets = header(5, STATUS_ENQUIRY, 0);
    octets[0] = 0x03;
    octets[1] = 0x09;
    table.add('H', "steps 1 and 2 both: step 1", octets);
    let mut octets = message(5, SETUP, &[&p1_body()]);
    octets[1] = 0x01;
    table.add('H', "step 2: a whole SETUP, octet 2 not 03", octets);
    for octet in [0x00, 0xff] {
        let mut octets = header(5, STATUS_ENQUIRY, 0);
        octets[6] = octet;
        table.add('H', "octet 7 not 80 is not examined", octets);
    }
}

fn add_references(table: &mut Table) {
    let cases = [
        ("reference 1, flag set", FLAG + 1),
        ("largest reference", 0x7f_ffff),
        ("largest reference, flag set", FLAG + 0x7f_ffff),
        ("global reference", 0),
        ("global reference, flag set", FLAG),
        ("reference top octet alone", 0x40_0000),
        ("reference middle octet alone", 0x00_0100),
        ("reference octet order", 0x01_0203),
    ];
    for (purpose, reference) in cases {
        table.add('H', purpose, header(reference, STATUS_ENQUIRY, 0));
    }
}

fn add_length_fields(table: &mut Table) {
    let body = element(0x08, &[0x80, 0x90]);
    for (purpose, length) in [
        ("length field one under", body.len() - 1),
        ("length field one over", body.len() + 1),
        ("length field 0, octets behind", 0),
        ("length field FFFF", 0xffff),
        ("length field octets in wrong order", 0x0600),
        ("length field counts the header", body.len() + HEADER),
    ] {
        let octets = [header(7, RELEASE, length), body.clone()].concat();
        table.add('H', purpose, octets);
    }
    table.add('H', "length field 1, none behind", header(7, RELEASE, 1));
    let octets = [header(7, RELEASE, 0), vec![0x08]].concat();
    table.add('H', "length field 0, one octet behind", octets);
}

fn add_types(table: &mut Table) {
    for (name, kind) in [
        ("CALL PROCEEDING", CALL_PROCEEDING),
        ("SETUP", SETUP),
        ("CONNECT", CONNECT),
        ("CONNECT ACKNOWLEDGE", CONNECT_ACKNOWLEDGE),
        ("RESTART", RESTART),
        ("RELEASE", RELEASE),
        ("RESTART ACKNOWLEDGE", RESTART_ACKNOWLEDGE),
        ("RELEASE COMPLETE", RELEASE_COMPLETE),
        ("STATUS ENQUIRY", STATUS_ENQUIRY),
        ("STATUS", STATUS),
    ] {
        table.add('H', &format!("type {name}"), header(1, kind, 0));
    }
    for kind in [0x00, 0x01, 0x04, 0x45, 0x80, 0x85, 0xff] {
        table.add('H', "type unknown", header(1, kind, 0));
    }
}
