//! Groups for the listed elements, then lengths that lie (L) and every
//! identifier twice (I).

use super::common::Sample;
use super::*;

pub const CAUSE: Sample = Sample {
    group: 'C',
    id: 0x08,
    reference: 7,
    kind: RELEASE,
    good: &[0x80, 0x90],
    bad: &[0x80, 0x10],
};

pub const CALL_STATE: Sample = Sample {
    group: 'S',
    id: 0x14,
    reference: 7,
    kind: STATUS,
    good: &[0x0a],
    bad: &[0x40],
};

pub const TRAFFIC: Sample = Sample {
    group: 'T',
    id: 0x59,
    reference: 1,
    kind: SETUP,
    good: &[0x84, 0x00, 0x10, 0x00, 0x85, 0x00, 0x10, 0x00],
    bad: &[0x84, 0x00, 0x10, 0x00, 0x86, 0x00, 0x10, 0x00],
};

pub const CONNECTION: Sample = Sample {
    group: 'N',
    id: 0x5a,
    reference: 0,
    kind: RESTART,
    good: &[0x88, 0x00, 0x00, 0x00, 0x20],
    bad: &[0x89, 0x00, 0x00, 0x00, 0x20],
};

pub const QOS: Sample = Sample {
    group: 'Q',
    id: 0x5c,
    reference: 1,
    kind: SETUP,
    good: &[0x00, 0x00],
    bad: &[0x05, 0x00],
};

pub const BEARER: Sample = Sample {
    group: 'B',
    id: 0x5e,
    reference: 1,
    kind: SETUP,
    good: &[0x81, 0x80],
    bad: &[0x81, 0x82],
};

pub const CALLED: Sample = Sample {
    group: 'D',
    id: 0x70,
    reference: 1,
    kind: SETUP,
    good: b"\x915",
    bad: b"\x90\x35",
};

pub const INDICATOR: Sample = Sample {
    group: 'R',
    id: 0x79,
    reference: 0,
    kind: RESTART,
    good: &[0x82],
    bad: &[0x81],
};

const ALL: [Sample; 8] = [
    CAUSE, CALL_STATE, TRAFFIC, CONNECTION, QOS, BEARER, CALLED, INDICATOR,
];

/// What each of them has beside the common edges.
const MORE: [fn(&mut Table); 8] = [
    add_cause,
    add_call_state,
    traffic::add,
    add_connection,
    add_qos,
    add_bearer,
    add_called,
    add_indicator,
];

pub fn add(table: &mut Table) {
    for (sample, add_more) in ALL.iter().zip(MORE) {
        sample.edges(table);
        add_more(table);
    }
    add_lies(table);
    add_twice(table);
}

fn add_contents(table: &mut Table, sample: &Sample, cases: &[(&str, &[u8])]) {
    for (purpose, contents) in cases {
        sample.contents(table, purpose, contents);
    }
}

fn add_cause(table: &mut Table) {
    let cases: [(&str, &[u8]); 8] = [
        ("cause 0", &[0x80, 0x80]),
        ("cause 127", &[0xff, 0xff]),
        ("first top bit clear", &[0x7f, 0x90]),
        ("second top bit clear", &[0x80, 0x7f]),
        ("three octets, first top bit clear", &[0x00, 0x80, 0x90]),
        ("diagnostic, top bit clear", &[0x82, 0xe4, 0x7f]),
        (
            "diagnostic of six",
            &[0x81, 0xe6, 0x33, 0x31, 0x30, 0, 0, 0],
        ),
        ("one octet", &[0x80]),
    ];
    add_contents(table, &CAUSE, &cases);
    let broken = raw(0x08, 0xe0, 2, &[0x80, 0x7f]);
    CAUSE.add(table, "octet 2 E0, second top bit clear", &[&broken]);
}

fn add_call_state(table: &mut Table) {
    let cases: [(&str, &[u8]); 7] = [
        ("state 0", &[0]),
        ("state 1", &[1]),
        ("state 63", &[63]),
        ("64, over the top", &[64]),
        ("top bit set", &[0x80]),
        ("FF", &[0xff]),
        ("two octets", &[0, 0]),
    ];
    add_contents(table, &CALL_STATE, &cases);
}

fn add_connection(table: &mut Table) {
    let cases: [(&str, &[u8]); 9] = [
        ("all zero", &[0x88, 0, 0, 0, 0]),
        ("all ones", &[0x88, 0xff, 0xff, 0xff, 0xff]),
        ("octet order", &[0x88, 1, 2, 3, 4]),
        ("VCI 31", &[0x88, 0, 0, 0, 31]),
        ("VPCI 256", &[0x88, 1, 0, 0, 0x20]),
        ("first 87", &[0x87, 0, 0, 0, 0x20]),
        ("first 08", &[0x08, 0, 0, 0, 0x20]),
        ("first 88 missing", &[0, 0, 0, 0x20]),
        ("six octets", &[0x88, 0, 0, 0, 0x20, 0x88]),
    ];
    add_contents(table, &CONNECTION, &cases);
}

fn add_qos(table: &mut Table) {
    let cases: [(&str, &[u8]); 8] = [
        ("both 4", &[4, 4]),
        ("0 and 4", &[0, 4]),
        ("4 and 0", &[4, 0]),
        ("first 5", &[5, 4]),
        ("second 5", &[4, 5]),
        ("first 80", &[0x80, 0]),
        ("second FF", &[0, 0xff]),
        ("three octets", &[1, 2, 3]),
    ];
    add_contents(table, &QOS, &cases);
    let edge = raw(0x5c, 0xe0, 2, &[4, 4]);
    QOS.add(table, "octet 2 E0, both 4", &[&edge]);
    let broken = raw(0x5c, 0xe0, 2, &[0, 5]);
    QOS.add(table, "octet 2 E0, second 5", &[&broken]);
}

fn add_bearer(table: &mut Table) {
    let cases: [(&str, &[u8]); 29] = [
        ("81, multipoint", &[0x81, 0x81]),
        ("83, point", &[0x83, 0x80]),
        ("83, multipoint", &[0x83, 0x81]),
        ("last FC, point", &[0x81, 0xfc]),
        ("last FD, multipoint", &[0x81, 0xfd]),
        ("last FE, low bits 2", &[0x81, 0xfe]),
        ("low bits 3", &[0x81, 0x83]),
        ("last top bit clear", &[0x81, 0x00]),
        ("last top bit clear, 7D", &[0x83, 0x7d]),
        ("first 80", &[0x80, 0x80]),
        ("first 82", &[0x82, 0x80]),
        ("first 84", &[0x84, 0x80]),
        ("first 01", &[0x01, 0x80]),
        ("first 90, two octets", &[0x90, 0x80]),
        ("10, point", &[0x10, 0x80, 0x80]),
        ("10, multipoint", &[0x10, 0x80, 0x81]),
        ("10, middle FF", &[0x10, 0xff, 0x80]),
        ("10, middle 7F", &[0x10, 0x7f, 0x80]),
        ("10, last top bit clear", &[0x10, 0x80, 0x00]),
        ("10, low bits 2", &[0x10, 0x80, 0x82]),
        ("10, low bits 3", &[0x10, 0x80, 0x83]),
        ("10, two octets", &[0x10, 0x80]),
        ("10, four octets", &[0x10, 0x80, 0x80, 0x80]),
        ("90, three octets", &[0x90, 0x80, 0x80]),
        ("11, three octets", &[0x11, 0x80, 0x80]),
        ("81, three octets", &[0x81, 0x80, 0x80]),
        ("83, three octets", &[0x83, 0x80, 0x81]),
        ("83, one octet", &[0x83]),
        ("10, one octet", &[0x10]),
    ];
    add_contents(table, &BEARER, &cases);
}

fn add_called(table: &mut Table) {
    let kind = |first: u8, octet: u8, number: usize| [vec![first], vec![octet; number]].concat();
    let cases = [
        ("91, digit 0", kind(0x91, 0x30, 1)),
        ("91, digit 9", kind(0x91, 0x39, 1)),
        ("91, 2F", kind(0x91, 0x2f, 1)),
        ("91, 3A", kind(0x91, 0x3a, 1)),
        ("91, digit with top bit", kind(0x91, 0xb5, 1)),
        ("91, 15 digits", kind(0x91, 0x37, 15)),
        ("91, 16 digits", kind(0x91, 0x37, 16)),
        ("91, 20 digits", kind(0x91, 0x37, 20)),
        ("91, last of 15 is 3A", b"\x9112345678901234:".to_vec()),
        ("91, first of 15 is 2F", b"\x91/23456789012345".to_vec()),
        ("91, eighth of 15 is 00", b"\x911234567\x009012345".to_vec()),
        ("82, 20 octets", kind(0x82, 0x47, 20)),
        ("82, 20 octets FF", kind(0x82, 0xff, 20)),
        ("82, 19 octets", kind(0x82, 0x47, 19)),
        ("82, 21 octets", kind(0x82, 0x47, 21)),
        ("82 alone", vec![0x82]),
        ("82, 15 digits", kind(0x82, 0x37, 15)),
        ("92, digits", kind(0x92, 0x35, 3)),
        ("11, digits", kind(0x11, 0x35, 3)),
        ("81, 20 octets", kind(0x81, 0x47, 20)),
        ("02, 20 octets", kind(0x02, 0x47, 20)),
    ];
    for (purpose, contents) in &cases {
        CALLED.contents(table, purpose, contents);
    }
}

fn add_indicator(table: &mut Table) {
    let cases: [(&str, &[u8]); 7] = [
        ("80", &[0x80]),
        ("7F", &[0x7f]),
        ("83", &[0x83]),
        ("00", &[0x00]),
        ("02", &[0x02]),
        ("80 twice in the contents", &[0x80, 0x80]),
        ("82 and 80 in the contents", &[0x82, 0x80]),
    ];
    add_contents(table, &INDICATOR, &cases);
}

fn add_lies(table: &mut Table) {
    for sample in &ALL {
        for length in [0xffff, 0] {
            let parts = raw(sample.id, 0x80, length, sample.good);
            let purpose = format!("{:02X} length {length:X} lies", sample.id);
            let octets = message(sample.reference, sample.kind, &[&parts]);
            table.add('L', &purpose, octets);
        }
    }
    let low = raw(0x14, 0x80, 0x0100, &[0x03]);
    let octets = message(7, STATUS, &[&low]);
    table.add('L', "14 length octets in wrong order", octets);
    for (purpose, length) in [
        ("unknown length FFFF before 08", 0xffff),
        ("unknown length 0 before 08", 0),
        ("unknown length one under, 08 shifted", 1),
        ("unknown length takes in the 08", 8),
        ("unknown length one over all", 9),
    ] {
        let hider = raw(0x42, 0x80, length, &[]);
        let first: &[u8] = if length == 1 { &[1, 2] } else { &[] };
        let cause = element(0x08, &[0x80, 0x90]);
        let last: &[u8] = if length >= 8 { &[3, 4] } else { &[] };
        let octets = message(7, RELEASE, &[&hider, first, &cause, last]);
        table.add('L', purpose, octets);
    }
}

fn add_twice(table: &mut Table) {
    for sample in &ALL {
        let one = element(sample.id, sample.good);
        let octets = message(sample.reference, sample.kind, &[&one, &one]);
        table.add('I', &format!("{:02X} twice", sample.id), octets);
    }
    let cases: [(&Sample, &str, &[u8], &[u8]); 6] = [
        (&CAUSE, "16 then 17", &[0x80, 0x90], &[0x80, 0x91]),
        (&CALL_STATE, "0 then 10", &[0], &[10]),
        (
            &CONNECTION,
            "32 then 33",
            &[0x88, 0, 0, 0, 32],
            &[0x88, 0, 0, 0, 33],
        ),
        (&BEARER, "point then multi", &[0x81, 0x80], &[0x81, 0x81]),
        (&BEARER, "multi then point", &[0x81, 0x81], &[0x81, 0x80]),
        (&INDICATOR, "80 then 82", &[0x80], &[0x82]),
    ];
    for (sample, purpose, first, second) in cases {
        let (a, b) = (element(sample.id, first), element(sample.id, second));
        let purpose = format!("{:02X} {purpose}: first counts", sample.id);
        let octets = message(sample.reference, sample.kind, &[&a, &unknown(), &b]);
        table.add('I', &purpose, octets);
    }
    let twice = [unknown(), unknown()].concat();
    let octets = message(7, RELEASE, &[&twice, &element(0x08, CAUSE.good)]);
    table.add('I', "unknown twice, then 08", octets);
}
