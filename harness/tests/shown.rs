//! Whose number is shown: the decoder on messages of known answers, and how
//! far the generated messages reach.

use harness::compose::{element, message, raw};
use harness::decode::Walk;
use harness::exchange::Exchange;
use harness::line::octets;
use harness::numbers::Numbers;
use harness::shown::{number, shown, Fault, Lent, Plan, CALLING};
use std::collections::BTreeSet;

const RECORD: &[u8] = b"AB";

/// What is shown of a SETUP with these elements: which, where, how long.
fn setup(elements: &[&[u8]]) -> (Lent, usize, usize) {
    let shown = shown(&message(1, 0x05, elements), RECORD);
    (shown.lent, shown.at, shown.octets.len())
}

/// The same with one 6C of these contents.
fn calling(contents: &[u8]) -> (Lent, usize, usize) {
    setup(&[&element(0x6c, contents)])
}

const NO_NUMBER: (Lent, usize, usize) = (Lent::Record, 0, 2);

#[test]
fn octets_5_and_5a() {
    assert_eq!(calling(b"\x91567"), (Lent::Message, 14, 3));
    assert_eq!(calling(b"\x11\x80567"), (Lent::Message, 15, 3));
    assert_eq!(calling(b"\x11\x9f567"), (Lent::Message, 15, 3));
    for restricted in [b"\x11\xa0567", b"\x11\xc0567", b"\x11\xe3567"] {
        assert_eq!(calling(restricted), (Lent::Message, 15, 0));
    }
    for unreadable in [
        &b"\x11567"[..],
        b"\x11\x20567",
        b"\x91\x80567",
        b"\x81567",
        b"\x01\x80567",
        b"\x11",
        b"",
    ] {
        assert_eq!(calling(unreadable), NO_NUMBER);
    }
}

#[test]
fn digits_and_octets() {
    let behind = |head: &[u8], octet: u8, many: usize| [head, &vec![octet; many]].concat();
    for (many, answer) in [
        (0, NO_NUMBER),
        (1, (Lent::Message, 14, 1)),
        (15, (Lent::Message, 14, 15)),
        (16, NO_NUMBER),
    ] {
        assert_eq!(calling(&behind(b"\x91", b'9', many)), answer);
    }
    for (many, answer) in [
        (19, NO_NUMBER),
        (20, (Lent::Message, 15, 20)),
        (21, NO_NUMBER),
    ] {
        assert_eq!(calling(&behind(b"\x02\x80", 0xff, many)), answer);
    }
    assert_eq!(calling(b"\x915:"), NO_NUMBER);
    assert_eq!(calling(b"\x91/5"), NO_NUMBER);
}

#[test]
fn only_the_first() {
    let right = element(0x6c, b"\x915");
    let other = element(0x6c, b"\x11\xa067");
    let wrong = raw(0x6c, 0xe0, 2, b"\x915");
    assert_eq!(setup(&[&right, &other]), (Lent::Message, 14, 1));
    assert_eq!(setup(&[&other, &right]), (Lent::Message, 15, 0));
    assert_eq!(setup(&[&wrong, &right]), NO_NUMBER);
    assert_eq!(setup(&[&right, &wrong]), (Lent::Message, 14, 1));
}

#[test]
fn overruns() {
    let right = element(0x6c, b"\x915");
    let over = raw(0x6c, 0x80, 3, b"\x915");
    let unknown = raw(0x42, 0x80, 9, b"");
    assert_eq!(setup(&[&over]), NO_NUMBER);
    assert_eq!(setup(&[&unknown, &right]), NO_NUMBER);
    assert_eq!(setup(&[&right, &unknown]), (Lent::Message, 14, 1));
    assert_eq!(setup(&[&right, b"\x6c\x80\x00"]), (Lent::Message, 14, 1));
}

#[test]
fn only_a_setup_that_passes() {
    let right = message(0x80_0000, 0x05, &[&element(0x6c, b"\x915")]);
    assert_eq!(shown(&right, RECORD).lent, Lent::Message);
    for (place, octet) in [
        (0, 0x08),
        (1, 0x02),
        (5, 0x07),
        (5, 0x85),
        (8, 0x07),
        (7, 1),
    ] {
        let mut damaged = right.clone();
        damaged[place] = octet;
        assert_eq!(shown(&damaged, RECORD).lent, Lent::Record);
    }
    assert_eq!(shown(&right[..14], RECORD).lent, Lent::Record);
    assert_eq!(shown(&[], RECORD).octets, RECORD);
}

#[test]
fn lines() {
    let mut exchange = Exchange::default();
    let mut answer = |line: &[u8]| exchange.take(line).to_string();
    assert_eq!(answer(b"shown - 4142"), "record 0 2 4142");
    assert_eq!(answer(b"shown 09 -"), "record 0 0 -");
    assert_eq!(
        answer(b"shown 0903000001058000066C8000029135 -"),
        "message 14 1 35"
    );
    for bad in [
        &b"shown"[..],
        b"shown -",
        b"shown - ",
        b"shown  - -",
        b"shown - - -",
        b"shown 0 -",
        b"shown - 0g",
        b"Shown - -",
    ] {
        assert_eq!(answer(bad), "bad line");
    }
}

/// What the decoder finds in so many generated messages.
fn found(seed: u64, count: usize) -> BTreeSet<String> {
    let mut numbers = Numbers::new(seed);
    let mut found = BTreeSet::new();
    for _ in 0..count {
        let line = numbers.line();
        let hex = line.split(' ').nth(1).expect("a message");
        let message = if hex == "-" {
            Vec::new()
        } else {
            octets(hex.as_bytes()).expect("octets")
        };
        let ids = Walk::new(message.get(9..).unwrap_or(&[])).map(|element| element.id);
        let read = number(&message);
        let first = match read {
            Ok(_) => "readable",
            Err(fault) if fault > Fault::Overrun => "unreadable",
            Err(_) => "not looked at",
        };
        if ids.filter(|&id| id == CALLING).count() > 1 {
            found.insert(format!("{first}, then another 6C"));
        }
        match read {
            Ok(number) => {
                let (plan, presentation) = (number.plan, number.presentation);
                found.insert(format!("{plan:?} {presentation:?}"));
                found.insert(format!("{plan:?} of {}", number.address.len()));
            }
            Err(fault) => drop(found.insert(format!("{fault:?}"))),
        }
    }
    found
}

#[test]
fn generated_messages_reach_everything() {
    let found = found(1, 100_000);
    let mut wanted = BTreeSet::new();
    for plan in [Plan::Digits, Plan::Octets] {
        for presentation in [None, Some(0), Some(1), Some(2), Some(3)] {
            wanted.insert(format!("{plan:?} {presentation:?}"));
        }
    }
    wanted.extend((1..=15).map(|many| format!("{:?} of {many}", Plan::Digits)));
    wanted.insert(format!("{:?} of 20", Plan::Octets));
    wanted.extend(
        [
            Fault::Step1,
            Fault::Step2,
            Fault::Step5,
            Fault::Type,
            Fault::Absent,
            Fault::Overrun,
            Fault::Octet2,
            Fault::Octet5,
            Fault::Octet5a,
            Fault::Many(0),
            Fault::Many(16),
            Fault::Digit,
            Fault::Twenty(19),
            Fault::Twenty(21),
        ]
        .map(|fault| format!("{fault:?}")),
    );
    wanted.extend(["readable, then another 6C", "unreadable, then another 6C"].map(String::from));
    let missed: Vec<&String> = wanted.difference(&found).collect();
    assert_eq!(missed, Vec::<&String>::new());
}

#[test]
fn one_seed_one_script() {
    let lines = |seed| {
        let mut numbers = Numbers::new(seed);
        (0..100).map(|_| numbers.line()).collect::<Vec<_>>()
    };
    assert_eq!(lines(7), lines(7));
    assert_ne!(lines(7), lines(8));
}
