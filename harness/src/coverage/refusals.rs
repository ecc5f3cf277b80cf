//! Refusals by event, and the edges of their limits.

use super::{place, Rows, Seen, PLACES};
use crate::controller::READING_LIMIT;
use crate::exchange::Event;
use crate::rows::Row;

const WORDS: [&str; 7] = [
    "message", "tick", "connect", "clear", "offer", "restart", "putback",
];

const EDGES: [(&str, &str); 18] = [
    ("ED-room-1023", "room 1,023 is refused"),
    ("ED-room-1024", "room 1,024 is accepted"),
    ("ED-room-4096", "room 4,096 or more is accepted"),
    ("ED-label-0", "label 0"),
    ("ED-label-2", "label 2"),
    ("ED-label-wide", "label over 32 bits"),
    ("ED-reading-limit", "reading 4,000,000,000,000 accepted"),
    ("ED-reading-over", "one more is 3"),
    ("ED-reading-wide", "reading 2^64 - 1 is 3"),
    ("ED-reading-equal", "equal reading accepted"),
    ("ED-reading-less", "one less is 4"),
    ("ED-message-0", "message of 0 octets is 5"),
    ("ED-message-1", "message of 1 octet is accepted"),
    ("ED-message-8", "message of 8 octets ignored"),
    ("ED-message-1024", "message of 1,024 octets is accepted"),
    ("ED-message-1025", "message of 1,025 octets is 5"),
    ("ED-offer-512", "offer body of 512 octets is accepted"),
    ("ED-offer-513", "offer body of 513 octets is 10"),
];

pub fn list(rows: &mut Rows) {
    for word in WORDS {
        for number in 1..=4 {
            let words = format!("refusal {number} of {word}");
            rows.add(format!("RF-{number:02}-{word}"), words);
        }
    }
    for word in ["connect", "clear"] {
        rows.add(
            format!("RF-06-{word}-over"),
            format!("{word}: slot over 31"),
        );
        rows.add(
            format!("RF-06-{word}-wide"),
            format!("{word}: slot over 32 bits"),
        );
        rows.add(format!("RF-06-{word}-empty"), format!("{word}: slot empty"));
    }
    for state in PLACES.iter().filter(|state| **state != "N3-user") {
        rows.add(
            format!("RF-07-connect-{state}"),
            format!("connect in {state}: 7"),
        );
    }
    for state in ["N12-user", "N12-network"] {
        rows.add(
            format!("RF-07-clear-{state}"),
            format!("clear in {state}: 7"),
        );
    }
    rows.add("RF-08-wide", "cause over 8 bits: 8");
    rows.add("RF-several", "more than one refusal applies");
    for (id, words) in EDGES {
        rows.add(id, words);
    }
}

pub fn hit(rows: &mut Rows, seen: &Seen<'_>) {
    hit_number(rows, seen);
    hit_slot(rows, seen);
    hit_reading(rows, seen);
    hit_room(rows, seen);
    hit_octets(rows, seen);
}

fn hit_number(rows: &mut Rows, seen: &Seen<'_>) {
    let (Some(request), Some(table)) = (seen.event.request(), seen.before) else {
        return;
    };
    let (word, number) = (seen.event.word(), seen.row().refusal());
    if let 1..=4 = number {
        rows.hit(&format!("RF-{number:02}-{word}"));
    }
    let applies = [
        request.room < 1_024,
        request.label != 1,
        request.reading > READING_LIMIT,
        request.reading < table.reading,
    ];
    let several = applies.iter().filter(|applies| **applies).count() > 1;
    rows.hit_if(several, "RF-several");
}

fn hit_slot(rows: &mut Rows, seen: &Seen<'_>) {
    let word = seen.event.word();
    let (Event::Connect(_, slot) | Event::Clear(_, slot, _)) = seen.event else {
        return;
    };
    match (seen.row(), seen.call) {
        (Row::Slot, _) => rows.hit(&format!("RF-06-{word}-{}", why(*slot))),
        (Row::WrongState, Some((_, call))) => {
            rows.hit(&format!("RF-07-{word}-{}", place(&call)));
        }
        _ => {}
    }
    if let Event::Clear(_, _, cause) = seen.event {
        rows.hit_if(seen.row() == Row::HostCause && *cause > 255, "RF-08-wide");
    }
}

fn why(slot: u64) -> &'static str {
    match slot {
        0..=31 => "empty",
        32..=0xffff_ffff => "over",
        _ => "wide",
    }
}

fn hit_reading(rows: &mut Rows, seen: &Seen<'_>) {
    let (Some(request), Some(table)) = (seen.event.request(), seen.before) else {
        return;
    };
    let (reading, last) = (request.reading, table.reading);
    let (large, back) = (
        seen.row() == Row::ReadingLarge,
        seen.row() == Row::ReadingBack,
    );
    rows.hit_if(
        seen.accepted() && reading == READING_LIMIT,
        "ED-reading-limit",
    );
    rows.hit_if(large && reading == READING_LIMIT + 1, "ED-reading-over");
    rows.hit_if(large && reading == u64::MAX, "ED-reading-wide");
    rows.hit_if(seen.accepted() && reading == last, "ED-reading-equal");
    rows.hit_if(back && reading + 1 == last, "ED-reading-less");
}

fn hit_room(rows: &mut Rows, seen: &Seen<'_>) {
    let Some(request) = seen.event.request() else {
        return;
    };
    let wrong = seen.row() == Row::Label;
    rows.hit_if(
        seen.row() == Row::Room && request.room == 1_023,
        "ED-room-1023",
    );
    rows.hit_if(seen.accepted() && request.room == 1_024, "ED-room-1024");
    rows.hit_if(seen.accepted() && request.room == 4_096, "ED-room-4096");
    rows.hit_if(wrong && request.label == 0, "ED-label-0");
    rows.hit_if(wrong && request.label == 2, "ED-label-2");
    rows.hit_if(wrong && request.label >> 32 != 0, "ED-label-wide");
}

fn hit_octets(rows: &mut Rows, seen: &Seen<'_>) {
    match seen.event {
        Event::Message(_, octets) => {
            let refused = seen.row() == Row::MessageLength;
            rows.hit_if(refused && octets.is_empty(), "ED-message-0");
            rows.hit_if(refused && octets.len() == 1_025, "ED-message-1025");
            for number in [1, 8, 1_024] {
                let hit = seen.accepted() && octets.len() == number;
                rows.hit_if(hit, &format!("ED-message-{number}"));
            }
        }
        Event::Offer(_, body) => {
            rows.hit_if(seen.accepted() && body.len() == 512, "ED-offer-512");
            let long = seen.row() == Row::OfferLong;
            rows.hit_if(long && body.len() == 513, "ED-offer-513");
        }
        _ => {}
    }
}
