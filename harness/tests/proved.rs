//! The small table of the paper, P1 to P8.

use harness::exchange::Exchange;

const P1: &str = "09 03 00 00 01 05 80 00 24 59 80 00 08 84 00 10 00 85 00 10 00 \
    5C 80 00 02 00 00 5E 80 00 02 81 80 70 80 00 08 91 35 35 35 31 32 33 34";

/// A controller after the start with VPCI 0, VCI 32 to 33.
fn started() -> Exchange {
    let mut exchange = Exchange::default();
    assert_eq!(answer(&mut exchange, "start 3 0 32 33 0"), "0 - 0 - 0");
    exchange
}

fn answer(exchange: &mut Exchange, line: &str) -> String {
    exchange.take(line.as_bytes()).to_string()
}

fn join(hex: &str) -> String {
    hex.split_whitespace().collect()
}

/// The answer to a message at reading 0, given in hex with blanks.
fn message(exchange: &mut Exchange, hex: &str) -> String {
    answer(exchange, &format!("message 1 0 1024 {}", join(hex)))
}

/// An accepted answer with this reply.
fn reply(hex: &str, rest: &str) -> String {
    format!("0 {} {rest}", join(hex).to_lowercase())
}

#[test]
fn p1_setup() {
    let proceeding = "09 03 80 00 01 02 80 00 09 5A 80 00 05 88 00 00 00 20";
    assert_eq!(message(&mut started(), P1), reply(proceeding, "1 0 0"));
}

#[test]
fn p2_second_pair_and_none() {
    let mut exchange = started();
    message(&mut exchange, P1);
    let second = message(&mut exchange, &P1.replacen("00 01", "00 02", 1));
    let proceeding = "09 03 80 00 02 02 80 00 09 5A 80 00 05 88 00 00 00 21";
    assert_eq!(second, reply(proceeding, "1 1 0"));
    let third = message(&mut exchange, &P1.replacen("00 01", "00 03", 1));
    let complete = "09 03 80 00 03 5A 80 00 06 08 80 00 02 81 AD";
    assert_eq!(third, reply(complete, "0 - 0"));
}

#[test]
fn p3_enquiry_on_no_call() {
    let status = "09 03 80 00 05 7D 80 00 0B 14 80 00 01 00 08 80 00 02 81 9E";
    let asked = message(&mut started(), "09 03 00 00 05 75 80 00 00");
    assert_eq!(asked, reply(status, "0 - 0"));
}

#[test]
fn p4_release_on_no_call() {
    let release = "09 03 00 00 07 4D 80 00 06 08 80 00 02 80 90";
    let complete = "09 03 80 00 07 5A 80 00 06 08 80 00 02 81 D1";
    let answered = message(&mut started(), release);
    assert_eq!(answered, reply(complete, "0 - 0"));
}

#[test]
fn p5_largest_reading() {
    let mut exchange = started();
    let largest = answer(&mut exchange, "tick 1 4000000000000 1024");
    assert_eq!(largest, "0 - 0 - 0");
    let over = answer(&mut exchange, "tick 1 4000000000001 1024");
    assert_eq!(over, "3 - 0 - 0");
}

#[test]
fn p6_equal_and_earlier_reading() {
    let mut exchange = started();
    answer(&mut exchange, "tick 1 5 1024");
    assert_eq!(answer(&mut exchange, "tick 1 5 1024"), "0 - 0 - 0");
    assert_eq!(answer(&mut exchange, "tick 1 4 1024"), "4 - 0 - 0");
}

#[test]
fn p7_short_and_empty_message() {
    let mut exchange = started();
    let short = message(&mut exchange, "09 03 00 00 05 75 80 00");
    assert_eq!(short, "0 - 0 - 0");
    assert_eq!(message(&mut exchange, "-"), "5 - 0 - 0");
}

#[test]
fn p8_deadline() {
    let mut exchange = started();
    let body = join(P1).split_off(18);
    let offered = answer(&mut exchange, &format!("offer 1 7 1024 {body}"));
    assert!(offered.ends_with(" 1 0 0"));
    assert_eq!(answer(&mut exchange, "tick 1 4006 1024"), "0 - 0 - 0");
    assert_eq!(answer(&mut exchange, "tick 1 4007 1024"), "0 - 3 0 0");
}
