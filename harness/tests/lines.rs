//! The line protocol.

use harness::exchange::{next_line, Exchange, LINE_LIMIT};

/// The answers to a script, one on a line.
fn run(script: &[u8]) -> String {
    let mut exchange = Exchange::default();
    let (mut input, mut line) = (script, Vec::new());
    let mut answers = Vec::new();
    while next_line(&mut input, &mut line).expect("octets in memory") {
        answers.push(exchange.take(&line).to_string());
    }
    answers.join("|")
}

const START: &str = "start 3 0 32 33 0";

/// The answer to a line behind a start.
fn behind(line: &str) -> String {
    let answers = run(format!("{START}\n{line}").as_bytes());
    answers.replacen("0 - 0 - 0|", "", 1)
}

#[test]
fn skipped() {
    assert_eq!(run(b""), "");
    assert_eq!(run(b"\n#\n# a\n"), "||");
    let comment = "#".repeat(LINE_LIMIT + 9);
    assert_eq!(
        run(format!("{comment}\ntick 1 0 0").as_bytes()),
        "|no table"
    );
}

#[test]
fn starts() {
    assert_eq!(run(b"start 3 0 32 33 0"), "0 - 0 - 0");
    let two = "start 6 0 32 33 1 32 40 2 0 35";
    assert_eq!(run(two.as_bytes()), "0 - 0 - 0");
    assert_eq!(run(b"start 0 0"), "9 - 0 - 0");
    let refused = b"start 3 0 32 33 0\nstart 1 0 0\ntick 1 0 1024";
    assert_eq!(run(refused), "0 - 0 - 0|9 - 0 - 0|no table");
    let list = format!("start 64{} 0", " 1".repeat(64));
    assert_eq!(run(list.as_bytes()), "9 - 0 - 0");
    let list = format!("start 65{} 0", " 1".repeat(65));
    assert_eq!(run(list.as_bytes()), "bad line");
}

#[test]
fn bad_starts() {
    for line in [
        "start",
        "start 3 0 32 33",
        "start 3 0 32 33 1",
        "start 2 0 32 33 0",
        "start 4 0 32 33 0",
        "start 3 0 32 65536 0",
        "start 3 0 32 33 2 0 65536",
        "start 3 0 32 33 -",
        "start 3 0 32 +33 0",
        "Start 3 0 32 33 0",
    ] {
        assert_eq!(run(line.as_bytes()), "bad line", "{line}");
    }
}

#[test]
fn bad_lines() {
    for line in [
        "hold",
        "tick",
        "tick 1 0",
        "tick 1 0 1024 0",
        " tick 1 0 1024",
        "tick 1 0 1024 ",
        "tick  1 0 1024",
        "tick 1\t0 1024",
        "tick 1 0 1024\r",
        "tick -1 0 1024",
        "tick 1 - 1024",
        "tick 1 0x0 1024",
        "tick 18446744073709551616 0 1024",
        "tick 99999999999999999999999 0 1024",
        "connect 1 0 1024",
        "clear 1 0 1024 0",
        "message 1 0 1024",
        "message 1 0 1024 0",
        "message 1 0 1024 0g",
        "message 1 0 1024 --",
        "offer 1 0 1024 090",
        "restart",
        "restart 1 0 1024",
        "restart 1 0 1024 one",
        "restart 1 0 1024 one 0",
        "restart 1 0 1024 one 0 32 33",
        "restart 1 0 1024 one 0 18446744073709551616",
        "restart 1 0 1024 all 0",
        "restart 1 0 1024 All",
        "restart 1 0 1024 0 32",
        "putback",
        "putback 1 0",
        "putback 1 0 1024 0",
        "save",
        "save ",
        "save -",
        "save 4096 0",
        "save 18446744073709551616",
        "SAVE 4096",
        "reload",
        "reload ",
        "reload 0",
        "reload 0g",
        "reload --",
        "reload 01 00",
    ] {
        assert_eq!(run(line.as_bytes()), "bad line", "{line}");
        assert_eq!(behind(line), "bad line", "{line}");
    }
}

#[test]
fn numbers() {
    let largest = u64::MAX;
    assert_eq!(behind(&format!("tick 01 {largest} 1024")), "3 - 0 - 0");
    assert_eq!(behind(&format!("tick {largest} 0 1024")), "2 - 0 - 0");
    assert_eq!(behind(&format!("tick 1 0 {largest}")), "0 - 0 - 0");
    assert_eq!(behind(&format!("connect 1 0 1024 {largest}")), "6 - 0 - 0");
    assert_eq!(behind("connect 1 0 1024 4294967296"), "6 - 0 - 0");
    assert_eq!(behind("tick 0001 0000 001024"), "0 - 0 - 0");
    let wide = format!("restart 1 0 1024 one {largest} {largest}");
    assert_eq!(behind(&wide), "13 - 0 - 0");
    assert_eq!(behind("restart 1 0 1024 one 0 65568"), "13 - 0 - 0");
    let zeros = "0".repeat(1_000);
    assert_eq!(behind(&format!("tick {zeros}1 0 1024")), "0 - 0 - 0");
}

#[test]
fn octets() {
    let message = |number: usize| format!("message 1 0 1024 {}", "09".repeat(number));
    assert_eq!(behind(&message(1_024)), "0 - 0 - 0");
    assert_eq!(behind(&message(1_025)), "5 - 0 - 0");
    assert_eq!(behind(&message(4_096)), "5 - 0 - 0");
    assert_eq!(behind(&message(4_097)), "bad line");
    assert_eq!(behind("message 1 0 1024 -"), "5 - 0 - 0");
    assert_eq!(behind("offer 1 0 1024 -"), "10 - 0 - 0");
    let mixed = behind("message 1 0 1024 0903aBcDeF75800000");
    assert_eq!(mixed, behind("message 1 0 1024 0903ABCDEF75800000"));
}

#[test]
fn commands() {
    let all = "0 0903000000468000057980000182 0 - 0";
    assert_eq!(behind("restart 1 0 1024 all"), all);
    let one = "0 09030000004680000e79800001805a8000058800000021 0 - 0";
    assert_eq!(behind("restart 1 0 1024 one 0 033"), one);
    assert_eq!(behind("putback 1 0 1024"), "0 - 0 - 0");
    let early = b"restart 1 0 1024 all\nrestart 1 0 1024 one 0 32\nputback 1 0 1024";
    assert_eq!(run(early), "no table|no table|no table");
}

/// The form of a table behind the start.
const FORM: &str = "010006000000200021020000030008000000000000000005000006000100070000";

#[test]
fn saves() {
    let saved = format!("0 {FORM} 0 - 0");
    assert_eq!(behind("save 33"), saved);
    assert_eq!(behind("save 018446744073709551615"), saved);
    assert_eq!(behind("save 32"), "1 - 0 - 0");
    assert_eq!(behind("save 32\nsave 4096"), format!("1 - 0 - 0|{saved}"));
    assert_eq!(run(b"save 4096\nsave 0"), "no table|no table");
}

#[test]
fn reloads() {
    let accepted = "0 - 0 - 0|0 - 0 - 0";
    let then = |octets: &str| run(format!("reload {octets}\ntick 1 0 1024").as_bytes());
    assert_eq!(then(FORM), accepted);
    let refused = "9 - 0 - 0|no table";
    assert_eq!(then("-"), refused);
    assert_eq!(behind("reload -\ntick 1 0 1024"), refused);
    assert_eq!(then(&"00".repeat(4_096)), refused);
    assert_eq!(then(&"00".repeat(4_097)), "bad line|no table");
    assert_eq!(behind("reload 0\ntick 1 0 1024"), "bad line|0 - 0 - 0");
}

#[test]
fn long_line() {
    let script = format!("tick {}1 0 1024\n{START}\n", "0".repeat(LINE_LIMIT));
    assert_eq!(run(script.as_bytes()), "bad line|0 - 0 - 0");
}
