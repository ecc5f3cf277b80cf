//! Lines worked out by hand from the paper.

use harness::line::answer;

/// The answer to a message given in hex with blanks.
fn line(hex: &str) -> String {
    let joined: String = hex.split_whitespace().collect();
    answer(joined.as_bytes()).expect("a message")
}

/// The answer to a SETUP on reference 1 with this body of under 256 octets.
fn setup(body: &str) -> String {
    let octets = body.split_whitespace().count();
    line(&format!("09 03 00 00 01 05 80 00 {octets:02x} {body}"))
}

/// The answer to a SETUP, if only these words differ from all absent.
fn only(changes: &[(&str, &str)]) -> String {
    let mut words = vec!["flag 0 ref 1 type 05 length right".to_string()];
    for name in [
        "08", "14", "59", "traffic", "5A", "5C", "5E", "70", "79", "offer",
    ] {
        let usual = match name {
            "traffic" | "offer" => "no",
            _ => "absent",
        };
        let change = changes.iter().find(|change| change.0 == name);
        words.push(format!(
            "{name} {}",
            change.map_or(usual, |change| change.1)
        ));
    }
    words.join(" ")
}

const P1_BODY: &str = "59 80 00 08 84 00 10 00 85 00 10 00 5C 80 00 02 00 00 \
    5E 80 00 02 81 80 70 80 00 08 91 35 35 35 31 32 33 34";

#[test]
fn p1() {
    assert_eq!(
        line(&format!("09 03 00 00 01 05 80 00 24 {P1_BODY}")),
        "flag 0 ref 1 type 05 length right 08 absent 14 absent 59 84,85 traffic yes \
         5A absent 5C readable 5E point 70 readable 79 absent offer yes"
    );
}

#[test]
fn p1_reply() {
    assert_eq!(
        line("09 03 80 00 01 02 80 00 09 5A 80 00 05 88 00 00 00 20"),
        "flag 1 ref 1 type 02 length right 08 absent 14 absent 59 absent traffic no \
         5A 0/32 5C absent 5E absent 70 absent 79 absent offer no"
    );
}

#[test]
fn p3() {
    assert_eq!(
        line("09 03 00 00 05 75 80 00 00"),
        "flag 0 ref 5 type 75 length right 08 absent 14 absent 59 absent traffic no \
         5A absent 5C absent 5E absent 70 absent 79 absent offer no"
    );
    assert_eq!(
        line("09 03 80 00 05 7D 80 00 0B 14 80 00 01 00 08 80 00 02 81 9E"),
        "flag 1 ref 5 type 7d length right 08 30 14 0 59 absent traffic no \
         5A absent 5C absent 5E absent 70 absent 79 absent offer no"
    );
}

#[test]
fn p4() {
    assert_eq!(
        line("09 03 00 00 07 4D 80 00 06 08 80 00 02 80 90"),
        "flag 0 ref 7 type 4d length right 08 16 14 absent 59 absent traffic no \
         5A absent 5C absent 5E absent 70 absent 79 absent offer no"
    );
    assert_eq!(
        line("09 03 80 00 07 5A 80 00 06 08 80 00 02 81 D1"),
        "flag 1 ref 7 type 5a length right 08 81 14 absent 59 absent traffic no \
         5A absent 5C absent 5E absent 70 absent 79 absent offer no"
    );
}

#[test]
fn steps_1_and_2() {
    assert_eq!(line("-"), "ignored 1");
    assert_eq!(line("09 03 00 00 05 75 80 00"), "ignored 1");
    assert_eq!(line("09 02 00 00 05 75 80 00"), "ignored 1");
    assert_eq!(line("08 02 00 00 05 75 80 00 00"), "ignored 1");
    assert_eq!(line("09 02 00 00 05 75 80 00 00"), "ignored 2");
}

#[test]
fn header_numbers() {
    assert!(line("09 03 FF FF FF FF 00 00 00")
        .starts_with("flag 1 ref 8388607 type ff length right 08 absent"));
    assert!(line("09 03 01 02 03 00 80 00 01")
        .starts_with("flag 0 ref 66051 type 00 length wrong 08 absent"));
}

#[test]
fn the_walk() {
    let readable = only(&[("14", "63")]);
    let unreadable = only(&[("14", "unreadable")]);
    let absent = only(&[]);
    assert_eq!(setup("14 80 00 01 3F"), readable);
    assert_eq!(setup("14 80 00 01 40"), unreadable);
    assert_eq!(setup("14 E0 00 01 3F"), unreadable);
    assert_eq!(setup("14 80 00 02 3F"), unreadable);
    assert_eq!(setup("14 80 00"), absent);
    assert_eq!(setup("14 80 00 01 3F 14 80 00 01 40"), readable);
    assert_eq!(setup("14 80 00 01 40 14 80 00 01 3F"), unreadable);
    assert_eq!(setup("14 80 00 01 3F 14 80 FF FF"), readable);
    assert_eq!(setup("42 17 00 00 14 80 00 01 3F"), readable);
    assert_eq!(setup("42 80 00 06 14 80 00 01 3F"), absent);
}

#[test]
fn octet_2_of_cause_and_qos() {
    assert_eq!(setup("08 E0 00 02 80 FF"), only(&[("08", "127")]));
    assert_eq!(setup("08 60 00 02 80 FF"), only(&[("08", "unreadable")]));
    assert_eq!(setup("5C E0 00 02 04 00"), only(&[("5C", "readable")]));
    assert_eq!(setup("5C E0 00 02 05 00"), only(&[("5C", "unreadable")]));
}

#[test]
fn cause_contents() {
    let unreadable = only(&[("08", "unreadable")]);
    assert_eq!(setup("08 80 00 03 81 81 00"), only(&[("08", "1")]));
    assert_eq!(setup("08 80 00 01 81"), unreadable);
    assert_eq!(setup("08 80 00 02 01 81"), unreadable);
    assert_eq!(setup("08 80 00 02 81 01"), unreadable);
}

#[test]
fn traffic_rule() {
    let unreadable = only(&[("59", "unreadable")]);
    let best = only(&[("59", "84,85,be,bf"), ("traffic", "yes")]);
    let mixed = only(&[("59", "84,85,b1,be")]);
    assert_eq!(setup("59 80 00 00"), only(&[("59", "none")]));
    assert_eq!(setup("59 80 00 01 BE"), only(&[("59", "be")]));
    assert_eq!(setup("59 80 00 04 84 00 00 01"), only(&[("59", "84")]));
    assert_eq!(
        setup("59 80 00 0B BF 01 85 00 00 01 BE 84 00 00 01"),
        best,
        "any order"
    );
    assert_eq!(
        setup("59 80 00 0D B1 00 00 01 85 00 00 01 BE 84 00 00 01"),
        mixed
    );
    assert_eq!(setup("59 80 00 02 BE BE"), unreadable);
    assert_eq!(setup("59 80 00 01 BF"), unreadable);
    assert_eq!(setup("59 80 00 04 86 00 00 01"), unreadable);
    assert_eq!(setup("59 80 00 03 84 00 00"), unreadable);
}

#[test]
fn connection_contents() {
    let unreadable = only(&[("5A", "unreadable")]);
    assert_eq!(
        setup("5A 80 00 05 88 00 FF FF FF"),
        only(&[("5A", "255/65535")])
    );
    assert_eq!(setup("5A 80 00 05 89 00 FF FF FF"), unreadable);
    assert_eq!(setup("5A 80 00 04 88 00 FF FF"), unreadable);
    assert_eq!(setup("5A 80 00 06 88 00 00 00 20 00"), unreadable);
}

#[test]
fn bearer_contents() {
    let point = only(&[("5E", "point")]);
    let multi = only(&[("5E", "multi")]);
    let unreadable = only(&[("5E", "unreadable")]);
    assert_eq!(setup("5E 80 00 02 83 FC"), point);
    assert_eq!(setup("5E 80 00 03 10 80 81"), multi);
    assert_eq!(setup("5E 80 00 03 10 7F 81"), unreadable);
    assert_eq!(setup("5E 80 00 02 81 82"), unreadable);
    assert_eq!(setup("5E 80 00 02 81 00"), unreadable);
    assert_eq!(setup("5E 80 00 02 10 80"), unreadable);
    assert_eq!(setup("5E 80 00 03 81 80 80"), unreadable);
}

#[test]
fn called_contents() {
    let readable = only(&[("70", "readable")]);
    let unreadable = only(&[("70", "unreadable")]);
    let digits = |number: usize| "39 ".repeat(number);
    assert_eq!(setup("70 80 00 01 91"), unreadable);
    assert_eq!(setup("70 80 00 02 91 30"), readable);
    assert_eq!(setup("70 80 00 02 91 3A"), unreadable);
    assert_eq!(setup(&format!("70 80 00 10 91 {}", digits(15))), readable);
    assert_eq!(setup(&format!("70 80 00 11 91 {}", digits(16))), unreadable);
    assert_eq!(setup(&format!("70 80 00 14 82 {}", digits(19))), unreadable);
    assert_eq!(setup(&format!("70 80 00 15 82 {}", digits(20))), readable);
    assert_eq!(setup(&format!("70 80 00 16 82 {}", digits(21))), unreadable);
}

#[test]
fn restart_contents() {
    let unreadable = only(&[("79", "unreadable")]);
    assert_eq!(setup("79 80 00 01 80"), only(&[("79", "80")]));
    assert_eq!(setup("79 80 00 01 82"), only(&[("79", "82")]));
    assert_eq!(setup("79 80 00 01 81"), unreadable);
    assert_eq!(setup("79 80 00 02 80 80"), unreadable);
}

#[test]
fn offer_bodies() {
    let offered = |body: &str| setup(body).ends_with(" offer yes");
    let behind = |more: &str| format!("{P1_BODY} {more}");
    assert!(offered(P1_BODY));
    assert!(offered(&behind("42 00 00 00")));
    assert!(offered(&behind("08 80 00 00")));
    assert!(offered(&P1_BODY.replace("5C 80", "5C E0")));
    assert!(!offered(&behind("42")));
    assert!(!offered(&behind("42 00 00 01")));
    assert!(!offered(&behind("5A 80 00 00")));
    assert!(!offered(&behind("5C 80 00 02 00 00")));
    assert!(!offered(&P1_BODY.replace("81 80", "81 81")));
    assert!(!offered(&P1_BODY.replace("85 00 10 00", "83 00 10 00")));
    assert!(!offered(&P1_BODY.replace("5C 80", "5C 81")));
}

#[test]
fn offer_limit() {
    let filled = |octets: usize| {
        let pad = octets - 36 - 4;
        let contents = "00 ".repeat(pad);
        let body = format!(
            "{P1_BODY} 42 80 {:02x} {:02x} {contents}",
            pad >> 8,
            pad & 255
        );
        let length = format!("{:02x} {:02x}", octets >> 8, octets & 255);
        line(&format!("09 03 00 00 01 05 80 {length} {body}"))
    };
    for (octets, end) in [(512, "offer yes"), (513, "offer no")] {
        assert!(filled(octets).contains(" length right "));
        assert!(filled(octets).ends_with(end));
    }
}

#[test]
fn lines_of_a_table() {
    assert_eq!(answer(b""), None);
    assert_eq!(answer(b"# 09"), None);
    for bad in ["0", "090", "0g", " 09", "09 03", "--", "+9"] {
        assert_eq!(answer(bad.as_bytes()).as_deref(), Some("bad line"));
    }
    assert_eq!(answer(b"09"), Some("ignored 1".to_string()));
    assert_eq!(answer(b"0903aBcDeF75800000"), answer(b"0903ABCDEF75800000"));
}
