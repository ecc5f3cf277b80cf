//! Traces: a capture gives its script back, and the ladder says who spoke.

use harness::exchange::{Exchange, Outcome};
use harness::generate::Generator;
use harness::trace::{capture, ladder, packets, replay, steps, summary, wire, Packet, Step};

/// The answers of the reference to a script.
fn answers(script: &str) -> String {
    let mut exchange = Exchange::default();
    let outcomes = script.lines().map(|line| exchange.take(line.as_bytes()));
    let answered = outcomes.filter(|outcome| *outcome != Outcome::Skipped);
    answered.map(|outcome| format!("{outcome}\n")).collect()
}

fn trace(script: &str) -> Vec<Step> {
    steps(script, &answers(script)).expect("a script and its answers")
}

const CALL: &str = "# a call\nstart 3 0 32 33 0\n\
    message 1 0 1024 0903000001058000245980000884001000850010005c80000200005e8000028180708000089135353531323334\n\
    connect 1 2000 1024 0\ntick 1 1 1024\nsave 4096\n\
    message 2 2500 2000 09030000017580\nhold\ntick 1 3000 1024\n\
    restart 1 3000 1024 one 0 32\nrestart 1 3000 1024 all\nputback 1 3000 1024\n";

/// The events of a script as it is given back.
fn events(text: &str) -> Vec<String> {
    let is_event = |line: &&str| !line.is_empty() && !line.starts_with('#');
    text.lines().filter(is_event).map(str::to_string).collect()
}

#[test]
fn a_capture_gives_its_script_back() {
    let file = capture::write(&wire(&trace(CALL)));
    let wire = packets::read(&file).expect("a capture");
    let right: Vec<String> = events(CALL)
        .into_iter()
        .filter(|line| line != "hold")
        .collect();
    assert_eq!(events(&replay::script(&wire)), right);
}

#[test]
fn a_line_that_ends_in_a_carriage_return_is_no_event() {
    let script = "start 3 0 32 33 0\ntick 1 0 1024\r\n";
    let steps = steps(script, "0 - 0 - 0\nbad line\n").expect("a script and its answers");
    assert_eq!(steps.len(), 1);
}

#[test]
fn so_does_one_of_a_generated_script() {
    let mut generator = Generator::new(3);
    let lines: Vec<String> = (0..5_000)
        .filter_map(|_| String::from_utf8(generator.line().0).ok())
        .collect();
    let steps = trace(&lines.join("\n"));
    let file = capture::write(&wire(&steps));
    let back = replay::script(&packets::read(&file).expect("a capture"));
    let right: Vec<String> = steps.into_iter().map(|step| step.line).collect();
    assert!(right.len() > 4_000);
    assert_eq!(events(&back), right);
}

#[test]
fn what_stands_on_the_wire() {
    let packets = wire(&trace(CALL)).packets;
    let said: Vec<(bool, u64, Option<String>)> = packets
        .iter()
        .map(|packet| (packet.from_user, packet.time, summary(&packet.octets)))
        .collect();
    let text = |words: &str| Some(words.to_string());
    let right = vec![
        (true, 0, text("SETUP 0 1 -")),
        (false, 0, text("CALL PROCEEDING 1 1 -")),
        (false, 2000, text("CONNECT 1 1 -")),
        (true, 2500, None),
        (false, 3000, text("RESTART 0 0 -")),
    ];
    assert_eq!(said, right);
    assert_eq!(
        packets[3].comments.last().expect("a refusal"),
        "refused 2: clock label not 1"
    );
}

/// A capture of messages alone, with a record of pcap for each.
fn plain(kind: u8, octets: &[u8], cut: u8) -> Vec<u8> {
    let length = octets.len() as u8;
    let mut file = vec![0xd4, 0xc3, 0xb2, 0xa1, 2, 0, 4, 0, 0, 0, 0, 0, 0, 0, 0, 0];
    file.extend([0, 0, 4, 0, kind, 0, 0, 0]);
    file.extend([
        5,
        0,
        0,
        0,
        0xd0,
        7,
        0,
        0,
        length,
        0,
        0,
        0,
        length + cut,
        0,
        0,
        0,
    ]);
    file.extend(octets);
    file
}

#[test]
fn a_capture_of_others() {
    let octets = [0x09, 0x03, 0, 0, 5, 0x75, 0x80, 0, 0];
    let wire = packets::read(&plain(147, &octets, 0)).expect("a capture");
    let right = Packet {
        time: 5_002,
        from_user: true,
        octets: octets.to_vec(),
        comments: Vec::new(),
    };
    assert_eq!(wire.packets, [right]);
    assert_eq!(
        replay::script(&wire),
        "message 1 5002 1024 090300000575800000\n"
    );
}

#[test]
fn captures_that_are_not_read() {
    let octets = [0x09];
    let whole = plain(147, &octets, 0);
    assert!(packets::read(&whole).is_ok());
    assert!(packets::read(&whole[..whole.len() - 1]).is_err());
    assert!(packets::read(&plain(147, &octets, 1)).is_err());
    assert!(packets::read(&plain(1, &octets, 0)).is_err());
    assert!(packets::read(b"start 3 0 32 33 0\n").is_err());
    let file = capture::write(&wire(&trace(CALL)));
    for end in [10, 30, 60, file.len() - 1] {
        assert!(packets::read(&file[..end]).is_err(), "{end}");
    }
}

#[test]
fn answers_that_do_not_fit() {
    assert!(steps("start 3 0 32 33 0\n", "").is_err());
    assert!(steps("start 3 0 32 33 0\n", "0 - 0 -\n").is_err());
    let explained = "0 - 0 - 0\n# start accepted: every slot is empty\n";
    assert_eq!(
        steps("start 3 0 32 33 0\n", explained).map(|steps| steps.len()),
        Ok(1)
    );
}

/// One blank and one dash for a run of them.
fn short(line: &str) -> String {
    let mut text = String::new();
    for character in line.chars() {
        let again = text.ends_with(character) && " -".contains(character);
        if !again {
            text.push(character);
        }
    }
    text.trim_start().to_string()
}

#[test]
fn the_ladder() {
    let text = ladder::text(&trace(CALL));
    let lines: Vec<String> = text.lines().map(short).collect();
    for (place, right) in [
        (1, "0.000 | |<- start -|"),
        (2, "|- SETUP 0/1 ->| |"),
        (3, "|<- CALL PROCEEDING 1/1, pair 0/32 -| |"),
        (4, "| |- call asked: slot 0 ->|"),
        (5, "2.000 | |<- connect slot 0 -|"),
        (14, "| |<- restart pair 0/32 -|"),
        (15, "|<- RESTART 0/0, pair 0/32 -| |"),
        (16, "| |<- restart all -|"),
        (
            17,
            "| |- refused 13: RESTART under way, or pair not permitted ->|",
        ),
        (18, "| |<- put back -|"),
    ] {
        assert_eq!(lines[place], right);
    }
    let msc = ladder::msc(&trace(CALL));
    for line in [
        "  user => us [label=\"SETUP 0/1\"];\n",
        "  us => user [label=\"CALL PROCEEDING 1/1, pair 0/32\"];\n",
        "  us >> host [label=\"call asked: slot 0\"];\n",
        "  host >> us [label=\"connect slot 0\"];\n",
    ] {
        assert!(msc.contains(line), "{line}");
    }
}
