//! Turns a script and its answers into a capture or a ladder diagram, and a
//! capture into a script.

use harness::trace::{capture, ladder, packets, replay, steps, summary, wire, Step};
use std::fs;
use std::io::{self, Write};
use std::process::ExitCode;

const USAGE: &str = "usage: trace capture|text|msc|names SCRIPT ANSWERS
       trace script CAPTURE";

fn main() -> ExitCode {
    let arguments: Vec<String> = std::env::args().skip(1).collect();
    let words: Vec<&str> = arguments.iter().map(String::as_str).collect();
    match run(&words).and_then(|octets| write(&octets)) {
        Ok(()) => ExitCode::SUCCESS,
        Err(error) => {
            eprintln!("trace: {error}");
            ExitCode::from(2)
        }
    }
}

fn run(words: &[&str]) -> Result<Vec<u8>, String> {
    match *words {
        ["capture", script, answers] => Ok(capture::write(&wire(&read(script, answers)?))),
        ["text", script, answers] => Ok(ladder::text(&read(script, answers)?).into_bytes()),
        ["msc", script, answers] => Ok(ladder::msc(&read(script, answers)?).into_bytes()),
        ["names", script, answers] => Ok(names(&read(script, answers)?).into_bytes()),
        ["script", file] => {
            let octets = fs::read(file).map_err(|error| format!("{file}: {error}"))?;
            let wire = packets::read(&octets).map_err(|error| format!("{file}: {error}"))?;
            Ok(replay::script(&wire).into_bytes())
        }
        _ => Err(USAGE.to_string()),
    }
}

fn read(script: &str, answers: &str) -> Result<Vec<Step>, String> {
    let text = |file: &str| {
        let octets = fs::read(file).map_err(|error| format!("{file}: {error}"))?;
        Ok::<_, String>(String::from_utf8_lossy(&octets).into_owned())
    };
    steps(&text(script)?, &text(answers)?)
}

/// What another decoder should read in the capture, a line for each packet:
/// direction, type, flag, reference and cause.
fn names(steps: &[Step]) -> String {
    let mut text = String::new();
    for packet in wire(steps).packets {
        let way = if packet.from_user { "in" } else { "out" };
        let said = summary(&packet.octets).unwrap_or("-".to_string());
        text += &format!("{way} {said}\n");
    }
    text
}

fn write(octets: &[u8]) -> Result<(), String> {
    let written = io::stdout().lock().write_all(octets);
    written.map_err(|error| error.to_string())
}
