//! The table of messages as a whole.

use harness::line::{read_line, Line};
use harness::messages::table;
use std::collections::BTreeSet;

#[test]
fn size() {
    assert!(table().entries.len() >= 220);
    assert!(table().text().len() < 60_000);
}

#[test]
fn names_differ() {
    let table = table();
    let names: BTreeSet<&str> = table.entries.iter().map(|e| e.name.as_str()).collect();
    assert_eq!(names.len(), table.entries.len());
}

#[test]
fn text_reads_back() {
    let table = table();
    let text = table.text();
    let read: Vec<Line> = text
        .lines()
        .map(|line| read_line(line.as_bytes()))
        .filter(|line| *line != Line::Skipped)
        .collect();
    let written: Vec<Line> = table
        .entries
        .iter()
        .map(|entry| Line::Message(entry.octets.clone()))
        .collect();
    assert_eq!(read, written);
}

/// An offer is decoded as its purpose says.
#[test]
fn offers_as_named() {
    let table = table();
    let offers = table.entries.iter().filter(|e| e.name.starts_with('O'));
    for entry in offers {
        let line = harness::decode::decode(&entry.octets).to_string();
        let good = entry.purpose.starts_with("good");
        assert_eq!(line.ends_with("offer yes"), good, "{}", entry.name);
    }
}
