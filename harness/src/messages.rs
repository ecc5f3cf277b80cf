//! The table of test messages, built from small helpers.

mod common;
mod elements;
mod header;
mod long;
mod offers;
mod traffic;
mod whole;

use crate::compose::*;
use crate::types::*;

/// One message of the table, with its name and what it is for.
#[derive(Clone, Debug)]
pub struct Entry {
    pub name: String,
    pub purpose: String,
    pub octets: Vec<u8>,
}

/// The table; names count up within a group.
#[derive(Clone, Debug, Default)]
pub struct Table {
    pub entries: Vec<Entry>,
}

impl Table {
    /// Adds a message at the end of its group.
    fn add(&mut self, group: char, purpose: &str, octets: Vec<u8>) {
        let before = self
            .entries
            .iter()
            .filter(|entry| entry.name.starts_with(group));
        let name = format!("{group}-{:02}", before.count() + 1);
        self.entries.push(Entry {
            name,
            purpose: purpose.to_string(),
            octets,
        });
    }

    /// The table as text: a comment line and a message line for each entry.
    pub fn text(&self) -> String {
        let lines = self.entries.iter().map(|entry| {
            let (name, purpose) = (&entry.name, &entry.purpose);
            format!("# {name} {purpose}\n{}\n", hex(&entry.octets))
        });
        lines.collect()
    }
}

/// The whole table.
pub fn table() -> Table {
    let mut table = Table::default();
    header::add(&mut table);
    elements::add(&mut table);
    whole::add(&mut table);
    offers::add(&mut table);
    long::add(&mut table);
    table
}

/// An unknown element.
fn unknown() -> Vec<u8> {
    element(0x42, &[0x01, 0x02])
}

/// An unknown element that overruns whatever follows it in this table.
fn unknown_overrunning() -> Vec<u8> {
    raw(0x42, 0x80, 0x7000, &[])
}

/// P1's body with one of its four elements put in another's place.
fn p1_with(index: usize, other: Vec<u8>) -> Vec<u8> {
    let mut elements = p1_elements();
    elements[index] = other;
    elements.concat()
}

fn p1_body() -> Vec<u8> {
    p1_elements().concat()
}
