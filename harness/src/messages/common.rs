//! The edges that every listed element has.

use super::*;

/// A listed element in a message that may carry it.
pub struct Sample {
    pub group: char,
    pub id: u8,
    pub reference: u32,
    pub kind: u8,
    /// Readable contents.
    pub good: &'static [u8],
    /// Contents of the same identifier that are not readable.
    pub bad: &'static [u8],
}

impl Sample {
    /// Adds a message of these parts.
    pub fn add(&self, table: &mut Table, purpose: &str, parts: &[&[u8]]) {
        let purpose = format!("{:02X} {purpose}", self.id);
        let octets = message(self.reference, self.kind, parts);
        table.add(self.group, &purpose, octets);
    }

    /// Adds a message of one element with these contents.
    pub fn contents(&self, table: &mut Table, purpose: &str, contents: &[u8]) {
        self.add(table, purpose, &[&element(self.id, contents)]);
    }

    pub fn edges(&self, table: &mut Table) {
        self.add_plain(table);
        self.add_octet2(table);
        self.add_lengths(table);
        self.add_cuts(table);
        self.add_repeats(table);
        self.add_behind(table);
    }

    fn add_plain(&self, table: &mut Table) {
        let other = element(if self.id == 0x14 { 0x08 } else { 0x14 }, &[0x83]);
        self.add(table, "absent, another there", &[&other]);
        self.contents(table, "readable", self.good);
        self.contents(table, "a content rule broken", self.bad);
    }

    fn add_octet2(&self, table: &mut Table) {
        for octet2 in [0xe0, 0x00, 0x81, 0xe1] {
            let purpose = format!("octet 2 {octet2:02X}");
            let parts = raw(self.id, octet2, self.good.len(), self.good);
            self.add(table, &purpose, &[&parts]);
        }
    }

    fn add_lengths(&self, table: &mut Table) {
        let long = [self.good, &[0x00]].concat();
        self.contents(table, "length 0", &[]);
        self.contents(table, "one short", &self.good[..self.good.len() - 1]);
        self.contents(table, "one octet 00 long", &long);
        let overrun = raw(self.id, 0x80, self.good.len() + 1, self.good);
        self.add(table, "overruns by one", &[&overrun]);
        let empty = raw(self.id, 0x80, 1, &[]);
        self.add(table, "four octets, overruns by one", &[&empty]);
    }

    fn add_cuts(&self, table: &mut Table) {
        let whole = element(self.id, self.good);
        for left in 1..=3 {
            let purpose = format!("cut, {left} left: absent");
            self.add(table, &purpose, &[&whole[..left]]);
        }
    }

    fn add_repeats(&self, table: &mut Table) {
        let good = element(self.id, self.good);
        let bad = element(self.id, self.bad);
        let odd = raw(self.id, 0x01, self.good.len(), self.good);
        let over = raw(self.id, 0x80, self.good.len() + 1, self.good);
        self.add(table, "readable, then damaged", &[&good, &bad]);
        self.add(table, "damaged, then readable", &[&bad, &good]);
        self.add(table, "octet 2 wrong, then readable", &[&odd, &good]);
        self.add(table, "readable, then overrunning", &[&good, &over]);
        self.add(table, "readable, then 3 left", &[&good, &good[..3]]);
    }

    fn add_behind(&self, table: &mut Table) {
        let good = element(self.id, self.good);
        let odd = raw(0x43, 0x17, 1, &[0xff]);
        self.add(table, "behind unknown", &[&unknown(), &good]);
        self.add(table, "behind unknown, odd octet 2", &[&odd, &good]);
        let over = unknown_overrunning();
        self.add(table, "behind unknown overrunning", &[&over, &good]);
        let hidden = element(0x42, &good);
        self.add(table, "inside an unknown's contents", &[&hidden]);
    }
}
