//! Groups G, long messages, and J, junk from a small generator.

use super::*;

pub fn add(table: &mut Table) {
    add_long(table);
    add_junk(table);
}

/// P1's body and unknown elements, of this many octets in all.
fn filled(octets: usize) -> Vec<u8> {
    let mut body = p1_body();
    while octets - body.len() > 300 {
        let number = body.len() % 97;
        body.extend(element(0x42, &vec![0x08; number]));
    }
    let number = octets - body.len() - 4;
    body.extend(element(0x43, &vec![0x14; number]));
    body
}

fn add_long(table: &mut Table) {
    let whole = |octets: usize| message(1, SETUP, &[&filled(octets - 9)]);
    table.add('G', "1024 octets", whole(1024));
    table.add('G', "1025 octets", whole(1025));
    let mut late = filled(3986);
    late.extend(element(0x14, &[0x0a]));
    table.add(
        'G',
        "4000 octets, 14 at the end",
        message(1, STATUS, &[&late]),
    );
}

/// A small generator with a fixed start.
struct Junk(u32);

impl Junk {
    fn next(&mut self) -> u8 {
        self.0 = self.0.wrapping_mul(1_103_515_245).wrapping_add(12_345);
        (self.0 >> 16) as u8
    }

    fn below(&mut self, limit: usize) -> usize {
        usize::from(self.next()) % limit
    }

    fn octets(&mut self, number: usize) -> Vec<u8> {
        (0..number).map(|_| self.next()).collect()
    }

    /// An element with a listed identifier and octets likely in one.
    fn element(&mut self) -> Vec<u8> {
        let ids = [0x08, 0x14, 0x59, 0x5a, 0x5c, 0x5e, 0x70, 0x79, 0x42];
        let likely = [0x00, 0x01, 0x80, 0x81, 0x84, 0x85, 0x88, 0xbe, 0x91, 0x35];
        let id = ids[self.below(ids.len())];
        let number = self.below(7);
        let contents: Vec<u8> = (0..number)
            .map(|_| likely[self.below(likely.len())])
            .collect();
        let octet2 = if self.below(8) == 0 { 0xe0 } else { 0x80 };
        raw(id, octet2, number, &contents)
    }
}

fn add_junk(table: &mut Table) {
    let mut junk = Junk(31);
    for _ in 0..4 {
        let number = 9 + junk.below(24);
        table.add('J', "junk throughout", junk.octets(number));
    }
    for _ in 0..6 {
        let number = junk.below(32);
        let octets = junk.octets(number);
        let octets = message(number as u32, SETUP, &[&octets]);
        table.add('J', "junk behind a good header", octets);
    }
    for _ in 0..14 {
        let number = 1 + junk.below(6);
        let mut body: Vec<u8> = (0..number).flat_map(|_| junk.element()).collect();
        let cut = junk.below(4);
        body.truncate(body.len() - cut);
        let octets = message(1, SETUP, &[&body]);
        table.add('J', "junk elements, cut at the end", octets);
    }
}
