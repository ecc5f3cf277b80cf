//! Standard lives of calls, for counting instructions. Four octets on standard
//! input: 0 for a user-originated call (SETUP, connect, CONNECT ACKNOWLEDGE,
//! RELEASE), 1 for a network-originated one (offer, CALL PROCEEDING, CONNECT,
//! clear, RELEASE COMPLETE) or 2 for one that ends at once (SETUP, RELEASE
//! COMPLETE); how many calls stand beside it; hundreds of lives; which lists it
//! starts with (`lists`). Writes the lengths of all replies added up modulo
//! 1,000,000.

use harness::controller::{Answer, Request, Table};
use std::io::{self, Read};

const SETUP: [u8; 45] = [
    0x09, 0x03, 0x00, 0x00, 0x00, 0x05, 0x80, 0x00, 0x24, 0x59, 0x80, 0x00, 0x08, 0x84, 0x00, 0x10,
    0x00, 0x85, 0x00, 0x10, 0x00, 0x5C, 0x80, 0x00, 0x02, 0x00, 0x00, 0x5E, 0x80, 0x00, 0x02, 0x81,
    0x80, 0x70, 0x80, 0x00, 0x08, 0x91, 0x35, 0x35, 0x35, 0x31, 0x32, 0x33, 0x34,
];

const RELEASE: [u8; 15] = [
    0x09, 0x03, 0x00, 0x00, 0x00, 0x4D, 0x80, 0x00, 0x06, 0x08, 0x80, 0x00, 0x02, 0x80, 0x90,
];

struct Life {
    table: Table,
    sum: u64,
}

impl Life {
    fn count(&mut self, answer: &Answer) {
        self.sum = (self.sum + answer.reply.len() as u64) % 1_000_000;
    }

    fn message(&mut self, octets: &[u8]) {
        let answer = self.table.message(&REQUEST, octets);
        self.count(&answer);
    }

    fn bare(&mut self, flag: u8, reference: u8, kind: u8) {
        self.message(&[0x09, 0x03, flag, 0, reference, kind, 0x80, 0, 0]);
    }

    fn setup(&mut self, reference: u8) {
        let mut octets = SETUP;
        octets[4] = reference;
        self.message(&octets);
    }

    fn user(&mut self, slot: u64) {
        let reference = 200;
        self.setup(reference);
        let answer = self.table.connect(&REQUEST, slot);
        self.count(&answer);
        self.bare(0, reference, 0x0F);
        let mut octets = RELEASE;
        octets[4] = reference;
        self.message(&octets);
    }

    fn network(&mut self, slot: u64) {
        let answer = self.table.offer(&REQUEST, &SETUP[9..]);
        self.count(&answer);
        self.bare(0x80, 1, 0x02);
        self.bare(0x80, 1, 0x07);
        let answer = self.table.clear(&REQUEST, slot, 16);
        self.count(&answer);
        self.bare(0x80, 1, 0x5A);
    }

    fn brief(&mut self) {
        self.setup(200);
        self.bare(0, 200, 0x5A);
    }
}

const REQUEST: Request = Request {
    label: 1,
    reading: 0,
    room: 1_024,
};

/// 1, 2 and 4: 32 channels in so many ranges. 0: 2 channels in one range. 3: 16
/// channels in four ranges. 5: 36 channels in four ranges, the last two of each
/// permanent.
fn lists(which: u8) -> (&'static [u16], &'static [u16]) {
    match which {
        0 => (&[0, 32, 33], &[]),
        1 => (&[0, 32, 63], &[]),
        2 => (&[0, 32, 47, 1, 32, 47], &[]),
        3 => (&[0, 32, 35, 1, 32, 35, 2, 32, 35, 3, 32, 35], &[]),
        5 => (
            &[0, 32, 40, 1, 32, 40, 2, 32, 40, 3, 32, 40],
            &[0, 39, 0, 40, 1, 39, 1, 40, 2, 39, 2, 40, 3, 39, 3, 40],
        ),
        _ => (&[0, 32, 39, 1, 32, 39, 2, 32, 39, 3, 32, 39], &[]),
    }
}

fn main() -> io::Result<()> {
    let mut input = [0; 4];
    io::stdin().read_exact(&mut input)?;
    let [kind, live, hundreds, which] = input;
    let (ranges, pairs) = lists(which);
    let table = Table::start(ranges, pairs).expect("lists that start takes");
    let mut life = Life { table, sum: 0 };
    for reference in 1..=live {
        life.setup(reference);
    }
    for _ in 0..u32::from(hundreds) * 100 {
        match kind {
            0 => life.user(u64::from(live)),
            1 => life.network(u64::from(live)),
            _ => life.brief(),
        }
    }
    println!("{}", life.sum);
    Ok(())
}
