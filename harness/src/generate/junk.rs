//! Messages that are hardly ones, and lines that are no events.

use super::Generator;
use crate::compose::{element, header};
use crate::types::SETUP;

/// Lines that cannot be read, whatever the table.
const BAD: [&str; 66] = [
    "hold",
    "tick",
    "tick 1 0",
    "tick 1 0 1024 0",
    " tick 1 0 1024",
    "tick 1 0 1024 ",
    "tick  1 0 1024",
    "tick 1\t0 1024",
    "tick 1 0 1024\r",
    "tick -1 0 1024",
    "tick +1 0 1024",
    "tick 1 - 1024",
    "tick 1 0x0 1024",
    "tick 18446744073709551616 0 1024",
    "tick 1 99999999999999999999999 1024",
    "tick 1 0 36893488147419103232",
    "TICK 1 0 1024",
    "connect 1 0 1024",
    "connect 1 0 1024 -",
    "connect 1 0 1024 0 0",
    "clear 1 0 1024 0",
    "clear 1 0 1024 0 16 0",
    "clear 1 0 1024 0 18446744073709551616",
    "message 1 0 1024",
    "message 1 0 1024 0",
    "message 1 0 1024 0g",
    "message 1 0 1024 09 03",
    "message 1 0 1024 --",
    "offer 1 0 1024 598",
    "restart",
    "restart 1 0 1024",
    "restart 1 0 1024 one",
    "restart 1 0 1024 one 0",
    "restart 1 0 1024 one 0 32 33",
    "restart 1 0 1024 one 0 -",
    "restart 1 0 1024 one 0 18446744073709551616",
    "restart 1 0 1024 all 0 32",
    "restart 1 0 1024 All",
    "restart 1 0 1024 0 32",
    "restart 1 0 all",
    "restart  1 0 1024 all",
    "putback",
    "putback 1 0",
    "putback 1 0 1024 all",
    "put-back 1 0 1024",
    "start",
    "start 3 0 32 33",
    "start 3 0 32 33 1",
    "start 2 0 32 33 0",
    "start 3 0 32 65536 0",
    "save",
    "save ",
    "save -",
    "save -1",
    "save 0x400",
    "save 4096 0",
    "save  4096",
    "save 18446744073709551616",
    "SAVE 4096",
    "reload",
    "reload ",
    "reload 0",
    "reload 0g",
    "reload --",
    "reload 01 00",
    "reload - -",
];

impl Generator {
    pub(super) fn junk(&mut self) -> Vec<u8> {
        let mut octets = match self.random.below(3) {
            0 => self.setup(),
            1 => self.on_call(),
            _ => self.restart(),
        };
        match self.random.below(10) {
            0 => return self.any_octets(),
            1 | 2 => return self.long(),
            3 => octets[0] = self.random.pick(&[0x08, 0x89, 0x00, 0x0a]),
            4 => octets[1] = self.random.pick(&[0x02, 0x83, 0x00, 0x01]),
            5 => octets.truncate(self.random.pick(&[0, 1, 2, 7, 8, 8])),
            6 => {
                let left = self.random.below(octets.len());
                octets.truncate(left);
            }
            _ => {
                let place = self.random.below(octets.len());
                octets[place] ^= 1 << self.random.below(8);
            }
        }
        octets
    }

    fn any_octets(&mut self) -> Vec<u8> {
        let number = self.random.below(40);
        let mut octets = self.random.octets(number);
        let front = [0x09, 0x03];
        for (octet, usual) in octets.iter_mut().zip(front) {
            *octet = usual;
        }
        octets
    }

    /// A SETUP with an unknown element that makes it long.
    fn long(&mut self) -> Vec<u8> {
        let octets = self
            .random
            .pick(&[1_023, 1_024, 1_024, 1_025, 1_026, 2_000, 4_096]);
        let setup = self.setup();
        let reference = u32::from_be_bytes([0, setup[2], setup[3], setup[4]]);
        let room = octets - setup.len().min(octets - 4) - 4;
        let body = [element(0x42, &vec![0x42; room]), setup[9..].to_vec()].concat();
        [header(reference, SETUP, body.len()), body].concat()
    }

    pub(super) fn bad_line(&mut self) -> Vec<u8> {
        match self.random.below(12) {
            0 => {
                let octets = "00".repeat(self.random.pick(&[4_097, 5_000]));
                let event = self.random.pick(&["message 1 0 1024", "reload"]);
                format!("{event} {octets}").into_bytes()
            }
            1 => {
                let line = self.tick_line();
                [line.as_slice(), &[self.random.pick(b" \r\t\xff0x")]].concat()
            }
            2 => {
                let numbers = " 32".repeat(self.random.pick(&[65, 66]));
                let count = numbers.len() / 3;
                format!("start {count}{numbers} 0").into_bytes()
            }
            _ => self.random.pick(&BAD).into(),
        }
    }
}
