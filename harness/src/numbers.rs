//! Generates lines that ask whose number is shown: messages with a calling
//! number, whole and damaged, each beside a record.

use crate::compose::{header, hex, p1_elements, raw, FLAG};
use crate::random::Random;
use crate::shown::CALLING;
use crate::types::{KNOWN, SETUP};

/// A generator of such lines.
#[derive(Clone, Debug)]
pub struct Numbers {
    random: Random,
}

/// A message before it is written.
struct Draft {
    first: u8,
    second: u8,
    reference: u32,
    kind: u8,
    octet7: u8,
    elements: Vec<Vec<u8>>,
    /// How much the length field differs from the right one.
    off: i64,
    /// How many octets of the elements are cut off behind.
    cut: usize,
    /// How many octets are left of the whole.
    left: usize,
}

impl Numbers {
    pub fn new(seed: u64) -> Numbers {
        Numbers {
            random: Random::new(seed),
        }
    }

    /// The next line without its end.
    pub fn line(&mut self) -> String {
        let message = self.message();
        let record = self.record(&message);
        format!("shown {} {}", hex(&message), hex(&record))
    }

    fn message(&mut self) -> Vec<u8> {
        if self.random.chance(1) {
            let length = self.random.below(60);
            return self.random.octets(length);
        }
        let mut draft = self.draft();
        if self.random.chance(30) {
            self.damage(&mut draft);
        }
        draft.octets()
    }

    /// Any octets, now and then none, or the message's own.
    fn record(&mut self, message: &[u8]) -> Vec<u8> {
        match self.random.below(10) {
            0 => Vec::new(),
            1 => message.to_vec(),
            2 => {
                let length = self.random.below(300);
                self.random.octets(length)
            }
            _ => {
                let length = 1 + self.random.below(24);
                self.random.octets(length)
            }
        }
    }

    /// A SETUP that passes, with a calling number or two among other elements.
    fn draft(&mut self) -> Draft {
        let random = &mut self.random;
        let mut elements: Vec<Vec<u8>> = match random.below(3) {
            0 => Vec::new(),
            1 => p1_elements().to_vec(),
            _ => p1_elements().into_iter().take(random.below(5)).collect(),
        };
        let calling = self.element();
        self.insert(&mut elements, calling);
        if self.random.chance(20) {
            let second = self.element();
            self.insert(&mut elements, second);
        }
        if self.random.chance(20) {
            let length = self.random.below(30);
            let contents = self.random.octets(length);
            let id = self.random.pick(&[0x42, 0x6d, 0x71, 0x00, 0xec]);
            let octet2 = self.random.octet();
            self.insert(&mut elements, raw(id, octet2, length, &contents));
        }
        let random = &mut self.random;
        Draft {
            first: 0x09,
            second: 0x03,
            reference: random.pick(&[0, 1, 0x7f_ffff]) + random.pick(&[0, FLAG]),
            kind: SETUP,
            octet7: random.pick(&[0x80, 0x80, 0x00]),
            elements,
            off: 0,
            cut: 0,
            left: usize::MAX,
        }
    }

    fn insert(&mut self, elements: &mut Vec<Vec<u8>>, element: Vec<u8>) {
        let place = self.random.below(elements.len() + 1);
        elements.insert(place, element);
    }

    /// A 6C: readable, or damaged in its contents, its octet 2 or its length.
    fn element(&mut self) -> Vec<u8> {
        let contents = self.contents();
        let length = contents.len();
        match self.random.below(20) {
            0 => {
                let octet2 = self.random.pick(&[0x00, 0x81, 0x88, 0xa0, 0xe0, 0xff]);
                raw(CALLING, octet2, length, &contents)
            }
            1 => {
                let more = self.random.pick(&[1, 2, 4, 0x100, 0xff00]);
                raw(CALLING, 0x80, length + more, &contents)
            }
            2 => raw(
                CALLING,
                0x80,
                length.saturating_sub(self.random.below(3)),
                &contents,
            ),
            _ => raw(CALLING, 0x80, length, &contents),
        }
    }

    fn contents(&mut self) -> Vec<u8> {
        let follows = self.random.chance(60);
        let digits = self.random.chance(60);
        let mut contents = Vec::new();
        contents.push(self.octet5(digits, follows));
        if follows != self.random.chance(4) {
            contents.push(self.octet5a());
        }
        contents.extend(if digits { self.digits() } else { self.twenty() });
        if self.random.chance(2) {
            let left = self.random.below(4);
            contents.truncate(left);
        }
        contents
    }

    /// As it must be; now and then any other, or one that is nearly right.
    fn octet5(&mut self, digits: bool, follows: bool) -> u8 {
        let plan = if digits { 0x11 } else { 0x02 };
        let right = if follows { plan } else { 0x80 | plan };
        match self.random.below(24) {
            0 => self.random.octet(),
            1 => right ^ 0x80,
            2 => right ^ 1 << self.random.below(8),
            _ => right,
        }
    }

    /// Each presentation and any other bits; now and then its top bit is clear.
    fn octet5a(&mut self) -> u8 {
        let presentation = self.random.pick(&[0, 0, 0, 1, 1, 2, 3]);
        let top = if self.random.chance(4) { 0x00 } else { 0x80 };
        top | presentation << 5 | self.random.octet() & 0x1f
    }

    fn digits(&mut self) -> Vec<u8> {
        let many = match self.random.below(12) {
            0 => self.random.pick(&[0, 16, 17, 20, 21]),
            1..=4 => self.random.pick(&[1, 2, 14, 15]),
            _ => 1 + self.random.below(15),
        };
        let mut digits: Vec<u8> = (0..many)
            .map(|_| b'0' + self.random.below(10) as u8)
            .collect();
        if many > 0 && self.random.chance(6) {
            let place = self.random.below(many);
            digits[place] = self.random.pick(&[0x2f, 0x3a, 0x00, 0xb5, 0xff]);
        }
        digits
    }

    fn twenty(&mut self) -> Vec<u8> {
        let many = match self.random.below(8) {
            0 => self.random.pick(&[0, 1, 15, 19, 21, 22]),
            _ => 20,
        };
        self.random.octets(many)
    }

    /// Breaks a message in one or two ways.
    fn damage(&mut self, draft: &mut Draft) {
        for _ in 0..1 + self.random.below(2) {
            let random = &mut self.random;
            match random.below(9) {
                0 => draft.first = random.octet(),
                1 => draft.second = random.pick(&[0x00, 0x02, 0x13, 0x83]),
                2 => draft.kind = random.pick(&[0x85, 0x04, 0x00]),
                3 => draft.kind = random.pick(&KNOWN).0,
                4 => draft.off = random.pick(&[-1, 1, 256, -256, 65_535]),
                5 => draft.cut = random.below(30),
                6 => draft.left = random.below(10),
                7 => {
                    let tail = random.pick(&[1, 2, 3]);
                    let tail = random.octets(tail);
                    draft.elements.push(tail);
                }
                _ => {
                    let over = raw(0x42, 0x80, random.pick(&[0x400, 0xffff]), &[]);
                    self.insert(&mut draft.elements, over);
                }
            }
        }
    }
}

impl Draft {
    /// Its octets. The length field is that of what is left behind a cut, but
    /// for what it is off.
    fn octets(&self) -> Vec<u8> {
        let mut body = self.elements.concat();
        body.truncate(body.len().saturating_sub(self.cut));
        let length = (body.len() as i64 + self.off).rem_euclid(65_536);
        let mut octets = header(self.reference, self.kind, length as usize);
        (octets[0], octets[1], octets[6]) = (self.first, self.second, self.octet7);
        octets.extend(body);
        octets.truncate(self.left);
        octets
    }
}
