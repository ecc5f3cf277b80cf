//! Whose number is shown: a decoder of the calling number, written from
//! document 02, R-13, and the steps of document 01 that it names (1, 2 and 5).
//! It has its own walk over the elements, by places in the message, and shares
//! no code with the other decoder.

use crate::compose::hex;
use std::fmt;

/// The identifier of the calling number.
pub const CALLING: u8 = 0x6c;

/// The type octet of SETUP.
const SETUP: u8 = 0x05;

/// Where the elements begin.
const ELEMENTS: usize = 9;

/// The octets of an element before its contents.
const ELEMENT_HEAD: usize = 4;

/// Which of the two that were lent.
#[derive(Clone, Copy, Debug, PartialEq, Eq)]
pub enum Lent {
    Message,
    Record,
}

/// The part that is shown: of which, from where (counted from 0), its octets.
#[derive(Clone, Debug, PartialEq, Eq)]
pub struct Shown {
    pub lent: Lent,
    pub at: usize,
    pub octets: Vec<u8>,
}

/// Number type and plan, as octet 5 has them without its top bit.
#[derive(Clone, Copy, Debug, PartialEq, Eq)]
pub enum Plan {
    /// 11: 1 to 15 digits.
    Digits,
    /// 02: 20 octets.
    Octets,
}

/// A readable calling number.
#[derive(Clone, Copy, Debug, PartialEq, Eq)]
pub struct Number<'a> {
    pub plan: Plan,
    /// Bits 7 and 6 of octet 5a; none if there is no 5a.
    pub presentation: Option<u8>,
    /// Where the address begins in the message.
    pub at: usize,
    pub address: &'a [u8],
}

/// The first reason for which a message has no number to show, in the order in
/// which they are looked for.
#[derive(Clone, Copy, Debug, PartialEq, Eq, PartialOrd, Ord)]
pub enum Fault {
    /// Under 9 octets, or the first is not 09.
    Step1,
    /// Octet 2 is not 03.
    Step2,
    /// The length field is not that of what follows octet 9.
    Step5,
    /// The type is not that of SETUP.
    Type,
    /// It has no calling number.
    Absent,
    /// The calling number overruns the message.
    Overrun,
    /// Its octet 2 is not 80.
    Octet2,
    /// Its contents are empty.
    Empty,
    /// Its octet 5 has another number type or plan.
    Octet5,
    /// Its octet 5 says that 5a follows, and nothing does.
    No5a,
    /// The top bit of its octet 5a is clear.
    Octet5a,
    /// It has so many digits, and not 1 to 15.
    Many(usize),
    /// Its address has an octet that is no digit.
    Digit,
    /// Its address has so many octets, and not 20.
    Twenty(usize),
}

/// An element by its places: where it begins and where the next would.
#[derive(Clone, Copy)]
struct Place {
    begin: usize,
    end: usize,
}

/// What the called side is shown.
pub fn shown(message: &[u8], record: &[u8]) -> Shown {
    match number(message) {
        Ok(number) => part(Lent::Message, number.at, number.visible()),
        Err(_) => part(Lent::Record, 0, record),
    }
}

/// These octets, which stand there in what was lent.
fn part(lent: Lent, at: usize, octets: &[u8]) -> Shown {
    let octets = octets.to_vec();
    Shown { lent, at, octets }
}

impl<'a> Number<'a> {
    /// What may be seen of the address: all, or nothing.
    fn visible(&self) -> &'a [u8] {
        match self.presentation {
            None | Some(0) => self.address,
            Some(_) => &[],
        }
    }
}

/// The calling number of a SETUP that passes, if it has a readable one.
pub fn number(message: &[u8]) -> Result<Number<'_>, Fault> {
    header(message)?;
    let place = first(message).ok_or(Fault::Absent)?;
    check(place.end <= message.len(), Fault::Overrun)?;
    check(message[place.begin + 1] == 0x80, Fault::Octet2)?;
    contents(message, place.begin + ELEMENT_HEAD, place.end)
}

/// The fault if a rule does not hold.
fn check(holds: bool, fault: Fault) -> Result<(), Fault> {
    holds.then_some(()).ok_or(fault)
}

/// Steps 1, 2 and 5 and the type; of the rest of the header nothing is asked.
fn header(message: &[u8]) -> Result<(), Fault> {
    check(message.len() >= ELEMENTS, Fault::Step1)?;
    check(message[0] == 0x09, Fault::Step1)?;
    check(message[1] == 0x03, Fault::Step2)?;
    let behind = message.len() - ELEMENTS;
    check(two(message, 7) == behind, Fault::Step5)?;
    check(message[5] == SETUP, Fault::Type)
}

/// Two octets from a place on as a number, high octet first.
fn two(message: &[u8], at: usize) -> usize {
    usize::from(message[at]) << 8 | usize::from(message[at + 1])
}

/// The first calling number. Fewer than four octets left end the walk, as does
/// an element that overruns the message: no other begins behind its end.
fn first(message: &[u8]) -> Option<Place> {
    let mut begin = ELEMENTS;
    while begin + ELEMENT_HEAD <= message.len() {
        let end = begin + ELEMENT_HEAD + two(message, begin + 2);
        if message[begin] == CALLING {
            return Some(Place { begin, end });
        }
        begin = end;
    }
    None
}

/// Octet 5, 5a if it follows, and the address up to the element's end.
fn contents(message: &[u8], begin: usize, end: usize) -> Result<Number<'_>, Fault> {
    check(begin < end, Fault::Empty)?;
    let octet5 = message[begin];
    let plan = plan(octet5 & 0x7f)?;
    let (presentation, at) = if octet5 & 0x80 == 0 {
        check(begin + 1 < end, Fault::No5a)?;
        (Some(presentation(message[begin + 1])?), begin + 2)
    } else {
        (None, begin + 1)
    };
    Ok(Number {
        plan,
        presentation,
        at,
        address: address(plan, &message[at..end])?,
    })
}

/// Type and plan as for the called number: those of 91 or of 82.
fn plan(octet: u8) -> Result<Plan, Fault> {
    match octet {
        0x11 => Ok(Plan::Digits),
        0x02 => Ok(Plan::Octets),
        _ => Err(Fault::Octet5),
    }
}

/// Bits 7 and 6 of octet 5a, whose top bit must be set.
fn presentation(octet5a: u8) -> Result<u8, Fault> {
    check(octet5a & 0x80 != 0, Fault::Octet5a)?;
    Ok(octet5a >> 5 & 3)
}

/// The address, if it is 1 to 15 digits, or 20 octets of any value.
fn address(plan: Plan, address: &[u8]) -> Result<&[u8], Fault> {
    let many = address.len();
    match plan {
        Plan::Digits => {
            check((1..=15).contains(&many), Fault::Many(many))?;
            check(address.iter().all(u8::is_ascii_digit), Fault::Digit)?;
        }
        Plan::Octets => check(many == 20, Fault::Twenty(many))?,
    }
    Ok(address)
}

impl fmt::Display for Shown {
    fn fmt(&self, f: &mut fmt::Formatter<'_>) -> fmt::Result {
        let lent = match self.lent {
            Lent::Message => "message",
            Lent::Record => "record",
        };
        let (length, octets) = (self.octets.len(), hex(&self.octets));
        write!(f, "{lent} {} {length} {octets}", self.at)
    }
}
