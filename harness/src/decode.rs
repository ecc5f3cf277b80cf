//! Decoder of one message, after the parts "Octets" and "Order of message
//! checks" of the paper. Numbers are hexadecimal where the paper's are.

use std::fmt;

pub const CAUSE: u8 = 0x08;
pub const CALL_STATE: u8 = 0x14;
pub const TRAFFIC: u8 = 0x59;
pub const CONNECTION: u8 = 0x5a;
pub const QOS: u8 = 0x5c;
pub const BEARER: u8 = 0x5e;
pub const CALLED: u8 = 0x70;
pub const RESTART: u8 = 0x79;

/// The octets of the header; elements begin behind them.
pub const HEADER: usize = 9;

/// The longest offer body.
pub const OFFER_LIMIT: usize = 512;

/// The elements that SETUP and an offer body must have.
pub const MANDATORY: [u8; 4] = [TRAFFIC, QOS, BEARER, CALLED];

/// What the decoder says of a message.
#[derive(Clone, Debug, PartialEq, Eq)]
pub enum Outcome {
    Ignored(Ignored),
    Decoded(Box<Message>),
}

/// Why steps 1 and 2 ignore a message.
#[derive(Clone, Copy, Debug, PartialEq, Eq)]
pub enum Ignored {
    /// Under 9 octets.
    Short,
    /// The first octet is not 09.
    First,
    /// Octet 2 is not 03.
    Second,
}

impl Ignored {
    pub fn step(self) -> u8 {
        match self {
            Ignored::Short | Ignored::First => 1,
            Ignored::Second => 2,
        }
    }
}

/// A message that passes steps 1 and 2, its elements not yet read.
#[derive(Clone, Copy, Debug, PartialEq, Eq)]
pub struct Received<'a> {
    pub flag: bool,
    pub reference: u32,
    pub kind: u8,
    pub length_right: bool,
    pub body: &'a [u8],
}

/// A message that passes steps 1 and 2.
#[derive(Clone, Debug, PartialEq, Eq)]
pub struct Message {
    pub flag: bool,
    pub reference: u32,
    pub kind: u8,
    pub length_right: bool,
    pub cause: Part<u8>,
    pub call_state: Part<u8>,
    pub traffic: Part<Subfields>,
    pub connection: Part<Pair>,
    pub qos: Part<Plain>,
    pub bearer: Part<Bearer>,
    pub called: Part<Plain>,
    pub restart: Part<Restart>,
    pub offer: bool,
}

/// What a message holds under one identifier.
#[derive(Clone, Debug, PartialEq, Eq)]
pub enum Part<T> {
    Absent,
    Unreadable(Damage),
    Readable(T),
}

/// The first rule that an unreadable element breaks.
#[derive(Clone, Copy, Debug, PartialEq, Eq)]
pub enum Damage {
    /// It overruns the message.
    Overrun,
    /// Its octet 2 is another.
    Octet2,
    /// Its contents are too short or too long.
    Length,
    /// This octet of the contents is not allowed, counted from 1.
    Value(u8),
    /// A subfield is unknown.
    Unknown,
    /// A subfield is cut.
    Cut,
    /// A subfield is there twice.
    Twice,
}

/// The identifiers of the subfields of a traffic descriptor.
pub const SUBFIELDS: [u8; 14] = [
    0x82, 0x83, 0x84, 0x85, 0x88, 0x89, 0x90, 0x91, 0xa0, 0xa1, 0xb0, 0xb1, 0xbe, 0xbf,
];

/// The subfields that are there in a readable traffic descriptor, one bit for
/// each place in `SUBFIELDS`.
#[derive(Clone, Copy, Debug, Default, PartialEq, Eq)]
pub struct Subfields(u16);

#[derive(Clone, Copy, Debug, PartialEq, Eq, PartialOrd, Ord)]
pub struct Pair {
    pub vpci: u16,
    pub vci: u16,
}

#[derive(Clone, Copy, Debug, PartialEq, Eq)]
pub enum Bearer {
    Point,
    Multi,
}

#[derive(Clone, Copy, Debug, PartialEq, Eq)]
pub enum Restart {
    /// 80
    Indicated,
    /// 82
    All,
}

/// Contents that are readable and of which no value is shown.
#[derive(Clone, Copy, Debug, PartialEq, Eq)]
pub struct Plain;

/// One element as the walk meets it.
#[derive(Clone, Copy, Debug, PartialEq, Eq)]
pub struct Element<'a> {
    pub id: u8,
    pub octet2: u8,
    /// None if the element overruns the message.
    pub contents: Option<&'a [u8]>,
}

/// The walk over elements. `rest` is what it has not yet taken.
#[derive(Clone, Copy, Debug)]
pub struct Walk<'a> {
    rest: &'a [u8],
    ended: bool,
}

impl<'a> Walk<'a> {
    pub fn new(body: &'a [u8]) -> Self {
        Walk {
            rest: body,
            ended: false,
        }
    }

    /// How many octets the walk has not taken.
    pub fn left(&self) -> usize {
        self.rest.len()
    }
}

impl<'a> Iterator for Walk<'a> {
    type Item = Element<'a>;

    fn next(&mut self) -> Option<Element<'a>> {
        if self.ended || self.rest.len() < 4 {
            return None;
        }
        let (head, behind) = self.rest.split_at(4);
        let length = usize::from(number(head[2], head[3]));
        let contents = behind.get(..length);
        if contents.is_some() {
            self.rest = &behind[length..];
        } else {
            self.ended = true;
        }
        Some(Element {
            id: head[0],
            octet2: head[1],
            contents,
        })
    }
}

/// Two octets as a number, high octet first.
fn number(high: u8, low: u8) -> u16 {
    u16::from_be_bytes([high, low])
}

fn top_bit(octet: u8) -> bool {
    octet & 0x80 != 0
}

/// Decodes a message of any length.
pub fn decode(message: &[u8]) -> Outcome {
    match receive(message) {
        Ok(received) => Outcome::Decoded(Box::new(received.message())),
        Err(ignored) => Outcome::Ignored(ignored),
    }
}

/// Steps 1 and 2 on a message of any length.
pub fn receive(message: &[u8]) -> Result<Received<'_>, Ignored> {
    if message.len() < HEADER {
        return Err(Ignored::Short);
    }
    let (header, body) = message.split_at(HEADER);
    if header[0] != 0x09 {
        return Err(Ignored::First);
    }
    if header[1] != 0x03 {
        return Err(Ignored::Second);
    }
    Ok(Received {
        flag: top_bit(header[2]),
        reference: u32::from_be_bytes([0, header[2] & 0x7f, header[3], header[4]]),
        kind: header[5],
        length_right: usize::from(number(header[7], header[8])) == body.len(),
        body,
    })
}

impl Received<'_> {
    pub fn cause(&self) -> Part<u8> {
        part(self.body, CAUSE, read_cause)
    }

    pub fn call_state(&self) -> Part<u8> {
        part(self.body, CALL_STATE, read_call_state)
    }

    pub fn traffic(&self) -> Part<Subfields> {
        part(self.body, TRAFFIC, read_traffic)
    }

    pub fn connection(&self) -> Part<Pair> {
        part(self.body, CONNECTION, read_connection)
    }

    pub fn qos(&self) -> Part<Plain> {
        part(self.body, QOS, read_qos)
    }

    pub fn bearer(&self) -> Part<Bearer> {
        part(self.body, BEARER, read_bearer)
    }

    pub fn called(&self) -> Part<Plain> {
        part(self.body, CALLED, read_called)
    }

    pub fn restart(&self) -> Part<Restart> {
        part(self.body, RESTART, read_restart)
    }

    /// Reads all elements.
    fn message(&self) -> Message {
        Message {
            flag: self.flag,
            reference: self.reference,
            kind: self.kind,
            length_right: self.length_right,
            cause: self.cause(),
            call_state: self.call_state(),
            traffic: self.traffic(),
            connection: self.connection(),
            qos: self.qos(),
            bearer: self.bearer(),
            called: self.called(),
            restart: self.restart(),
            offer: offer_fault(self.body).is_none(),
        }
    }
}

/// The reading of an element's contents.
type Reading<T> = Result<T, Damage>;

/// The first element with this identifier, read by `read`.
fn part<T>(body: &[u8], id: u8, read: fn(&[u8]) -> Reading<T>) -> Part<T> {
    let Some(element) = Walk::new(body).find(|element| element.id == id) else {
        return Part::Absent;
    };
    let value = match element.contents {
        None => Err(Damage::Overrun),
        Some(_) if !octet2_allowed(id, element.octet2) => Err(Damage::Octet2),
        Some(contents) => read(contents),
    };
    match value {
        Ok(value) => Part::Readable(value),
        Err(damage) => Part::Unreadable(damage),
    }
}

impl<T> Part<T> {
    /// Why the element is unreadable.
    pub fn damage(&self) -> Option<Damage> {
        match self {
            Part::Unreadable(damage) => Some(*damage),
            _ => None,
        }
    }
}

/// Octet 2 is 80; for Cause and QoS also E0.
fn octet2_allowed(id: u8, octet2: u8) -> bool {
    octet2 == 0x80 || (octet2 == 0xe0 && (id == CAUSE || id == QOS))
}

/// An error if a rule does not hold.
fn check(holds: bool, damage: Damage) -> Reading<()> {
    if holds {
        Ok(())
    } else {
        Err(damage)
    }
}

/// The cause number: the second octet without its top bit.
fn read_cause(contents: &[u8]) -> Reading<u8> {
    let [first, second, ..] = *contents else {
        return Err(Damage::Length);
    };
    check(top_bit(first), Damage::Value(1))?;
    check(top_bit(second), Damage::Value(2))?;
    Ok(second & 0x7f)
}

fn read_call_state(contents: &[u8]) -> Reading<u8> {
    match *contents {
        [state] if state <= 63 => Ok(state),
        [_] => Err(Damage::Value(1)),
        _ => Err(Damage::Length),
    }
}

/// How many octets follow a subfield identifier.
fn subfield_octets(id: u8) -> usize {
    match id {
        0xbe => 0,
        0xbf => 1,
        _ => 3,
    }
}

fn read_traffic(contents: &[u8]) -> Reading<Subfields> {
    let mut seen = Subfields::default();
    let mut rest = contents;
    while let Some((&id, behind)) = rest.split_first() {
        let bit = Subfields::bit(id);
        let octets = subfield_octets(id);
        check(bit != 0, Damage::Unknown)?;
        check(behind.len() >= octets, Damage::Cut)?;
        check(seen.0 & bit == 0, Damage::Twice)?;
        seen.0 |= bit;
        rest = &behind[octets..];
    }
    Ok(seen)
}

fn read_connection(contents: &[u8]) -> Reading<Pair> {
    match *contents {
        [0x88, a, b, c, d] => Ok(Pair {
            vpci: number(a, b),
            vci: number(c, d),
        }),
        [_, _, _, _, _] => Err(Damage::Value(1)),
        _ => Err(Damage::Length),
    }
}

fn read_qos(contents: &[u8]) -> Reading<Plain> {
    match *contents {
        [0..=4, 0..=4] => Ok(Plain),
        [0..=4, _] => Err(Damage::Value(2)),
        [_, _] => Err(Damage::Value(1)),
        _ => Err(Damage::Length),
    }
}

fn read_bearer(contents: &[u8]) -> Reading<Bearer> {
    match *contents {
        [0x81 | 0x83, last] => read_bearer_end(last, 2),
        [0x10, middle, last] => {
            check(top_bit(middle), Damage::Value(2))?;
            read_bearer_end(last, 3)
        }
        [] | [0x81 | 0x83 | 0x10, ..] => Err(Damage::Length),
        _ => Err(Damage::Value(1)),
    }
}

/// The last octet: top bit set, low two bits 0 or 1.
fn read_bearer_end(last: u8, place: u8) -> Reading<Bearer> {
    match (top_bit(last), last & 3) {
        (true, 0) => Ok(Bearer::Point),
        (true, 1) => Ok(Bearer::Multi),
        _ => Err(Damage::Value(place)),
    }
}

fn read_called(contents: &[u8]) -> Reading<Plain> {
    let (&kind, address) = contents.split_first().ok_or(Damage::Length)?;
    match kind {
        0x91 => {
            let digit = |octet: &u8| (0x30..=0x39).contains(octet);
            check((1..=15).contains(&address.len()), Damage::Length)?;
            check(address.iter().all(digit), Damage::Value(2))?;
        }
        0x82 => check(address.len() == 20, Damage::Length)?,
        _ => return Err(Damage::Value(1)),
    }
    Ok(Plain)
}

fn read_restart(contents: &[u8]) -> Reading<Restart> {
    match *contents {
        [0x80] => Ok(Restart::Indicated),
        [0x82] => Ok(Restart::All),
        [_] => Err(Damage::Value(1)),
        _ => Err(Damage::Length),
    }
}

impl Subfields {
    /// The bit of a subfield; 0 if it is unknown.
    fn bit(id: u8) -> u16 {
        let place = SUBFIELDS.iter().position(|&known| known == id);
        place.map_or(0, |place| 1 << place)
    }

    pub fn has(self, id: u8) -> bool {
        self.0 & Subfields::bit(id) != 0
    }

    /// The subfields in ascending order.
    fn list(self) -> impl Iterator<Item = u8> {
        SUBFIELDS.into_iter().filter(move |&id| self.has(id))
    }

    /// The rule of cause 73: 84 and 85 are there, and with BE none but 84 85 BF.
    pub fn pass(self) -> bool {
        self.has(0x84) && self.has(0x85) && !self.mixed()
    }

    /// BE is there, and one that may not stand beside it.
    fn mixed(self) -> bool {
        let apart = |id| !matches!(id, 0x84 | 0x85 | 0xbe | 0xbf);
        self.has(0xbe) && self.list().any(apart)
    }
}

impl Message {
    /// 59 is readable and passes the traffic rule.
    pub fn traffic_passes(&self) -> bool {
        traffic_passes(&self.traffic)
    }
}

fn traffic_passes(traffic: &Part<Subfields>) -> bool {
    matches!(traffic, Part::Readable(subfields) if subfields.pass())
}

/// The first rule that an offer's body breaks.
#[derive(Clone, Copy, Debug, PartialEq, Eq)]
pub enum OfferFault {
    /// Over 512 octets.
    Long,
    /// Not a whole number of elements, or one overruns.
    Broken,
    /// One of the four is not there.
    Missing,
    /// One of the four is there more than once.
    Repeated,
    /// A 5A is there.
    Connection,
    /// One of the four is unreadable.
    Unreadable,
    /// Not point-to-point.
    Multi,
    /// The traffic rule.
    Traffic,
}

/// Why these octets are not as demanded of an offer's body.
pub fn offer_fault(body: &[u8]) -> Option<OfferFault> {
    let counts = MANDATORY.map(|id| count(body, id));
    let traffic = part(body, TRAFFIC, read_traffic);
    let bearer = part(body, BEARER, read_bearer);
    let readable = traffic.damage().is_none()
        && bearer.damage().is_none()
        && part(body, QOS, read_qos) == Part::Readable(Plain)
        && part(body, CALLED, read_called) == Part::Readable(Plain);
    let rules = [
        (body.len() <= OFFER_LIMIT, OfferFault::Long),
        (is_whole(body), OfferFault::Broken),
        (!counts.contains(&0), OfferFault::Missing),
        (counts == [1; 4], OfferFault::Repeated),
        (count(body, CONNECTION) == 0, OfferFault::Connection),
        (readable, OfferFault::Unreadable),
        (bearer == Part::Readable(Bearer::Point), OfferFault::Multi),
        (traffic_passes(&traffic), OfferFault::Traffic),
    ];
    let broken = rules.into_iter().find(|(holds, _)| !holds);
    broken.map(|(_, fault)| fault)
}

/// A whole number of elements, none overrunning.
fn is_whole(body: &[u8]) -> bool {
    let mut walk = Walk::new(body);
    walk.by_ref().for_each(drop);
    walk.left() == 0
}

/// How many elements have this identifier.
fn count(body: &[u8], id: u8) -> usize {
    Walk::new(body).filter(|element| element.id == id).count()
}

impl<T: fmt::Display> fmt::Display for Part<T> {
    fn fmt(&self, f: &mut fmt::Formatter<'_>) -> fmt::Result {
        match self {
            Part::Absent => f.write_str("absent"),
            Part::Unreadable(_) => f.write_str("unreadable"),
            Part::Readable(value) => value.fmt(f),
        }
    }
}

impl fmt::Display for Subfields {
    fn fmt(&self, f: &mut fmt::Formatter<'_>) -> fmt::Result {
        if *self == Subfields::default() {
            return f.write_str("none");
        }
        let names: Vec<String> = self.list().map(|id| format!("{id:02x}")).collect();
        f.write_str(&names.join(","))
    }
}

impl fmt::Display for Pair {
    fn fmt(&self, f: &mut fmt::Formatter<'_>) -> fmt::Result {
        write!(f, "{}/{}", self.vpci, self.vci)
    }
}

impl fmt::Display for Bearer {
    fn fmt(&self, f: &mut fmt::Formatter<'_>) -> fmt::Result {
        f.write_str(match self {
            Bearer::Point => "point",
            Bearer::Multi => "multi",
        })
    }
}

impl fmt::Display for Restart {
    fn fmt(&self, f: &mut fmt::Formatter<'_>) -> fmt::Result {
        f.write_str(match self {
            Restart::Indicated => "80",
            Restart::All => "82",
        })
    }
}

impl fmt::Display for Plain {
    fn fmt(&self, f: &mut fmt::Formatter<'_>) -> fmt::Result {
        f.write_str("readable")
    }
}

fn yes(answer: bool) -> &'static str {
    if answer {
        "yes"
    } else {
        "no"
    }
}

impl fmt::Display for Message {
    fn fmt(&self, f: &mut fmt::Formatter<'_>) -> fmt::Result {
        let length = if self.length_right { "right" } else { "wrong" };
        write!(f, "flag {} ref {} ", u8::from(self.flag), self.reference)?;
        write!(f, "type {:02x} length {length} ", self.kind)?;
        write!(f, "08 {} 14 {} ", self.cause, self.call_state)?;
        write!(f, "59 {} ", self.traffic)?;
        write!(f, "traffic {} ", yes(self.traffic_passes()))?;
        write!(f, "5A {} 5C {} ", self.connection, self.qos)?;
        write!(f, "5E {} 70 {} ", self.bearer, self.called)?;
        write!(f, "79 {} offer {}", self.restart, yes(self.offer))
    }
}

impl fmt::Display for Outcome {
    fn fmt(&self, f: &mut fmt::Formatter<'_>) -> fmt::Result {
        match self {
            Outcome::Ignored(ignored) => write!(f, "ignored {}", ignored.step()),
            Outcome::Decoded(message) => message.fmt(f),
        }
    }
}
