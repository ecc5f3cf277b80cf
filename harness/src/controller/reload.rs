//! Reads a saved form, field by field.

mod pairs;

use super::{hold, Call, Clearing, Reference, State, Table};
use super::{HOST_CAUSES, READING_LIMIT, SLOTS, T303, T308, T310};
use crate::compose::FLAG;
use crate::decode::Pair;
use crate::rows::Row;
use pairs::read_pair;

/// The tags of the fields that come once, in their order.
const SINGLE: [u8; 6] = [0x01, 0x02, 0x03, 0x05, 0x06, 0x07];

/// A tag and the contents behind it.
type Field<'a> = (u8, &'a [u8]);

impl Table {
    /// The table that a form says, or why it is refused.
    pub fn reload(octets: &[u8]) -> Result<Table, Row> {
        let fields = fields(octets)?;
        let [(0x01, ranges), (0x02, pairs), (0x03, reading), (0x05, doubts), (0x06, marks), (0x07, restart), ref calls @ ..] =
            fields[..]
        else {
            return Err(misfit(&fields));
        };
        if calls.iter().any(|call| call.0 != 0x04) {
            return Err(misfit(&fields));
        }
        let mut table = Table::start(&numbers(ranges)?, &numbers(pairs)?)?;
        table.reading = long(reading)?;
        hold(table.reading <= READING_LIMIT, Row::ReloadReading)?;
        table.read_doubts(doubts)?;
        table.read_marks(marks)?;
        table.read_restart(restart)?;
        for (_, contents) in calls {
            table.read_call(contents)?;
        }
        Ok(table)
    }

    /// Puts a call behind those already read.
    fn read_call(&mut self, contents: &[u8]) -> Result<(), Row> {
        let Some((front, rest)) = contents.split_first_chunk::<9>() else {
            return Err(Row::ReloadLength);
        };
        let [slot, high, middle, low, a, b, c, d, state] = *front;
        let slot = self.read_slot(slot)?;
        let reference = self.read_reference([0, high, middle, low])?;
        let pair = self.read_free([a, b, c, d])?;
        let state = self.read_state(reference.flag, state, rest)?;
        self.calls[slot] = Some(Call {
            reference,
            pair,
            state,
        });
        Ok(())
    }

    fn read_slot(&self, slot: u8) -> Result<usize, Row> {
        let slot = usize::from(slot);
        hold(slot < SLOTS, Row::ReloadSlot)?;
        hold(self.calls[slot].is_none(), Row::ReloadRepeated)?;
        let last = self.live().all(|(before, _)| before < slot);
        hold(last, Row::ReloadMisplaced)?;
        Ok(slot)
    }

    fn read_reference(&self, octets: [u8; 4]) -> Result<Reference, Row> {
        let flagged = u32::from_be_bytes(octets);
        let reference = Reference {
            flag: flagged & FLAG != 0,
            value: flagged & !FLAG,
        };
        hold(reference.value != 0, Row::ReloadReferenceZero)?;
        let unused = self.find(reference).is_none();
        hold(unused, Row::ReloadReferenceTwice)?;
        Ok(reference)
    }

    /// A pair that a call may hold.
    fn read_free(&self, octets: [u8; 4]) -> Result<Pair, Row> {
        let pair = read_pair(octets);
        hold(!self.holds(pair), Row::ReloadPairTwice)?;
        let permitted = self.pool.within(pair) && !self.pool.is_permanent(pair);
        hold(permitted, Row::ReloadPair)?;
        let certain = !self.doubts.contains(&pair);
        hold(certain, Row::ReloadDoubtsHeld)?;
        hold(!self.marks.all, Row::ReloadAllHeld)?;
        hold(!self.marks.has(pair), Row::ReloadMarksHeld)?;
        Ok(pair)
    }

    /// The state with what stands behind it; `network` is the call's side.
    fn read_state(&self, network: bool, state: u8, rest: &[u8]) -> Result<State, Row> {
        Ok(match (state, network) {
            (0x03, false) => alone(State::N3, rest)?,
            (0x06, true) => State::N6 {
                deadline: self.read_deadline(rest, T303)?,
            },
            (0x09, true) => State::N9 {
                deadline: self.read_deadline(rest, T310)?,
            },
            (0x0a, _) => alone(State::N10, rest)?,
            (0x0c, _) => State::N12(self.read_clearing(network, rest)?),
            (0x03 | 0x06 | 0x09, _) => return Err(Row::ReloadSide),
            _ => return Err(Row::ReloadState),
        })
    }

    fn read_clearing(&self, network: bool, rest: &[u8]) -> Result<Clearing, Row> {
        let [deadline @ .., times, cause] = rest else {
            return Err(Row::ReloadLength);
        };
        let deadline = self.read_deadline(deadline, T308)?;
        hold((1..=2).contains(times), Row::ReloadTimer)?;
        let own = *cause == 102;
        let listed = HOST_CAUSES.contains(cause) || own && network;
        hold(listed, Row::ReloadCause)?;
        Ok(Clearing {
            deadline,
            second: *times == 2,
            cause: *cause,
            diagnostic: if own { b"310" } else { b"" },
        })
    }

    /// The deadline of a timer that runs so long.
    fn read_deadline(&self, octets: &[u8], length: u64) -> Result<u64, Row> {
        let deadline = long(octets)?;
        hold(self.is_near(deadline, length), Row::ReloadDeadline)?;
        Ok(deadline)
    }

    /// A timer that runs so long can have this deadline.
    fn is_near(&self, deadline: u64, length: u64) -> bool {
        deadline <= self.reading + length
    }
}

/// All fields, whatever their tags.
fn fields(mut octets: &[u8]) -> Result<Vec<Field<'_>>, Row> {
    let mut fields = Vec::new();
    while !octets.is_empty() {
        let [tag, high, low, ref behind @ ..] = *octets else {
            return Err(Row::ReloadCut);
        };
        let length = usize::from(u16::from_be_bytes([high, low]));
        let (contents, rest) = behind.split_at_checked(length).ok_or(Row::ReloadCut)?;
        fields.push((tag, contents));
        octets = rest;
    }
    Ok(fields)
}

/// Why fields are not those that come once, in their order, and then calls.
fn misfit(fields: &[Field<'_>]) -> Row {
    let count = |tag: u8| fields.iter().filter(|field| field.0 == tag).count();
    let known = |field: &Field<'_>| (0x01..=0x07).contains(&field.0);
    if !fields.iter().all(known) {
        return Row::ReloadTag;
    }
    match SINGLE.into_iter().find(|&tag| count(tag) == 0) {
        Some(0x05) => return Row::ReloadDoubtsMissing,
        Some(0x06) => return Row::ReloadMarksMissing,
        Some(0x07) => return Row::ReloadRestartMissing,
        Some(_) => return Row::ReloadMissing,
        None => {}
    }
    if SINGLE.into_iter().any(|tag| count(tag) > 1) {
        return Row::ReloadRepeated;
    }
    Row::ReloadMisplaced
}

/// A state with nothing behind it.
fn alone(state: State, rest: &[u8]) -> Result<State, Row> {
    hold(rest.is_empty(), Row::ReloadLength)?;
    Ok(state)
}

/// A list of numbers of two octets.
fn numbers(contents: &[u8]) -> Result<Vec<u16>, Row> {
    let (twos, rest) = contents.as_chunks::<2>();
    hold(rest.is_empty(), Row::ReloadLength)?;
    Ok(twos.iter().map(|two| u16::from_be_bytes(*two)).collect())
}

/// A number of eight octets.
fn long(contents: &[u8]) -> Result<u64, Row> {
    let octets = contents.try_into().map_err(|_| Row::ReloadLength)?;
    Ok(u64::from_be_bytes(octets))
}
