//! The messages that we send.

use super::call::Reference;
use crate::compose::{element, message};
use crate::decode::{CALL_STATE, CAUSE};
use crate::types::*;

/// A message without elements.
pub fn bare(reference: Reference, kind: u8) -> Vec<u8> {
    message(reference.sent(), kind, &[])
}

fn cause_element(cause: u8, diagnostic: &[u8]) -> Vec<u8> {
    element(CAUSE, &[&[0x81, cause + 0x80], diagnostic].concat())
}

/// RELEASE or RELEASE COMPLETE with a cause.
pub fn cleared(reference: Reference, kind: u8, cause: u8, diagnostic: &[u8]) -> Vec<u8> {
    message(reference.sent(), kind, &[&cause_element(cause, diagnostic)])
}

pub fn status(reference: Reference, state: u8, cause: u8, diagnostic: &[u8]) -> Vec<u8> {
    let state = element(CALL_STATE, &[state]);
    let cause = cause_element(cause, diagnostic);
    message(reference.sent(), STATUS, &[&state, &cause])
}
