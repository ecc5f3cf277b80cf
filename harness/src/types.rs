//! The types of messages.

pub const CALL_PROCEEDING: u8 = 0x02;
pub const SETUP: u8 = 0x05;
pub const CONNECT: u8 = 0x07;
pub const CONNECT_ACKNOWLEDGE: u8 = 0x0f;
pub const RESTART: u8 = 0x46;
pub const RELEASE: u8 = 0x4d;
pub const RESTART_ACKNOWLEDGE: u8 = 0x4e;
pub const RELEASE_COMPLETE: u8 = 0x5a;
pub const STATUS_ENQUIRY: u8 = 0x75;
pub const STATUS: u8 = 0x7d;

/// The known types in ascending order, with their names.
pub const KNOWN: [(u8, &str); 10] = [
    (CALL_PROCEEDING, "CALL-PROCEEDING"),
    (SETUP, "SETUP"),
    (CONNECT, "CONNECT"),
    (CONNECT_ACKNOWLEDGE, "CONNECT-ACKNOWLEDGE"),
    (RESTART, "RESTART"),
    (RELEASE, "RELEASE"),
    (RESTART_ACKNOWLEDGE, "RESTART-ACKNOWLEDGE"),
    (RELEASE_COMPLETE, "RELEASE-COMPLETE"),
    (STATUS_ENQUIRY, "STATUS-ENQUIRY"),
    (STATUS, "STATUS"),
];

/// The name of a type, `unknown` for the others.
pub fn name(kind: u8) -> &'static str {
    let known = KNOWN.iter().find(|known| known.0 == kind);
    known.map_or("unknown", |known| known.1)
}
