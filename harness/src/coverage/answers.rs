//! Notices with their flags, and the causes that we send.

use super::{Rows, Seen};
use crate::controller::{Notice, HOST_CAUSES};
use crate::decode::{receive, Part};
use crate::types::{name, KNOWN};

/// The causes that the controller itself sends.
const CAUSES: [u8; 12] = [30, 45, 47, 65, 73, 81, 82, 96, 97, 100, 101, 102];

const FLAGS: [(&str, &str); 3] = [
    ("NO-3-one", "calls gone: one flag"),
    ("NO-3-several", "calls gone: several flags"),
    ("NO-3-all", "calls gone: thirty-two flags"),
];

/// Types that the controller sends.
const SENT: [&str; 9] = [
    "CALL-PROCEEDING",
    "SETUP",
    "CONNECT",
    "CONNECT-ACKNOWLEDGE",
    "RESTART",
    "RELEASE",
    "RESTART-ACKNOWLEDGE",
    "RELEASE-COMPLETE",
    "STATUS",
];

pub fn list(rows: &mut Rows) {
    for (number, words) in ["none", "call asked", "call answered", "calls gone"]
        .iter()
        .enumerate()
    {
        rows.add(format!("NO-{number}"), format!("notice {number}: {words}"));
    }
    for (id, words) in FLAGS {
        rows.add(id, words);
    }
    for cause in CAUSES {
        rows.add(format!("CS-{cause}"), format!("cause {cause} is sent"));
    }
    for cause in HOST_CAUSES.iter().filter(|cause| !CAUSES.contains(cause)) {
        rows.add(
            format!("CS-{cause}"),
            format!("the host's cause {cause} is sent"),
        );
    }
    rows.add("CS-47-RELEASE", "the host's cause 47 is sent");
    for name in SENT {
        for flag in 0..2 {
            if let ("CALL-PROCEEDING" | "CONNECT" | "RESTART-ACKNOWLEDGE", 0) = (name, flag) {
                continue;
            }
            if let ("SETUP" | "CONNECT-ACKNOWLEDGE" | "RESTART", 1) = (name, flag) {
                continue;
            }
            rows.add(
                format!("SN-{name}-{flag}"),
                format!("{name} is sent with flag {flag}"),
            );
        }
    }
}

pub fn hit(rows: &mut Rows, seen: &Seen<'_>) {
    let answer = seen.answer;
    if !seen.accepted() {
        return;
    }
    rows.hit(&format!("NO-{}", answer.notice as u8));
    if answer.notice == Notice::Gone {
        match answer.flags.slots().count() {
            1 => rows.hit("NO-3-one"),
            32 => rows.hit("NO-3-all"),
            _ => rows.hit("NO-3-several"),
        }
    }
    let Ok(reply) = receive(&answer.reply) else {
        return;
    };
    let known = KNOWN.iter().any(|known| known.0 == reply.kind);
    assert!(known && reply.length_right, "a reply that cannot be read");
    let name = name(reply.kind);
    rows.hit(&format!("SN-{name}-{}", u8::from(reply.flag)));
    if let (Part::Readable(cause), false) = (reply.cause(), name == "SETUP") {
        rows.hit(&format!("CS-{cause}"));
        rows.hit_if(name == "RELEASE" && cause == 47, "CS-47-RELEASE");
    }
}
