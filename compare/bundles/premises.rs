//! 02's premises on two payloads that are joined, judged from their bytes alone and as they are worded: "both are longer than 4 bytes and
//! the first is consumed by good bracket records to its last byte". 01 says what a bracket record is. And the one payload that holds more
//! beside another than it does alone.

/// What is left of a payload after the bracket record that it opens with, where that is a good one.
/// "Each record is 0x5B, a length L, one skipped byte, a body of L - 2 bytes, 0x5D. .. L = 1 with 0x5D after it is passed over without a
/// body; L = 0 is bad."
fn after_record(payload: &[u8]) -> Option<&[u8]> {
    match payload {
        [0x5B, 1, 0x5D, left @ ..] => Some(left),
        [0x5B, l @ 2..=255, _skipped, rest @ ..] => {
            let body = usize::from(*l) - 2;
            rest.get(body..)?.strip_prefix(&[0x5D])
        }
        _ => None,
    }
}

/// Whether good bracket records, one after the other, consume a payload to its last byte, however short it is.
pub fn consumed(payload: &[u8]) -> bool {
    let mut rest = payload;
    while !rest.is_empty() {
        let Some(left) = after_record(rest) else { return false };
        rest = left;
    }
    true
}

/// Whether one of the good bracket records that a payload opens with has an L of 1.
pub fn has_one(payload: &[u8]) -> bool {
    let mut rest = payload;
    while let Some(left) = after_record(rest) {
        if rest[1] == 1 {
            return true;
        }
        rest = left;
    }
    false
}

/// "Longer than 4 bytes."
pub fn long(payload: &[u8]) -> bool {
    payload.len() > 4
}

/// Whether a payload is a bracket record with an empty body, and nothing else. It has 4 bytes, so that it holds nothing while it is alone.
pub fn empty_record(payload: &[u8]) -> bool {
    matches!(payload, [0x5B, 2, _skipped, 0x5D])
}

/// What two payloads do not meet: one of the premises alone, or several.
#[derive(Clone, Copy)]
pub enum Missing {
    FirstLong,
    FirstConsumed,
    SecondLong,
    Several,
}

/// Each of them, as it is said.
pub const MISSING: [&str; 4] = ["first too short", "first not consumed", "second too short", "several of these"];

/// The premises, one by one.
pub fn missing(first: &[u8], second: &[u8]) -> Option<Missing> {
    match (long(first), consumed(first), long(second)) {
        (true, true, true) => None,
        (false, true, true) => Some(Missing::FirstLong),
        (true, false, true) => Some(Missing::FirstConsumed),
        (true, true, false) => Some(Missing::SecondLong),
        _ => Some(Missing::Several),
    }
}
