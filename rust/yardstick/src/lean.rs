//! The lean reader: no token is made. Each function takes the place where something starts and gives the place where
//! it ends, which the first byte says; an atom's value is looked at only where it counts.

use crate::{code, Payload, DEPTH_LIMIT};

/// The payload that stands in `bytes` from `at` on and ends with them; None where it is broken.
// Inlined where it is called: handing the answer over by memory would be a third of the time for one byte.
#[inline(always)]
pub fn parse(bytes: &[u8], at: usize) -> Option<Payload> {
    let at = past_empty(bytes, at);
    let (payload, end) = match *bytes.get(at)? {
        code::CALL => call(bytes, at + 1)?,
        code::END_OF_SESSION => (Payload::EndSession, at + 1),
        code::START_TRANSACTION => (Payload::Begin, zero(bytes, at + 1)?),
        code::END_TRANSACTION => match integer(bytes, at + 1)? {
            (0, end) => (Payload::Commit, end),
            (1, end) => (Payload::Abandon, end),
            _ => return None,
        },
        _ => return None,
    };
    (past_empty(bytes, end) == bytes.len()).then_some(payload)
}

/// What follows F8.
fn call(bytes: &[u8], at: usize) -> Option<(Payload, usize)> {
    let (object, at) = uid(bytes, at)?;
    let (method, at) = uid(bytes, at)?;
    let parameters = control(bytes, at, code::START_LIST)?;
    let at = list(bytes, parameters, DEPTH_LIMIT - 1)?;
    let at = control(bytes, at, code::END_OF_DATA)?;
    let at = control(bytes, at, code::START_LIST)?;
    let at = zero(bytes, zero(bytes, zero(bytes, at)?)?)?;
    let end = control(bytes, at, code::END_LIST)?;
    Some((Payload::Call { object, method, parameters }, end))
}

/// The values of a list up to its F1; lists and named values nest to `depth` in each.
fn list(bytes: &[u8], mut at: usize, depth: usize) -> Option<usize> {
    loop {
        at = past_empty(bytes, at);
        match *bytes.get(at)? {
            code::END_LIST => return Some(at + 1),
            lead => at = value_from(bytes, at, lead, depth)?,
        }
    }
}

/// The value whose first byte, at `at`, is `lead`.
fn value_from(bytes: &[u8], at: usize, lead: u8, depth: usize) -> Option<usize> {
    match lead {
        code::START_LIST => list(bytes, at + 1, depth.checked_sub(1)?),
        code::START_NAME => named(bytes, at + 1, depth.checked_sub(1)?),
        _ => atom_from(bytes, at, lead),
    }
}

/// What follows F2: an atom, a value and F3.
fn named(bytes: &[u8], at: usize, depth: usize) -> Option<usize> {
    let at = past_empty(bytes, at);
    let at = atom_from(bytes, at, *bytes.get(at)?)?;
    let at = past_empty(bytes, at);
    let at = value_from(bytes, at, *bytes.get(at)?, depth)?;
    control(bytes, at, code::END_NAME)
}

/// The atom whose first byte, at `at`, is `lead`.
fn atom_from(bytes: &[u8], at: usize, lead: u8) -> Option<usize> {
    // S must be 0, so of each form only the ranges with S clear are here.
    match lead {
        0x00..=0x3F => Some(at + 1),
        0x80..=0x8F => integer_end(bytes, at + 1, usize::from(lead & 0x0F)),
        0xA0..=0xAF => end(bytes, at + 1, usize::from(lead & 0x0F)),
        0xC0..=0xC7 => integer_end(bytes, at + 2, medium_length(bytes, at)?),
        0xD0..=0xD7 => end(bytes, at + 2, medium_length(bytes, at)?),
        0xE0 => integer_end(bytes, at + 4, long_length(bytes, at)?),
        0xE2 => end(bytes, at + 4, long_length(bytes, at)?),
        _ => None,
    }
}

fn integer(bytes: &[u8], at: usize) -> Option<(u64, usize)> {
    let at = past_empty(bytes, at);
    let lead = *bytes.get(at)?;
    let end = atom_from(bytes, at, lead)?;
    // The tiny atom is its own value.
    let head = match lead {
        0x00..=0x3F => 0,
        0x80..=0x8F => 1,
        0xC0..=0xC7 => 2,
        0xE0 => 4,
        _ => return None,
    };
    Some((bytes[at + head..end].iter().fold(0, |value, byte| value << 8 | u64::from(*byte)), end))
}

fn zero(bytes: &[u8], at: usize) -> Option<usize> {
    match integer(bytes, at)? {
        (0, end) => Some(end),
        _ => None,
    }
}

fn uid(bytes: &[u8], at: usize) -> Option<(u64, usize)> {
    let at = past_empty(bytes, at);
    let lead = *bytes.get(at)?;
    let end = atom_from(bytes, at, lead)?;
    let head = match lead {
        0xA0..=0xAF => 1,
        0xD0..=0xD7 => 2,
        0xE2 => 4,
        _ => return None,
    };
    Some((u64::from_be_bytes(bytes[at + head..end].try_into().ok()?), end))
}

fn control(bytes: &[u8], at: usize, wanted: u8) -> Option<usize> {
    let at = past_empty(bytes, at);
    (*bytes.get(at)? == wanted).then_some(at + 1)
}

fn past_empty(bytes: &[u8], mut at: usize) -> usize {
    while bytes.get(at) == Some(&code::EMPTY) {
        at += 1;
    }
    at
}

/// The end of `length` bytes; `at` is never past the end of `bytes`, as the head before it was there.
fn end(bytes: &[u8], at: usize, length: usize) -> Option<usize> {
    (length <= bytes.len() - at).then_some(at + length)
}

fn integer_end(bytes: &[u8], at: usize, length: usize) -> Option<usize> {
    if length == 0 || length > 8 {
        return None;
    }
    end(bytes, at, length)
}

fn medium_length(bytes: &[u8], at: usize) -> Option<usize> {
    Some(usize::from(bytes[at] & 0x07) << 8 | usize::from(*bytes.get(at + 1)?))
}

fn long_length(bytes: &[u8], at: usize) -> Option<usize> {
    let length = bytes.get(at + 1..at + 4)?;
    Some(usize::from(length[0]) << 16 | usize::from(length[1]) << 8 | usize::from(length[2]))
}
