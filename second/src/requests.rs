//! Building what a host sends: token writers, payloads, and the envelope around a payload.
//!
//! Token writers append to a row of tokens; the payload builders give a whole payload, to be
//! wrapped by [`envelope`] with the numbers it goes to: 0, 0 for [`start_session`], those of the
//! open session for every other. Nothing here is checked, so what a card must refuse can be built
//! as well.

use crate::envelope;
use crate::record::{Hsn, Tsn};
use crate::tokens::{integer_token, string_head};
use crate::uid::{self, Uid};

/// A whole request around a payload, padded.
pub fn envelope(tsn: u32, hsn: u32, payload: &[u8]) -> Vec<u8> {
    let mut request = envelope::headers(Tsn(tsn), Hsn(hsn), payload.len() as u32).to_vec();
    request.extend(payload);
    request.resize(request.len().next_multiple_of(4), 0);
    request
}

/// An integer in the shortest form.
pub fn integer(tokens: &mut Vec<u8>, value: u64) {
    let (token, size) = integer_token(value);
    tokens.extend(&token[..size]);
}

/// A byte string in the shortest form; nothing where it is too long for any.
pub fn bytes(tokens: &mut Vec<u8>, bytes: &[u8]) {
    if let Some((head, size)) = string_head(bytes.len()) {
        tokens.extend(&head[..size]);
        tokens.extend(bytes);
    }
}

/// A list of what is in `held`.
pub fn list(tokens: &mut Vec<u8>, held: &[u8]) {
    tokens.push(0xF0);
    tokens.extend(held);
    tokens.push(0xF1);
}

/// A value, given as its tokens, with a number for its name.
pub fn named(tokens: &mut Vec<u8>, name: u64, value: &[u8]) {
    tokens.push(0xF2);
    integer(tokens, name);
    tokens.extend(value);
    tokens.push(0xF3);
}

/// A named integer.
pub fn named_integer(tokens: &mut Vec<u8>, name: u64, value: u64) {
    named(tokens, name, &built(|tokens| integer(tokens, value)));
}

/// A named byte string.
pub fn named_bytes(tokens: &mut Vec<u8>, name: u64, value: &[u8]) {
    named(tokens, name, &built(|tokens| bytes(tokens, value)));
}

/// A named list of integers, such as LockOnReset.
pub fn named_integers(tokens: &mut Vec<u8>, name: u64, values: &[u64]) {
    let held = built(|tokens| values.iter().for_each(|value| integer(tokens, *value)));
    named(tokens, name, &built(|tokens| list(tokens, &held)));
}

/// The tokens that `write` appends.
pub fn built(write: impl FnOnce(&mut Vec<u8>)) -> Vec<u8> {
    let mut tokens = Vec::new();
    write(&mut tokens);
    tokens
}

/// A call with its parameters, given as the tokens inside its list.
pub fn call(invoking: &Uid, method: &Uid, parameters: &[u8]) -> Vec<u8> {
    built(|tokens| {
        tokens.push(0xF8);
        bytes(tokens, invoking);
        bytes(tokens, method);
        list(tokens, parameters);
        tokens.extend([0xF9, 0xF0, 0x00, 0x00, 0x00, 0xF1]);
    })
}

/// StartSession. The HSN is 64 bits wide here, so that one too large can be sent.
pub fn start_session(hsn: u64, sp: &Uid, write: bool, challenge: Option<&[u8]>, authority: Option<&Uid>) -> Vec<u8> {
    let parameters = built(|tokens| {
        integer(tokens, hsn);
        bytes(tokens, sp);
        integer(tokens, u64::from(write));
        if let Some(challenge) = challenge {
            named_bytes(tokens, 0, challenge);
        }
        if let Some(authority) = authority {
            named_bytes(tokens, 3, authority);
        }
    });
    call(&uid::SESSION_MANAGER, &uid::START_SESSION, &parameters)
}

/// Get of the columns from `start` to `end`, either of which may be left out.
pub fn get(object: &Uid, start: Option<u64>, end: Option<u64>) -> Vec<u8> {
    let block = built(|tokens| {
        if let Some(start) = start {
            named_integer(tokens, 3, start);
        }
        if let Some(end) = end {
            named_integer(tokens, 4, end);
        }
    });
    call(object, &uid::GET, &built(|tokens| list(tokens, &block)))
}

/// Set of columns, given as named values one after the other.
pub fn set(object: &Uid, columns: &[u8]) -> Vec<u8> {
    let values = built(|tokens| list(tokens, columns));
    call(object, &uid::SET, &built(|tokens| named(tokens, 1, &values)))
}

/// Set of one column to an integer.
pub fn set_integer(object: &Uid, column: u64, value: u64) -> Vec<u8> {
    set(object, &built(|tokens| named_integer(tokens, column, value)))
}

/// Set of a PIN row's PIN.
pub fn set_pin(object: &Uid, pin: &[u8]) -> Vec<u8> {
    set(object, &built(|tokens| named_bytes(tokens, 3, pin)))
}

pub fn authenticate(authority: &Uid, proof: Option<&[u8]>) -> Vec<u8> {
    let parameters = built(|tokens| {
        bytes(tokens, authority);
        if let Some(proof) = proof {
            named_bytes(tokens, 0, proof);
        }
    });
    call(&uid::THIS_SP, &uid::AUTHENTICATE, &parameters)
}

/// Activate of an SP's row; the Locking SP's is the one that can be.
pub fn activate(sp: &Uid) -> Vec<u8> {
    call(sp, &uid::ACTIVATE, &[])
}

/// Revert of an SP's row.
pub fn revert(sp: &Uid) -> Vec<u8> {
    call(sp, &uid::REVERT, &[])
}

/// RevertSP of the SP the session is open to.
pub fn revert_sp() -> Vec<u8> {
    call(&uid::THIS_SP, &uid::REVERT_SP, &[])
}

pub fn end_session() -> Vec<u8> {
    vec![0xFA]
}

/// Starts a transaction.
pub fn begin() -> Vec<u8> {
    vec![0xFB, 0x00]
}

pub fn commit() -> Vec<u8> {
    vec![0xFC, 0x00]
}

pub fn abandon() -> Vec<u8> {
    vec![0xFC, 0x01]
}
