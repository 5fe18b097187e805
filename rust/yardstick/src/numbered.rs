//! The readers with the answer that crate `reader` gives: 0 broken, 1 a call, 2 end of session, 3 begin, 4 commit,
//! 5 abandon; of a call object, method and the place of its parameters are in the words afterwards.
//!
//! They stand here and are not inlined, so that what is timed is the same code whatever program times it.

use crate::{lean, obvious, Payload};

pub type Words = [u64; 3];

#[inline(never)]
pub fn by_obvious(bytes: &[u8], at: usize, words: &mut Words) -> usize {
    numbered(obvious::parse(bytes, at), words)
}

#[inline(never)]
pub fn by_lean(bytes: &[u8], at: usize, words: &mut Words) -> usize {
    numbered(lean::parse(bytes, at), words)
}

#[inline(always)]
pub fn numbered(payload: Option<Payload>, words: &mut Words) -> usize {
    match payload {
        None => 0,
        Some(Payload::Call { object, method, parameters }) => {
            *words = [object, method, parameters as u64];
            1
        }
        Some(Payload::EndSession) => 2,
        Some(Payload::Begin) => 3,
        Some(Payload::Commit) => 4,
        Some(Payload::Abandon) => 5,
    }
}
