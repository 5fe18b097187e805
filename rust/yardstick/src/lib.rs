//! The payload reader again in plain, safe Rust, to measure ours by: document 01's grammar and limits, nothing else.
//!
//! [`obvious`] is how one would write it: a token at a time, a function for each rule. [`lean`] has no tokens: it
//! finds where a value ends by its first byte. Neither allocates. [`numbered`] has both with their answers as numbers,
//! as ours gives them, and [`borders`] are payloads at the grammar's edges.

#![forbid(unsafe_code)]

pub mod borders;
mod code;
pub mod lean;
pub mod numbered;
pub mod obvious;

/// Lists and named values nest this deep, a call's list being the first.
pub const DEPTH_LIMIT: usize = 16;

/// What a payload asks for; a reader answers None where it is broken.
#[derive(Clone, Copy, PartialEq, Eq, Debug)]
pub enum Payload {
    /// A method of an object, both as numbers, with the values of its parameters from `parameters` on.
    Call {
        object: u64,
        method: u64,
        parameters: usize,
    },
    EndSession,
    Begin,
    Commit,
    Abandon,
}
