//! Writing an answer straight into the caller's buffer ("What comes back").
//!
//! The longest answer is a Get of a whole locking row, well under the 2,048 bytes that the
//! buffer is known to have, so room is never short here.

use crate::envelope::{self, HEADERS};
use crate::record::{Hsn, Tsn};
use crate::status::Status;
use crate::tokens::{integer_token, string_head};
use crate::uid::{self, Uid};

pub(crate) struct Answer<'b> {
    room: &'b mut [u8],
    at: usize,
}

impl<'b> Answer<'b> {
    /// The payload is written first, its length being known only then.
    pub fn new(room: &'b mut [u8]) -> Self {
        Answer { room, at: HEADERS }
    }

    fn raw(&mut self, bytes: &[u8]) {
        self.room[self.at..self.at + bytes.len()].copy_from_slice(bytes);
        self.at += bytes.len();
    }

    pub fn integer(&mut self, value: u64) {
        let (token, size) = integer_token(value);
        self.raw(&token[..size]);
    }

    pub fn flag(&mut self, value: bool) {
        self.integer(u64::from(value));
    }

    pub fn bytes(&mut self, bytes: &[u8]) {
        if let Some((head, size)) = string_head(bytes.len()) {
            self.raw(&head[..size]);
            self.raw(bytes);
        }
    }

    pub fn start_list(&mut self) {
        self.raw(&[0xF0]);
    }

    pub fn end_list(&mut self) {
        self.raw(&[0xF1]);
    }

    pub fn start_name(&mut self, name: u64) {
        self.raw(&[0xF2]);
        self.integer(name);
    }

    pub fn end_name(&mut self) {
        self.raw(&[0xF3]);
    }

    fn status(&mut self, status: Status) {
        self.raw(&[0xF9, 0xF0]);
        self.integer(status as u64);
        self.raw(&[0x00, 0x00, 0xF1]);
    }

    /// A list that `fill` writes, and the status after it.
    pub fn result(&mut self, status: Status, fill: impl FnOnce(&mut Self)) {
        self.start_list();
        fill(self);
        self.end_list();
        self.status(status);
    }

    /// "A refused method has an empty list."
    pub fn refused(&mut self, status: Status) {
        self.result(status, |_| ());
    }

    fn call(&mut self, method: &Uid, status: Status, numbers: Option<(Hsn, Tsn)>) {
        self.raw(&[0xF8]);
        self.bytes(&uid::SESSION_MANAGER);
        self.bytes(method);
        self.result(status, |answer| {
            if let Some((hsn, tsn)) = numbers {
                answer.integer(u64::from(hsn.0));
                answer.integer(u64::from(tsn.0));
            }
        });
    }

    /// SyncSession: the numbers of the session, or an empty list where it was refused.
    pub fn sync_session(&mut self, started: Result<(Hsn, Tsn), Status>) {
        match started {
            Ok(numbers) => self.call(&uid::SYNC_SESSION, Status::Success, Some(numbers)),
            Err(status) => self.call(&uid::SYNC_SESSION, status, None),
        }
    }

    pub fn close_session(&mut self, hsn: Hsn, tsn: Tsn) {
        self.call(&uid::CLOSE_SESSION, Status::Success, Some((hsn, tsn)));
    }

    pub fn end_of_session(&mut self) {
        self.raw(&[0xFA]);
    }

    /// The answer to FB: 00, or 01 where a transaction was open already.
    pub fn start_transaction(&mut self, done: bool) {
        self.raw(&[0xFB, u8::from(!done)]);
    }

    /// The answer to FC: 00, or 01 where none was open.
    pub fn end_transaction(&mut self, done: bool) {
        self.raw(&[0xFC, u8::from(!done)]);
    }

    /// Pads, puts the headers before the payload, and gives the count of bytes.
    pub fn finish(mut self, tsn: Tsn, hsn: Hsn) -> usize {
        let payload = self.at - HEADERS;
        for _ in 0..envelope::pad(payload as u64) {
            self.raw(&[0]);
        }
        self.room[..HEADERS].copy_from_slice(&envelope::headers(tsn, hsn, payload as u32));
        self.at
    }
}
