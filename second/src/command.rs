//! One request, one answer ("What comes back").

use crate::answer::Answer;
use crate::envelope::{self, Envelope};
use crate::methods::Reply;
use crate::payload::{self, Payload};
use crate::record::{Card, Hsn, Tsn};
use crate::status::Status;
use crate::uid;

/// The least room an answer buffer may have.
pub const ANSWER_ROOM: usize = 2048;
/// The most bytes a request may have, those past its envelope too.
pub const REQUEST_LIMIT: usize = 2048;

impl Card {
    /// The number of document 01's table and, with 0, the count of answer bytes.
    /// With any other number neither the card nor the buffer has changed.
    pub fn command(&mut self, request: &[u8], answer: &mut [u8]) -> (u8, usize) {
        match self.answered(request, answer) {
            Ok(count) => (0, count),
            Err(number) => (number, 0),
        }
    }

    /// The count of answer bytes, or the lowest number that applies.
    fn answered(&mut self, request: &[u8], answer: &mut [u8]) -> Result<usize, u8> {
        if !self.sound() {
            return Err(1);
        }
        if answer.len() < ANSWER_ROOM {
            return Err(2);
        }
        if request.len() > REQUEST_LIMIT {
            return Err(3);
        }
        let envelope = envelope::read(request).ok_or(4)?;
        if (envelope.tsn, envelope.hsn) == (Tsn(0), Hsn(0)) {
            // An open session's TSN is never 0, so this can be no request of its own.
            self.outside_session(&envelope, Answer::new(answer))
        } else if self.session.open && (envelope.tsn, envelope.hsn) == (self.session.tsn, self.session.hsn) {
            Ok(self.in_session(&envelope, Answer::new(answer)))
        } else {
            Err(5)
        }
    }

    fn outside_session(&mut self, envelope: &Envelope<'_>, mut answer: Answer<'_>) -> Result<usize, u8> {
        let Some(Payload::Call { invoking, method, parameters }) = payload::read(envelope.payload) else {
            return Err(6);
        };
        if (invoking, method) == (uid::SESSION_MANAGER, uid::START_SESSION) {
            answer.sync_session(self.start_session(parameters));
        } else {
            answer.refused(Status::NotAuthorized);
        }
        Ok(answer.finish(envelope.tsn, envelope.hsn))
    }

    fn in_session(&mut self, envelope: &Envelope<'_>, mut answer: Answer<'_>) -> usize {
        match payload::read(envelope.payload) {
            None => {
                self.close_session();
                answer.close_session(envelope.hsn, envelope.tsn);
                return answer.finish(Tsn(0), Hsn(0));
            }
            Some(Payload::EndOfSession) => {
                self.close_session();
                answer.end_of_session();
            }
            Some(Payload::Begin) => answer.start_transaction(self.begin()),
            Some(Payload::Commit) => answer.end_transaction(self.commit()),
            Some(Payload::Abandon) => answer.end_transaction(self.abandon()),
            Some(Payload::Call { invoking, method, parameters }) => match self.invoke(&invoking, &method, parameters) {
                Err(status) => answer.refused(status),
                Ok(reply) => answer.result(Status::Success, |answer| match reply {
                    Reply::Nothing => (),
                    Reply::Flag(flag) => answer.flag(flag),
                    Reply::Cells(object, columns) => {
                        answer.start_list();
                        self.write_cells(answer, &invoking, object, columns);
                        answer.end_list();
                    }
                }),
            },
        }
        // The request's own numbers, even where the session is closed by now.
        answer.finish(envelope.tsn, envelope.hsn)
    }
}
