//! Why a card did not answer.

use std::error::Error;
use std::fmt;

/// The numbers other than 0 that come back. With any of them nothing has changed. Later cards may have more of them.
#[derive(Clone, Copy, PartialEq, Eq, Hash, Debug)]
#[non_exhaustive]
pub enum Refusal {
    Unsound = 1,
    AnswerRoom = 2,
    RequestLength = 3,
    Envelope = 4,
    Session = 5,
    Payload = 6,
    ResetDisabled = 7,
}

impl Refusal {
    pub const ALL: [Refusal; 7] = [
        Refusal::Unsound,
        Refusal::AnswerRoom,
        Refusal::RequestLength,
        Refusal::Envelope,
        Refusal::Session,
        Refusal::Payload,
        Refusal::ResetDisabled,
    ];

    pub fn number(self) -> u8 {
        self as u8
    }

    /// What a number other than 0 stands for.
    pub(crate) fn from_number(number: usize) -> Refusal {
        let found = Refusal::ALL.into_iter().find(|refusal| usize::from(refusal.number()) == number);
        found.unwrap_or_else(|| panic!("the linked library answers {number}, which flamepocket.h does not have"))
    }
}

impl fmt::Display for Refusal {
    fn fmt(&self, out: &mut fmt::Formatter<'_>) -> fmt::Result {
        out.write_str(match self {
            Refusal::Unsound => "record unsound",
            Refusal::AnswerRoom => "answer buffer under 2,048 bytes",
            Refusal::RequestLength => "request over 2,048 bytes",
            Refusal::Envelope => "envelope broken",
            Refusal::Session => "TSN, HSN neither 0, 0 nor the open session",
            Refusal::Payload => "payload broken, or no call, on 0, 0",
            Refusal::ResetDisabled => "TPER_RESET while disabled",
        })
    }
}

impl Error for Refusal {}
