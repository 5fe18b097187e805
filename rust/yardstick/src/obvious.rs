//! The obvious reader: one pass over the tokens, each read once, and a function for each rule of the grammar.

use crate::{code, Payload, DEPTH_LIMIT};

enum Token<'a> {
    Integer(u64),
    Bytes(&'a [u8]),
    Control(u8),
    /// Nothing but empty tokens is left.
    End,
}

struct Reader<'a> {
    bytes: &'a [u8],
    at: usize,
}

/// The payload that stands in `bytes` from `at` on and ends with them; None where it is broken.
// Inlined where it is called: handing the answer over by memory would be a third of the time for one byte.
#[inline(always)]
pub fn parse(bytes: &[u8], at: usize) -> Option<Payload> {
    let mut reader = Reader { bytes, at };
    let payload = match reader.token()? {
        Token::Control(code::CALL) => reader.call()?,
        Token::Control(code::END_OF_SESSION) => Payload::EndSession,
        Token::Control(code::START_TRANSACTION) => match reader.integer()? {
            0 => Payload::Begin,
            _ => return None,
        },
        Token::Control(code::END_TRANSACTION) => match reader.integer()? {
            0 => Payload::Commit,
            1 => Payload::Abandon,
            _ => return None,
        },
        _ => return None,
    };
    match reader.token()? {
        Token::End => Some(payload),
        _ => None,
    }
}

impl<'a> Reader<'a> {
    /// The next token; None where it is broken.
    fn token(&mut self) -> Option<Token<'a>> {
        loop {
            let Some(lead) = self.byte() else {
                return Some(Token::End);
            };
            // S must be 0, so of each form only the ranges with S clear are here.
            return match lead {
                0x00..=0x3F => Some(Token::Integer(u64::from(lead))),
                0x80..=0x8F => self.integer_of(usize::from(lead & 0x0F)),
                0xA0..=0xAF => self.bytes_of(usize::from(lead & 0x0F)),
                0xC0..=0xC7 => {
                    let length = self.medium_length(lead)?;
                    self.integer_of(length)
                }
                0xD0..=0xD7 => {
                    let length = self.medium_length(lead)?;
                    self.bytes_of(length)
                }
                0xE0 => {
                    let length = self.long_length()?;
                    self.integer_of(length)
                }
                0xE2 => {
                    let length = self.long_length()?;
                    self.bytes_of(length)
                }
                code::START_LIST..=code::END_NAME | code::CALL..=code::END_TRANSACTION => Some(Token::Control(lead)),
                code::EMPTY => continue,
                _ => None,
            };
        }
    }

    fn byte(&mut self) -> Option<u8> {
        let byte = *self.bytes.get(self.at)?;
        self.at += 1;
        Some(byte)
    }

    fn take(&mut self, length: usize) -> Option<&'a [u8]> {
        let part = self.bytes.get(self.at..self.at + length)?;
        self.at += length;
        Some(part)
    }

    fn medium_length(&mut self, lead: u8) -> Option<usize> {
        Some(usize::from(lead & 0x07) << 8 | usize::from(self.byte()?))
    }

    fn long_length(&mut self) -> Option<usize> {
        Some(self.take(3)?.iter().fold(0, |length, byte| length << 8 | usize::from(*byte)))
    }

    fn integer_of(&mut self, length: usize) -> Option<Token<'a>> {
        if length == 0 || length > 8 {
            return None;
        }
        Some(Token::Integer(self.take(length)?.iter().fold(0, |value, byte| value << 8 | u64::from(*byte))))
    }

    fn bytes_of(&mut self, length: usize) -> Option<Token<'a>> {
        Some(Token::Bytes(self.take(length)?))
    }

    /// Takes the control token `wanted`.
    fn control(&mut self, wanted: u8) -> Option<()> {
        match self.token()? {
            Token::Control(code) if code == wanted => Some(()),
            _ => None,
        }
    }

    fn integer(&mut self) -> Option<u64> {
        match self.token()? {
            Token::Integer(value) => Some(value),
            _ => None,
        }
    }

    fn uid(&mut self) -> Option<u64> {
        match self.token()? {
            Token::Bytes(bytes) => Some(u64::from_be_bytes(bytes.try_into().ok()?)),
            _ => None,
        }
    }

    /// What follows F8.
    fn call(&mut self) -> Option<Payload> {
        let object = self.uid()?;
        let method = self.uid()?;
        self.control(code::START_LIST)?;
        let parameters = self.at;
        self.list(DEPTH_LIMIT - 1)?;
        self.control(code::END_OF_DATA)?;
        self.control(code::START_LIST)?;
        for _ in 0..3 {
            if self.integer()? != 0 {
                return None;
            }
        }
        self.control(code::END_LIST)?;
        Some(Payload::Call { object, method, parameters })
    }

    /// The values of a list up to its F1; lists and named values nest to `depth` in each.
    fn list(&mut self, depth: usize) -> Option<()> {
        loop {
            match self.token()? {
                Token::Control(code::END_LIST) => return Some(()),
                token => self.value_from(token, depth)?,
            }
        }
    }

    fn value(&mut self, depth: usize) -> Option<()> {
        let token = self.token()?;
        self.value_from(token, depth)
    }

    /// The rest of the value whose first token is `token`.
    fn value_from(&mut self, token: Token, depth: usize) -> Option<()> {
        match token {
            Token::Integer(_) | Token::Bytes(_) => Some(()),
            Token::Control(code::START_LIST) => self.list(depth.checked_sub(1)?),
            Token::Control(code::START_NAME) => self.named(depth.checked_sub(1)?),
            _ => None,
        }
    }

    /// What follows F2: an atom, a value and F3.
    fn named(&mut self, depth: usize) -> Option<()> {
        match self.token()? {
            Token::Integer(_) | Token::Bytes(_) => {}
            _ => return None,
        }
        self.value(depth)?;
        self.control(code::END_NAME)
    }
}
