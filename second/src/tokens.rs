//! Tokens and the values made of them ("Tokens").
//!
//! Everything is read in place. A list is handed out as the bytes between its ends, which are
//! read again when it is walked; by then they are known to be well formed.

/// Lists and named values nest this deep, a call's list being the first.
pub const DEPTH_LIMIT: usize = 16;

#[derive(Clone, Copy, PartialEq, Eq, Debug)]
pub enum Token<'a> {
    Integer(u64),
    Bytes(&'a [u8]),
    StartList,
    EndList,
    StartName,
    EndName,
    Call,
    EndOfData,
    EndOfSession,
    StartTransaction,
    EndTransaction,
}

#[derive(Clone, Copy, PartialEq, Eq, Debug)]
pub enum Atom<'a> {
    Integer(u64),
    Bytes(&'a [u8]),
}

#[derive(Clone, Copy, PartialEq, Eq, Debug)]
pub enum Value<'a> {
    Integer(u64),
    Bytes(&'a [u8]),
    List(Values<'a>),
    /// The name, and its one value as a row of one.
    Named(Atom<'a>, Values<'a>),
}

/// A token at the very start of `bytes` (no FF before it) and the bytes it takes; None where it is broken.
pub fn token(bytes: &[u8]) -> Option<(Token<'_>, usize)> {
    let lead = *bytes.first()?;
    // Where S is set the form is broken (000), so each range below stands for B clear or B set with S clear.
    let plain = |token| Some((token, 1));
    match lead {
        0x00..=0x3F => plain(Token::Integer(u64::from(lead))),
        0x80..=0x8F => integer(bytes, 1, usize::from(lead & 0x0F)),
        0xA0..=0xAF => string(bytes, 1, usize::from(lead & 0x0F)),
        0xC0..=0xC7 => integer(bytes, 2, medium_length(bytes)?),
        0xD0..=0xD7 => string(bytes, 2, medium_length(bytes)?),
        0xE0 => integer(bytes, 4, long_length(bytes)?),
        0xE2 => string(bytes, 4, long_length(bytes)?),
        0xF0 => plain(Token::StartList),
        0xF1 => plain(Token::EndList),
        0xF2 => plain(Token::StartName),
        0xF3 => plain(Token::EndName),
        0xF8 => plain(Token::Call),
        0xF9 => plain(Token::EndOfData),
        0xFA => plain(Token::EndOfSession),
        0xFB => plain(Token::StartTransaction),
        0xFC => plain(Token::EndTransaction),
        _ => None,
    }
}

fn medium_length(bytes: &[u8]) -> Option<usize> {
    Some(usize::from(bytes[0] & 0x07) << 8 | usize::from(*bytes.get(1)?))
}

fn long_length(bytes: &[u8]) -> Option<usize> {
    let size = bytes.get(1..4)?;
    Some(usize::from(size[0]) << 16 | usize::from(size[1]) << 8 | usize::from(size[2]))
}

fn string(bytes: &[u8], head: usize, length: usize) -> Option<(Token<'_>, usize)> {
    Some((Token::Bytes(bytes.get(head..head + length)?), head + length))
}

fn integer(bytes: &[u8], head: usize, length: usize) -> Option<(Token<'_>, usize)> {
    // "An integer of 0 or more than 8 bytes is broken", leading zero bytes or not.
    if length == 0 || length > 8 {
        return None;
    }
    let digits = bytes.get(head..head + length)?;
    let value = digits.iter().fold(0u64, |sum, digit| sum << 8 | u64::from(*digit));
    Some((Token::Integer(value), head + length))
}

/// A place in a row of tokens.
#[derive(Clone, Copy, PartialEq, Eq, Debug)]
pub struct Reader<'a> {
    rest: &'a [u8],
}

impl<'a> Reader<'a> {
    pub fn new(bytes: &'a [u8]) -> Self {
        Reader { rest: bytes }
    }

    fn skip_empty(&mut self) {
        while let Some((0xFF, rest)) = self.rest.split_first() {
            self.rest = rest;
        }
    }

    /// Whether nothing but FF is left.
    pub fn at_end(mut self) -> bool {
        self.skip_empty();
        self.rest.is_empty()
    }

    /// The next token; None where it is broken or there is none.
    pub fn token(&mut self) -> Option<Token<'a>> {
        self.skip_empty();
        let (token, size) = token(self.rest)?;
        self.rest = &self.rest[size..];
        Some(token)
    }

    /// Takes the token named; None where another, a broken one or none is next.
    pub fn expect(&mut self, wanted: Token<'_>) -> Option<()> {
        (self.token()? == wanted).then_some(())
    }

    pub fn atom(&mut self) -> Option<Atom<'a>> {
        match self.token()? {
            Token::Integer(value) => Some(Atom::Integer(value)),
            Token::Bytes(bytes) => Some(Atom::Bytes(bytes)),
            _ => None,
        }
    }

    /// The next value with all it holds; None where it is broken or nests deeper than `depth`.
    pub fn value(&mut self, depth: usize) -> Option<Value<'a>> {
        match self.token()? {
            Token::Integer(value) => Some(Value::Integer(value)),
            Token::Bytes(bytes) => Some(Value::Bytes(bytes)),
            Token::StartList => Some(Value::List(self.rest_of_list(depth)?)),
            Token::StartName => {
                let inside = depth.checked_sub(1)?;
                let name = self.atom()?;
                let from = self.rest;
                self.value(inside)?;
                let held = self.since(from);
                self.expect(Token::EndName)?;
                Some(Value::Named(name, held))
            }
            _ => None,
        }
    }

    /// What a list holds, its F0 being read already; the reader is then past its F1.
    pub fn rest_of_list(&mut self, depth: usize) -> Option<Values<'a>> {
        let inside = depth.checked_sub(1)?;
        let from = self.rest;
        loop {
            let held = self.since(from);
            let mut ahead = *self;
            if ahead.expect(Token::EndList).is_some() {
                *self = ahead;
                return Some(held);
            }
            self.value(inside)?;
        }
    }

    fn since(&self, from: &'a [u8]) -> Values<'a> {
        Values(Reader::new(&from[..from.len() - self.rest.len()]))
    }
}

/// Values that stand one after the other, known to be well formed.
#[derive(Clone, Copy, PartialEq, Eq, Debug)]
pub struct Values<'a>(Reader<'a>);

impl<'a> Values<'a> {
    /// The value, where there is exactly one.
    pub fn only(mut self) -> Option<Value<'a>> {
        let value = self.next()?;
        self.is_empty().then_some(value)
    }

    pub fn is_empty(self) -> bool {
        self.0.at_end()
    }
}

impl<'a> Iterator for Values<'a> {
    type Item = Value<'a>;

    fn next(&mut self) -> Option<Value<'a>> {
        self.0.value(DEPTH_LIMIT)
    }
}

/// A written token's head: its bytes and how many of them count.
pub(crate) type Head = ([u8; 9], usize);

/// The whole token of an integer, in the shortest form.
pub(crate) fn integer_token(value: u64) -> Head {
    let mut token = [0; 9];
    if value < 0x40 {
        token[0] = value as u8;
        return (token, 1);
    }
    let digits = value.to_be_bytes();
    let count = 8 - value.leading_zeros() as usize / 8;
    token[0] = 0x80 | count as u8;
    token[1..=count].copy_from_slice(&digits[8 - count..]);
    (token, 1 + count)
}

/// The head of a byte string, in the shortest form; the bytes follow it. None where no form can say its length.
pub(crate) fn string_head(length: usize) -> Option<Head> {
    let mut head = [0; 9];
    let [.., high, middle, low] = length.to_be_bytes();
    match length {
        0..=0x0F => {
            head[0] = 0xA0 | low;
            Some((head, 1))
        }
        0x10..=0x7FF => {
            head[0] = 0xD0 | middle;
            head[1] = low;
            Some((head, 2))
        }
        0x800..=0xFF_FFFF => {
            head[..4].copy_from_slice(&[0xE2, high, middle, low]);
            Some((head, 4))
        }
        _ => None,
    }
}
