//! The readers, each with the same question and the same kind of answer.

use yardstick::numbered::{by_lean, by_obvious, Words};

use crate::ffi;

/// No payload made here has such words, so a word that should not be written shows.
const UNTOUCHED: Words = [0x5A5A_5A5A_5A5A_5A5A; 3];

#[derive(Clone, Copy)]
pub struct Reader {
    pub name: &'static str,
    /// The number of the payload in the bytes from a place on, as [`ffi::read_payload`] lists them.
    pub read: fn(&[u8], usize, &mut Words) -> usize,
}

pub const COUNT: usize = 3;
pub const ALL: [Reader; COUNT] = [
    Reader { name: "obvious", read: by_obvious },
    Reader { name: "lean", read: by_lean },
    Reader { name: "ours", read: ffi::read_payload },
];

#[derive(Clone, Copy, PartialEq, Eq, Debug)]
pub struct Answer {
    pub number: usize,
    pub words: Words,
}

impl Reader {
    pub fn answer(&self, bytes: &[u8], at: usize) -> Answer {
        let mut words = UNTOUCHED;
        Answer { number: (self.read)(bytes, at, &mut words), words }
    }
}

#[cfg(test)]
mod tests {
    use super::*;
    use yardstick::borders;
    use yardstick::numbered::numbered;

    #[test]
    fn borders_are_read_as_they_are() {
        let known = |border: &borders::Border| -> Answer {
            let mut words = UNTOUCHED;
            Answer { number: numbered(border.payload, &mut words), words }
        };
        for border in borders::all() {
            for reader in ALL {
                assert_eq!(reader.answer(&border.bytes, 0), known(&border), "{}: {}", reader.name, border.name);
            }
        }
    }
}
