//! Ways to change a payload by chance. Most break it.

use chance::Chance;

use crate::tokens::Tokens;

/// First bytes that stand for something, or for nothing at all.
const LEADS: &[u8] = &[
    0x00, 0x01, 0x3F, 0x40, 0x7F, 0x80, 0x81, 0x88, 0x89, 0x90, 0xA0, 0xA8, 0xB0, 0xC0, 0xC8, 0xCF, 0xD0, 0xD8, 0xDF,
    0xE0, 0xE1, 0xE2, 0xE3, 0xE4, 0xF0, 0xF1, 0xF2, 0xF3, 0xF4, 0xF8, 0xF9, 0xFA, 0xFB, 0xFC, 0xFD, 0xFF,
];

/// One change among the tokens.
pub fn tokens(chance: &mut Chance, tokens: &mut Tokens) {
    let (at, other) = (chance.index(tokens.len()), chance.index(tokens.len()));
    match chance.below(6) {
        0 => drop(tokens.remove(at)),
        1 => tokens.insert(at, tokens[at].clone()),
        2 => tokens.swap(at, other),
        3 => tokens.insert(at, vec![chance.of(LEADS)]),
        4 => tokens[at] = vec![chance.of(LEADS)],
        _ => tokens[at][0] = chance.of(LEADS),
    }
}

/// One change among the bytes.
pub fn bytes(chance: &mut Chance, bytes: &mut Vec<u8>) {
    let at = chance.index(bytes.len());
    match chance.below(6) {
        0 => chance.flip_bit(bytes),
        1 => bytes[at] = chance.of(LEADS),
        2 => bytes.insert(at, chance.of(LEADS)),
        3 => drop(bytes.remove(at)),
        4 => bytes.truncate(at),
        _ => bytes.push(chance.of(LEADS)),
    }
}

/// The tokens as bytes, with empty tokens put before and after some.
pub fn with_empty(chance: &mut Chance, tokens: &Tokens, one_in: u64) -> Vec<u8> {
    let mut bytes = vec![];
    for token in tokens {
        while chance.one_in(one_in) {
            bytes.push(0xFF);
        }
        bytes.extend(token);
    }
    while chance.one_in(one_in) {
        bytes.push(0xFF);
    }
    bytes
}
