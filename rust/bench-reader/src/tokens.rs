//! Whole payloads made by chance, as their tokens.

use chance::Chance;
use second::requests::{self, built};

pub type Tokens = Vec<Vec<u8>>;

/// How deep values may nest in a call's list, which is the first of 16.
pub const INSIDE: usize = 15;

/// How atoms are written.
#[derive(Clone, Copy)]
pub enum Forms {
    Shortest,
    Any,
}

/// A payload of any kind.
pub fn payload(chance: &mut Chance) -> Tokens {
    match chance.below(16) {
        0 => vec![vec![0xFA]],
        1 => vec![vec![0xFB], integer(chance, Forms::Any, 0)],
        2 => {
            let number = chance.below(2);
            vec![vec![0xFC], integer(chance, Forms::Any, number)]
        }
        // One level too many now and then.
        3 | 4 => {
            let depth = INSIDE - 1 + chance.index(3);
            let values = nested(chance, depth);
            call(chance, Forms::Any, values)
        }
        _ => {
            let count = if chance.one_in(50) { chance.index(400) } else { chance.index(8) };
            let mut values = vec![];
            (0..count).for_each(|_| value(chance, Forms::Any, INSIDE, &mut values));
            call(chance, Forms::Any, values)
        }
    }
}

/// Adds a value in which lists and named values nest to `depth`.
pub fn value(chance: &mut Chance, forms: Forms, depth: usize, tokens: &mut Tokens) {
    match chance.below(if depth == 0 { 8 } else { 12 }) {
        0..=3 => tokens.push(vec![chance.below(0x40) as u8]),
        4 => {
            let number = chance.number() >> chance.below(64);
            tokens.push(integer(chance, forms, number));
        }
        5 | 6 => {
            let count = chance.index(16);
            let content = chance.bytes(count);
            tokens.push(bytes(chance, forms, &content));
        }
        7 => {
            let count = chance.index(40);
            let content = chance.bytes(count);
            tokens.push(bytes(chance, forms, &content));
        }
        8 | 9 => {
            tokens.push(vec![0xF0]);
            (0..chance.below(5)).for_each(|_| value(chance, forms, depth - 1, tokens));
            tokens.push(vec![0xF1]);
        }
        _ => {
            tokens.push(vec![0xF2]);
            let name = chance.below(20);
            tokens.push(integer(chance, forms, name));
            value(chance, forms, depth - 1, tokens);
            tokens.push(vec![0xF3]);
        }
    }
}

/// One value in `depth` lists and names.
fn nested(chance: &mut Chance, depth: usize) -> Tokens {
    let mut tokens = vec![vec![0x01]];
    for _ in 0..depth {
        if chance.one_in(2) {
            tokens.insert(0, vec![0xF0]);
            tokens.push(vec![0xF1]);
        } else {
            tokens.splice(0..0, [vec![0xF2], vec![0x02]]);
            tokens.push(vec![0xF3]);
        }
    }
    tokens
}

fn call(chance: &mut Chance, forms: Forms, values: Tokens) -> Tokens {
    let (object, method) = (chance.bytes(8), chance.bytes(8));
    let mut tokens = vec![vec![0xF8], bytes(chance, forms, &object), bytes(chance, forms, &method), vec![0xF0]];
    tokens.extend(values);
    tokens.extend([vec![0xF1], vec![0xF9], vec![0xF0]]);
    (0..3).for_each(|_| tokens.push(integer(chance, forms, 0)));
    tokens.push(vec![0xF1]);
    tokens
}

fn integer(chance: &mut Chance, forms: Forms, number: u64) -> Vec<u8> {
    if !longer(chance, forms) {
        return built(|tokens| requests::integer(tokens, number));
    }
    let least = (8 - number.leading_zeros() as usize / 8).max(1);
    let count = least + chance.index(9 - least);
    let start = match chance.below(3) {
        0 => vec![0x80 | count as u8],
        1 => vec![0xC0, count as u8],
        _ => vec![0xE0, 0, 0, count as u8],
    };
    [&start[..], &number.to_be_bytes()[8 - count..]].concat()
}

fn bytes(chance: &mut Chance, forms: Forms, content: &[u8]) -> Vec<u8> {
    if !longer(chance, forms) {
        return built(|tokens| requests::bytes(tokens, content));
    }
    let start = if chance.one_in(2) { vec![0xD0, content.len() as u8] } else { vec![0xE2, 0, 0, content.len() as u8] };
    [&start[..], content].concat()
}

fn longer(chance: &mut Chance, forms: Forms) -> bool {
    matches!(forms, Forms::Any) && chance.one_in(4)
}
