//! Ways to change a payload: some break it, some only write it otherwise.

use super::values::{bytes_tokens, integer_tokens, list_tokens, named_tokens};
use super::Damage;
use crate::chance::Chance;
use second::tokens::{self, Token};

pub(super) const TABLE: &[Damage] = &[
    Damage { name: "payload: bit flipped", apply: |chance, payload| chance.flip_bit(payload) },
    Damage { name: "payload: byte changed", apply: change_byte },
    Damage { name: "payload: byte inserted", apply: insert_byte },
    Damage { name: "payload: byte removed", apply: remove_byte },
    Damage { name: "payload: cut short", apply: cut },
    Damage { name: "payload: something follows", apply: follow },
    Damage { name: "payload: any bytes", apply: any_bytes },
    Damage { name: "token: removed", apply: remove_token },
    Damage { name: "token: twice", apply: double_token },
    Damage { name: "token: two swapped", apply: swap_tokens },
    Damage { name: "token: stray", apply: stray_token },
    Damage { name: "token: FF inserted", apply: insert_empty },
    Damage { name: "token: FF around each", apply: empty_everywhere },
    Damage { name: "atom: longer form", apply: longer_form },
    Damage { name: "atom: all in longer forms", apply: longer_forms },
    Damage { name: "atom: integer of 0 or over 8 bytes", apply: integer_size },
    Damage { name: "atom: S set", apply: signed },
    Damage { name: "atom: other kind", apply: other_kind },
    Damage { name: "nesting: 15 to 17", apply: nest },
    Damage { name: "status list: changed", apply: status_list },
    Damage { name: "call: UID of other length", apply: uid_length },
    Damage { name: "transaction: other number", apply: transaction_number },
];

/// First bytes that stand for something, or for nothing at all.
pub(crate) const LEADS: &[u8] = &[
    0x00, 0x01, 0x3F, 0x40, 0x7F, 0x80, 0x81, 0x88, 0x89, 0x90, 0xA0, 0xA8, 0xB0, 0xC0, 0xC8, 0xD0, 0xD8, 0xE0, 0xE1,
    0xE2, 0xE3, 0xE4, 0xEF, 0xF0, 0xF1, 0xF2, 0xF3, 0xF4, 0xF7, 0xF8, 0xF9, 0xFA, 0xFB, 0xFC, 0xFD, 0xFE, 0xFF,
];

/// The tokens of a payload; what cannot be read stays in one piece at the end.
fn split(payload: &[u8]) -> Vec<Vec<u8>> {
    let mut pieces = vec![];
    let mut rest = payload;
    while let Some((_, size)) = tokens::token(rest) {
        let (token, after) = rest.split_at(size);
        pieces.push(token.to_vec());
        rest = after;
    }
    if !rest.is_empty() {
        pieces.push(rest.to_vec());
    }
    pieces
}

/// Changes the tokens of a payload.
fn on_tokens(payload: &mut Vec<u8>, change: impl FnOnce(&mut Vec<Vec<u8>>)) {
    let mut pieces = split(payload);
    change(&mut pieces);
    *payload = pieces.concat();
}

fn is_atom(token: &[u8]) -> bool {
    token[0] < 0xF0
}

/// Changes one atom of a payload, where it has any.
fn on_atom(chance: &mut Chance, payload: &mut Vec<u8>, change: impl FnOnce(&mut Chance, &mut Vec<u8>)) {
    on_tokens(payload, |pieces| {
        let atoms: Vec<usize> = (0..pieces.len()).filter(|at| is_atom(&pieces[*at])).collect();
        if !atoms.is_empty() {
            let at = chance.of(&atoms);
            change(chance, &mut pieces[at]);
        }
    });
}

fn change_byte(chance: &mut Chance, payload: &mut Vec<u8>) {
    let at = chance.index(payload.len());
    payload[at] = chance.of(LEADS);
}

fn insert_byte(chance: &mut Chance, payload: &mut Vec<u8>) {
    let at = chance.index(payload.len() + 1);
    payload.insert(at, chance.of(LEADS));
}

/// An envelope without payload is broken by itself, so one byte always stays.
fn remove_byte(chance: &mut Chance, payload: &mut Vec<u8>) {
    if payload.len() > 1 {
        payload.remove(chance.index(payload.len()));
    }
}

fn cut(chance: &mut Chance, payload: &mut Vec<u8>) {
    payload.truncate(1 + chance.index(payload.len()));
}

fn follow(chance: &mut Chance, payload: &mut Vec<u8>) {
    let extra = match chance.below(4) {
        0 => payload.clone(),
        1 => vec![0xFF, 0xFF, 0x00],
        2 => vec![0xFA],
        _ => vec![chance.of(LEADS)],
    };
    payload.extend(extra);
}

fn any_bytes(chance: &mut Chance, payload: &mut Vec<u8>) {
    let count = 1 + chance.index(60);
    *payload = if chance.one_in(2) { chance.bytes(count) } else { (0..count).map(|_| chance.of(LEADS)).collect() };
}

fn remove_token(chance: &mut Chance, payload: &mut Vec<u8>) {
    on_tokens(payload, |pieces| {
        if pieces.len() > 1 {
            pieces.remove(chance.index(pieces.len()));
        }
    });
}

fn double_token(chance: &mut Chance, payload: &mut Vec<u8>) {
    on_tokens(payload, |pieces| {
        let at = chance.index(pieces.len());
        pieces.insert(at, pieces[at].clone());
    });
}

fn swap_tokens(chance: &mut Chance, payload: &mut Vec<u8>) {
    on_tokens(payload, |pieces| {
        let (one, other) = (chance.index(pieces.len()), chance.index(pieces.len()));
        pieces.swap(one, other);
    });
}

fn stray_token(chance: &mut Chance, payload: &mut Vec<u8>) {
    on_tokens(payload, |pieces| {
        let at = chance.index(pieces.len() + 1);
        pieces.insert(at, vec![chance.of(LEADS)]);
    });
}

/// FF between tokens changes nothing.
fn insert_empty(chance: &mut Chance, payload: &mut Vec<u8>) {
    on_tokens(payload, |pieces| {
        for _ in 0..1 + chance.below(4) {
            let at = chance.index(pieces.len() + 1);
            pieces.insert(at, vec![0xFF; 1 + chance.index(3)]);
        }
    });
}

fn empty_everywhere(_: &mut Chance, payload: &mut Vec<u8>) {
    on_tokens(payload, |pieces| {
        pieces.iter_mut().for_each(|token| token.push(0xFF));
        pieces.insert(0, vec![0xFF]);
    });
}

/// The same atom in a form that is longer than it need be.
fn lengthen(chance: &mut Chance, atom: &mut Vec<u8>) {
    let (content, is_bytes) = match tokens::token(atom) {
        Some((Token::Bytes(bytes), _)) => (bytes.to_vec(), true),
        Some((Token::Integer(value), _)) => {
            let digits = value.to_be_bytes();
            let shortest = (8 - value.leading_zeros() as usize / 8).max(1);
            let count = shortest + chance.index(9 - shortest);
            (digits[8 - count..].to_vec(), false)
        }
        _ => return,
    };
    *atom = with_head(chance.below(3), is_bytes, &content);
}

/// An atom in short, medium or long form (0, 1, 2), in the next longer one where its length does not fit.
fn with_head(form: u64, is_bytes: bool, content: &[u8]) -> Vec<u8> {
    let size = content.len();
    let [.., high, middle, low] = size.to_be_bytes();
    let mark = |bit: u8| if is_bytes { bit } else { 0 };
    let head = match form {
        0 if size < 0x10 => vec![0x80 | mark(0x20) | low],
        0 | 1 if size < 0x800 => vec![0xC0 | mark(0x10) | middle, low],
        _ => vec![0xE0 | mark(0x02), high, middle, low],
    };
    [head.as_slice(), content].concat()
}

fn longer_form(chance: &mut Chance, payload: &mut Vec<u8>) {
    on_atom(chance, payload, lengthen);
}

fn longer_forms(chance: &mut Chance, payload: &mut Vec<u8>) {
    on_tokens(payload, |pieces| {
        pieces.iter_mut().filter(|token| is_atom(token)).for_each(|atom| lengthen(chance, atom))
    });
}

fn integer_size(chance: &mut Chance, payload: &mut Vec<u8>) {
    on_atom(chance, payload, |chance, atom| {
        let count = chance.of(&[0, 0, 9, 9, 10, 16, 300]);
        let mut digits = vec![0; count];
        if chance.one_in(2) {
            digits.iter_mut().skip(1).for_each(|digit| *digit = 1);
        }
        *atom = with_head(chance.below(3), false, &digits);
    });
}

fn signed(chance: &mut Chance, payload: &mut Vec<u8>) {
    on_atom(chance, payload, |chance, atom| {
        // Most integers are tiny: so that S of the other forms is tried too.
        if chance.one_in(2) {
            lengthen(chance, atom);
        }
        atom[0] |= match atom[0] {
            0x00..=0x3F => 0x40,
            0x80..=0xBF => 0x10,
            0xC0..=0xDF => 0x08,
            _ => 0x01,
        };
    });
}

/// An integer for bytes, and the other way.
fn other_kind(chance: &mut Chance, payload: &mut Vec<u8>) {
    on_atom(chance, payload, |_, atom| {
        *atom = match tokens::token(atom) {
            Some((Token::Integer(value), _)) if value < 0x100 => bytes_tokens(&[value as u8]),
            Some((Token::Integer(value), _)) => bytes_tokens(&value.to_be_bytes()),
            Some((Token::Bytes(bytes), _)) => {
                integer_tokens(bytes.iter().take(8).fold(0, |sum, byte| sum << 8 | u64::from(*byte)))
            }
            _ => return,
        }
    });
}

/// A value that nests lists and named values so deep that the call's own list makes 15 to 17, put somewhere among the parameters.
fn nest(chance: &mut Chance, payload: &mut Vec<u8>) {
    let mut value = if chance.one_in(2) { list_tokens(&[]) } else { list_tokens(&[integer_tokens(0)]) };
    // Lists alone, named values alone, or both.
    let names_of_4 = chance.of(&[0, 2, 4]);
    for _ in 0..chance.of(&[12, 13, 13, 14, 14, 15]) {
        value = if chance.below(4) >= names_of_4 { list_tokens(&[value]) } else { named_tokens(1, &value) };
    }
    on_tokens(payload, |pieces| {
        let open = pieces.iter().position(|token| token[0] == 0xF0);
        let close = pieces.iter().rposition(|token| token[0] == 0xF9);
        if let (Some(open), Some(close)) = (open, close) {
            // After an F0 or a value; within a named value it breaks the payload.
            let at = open + 1 + chance.index(close.saturating_sub(open + 1));
            pieces.insert(chance.of(&[open + 1, at]), value);
        }
    });
}

fn status_list(chance: &mut Chance, payload: &mut Vec<u8>) {
    on_tokens(payload, |pieces| {
        let Some(end_of_data) = pieces.iter().rposition(|token| token[0] == 0xF9) else {
            return;
        };
        let first = end_of_data + 2;
        let at = first + chance.index(3);
        if at >= pieces.len() {
            return;
        }
        match chance.below(6) {
            0 => pieces[at] = vec![0x01],
            1 => pieces[at] = vec![0xA0],
            2 => drop(pieces.remove(at)),
            3 => pieces.insert(at, vec![0x00]),
            4 => pieces[at] = vec![0xF0, 0xF1],
            // Zero all the same.
            _ => pieces[at] = with_head(chance.below(3), false, &vec![0; 1 + chance.index(8)]),
        }
    });
}

fn uid_length(chance: &mut Chance, payload: &mut Vec<u8>) {
    on_tokens(payload, |pieces| {
        let at = 1 + chance.index(2);
        if at < pieces.len() {
            pieces[at] = match chance.below(3) {
                0 => bytes_tokens(&chance.bytes(7)),
                1 => [&[0xA9][..], &pieces[at][1..], &[0]].concat(),
                _ => integer_tokens(chance.number()),
            };
        }
    });
}

/// FB and FC with any number after them, in any form, or none.
fn transaction_number(chance: &mut Chance, payload: &mut Vec<u8>) {
    *payload = vec![chance.of(&[0xFB, 0xFC])];
    match chance.below(8) {
        0 => (),
        1 => payload.extend(chance.of(&[[0x02], [0x3F], [0x40]])),
        2 => payload.extend([0xA1, 0x00]),
        3 => payload.extend([0xF0, 0x00, 0xF1]),
        _ => {
            let value = chance.of(&[0, 1]);
            let mut digits = vec![0; chance.index(8)];
            digits.push(value);
            payload.extend(with_head(chance.below(3), false, &digits));
        }
    }
}
