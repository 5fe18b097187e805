//! Values for a Set's columns, right and wrong, and values that fit nowhere.

use super::objects::{any_pin, Object};
use crate::chance::Chance;
use crate::state::{State, RANGES};
use second::requests::{built, bytes, integer, list, named};

pub fn integer_tokens(value: u64) -> Vec<u8> {
    built(|tokens| integer(tokens, value))
}

pub fn bytes_tokens(value: &[u8]) -> Vec<u8> {
    built(|tokens| bytes(tokens, value))
}

pub fn list_tokens(values: &[Vec<u8>]) -> Vec<u8> {
    built(|tokens| list(tokens, &values.concat()))
}

pub fn named_tokens(name: u64, value: &[u8]) -> Vec<u8> {
    built(|tokens| named(tokens, name, value))
}

/// A value of the right kind for a column that can be set; it may still be out of bounds.
pub fn fitting(chance: &mut Chance, state: &State, object: Object, column: u64) -> Vec<u8> {
    match (object, column) {
        (Object::Pin(_), 3) => bytes_tokens(&any_pin(chance, state)),
        (Object::Range(_), 3) => integer_tokens(near_border(chance, state)),
        (Object::Range(row), 4) => integer_tokens(length(chance, state, state.range(row).0)),
        (Object::Range(_), 9) | (Object::MbrControl, 3) => resets(chance),
        // A row is worth more enabled, and a lock set.
        _ => integer_tokens(chance.of(&[0, 1, 1])),
    }
}

/// Start and length for a range, made to fit together: next to another range, at the disk's end, or over it by one.
pub fn placed(chance: &mut Chance, state: &State) -> (u64, u64) {
    let other = 1 + chance.index(RANGES - 1);
    let (start, length) = state.range(other);
    let any = 1 + chance.below(50_000);
    let size = chance.of(&[any, 1, 2, 100]);
    let over = chance.of(&[0, 0, 0, 0, 1]);
    match chance.below(5) {
        // Right after it.
        0 => ((start + length).saturating_sub(over), size),
        // Right before it.
        1 => (start.saturating_sub(size), size + over),
        2 => (state.n() - size.min(state.n()), size + over),
        // Far from most others.
        _ => (chance.below(state.n()), size),
    }
}

pub fn near_border(chance: &mut Chance, state: &State) -> u64 {
    let border = chance.of(&state.borders());
    chance.of(&[border, border, border.wrapping_sub(1), border.wrapping_add(1)])
}

/// A count of sectors from `start` on: none, few, up to a border or over it by one, or past 64 bits.
pub fn length(chance: &mut Chance, state: &State, start: u64) -> u64 {
    match chance.below(8) {
        0 => 0,
        1 => 1,
        2 => 2,
        3 => chance.of(&[
            u64::MAX,
            u64::MAX - start,
            (u64::MAX - start).wrapping_add(1),
            (u64::MAX - start).wrapping_add(2),
        ]),
        4 => near_border(chance, state).wrapping_sub(start),
        _ => near_border(chance, state).abs_diff(start),
    }
}

/// LockOnReset and DoneOnReset: {0} and {0, 3}, and now and then what is neither.
fn resets(chance: &mut Chance) -> Vec<u8> {
    let held: &[u64] = match chance.below(12) {
        0..=3 => &[0],
        4..=6 => &[0, 3],
        7 => &[3, 0],
        8 => chance.of(&[&[][..], &[3], &[0, 0], &[3, 3]]),
        9 => chance.of(&[&[1][..], &[0, 1], &[0, 3, 0], &[0, 3, 3], &[2, 0]]),
        _ => &[0, 3],
    };
    list_tokens(&held.iter().map(|value| integer_tokens(*value)).collect::<Vec<_>>())
}

/// A value of any kind.
pub fn odd(chance: &mut Chance) -> Vec<u8> {
    match chance.below(12) {
        0 => integer_tokens(chance.below(5)),
        1 => integer_tokens(chance.of(&[2, 63, 64, 255, 256, 1 << 32, u64::MAX])),
        2 => bytes_tokens(&[]),
        3 => bytes_tokens(&[chance.of(&[0, 1])]),
        4 => {
            let count = chance.of(&[7, 8, 9, 15, 16, 32, 33]);
            bytes_tokens(&chance.bytes(count))
        }
        5 => list_tokens(&[]),
        6 => list_tokens(&[integer_tokens(chance.of(&[0, 1, 3]))]),
        7 => list_tokens(&[integer_tokens(0), bytes_tokens(&[3])]),
        8 => named_tokens(chance.below(6), &list_tokens(&[])),
        9 => named_tokens(chance.below(6), &bytes_tokens(&[])),
        10 => [&[0xF2][..], &bytes_tokens(&[chance.below(5) as u8]), &[1, 0xF3]].concat(),
        _ => named_tokens(chance.below(6), &integer_tokens(chance.below(4))),
    }
}

/// Changes the shape of a row of values: one too many, one too few, twice, elsewhere, of another kind.
pub fn misshape(chance: &mut Chance, values: &mut Vec<Vec<u8>>) {
    let at = chance.index(values.len());
    match chance.below(5) {
        0 if !values.is_empty() => drop(values.remove(at)),
        1 if !values.is_empty() => values.insert(at, values[at].clone()),
        2 if !values.is_empty() => {
            let other = chance.index(values.len());
            values.swap(at, other);
        }
        3 if !values.is_empty() => values[at] = odd(chance),
        _ => {
            let place = chance.index(values.len() + 1);
            values.insert(place, odd(chance));
        }
    }
}
