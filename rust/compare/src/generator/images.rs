//! Images to load: other sound records, one for each clause of soundness that is broken, and bytes that are no image.

use super::{Damage, AS_IT_IS};
use crate::big_endian::{long, put_long, put_word};
use crate::chance::Chance;
use crate::state::{place, IMAGE_LENGTH, PIN_ROWS, RANGES};

/// Sound records that a history would hardly get to.
pub(super) const SOUND: &[Damage] = &[
    Damage { name: AS_IT_IS, apply: |_, _| () },
    Damage { name: "image: last TSN next", apply: |_, image| put_word(image, place::NEXT_TSN, u32::MAX) },
    Damage { name: "image: other cells", apply: other_cells },
    Damage { name: "image: an authority proved", apply: open_proved_session },
];

/// One broken clause each.
pub(super) const UNSOUND: &[Damage] = &[
    Damage { name: "unsound: N too small", apply: |_, image| put_long(image, place::N, 262_143) },
    Damage { name: "unsound: N too large", apply: |_, image| put_long(image, place::N, (1 << 40) + 1) },
    Damage { name: "unsound: range past N", apply: |chance, image| range_past_n(chance, image, place::TABLES) },
    Damage { name: "unsound: ranges overlap", apply: |chance, image| overlap(chance, image, place::TABLES) },
    Damage { name: "unsound: global row placed", apply: |chance, image| global_placed(chance, image, place::TABLES) },
    Damage { name: "unsound: SID disabled", apply: |_, image| image[place::TABLES + place::ENABLED] = 0 },
    Damage { name: "unsound: Tries above 5", apply: tries_above_5 },
    Damage { name: "unsound: next TSN 0", apply: |_, image| put_word(image, place::NEXT_TSN, 0) },
    Damage { name: "unsound: session with TSN 0", apply: session_without_tsn },
    Damage { name: "unsound: session to inactive SP", apply: session_to_inactive },
    Damage { name: "unsound: unknown authority proved", apply: unknown_proved },
    Damage { name: "unsound: cells of a closed session", apply: closed_session_cells },
    Damage { name: "unsound: transaction without session", apply: transaction_without_session },
    Damage { name: "unsound: cells of a closed transaction", apply: closed_transaction_cells },
    Damage { name: "unsound: PIN over 32 bytes", apply: |chance, image| pin_too_long(chance, image, place::PINS) },
    Damage { name: "unsound: bytes past a PIN", apply: |chance, image| bytes_past_pin(chance, image, place::PINS) },
    Damage { name: "unsound: copy: range past N", apply: |chance, image| in_copy(chance, image, range_past_n) },
    Damage { name: "unsound: copy: ranges overlap", apply: |chance, image| in_copy(chance, image, overlap) },
    Damage { name: "unsound: copy: global row placed", apply: |chance, image| in_copy(chance, image, global_placed) },
    Damage { name: "unsound: copy: SID disabled", apply: copy_without_sid },
    Damage { name: "unsound: copy: SP inactive", apply: copy_inactive },
    Damage {
        name: "unsound: copy: PIN over 32 bytes",
        apply: |chance, image| in_copied_pins(chance, image, pin_too_long),
    },
    Damage {
        name: "unsound: copy: bytes past a PIN",
        apply: |chance, image| in_copied_pins(chance, image, bytes_past_pin),
    },
    Damage { name: "no image: version", apply: |chance, image| image[place::VERSION] = chance.of(&[0, 2, 0xFF]) },
    Damage {
        name: "no image: count of ranges",
        apply: |chance, image| image[place::RANGE_COUNT] = chance.of(&[3, 5, 0]),
    },
    Damage {
        name: "no image: count of users",
        apply: |chance, image| image[place::USER_COUNT] = chance.of(&[7, 9, 0]),
    },
    Damage { name: "no image: flag of 2", apply: flag_of_2 },
    Damage { name: "no image: length", apply: other_length },
];

/// Bytes changed anywhere: the record may be sound or not, or none.
pub(super) const ANY: &[Damage] = &[
    Damage { name: "image: bit flipped", apply: |chance, image| chance.flip_bit(image) },
    Damage { name: "image: byte changed", apply: change_byte },
];

fn n(image: &[u8]) -> u64 {
    long(image, place::N)
}

fn range_at(tables: usize, row: usize) -> usize {
    tables + place::RANGES + row * place::RANGE_SIZE
}

fn place_range(image: &mut [u8], tables: usize, row: usize, start: u64, length: u64) {
    put_long(image, range_at(tables, row), start);
    put_long(image, range_at(tables, row) + 8, length);
}

/// Closes session and transaction, so that the clauses about them can be set up by hand.
fn close(image: &mut [u8]) {
    image[place::SESSION..][..place::SESSION_SIZE].fill(0);
    image[place::TRANSACTION] = 0;
    image[place::TABLES_BEFORE..][..place::TABLES_SIZE].fill(0);
    image[place::PINS_BEFORE..][..place::PINS_SIZE].fill(0);
}

fn open(chance: &mut Chance, image: &mut [u8], locking: bool) {
    close(image);
    image[place::SESSION] = 1;
    image[place::SESSION_LOCKING] = u8::from(locking);
    put_word(image, place::SESSION_TSN, 1 + chance.below(9) as u32);
    put_word(image, place::SESSION_HSN, chance.number() as u32);
    if locking {
        image[place::TABLES + place::ACTIVE] = 1;
    }
}

fn begin(image: &mut [u8]) {
    image[place::TRANSACTION] = 1;
    image.copy_within(place::TABLES..place::TABLES + place::TABLES_SIZE, place::TABLES_BEFORE);
    image.copy_within(place::PINS..place::PINS + place::PINS_SIZE, place::PINS_BEFORE);
}

/// Every flag and count that may be either is, ranges far apart; in half of them a session with a transaction is open.
fn other_cells(chance: &mut Chance, image: &mut Vec<u8>) {
    close(image);
    let n = n(image);
    image[place::TABLES + place::ACTIVE] = chance.of(&[0, 1, 1]);
    for row in 0..RANGES {
        if row > 0 {
            let quarter = n / 4;
            place_range(
                image,
                place::TABLES,
                row,
                quarter * (row as u64 - 1),
                chance.of(&[0, 1, quarter - 1, quarter]),
            );
        }
        let flags = range_at(place::TABLES, row) + place::RANGE_FLAGS;
        image[flags..flags + 5].iter_mut().for_each(|flag| *flag = chance.of(&[0, 1]));
    }
    let last_flags = place::TABLES + place::MBR..place::TABLES + place::TABLES_SIZE;
    image[last_flags].iter_mut().for_each(|flag| *flag = chance.of(&[0, 1]));
    image[place::TABLES + place::ENABLED] = 1;
    image[place::TRIES..][..PIN_ROWS].iter_mut().for_each(|tries| *tries = chance.below(6) as u8);
    if chance.one_in(2) {
        open_proved_session(chance, image);
        begin(image);
    }
}

/// A session in which some of the authorities that its SP knows are proved.
fn open_proved_session(chance: &mut Chance, image: &mut Vec<u8>) {
    let locking = !chance.one_in(3);
    open(chance, image, locking);
    for row in 0..PIN_ROWS {
        image[place::PROVED + row] = u8::from((row == 0) != locking && chance.one_in(2));
    }
}

fn range_past_n(chance: &mut Chance, image: &mut [u8], tables: usize) {
    let n = n(image);
    let (start, length) = chance.of(&[
        (n, 1),
        (n + 1, 0),
        (n - 1, 2),
        (0, n + 1),
        (u64::MAX, 1),
        (u64::MAX, 2),
        (1, u64::MAX),
        (u64::MAX, 0),
    ]);
    place_range(image, tables, 1 + chance.index(RANGES - 1), start, length);
}

fn overlap(chance: &mut Chance, image: &mut [u8], tables: usize) {
    let one = 1 + chance.index(RANGES - 1);
    let other = if one == RANGES - 1 { 1 } else { one + 1 };
    let (start, length) = chance.of(&[(1_000, 100), (1_099, 1), (900, 101), (1_050, 1), (999, 500)]);
    place_range(image, tables, one, 1_000, 100);
    place_range(image, tables, other, start, length);
}

fn global_placed(chance: &mut Chance, image: &mut [u8], tables: usize) {
    let (start, length) = chance.of(&[(0, 1), (1, 0), (0, n(image))]);
    place_range(image, tables, 0, start, length);
}

fn tries_above_5(chance: &mut Chance, image: &mut Vec<u8>) {
    image[place::TRIES + chance.index(PIN_ROWS)] = chance.of(&[6, 7, 0x80, 0xFF]);
}

fn session_without_tsn(chance: &mut Chance, image: &mut Vec<u8>) {
    open(chance, image, false);
    put_word(image, place::SESSION_TSN, 0);
}

fn session_to_inactive(chance: &mut Chance, image: &mut Vec<u8>) {
    open(chance, image, true);
    image[place::TABLES + place::ACTIVE] = 0;
}

fn unknown_proved(chance: &mut Chance, image: &mut Vec<u8>) {
    let locking = chance.one_in(2);
    open(chance, image, locking);
    let row = if locking { 0 } else { 1 + chance.index(PIN_ROWS - 1) };
    image[place::PROVED + row] = 1;
}

fn closed_session_cells(chance: &mut Chance, image: &mut Vec<u8>) {
    close(image);
    image[place::SESSION + 1 + chance.index(place::SESSION_SIZE - 1)] = 1;
}

fn transaction_without_session(_: &mut Chance, image: &mut Vec<u8>) {
    close(image);
    begin(image);
}

fn closed_transaction_cells(chance: &mut Chance, image: &mut Vec<u8>) {
    close(image);
    let at = match chance.below(2) {
        0 => place::TABLES_BEFORE + chance.index(place::TABLES_SIZE),
        _ => place::PINS_BEFORE + chance.index(place::PINS_SIZE),
    };
    image[at] = 1;
}

fn pin_too_long(chance: &mut Chance, image: &mut [u8], pins: usize) {
    image[pins + chance.index(PIN_ROWS) * place::PIN_SIZE] = chance.of(&[33, 34, 0x80, 0xFF]);
}

fn bytes_past_pin(chance: &mut Chance, image: &mut [u8], pins: usize) {
    let at = pins + chance.index(PIN_ROWS) * place::PIN_SIZE;
    let length = chance.index(place::PIN_SIZE - 1);
    image[at] = length as u8;
    let past = at + 1 + length + chance.index(place::PIN_SIZE - 1 - length);
    image[past] = 1;
}

/// Breaks the tables from before a transaction, which is sound but for them.
fn in_copy(chance: &mut Chance, image: &mut [u8], break_tables: fn(&mut Chance, &mut [u8], usize)) {
    open(chance, image, false);
    begin(image);
    break_tables(chance, image, place::TABLES_BEFORE);
}

fn in_copied_pins(chance: &mut Chance, image: &mut [u8], break_pins: fn(&mut Chance, &mut [u8], usize)) {
    open(chance, image, false);
    begin(image);
    break_pins(chance, image, place::PINS_BEFORE);
}

fn copy_without_sid(chance: &mut Chance, image: &mut Vec<u8>) {
    open(chance, image, false);
    begin(image);
    image[place::TABLES_BEFORE + place::ENABLED] = 0;
}

fn copy_inactive(chance: &mut Chance, image: &mut Vec<u8>) {
    open(chance, image, true);
    begin(image);
    image[place::TABLES_BEFORE + place::ACTIVE] = 0;
}

fn flag_of_2(chance: &mut Chance, image: &mut Vec<u8>) {
    let tables = chance.of(&[place::TABLES, place::TABLES_BEFORE]);
    let range_flag = range_at(tables, chance.index(RANGES)) + place::RANGE_FLAGS + chance.index(5);
    let last_flag = tables + place::MBR + chance.index(place::TABLES_SIZE - place::MBR);
    let proved = place::PROVED + chance.index(PIN_ROWS);
    let active = tables + place::ACTIVE;
    let at =
        chance.of(&[active, range_flag, last_flag, place::SESSION, place::SESSION_LOCKING, proved, place::TRANSACTION]);
    image[at] = chance.of(&[2, 0x80, 0xFF]);
}

fn other_length(chance: &mut Chance, image: &mut Vec<u8>) {
    let any = chance.index(IMAGE_LENGTH);
    let other = chance.of(&[any, 0, 1, IMAGE_LENGTH - 1, IMAGE_LENGTH + 1, 2 * IMAGE_LENGTH]);
    image.resize(other, 0);
}

fn change_byte(chance: &mut Chance, image: &mut Vec<u8>) {
    let at = chance.index(image.len());
    let any = chance.byte();
    image[at] = chance.of(&[any, 0, 1, 2, 0x80, 0xFF]);
}
