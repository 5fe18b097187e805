//! Ways to change a whole request: its headers, its pad and its length.

use super::Damage;
use crate::big_endian::{put_word, word};
use crate::chance::Chance;

pub(super) const TABLE: &[Damage] = &[
    Damage { name: "envelope: ComID", apply: |chance, request| chance.flip_bit(&mut request[4..6]) },
    Damage { name: "envelope: extension", apply: |chance, request| chance.flip_bit(&mut request[6..8]) },
    Damage { name: "envelope: Kind", apply: |chance, request| chance.flip_bit(&mut request[50..52]) },
    Damage { name: "envelope: ignored fields", apply: ignored_fields },
    Damage { name: "envelope: one length", apply: one_length },
    Damage { name: "envelope: lengths in step", apply: lengths_in_step },
    Damage { name: "envelope: payload into pad", apply: payload_into_pad },
    Damage { name: "envelope: no payload", apply: no_payload },
    Damage { name: "envelope: pad not zero", apply: pad_not_zero },
    Damage { name: "envelope: bit flipped", apply: |chance, request| chance.flip_bit(&mut request[..HEADERS]) },
    Damage { name: "envelope: TSN and HSN", apply: session_numbers },
    Damage { name: "request: cut short", apply: cut },
    Damage { name: "request: bytes beyond", apply: bytes_beyond },
    Damage { name: "request: filled up to the limit", apply: filled_up },
    Damage { name: "request: any bytes", apply: any_bytes },
];

const HEADERS: usize = 56;
const LIMIT: usize = 2048;
/// The lengths of ComPacket, Packet and Subpacket.
const LENGTHS: [usize; 3] = [16, 40, 52];

/// Reserved bytes, OutstandingData, MinTransfer, sequence, AckType and acknowledgement.
fn ignored_fields(chance: &mut Chance, request: &mut Vec<u8>) {
    for field in [0..4, 8..16, 28..40, 44..50] {
        request[field].iter_mut().for_each(|byte| *byte = chance.byte());
    }
}

fn one_length(chance: &mut Chance, request: &mut Vec<u8>) {
    let at = chance.of(&LENGTHS);
    let length = word(request, at);
    let any = chance.number() as u32;
    let other = chance.of(&[
        any,
        0,
        1,
        length.wrapping_sub(1),
        length + 1,
        length.wrapping_sub(4),
        length + 4,
        length | 1 << 31,
        // Sums with this one wrap in 32 bits.
        u32::MAX - 19,
        u32::MAX - 23,
        u32::MAX,
    ]);
    put_word(request, at, other);
}

/// All three changed by the same amount: the sums hold, unless the pad is wrong or bytes are missing.
fn lengths_in_step(chance: &mut Chance, request: &mut Vec<u8>) {
    let by = chance.of(&[1, 2, 3, 4, 4, 8, 1u32.wrapping_neg(), 4u32.wrapping_neg(), 8u32.wrapping_neg()]);
    for at in LENGTHS {
        let length = word(request, at);
        put_word(request, at, length.wrapping_add(by));
    }
    if chance.one_in(2) {
        request.resize(request.len() + 8, 0);
    }
}

/// A payload one to three bytes shorter or longer within the same padded length.
fn payload_into_pad(chance: &mut Chance, request: &mut Vec<u8>) {
    let payload = word(request, LENGTHS[2]);
    let padded = payload.next_multiple_of(4);
    put_word(request, LENGTHS[2], padded - chance.below(4) as u32);
    if chance.one_in(2) && payload < padded {
        // What was pad is read as empty tokens now.
        let pad = HEADERS + payload as usize..HEADERS + padded as usize;
        request[pad].fill(0xFF);
    }
}

fn no_payload(_: &mut Chance, request: &mut Vec<u8>) {
    request.truncate(HEADERS);
    for (at, length) in LENGTHS.into_iter().zip([36, 12, 0]) {
        put_word(request, at, length);
    }
}

fn pad_not_zero(chance: &mut Chance, request: &mut Vec<u8>) {
    let payload_end = HEADERS + word(request, LENGTHS[2]) as usize;
    request[payload_end..].iter_mut().for_each(|byte| *byte = chance.byte());
}

fn session_numbers(chance: &mut Chance, request: &mut Vec<u8>) {
    let (tsn, hsn) = (word(request, 20), word(request, 24));
    let any = (chance.number() as u32, chance.number() as u32);
    let (tsn, hsn) = chance.of(&[
        any,
        (hsn, tsn),
        (tsn.wrapping_add(1), hsn),
        (tsn, hsn.wrapping_add(1)),
        (0, hsn),
        (tsn, 0),
        (0, 0),
    ]);
    put_word(request, 20, tsn);
    put_word(request, 24, hsn);
}

fn cut(chance: &mut Chance, request: &mut Vec<u8>) {
    let any = chance.index(request.len());
    request.truncate(chance.of(&[any, 0, HEADERS - 1, HEADERS, request.len() - 1]));
}

fn bytes_beyond(chance: &mut Chance, request: &mut Vec<u8>) {
    let most = LIMIT.saturating_sub(request.len());
    let any = chance.index(most + 1);
    let extra = chance.of(&[any, 1, most, most, most + 1]);
    request.extend(chance.bytes(extra));
}

/// Empty tokens after the payload until it is as long as it may be, or one word more.
fn filled_up(chance: &mut Chance, request: &mut Vec<u8>) {
    let payload = word(request, LENGTHS[2]) as usize;
    let length = chance.of(&[LIMIT, LIMIT, LIMIT - 4, LIMIT + 4]) - HEADERS;
    if payload < length {
        request.truncate(HEADERS + payload);
        request.resize(HEADERS + length, 0xFF);
        let length = length as u32;
        for (at, length) in LENGTHS.into_iter().zip([36 + length, 12 + length, length]) {
            put_word(request, at, length);
        }
    }
}

fn any_bytes(chance: &mut Chance, request: &mut Vec<u8>) {
    let any = chance.index(LIMIT + 2);
    let count = chance.of(&[any, 0, 1, HEADERS, LIMIT, LIMIT + 1]);
    *request = chance.bytes(count);
}
