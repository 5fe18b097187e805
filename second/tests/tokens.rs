//! Every lead byte, longer forms, FF, depth, and the frame of a payload.

mod common;

use common::Host;
use second::requests;
use second::tokens::{token, Reader, Token, Value, DEPTH_LIMIT};
use second::uid;

/// The outcome of a payload in an open session: true where it was broken and the session closed.
fn broken(payload: &[u8]) -> bool {
    let mut host = Host::new();
    assert_eq!(host.start(&uid::ADMIN_SP, None, None), 0);
    let request = requests::envelope(host.tsn, host.hsn, payload);
    let answer = host.send_raw(&request).unwrap();
    let closed = host.send_raw(&request) == Err(5);
    let close = [
        0xF8, 0xA8, 0, 0, 0, 0, 0, 0, 0, 0xFF, 0xA8, 0, 0, 0, 0, 0, 0, 0xFF, 6, 0xF0, 0x81, 105, 1, 0xF1, 0xF9, 0xF0,
        0, 0, 0, 0xF1,
    ];
    assert_eq!(answer.payload == close, closed && payload != [0xFA]);
    assert_eq!((answer.tsn, answer.hsn) == (0, 0), answer.payload == close);
    // On 0, 0 the same payload is number 6 where it is broken.
    let outside = Host::new().send_raw(&requests::envelope(0, 0, payload));
    if answer.payload == close {
        assert_eq!(outside, Err(6));
    }
    answer.payload == close
}

#[test]
fn lead_bytes() {
    for lead in 0..=0xFFu8 {
        let mut bytes = vec![lead, 0, 0, 2];
        bytes.extend([7; 300]);
        let found = token(&bytes).map(|(_, size)| size);
        let expected = match lead {
            0x00..=0x3F => Some(1),
            0x81..=0x88 | 0xA0..=0xAF => Some(1 + usize::from(lead & 15)),
            0xC0 => None,
            0xD0 => Some(2),
            0xD1 => Some(2 + 256),
            0xE0 | 0xE2 => Some(4 + 2),
            0xF0..=0xF3 | 0xF8..=0xFC => Some(1),
            _ => None,
        };
        assert_eq!(found, expected, "{lead:02X}");
    }
}

#[test]
fn longer_forms() {
    assert_eq!(token(&[0xC0, 1, 5]), Some((Token::Integer(5), 3)));
    assert_eq!(token(&[0xC0, 8, 0, 0, 0, 0, 0, 0, 1, 0]), Some((Token::Integer(256), 10)));
    assert_eq!(token(&[0xC0, 9, 0, 0, 0, 0, 0, 0, 0, 1, 0]), None);
    assert_eq!(token(&[0xE0, 0, 0, 1, 5]), Some((Token::Integer(5), 5)));
    assert_eq!(token(&[0xE0, 0, 0, 0]), None);
    assert_eq!(token(&[0x88, 255, 255, 255, 255, 255, 255, 255, 255]), Some((Token::Integer(u64::MAX), 9)));
    assert_eq!(token(&[0x89, 0, 255, 255, 255, 255, 255, 255, 255, 255]), None);
    assert_eq!(token(&[0xD0, 0]), Some((Token::Bytes(&[]), 2)));
    assert_eq!(token(&[0xE2, 0, 0, 0]), Some((Token::Bytes(&[]), 4)));
    assert_eq!(token(&[0xE2, 0, 0, 2, 1, 2]), Some((Token::Bytes(&[1, 2]), 6)));
    assert_eq!(token(&[0xE2, 0, 0, 3, 1, 2]), None);
    assert_eq!(token(&[0xD0]), None);
    assert_eq!(token(&[0xE2, 0, 0]), None);
    assert_eq!(token(&[]), None);
}

#[test]
fn written_integers() {
    let form = |value| requests::built(|tokens| requests::integer(tokens, value));
    assert_eq!(form(0), [0]);
    assert_eq!(form(63), [63]);
    assert_eq!(form(64), [0x81, 64]);
    assert_eq!(form(255), [0x81, 255]);
    assert_eq!(form(256), [0x82, 1, 0]);
    assert_eq!(form(1 << 32), [0x85, 1, 0, 0, 0, 0]);
    assert_eq!(form(u64::MAX), [0x88, 255, 255, 255, 255, 255, 255, 255, 255]);
    for value in (0..64).map(|shift| u64::MAX >> shift) {
        let written = form(value);
        assert_eq!(token(&written), Some((Token::Integer(value), written.len())));
    }
    for length in [0, 15, 16, 255, 256, 2047, 2048, 70_000] {
        let held = vec![9; length];
        let written = requests::built(|tokens| requests::bytes(tokens, &held));
        assert_eq!(written.len() - length, [1, 2, 4][usize::from(length > 15) + usize::from(length > 2047)]);
        assert_eq!(token(&written), Some((Token::Bytes(&held), written.len())));
    }
}

/// A call whose list nests to `depth`, of lists or of named values.
fn nested(depth: usize, named: bool) -> Vec<u8> {
    let mut inner = vec![];
    let (open, close): (&[u8], u8) = if named { (&[0xF2, 0x01], 0xF3) } else { (&[0xF0], 0xF1) };
    for _ in 1..depth {
        inner.extend(open);
    }
    inner.push(0);
    inner.extend(vec![close; depth - 1]);
    requests::call(&uid::THIS_SP, &uid::AUTHENTICATE, &inner)
}

#[test]
fn depth() {
    for named in [false, true] {
        assert!(!broken(&nested(DEPTH_LIMIT, named)));
        assert!(broken(&nested(DEPTH_LIMIT + 1, named)));
    }
    // The deepest levels may be empty lists.
    let lists = |depth: usize| [vec![0xF0; depth], vec![0xF1; depth]].concat();
    assert!(!broken(&requests::call(&uid::THIS_SP, &uid::GET, &lists(15))));
    assert!(broken(&requests::call(&uid::THIS_SP, &uid::GET, &lists(16))));
}

#[test]
fn empty_tokens_between_all() {
    let mut host = Host::new();
    assert_eq!(host.start(&uid::ADMIN_SP, None, None), 0);
    let plain = requests::get(&uid::C_PIN_MSID, Some(0), None);
    let expected = host.send(&plain).payload;
    // FF before and after every token of the same payload.
    let mut spaced = vec![0xFF];
    let mut rest = &plain[..];
    while let Some((_, size)) = token(rest) {
        spaced.extend(&rest[..size]);
        spaced.extend([0xFF, 0xFF]);
        rest = &rest[size..];
    }
    assert_eq!(host.send(&spaced).payload, expected);
    assert_eq!(host.send(&[0xFF, 0xFB, 0xFF, 0x00, 0xFF]).payload, [0xFB, 0]);
    assert_eq!(host.send(&[0xFF, 0xFC, 0xFF, 0x81, 0x01, 0xFF]).payload, [0xFC, 0]);
    assert_eq!(host.send(&[0xFF, 0xFA, 0xFF]).payload, [0xFA]);
}

#[test]
fn frames() {
    let good = requests::get(&uid::C_PIN_MSID, None, None);
    assert!(!broken(&good));
    for cut in 1..good.len() {
        assert!(broken(&good[..cut]), "{cut}");
    }
    assert!(broken(&[&good[..], &[0x00]].concat()));
    assert!(broken(&[&good[..], &[0x40]].concat()));
    assert!(broken(&[&good[..], &[0xFA]].concat()));
    for (at, byte) in [(good.len() - 2, 1), (good.len() - 4, 0xA0), (good.len() - 5, 0xF2), (good.len() - 6, 0x00)] {
        let mut other = good.clone();
        other[at] = byte;
        assert!(broken(&other));
    }
    // A status list in longer forms.
    let head = &good[..good.len() - 4];
    assert!(!broken(&[head, &[0x81, 0, 0x82, 0, 0, 0xC0, 1, 0, 0xF1]].concat()));
    assert!(broken(&[head, &[0, 0, 0xF1]].concat()));
    assert!(broken(&[head, &[0, 0, 0, 0, 0xF1]].concat()));
    // UIDs of another kind or length.
    let uids = |one: &[u8], other: &[u8]| {
        let list = [0xF0, 0xF1, 0xF9, 0xF0, 0, 0, 0, 0xF1];
        broken(&[&[0xF8], one, other, &list].concat())
    };
    let long = [&[0xD0, 8][..], &uid::GET].concat();
    let short = [&[0xA8][..], &uid::GET].concat();
    assert!(!uids(&short, &long));
    assert!(uids(&[0xA7, 0, 0, 0, 0, 0, 0, 1], &short));
    assert!(uids(&[0x88, 0, 0, 0, 0, 0, 0, 0, 1], &short));
    assert!(uids(&short, &[0x01]));

    for payload in
        [&[0xFF][..], &[0x00], &[0xFB], &[0xFB, 1], &[0xFC, 2], &[0xFB, 0xA0], &[0xFC], &[0xFA, 0], &[0xF0, 0xF1]]
    {
        assert!(broken(payload), "{payload:02X?}");
    }
    // Lists and names that do not close, names that are no atoms, tokens that are no values.
    for inner in [
        &[0xF0][..],
        &[0xF1],
        &[0xF2, 0x01, 0xF3],
        &[0xF2, 0x01, 0x02, 0x03, 0xF3],
        &[0xF2, 0xF0, 0xF1, 0x02, 0xF3],
        &[0xF2, 0x01, 0x02, 0xF1],
        &[0xF3],
        &[0xF8],
        &[0xF9],
        &[0xFB],
        &[0xF0, 0xFA, 0xF1],
    ] {
        assert!(broken(&requests::call(&uid::THIS_SP, &uid::GET, inner)), "{inner:02X?}");
    }
    // Well formed, though no method takes them: a name of bytes, a name of a name.
    for inner in [&[0xF2, 0xA1, 0x01, 0x02, 0xF3][..], &[0xF2, 0x01, 0xF2, 0x01, 0xF0, 0xF1, 0xF3, 0xF3]] {
        let call = requests::call(&uid::C_PIN_MSID, &uid::GET, inner);
        assert!(!broken(&call));
    }
}

#[test]
fn values_are_walked() {
    let mut reader = Reader::new(&[0xF0, 0x05, 0xFF, 0xA1, 0x09, 0xF2, 0x01, 0xF0, 0xFF, 0xF1, 0xFF, 0xF3, 0xFF, 0xF1]);
    let Some(Value::List(list)) = reader.value(DEPTH_LIMIT) else { panic!() };
    assert!(reader.at_end());
    let values: Vec<_> = list.collect();
    assert_eq!(values.len(), 3);
    assert_eq!(values[..2], [Value::Integer(5), Value::Bytes(&[9])]);
    let Value::Named(_, held) = values[2] else { panic!() };
    assert!(matches!(held.only(), Some(Value::List(empty)) if empty.is_empty()));
}
