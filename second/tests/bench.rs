//! Document 01's bench figures.

mod common;

use common::{Host, HSN, MSID, N};
use second::requests;
use second::tokens::{token, Token};
use second::uid;
use second::{Card, Ruling};

#[test]
fn tokens() {
    assert_eq!(token(&[0x3F]), Some((Token::Integer(63), 1)));
    assert_eq!(token(&[0x40]), None);
    assert_eq!(token(&[0x81, 0x40]), Some((Token::Integer(64), 2)));
    assert_eq!(token(&[0x81, 0x05]), Some((Token::Integer(5), 2)));
    assert_eq!(token(&[0x80]), None);
    assert_eq!(token(&[0xA0]), Some((Token::Bytes(&[]), 1)));
    let written = requests::built(|tokens| requests::bytes(tokens, &MSID));
    assert_eq!(written[..2], [0xD0, 0x20]);
    assert_eq!(written[2..], MSID);
}

#[test]
fn ranges() {
    let mut host = Host::admin1();
    assert_eq!(host.set(&uid::range(1), &[(3, 1_000), (4, 100)]), 0);
    let place = |start, length| {
        let mut host = Host { card: host.card.clone(), ..host };
        host.set(&uid::range(2), &[(3, start), (4, length)])
    };
    assert_eq!(place(1_100, 1), 0);
    assert_eq!(place(1_099, 1), 0x0C);
    assert_eq!(place(1_050, 0), 0);
    assert_eq!(place(999_999, 1), 0);
    assert_eq!(place(1_000_000, 1), 0x0C);
    assert_eq!(place(u64::MAX, 2), 0x0C);
    // Besides: the other side of range 1, around it, and the ends of an empty range.
    assert_eq!(place(999, 1), 0);
    assert_eq!(place(999, 2), 0x0C);
    assert_eq!(place(0, N), 0x0C);
    assert_eq!(place(1_000_000, 0), 0);
    assert_eq!(place(1_000_001, 0), 0x0C);
}

#[test]
fn shadow() {
    let mut host = Host::admin1();
    assert_eq!(host.set(&uid::MBR_CONTROL, &[(1, 1)]), 0);
    assert_eq!(host.card.media(false, 262_143, 1), Ruling::Shadow);
    assert_eq!(host.card.media(false, 262_143, 2), Ruling::Refused);
    assert_eq!(host.card.media(false, 262_144, 2), Ruling::Disk);
    assert_eq!(host.card.media(true, 262_143, 1), Ruling::Refused);
    assert_eq!(host.card.media(true, 262_144, 1), Ruling::Disk);
    assert_eq!(host.set(&uid::MBR_CONTROL, &[(2, 1)]), 0);
    assert_eq!(host.card.media(false, 262_143, 2), Ruling::Disk);
}

#[test]
fn start_of_session() {
    let mut card = Card::factory(N, &MSID).unwrap();
    let payload = requests::start_session(105, &uid::ADMIN_SP, true, None, None);
    assert_eq!(payload.len(), 39);
    let request = requests::envelope(0, 0, &payload);
    assert_eq!(request.len(), 96);

    let mut buffer = [0xEE; 2048];
    assert_eq!(card.command(&request, &mut buffer), (0, 88));
    let mut expected = vec![0, 0, 0, 0, 0x10, 0, 0, 0, 0, 0, 0, 0, 0, 0, 0, 0, 0, 0, 0, 68];
    expected.extend([0; 20]);
    expected.extend([0, 0, 0, 44]);
    expected.extend([0, 0, 0, 0, 0, 0, 0, 0, 0, 0, 0, 30]);
    expected.extend([0xF8, 0xA8, 0, 0, 0, 0, 0, 0, 0, 0xFF, 0xA8, 0, 0, 0, 0, 0, 0, 0xFF, 3]);
    expected.extend([0xF0, 0x81, 105, 1, 0xF1, 0xF9, 0xF0, 0, 0, 0, 0xF1, 0, 0]);
    assert_eq!(buffer[..88], expected);
    assert!(buffer[88..].iter().all(|byte| *byte == 0xEE));
}

#[test]
fn end_of_session() {
    let whole = [
        0x00, 0x00, 0x00, 0x00, 0x10, 0x00, 0x00, 0x00, 0x00, 0x00, 0x00, 0x00, 0x00, 0x00, 0x00, 0x00, 0x00, 0x00,
        0x00, 0x28, 0x00, 0x00, 0x00, 0x01, 0x00, 0x00, 0x00, 0x69, 0x00, 0x00, 0x00, 0x00, 0x00, 0x00, 0x00, 0x00,
        0x00, 0x00, 0x00, 0x00, 0x00, 0x00, 0x00, 0x10, 0x00, 0x00, 0x00, 0x00, 0x00, 0x00, 0x00, 0x00, 0x00, 0x00,
        0x00, 0x01, 0xFA, 0x00, 0x00, 0x00,
    ];
    assert_eq!(requests::envelope(1, HSN, &requests::end_session()), whole);
    let mut host = Host::new();
    assert_eq!(host.start(&uid::ADMIN_SP, None, None), 0);
    let mut buffer = [0xEE; 2048];
    assert_eq!(host.card.command(&whole, &mut buffer), (0, 60));
    assert_eq!(buffer[..60], whole);
    assert_eq!(host.card.command(&whole, &mut buffer), (5, 0));
}
