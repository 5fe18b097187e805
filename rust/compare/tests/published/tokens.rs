//! Tokens: the forms that 003 prints, each in a request that says whether it was read and as what.

use crate::host::{block, bytes, call, hex, list, named, uid, Host, HSN, MSID};
use crate::uids;

/// The three longer forms of an atom, byte sequence or integer, with S clear: 10BSnnnn, 110BSnnn nnnnnnnn and
/// 111000BS with three bytes of length (003 Tables 04, 07, 10 and 12).
fn forms(is_bytes: bool, content: &[u8]) -> Vec<Vec<u8>> {
    let b = u8::from(is_bytes);
    let [.., high, middle, low] = content.len().to_be_bytes();
    let short = vec![0b1000_0000 | b << 5 | low];
    let medium = vec![0b1100_0000 | b << 4 | middle, low];
    let long = vec![0b1110_0000 | b << 1, high, middle, low];
    // "Between 0 and 15 bytes of data."
    let fitting = if content.len() < 16 { vec![short, medium, long] } else { vec![medium, long] };
    fitting.into_iter().map(|head| [&head, content].concat()).collect()
}

/// A StartSession to the Admin SP with this token for HostSessionID.
fn start(hsn: &[u8]) -> Vec<u8> {
    call(uids::SESSION_MANAGER, uids::START_SESSION, &[hsn, &uid(uids::ADMIN_SP), &[1]].concat())
}

/// Whether this token for HostSessionID opens a session of that number.
fn opens(token: &[u8], hsn: u32) -> bool {
    let mut host = Host::new();
    host.send(&start(token));
    host.session = (1, hsn);
    host.send_raw(&[0xFA]) == Ok(((1, hsn), vec![0xFA]))
}

/// 003 Tables 04, 05 and 06 (1215, 1264 to 1273): 0Sdddddd, "an unsigned value in the range of 0..63". With S set the
/// atom is unsupported (002 3.3.4.1.1, 000 3.3.4.1.1), which aborts the session.
#[test]
fn tiny_atoms() {
    for value in 0..=63 {
        assert!(opens(&[value], u32::from(value)), "{value}");
    }
    for lead in 0x40..=0x7F {
        assert_eq!(Host::new().send_raw(&start(&[lead])), Err(6), "{lead:02X}");
        assert!(Host::sid().is_closed_by(&call(uids::THIS_SP, uids::GET, &[lead])), "{lead:02X}");
    }
}

/// 003 Tables 07, 10 and 12: unsigned integers.
#[test]
fn longer_integers() {
    for value in [0, 5, 63, 64, u32::from(u8::MAX), 0x1234, u32::MAX] {
        let digits = u64::from(value).to_be_bytes();
        let least = (4 - value.leading_zeros() as usize / 8).max(1);
        for size in least..=8 {
            for token in forms(false, &digits[8 - size..]) {
                assert!(opens(&token, value), "{token:02X?}");
            }
        }
    }
}

/// 003 Tables 07, 10 and 12: byte sequences, the SPID and a challenge. With S set (Tables 08, 11 and 13: signed, or
/// continued) the atom is unsupported (002 3.3.4.1.1).
#[test]
fn byte_sequences() {
    let mut owned = Host::sid();
    let pin = b"fifteen bytes..";
    assert_eq!(owned.set(uids::C_PIN_SID, &named(3, &bytes(pin))), 0x00);
    owned.end();
    for (token, s) in forms(true, pin).into_iter().zip([0b0001_0000, 0b0000_1000, 0b0000_0001]) {
        let parameters = |pin: &[u8]| {
            [vec![HSN as u8], uid(uids::ADMIN_SP), vec![1], named(0, pin), named(3, &uid(uids::SID))].concat()
        };
        assert_eq!(owned.clone().start_with(&parameters(&token)).status, 0x00, "{token:02X?}");
        let mut signed = token.clone();
        signed[0] |= s;
        let request = call(uids::SESSION_MANAGER, uids::START_SESSION, &parameters(&signed));
        assert_eq!(owned.clone().send_raw(&request), Err(6), "{signed:02X?}");
    }
    for sp in forms(true, &hex(uids::ADMIN_SP)) {
        let parameters = [&[HSN as u8][..], &sp, &[1]].concat();
        assert_eq!(Host::new().start_with(&parameters).status, 0x00, "{sp:02X?}");
    }
    // Read, and too long for a PIN: INVALID_PARAMETER, where a broken payload would be number 6.
    for long in forms(true, &[0; 1_900]) {
        let parameters = [&[HSN as u8][..], &uid(uids::ADMIN_SP), &[1], &named(0, &long), &named(3, &uid(uids::SID))];
        assert_eq!(Host::new().start_with(&parameters.concat()).status, 0x0C);
    }
}

/// 003 Table 09 (1311 to 1318): "a 0-length byte value .. would be encoded in the token stream as 0xA0."
#[test]
fn empty_byte_sequence() {
    let mut host = Host::admin1();
    assert_eq!(host.set(uids::USER1, &named(5, &[1])), 0x00);
    // C_PIN_User1's PIN is "" (002 Table 27, 000 Table 31).
    let mut prove = |proof: &[u8]| {
        host.call(uids::THIS_SP, uids::AUTHENTICATE, &[uid(uids::USER1), named(0, proof)].concat()).result
    };
    assert_eq!(prove(&[0xA1, 0x00]), list(&[0]));
    assert_eq!(prove(&[0xA0]), list(&[1]));
    // "A length of 0 SHALL only be permitted for non-continued bytes tokens."
    assert!(Host::sid().is_closed_by(&call(uids::THIS_SP, uids::GET, &[0x80])));
    assert!(Host::sid().is_closed_by(&call(uids::THIS_SP, uids::GET, &[0xB0])));
}

/// 003 Table 04 (1219, 1224, 1230) and 3.2.2.3 (1240): E4 to EF, F4 to F7, FD and FE are reserved, and a reserved token
/// aborts the session (003 3.2.2.4.1).
#[test]
fn reserved_tokens() {
    let list_tokens = [vec![0xF0], vec![0], vec![0], vec![0], vec![0xF1]];
    let header = [vec![0xF8], uid(uids::THIS_SP), uid(uids::AUTHENTICATE), vec![0xF0], uid(uids::SID), vec![0xF1]];
    let whole = [&header[..], &[vec![0xF9]], &list_tokens].concat();
    assert!(!Host::sid().is_closed_by(&whole.concat()));
    for lead in (0xE4..=0xEF).chain(0xF4..=0xF7).chain([0xFD, 0xFE]) {
        // In the place of each token of a method invocation.
        for at in 0..whole.len() {
            let mut tokens = whole.clone();
            tokens[at] = vec![lead];
            assert!(Host::sid().is_closed_by(&tokens.concat()), "{lead:02X} at {at}");
        }
        // No long atom, and no control token with its number.
        assert!(Host::sid().is_closed_by(&call(uids::THIS_SP, uids::GET, &[lead, 0, 0, 0])), "{lead:02X}");
        assert!(Host::sid().is_closed_by(&[lead, 0]), "{lead:02X}");
        assert!(Host::sid().is_closed_by(&[lead]), "{lead:02X}");
    }
}

/// 003 Table 14 and 3.2.2.3.1.5 (1385): eight 1 bits, "at any point in the stream encoding where any other atom is able to
/// appear, .. and after the End of Session".
#[test]
fn empty_atoms() {
    let tokens: [&[u8]; 13] = [
        &[0xF8],
        &uid(uids::SESSION_MANAGER),
        &uid(uids::START_SESSION),
        &[0xF0],
        &[HSN as u8],
        &uid(uids::ADMIN_SP),
        &[1],
        &[0xF1, 0xFF, 0xF9],
        &[0xF0],
        &[0],
        &[0],
        &[0],
        &[0xF1],
    ];
    let empties = [0xFF; 3];
    let mut host = Host::new();
    let answer = host.send(&[&empties[..], &tokens.join(&empties[..]), &empties].concat());
    assert!(answer.ends_with(&[list(&[HSN as u8, 1]), vec![0xF9], list(&[0, 0, 0])].concat()));
    host.session = (1, HSN);
    assert_eq!(host.send(&[0xFA, 0xFF]), [0xFA]);
}

/// 003 Tables 15 and 16 (1435, 1460, 1461): FB with 00, FC with 00 to commit and 01 to abort.
#[test]
fn transactions() {
    let mut host = Host::sid();
    for (end, kept) in [(0x00, 1), (0x01, 0)] {
        assert_eq!(host.set(uids::TPER_INFO, &named(8, &[0])), 0x00);
        assert_eq!(host.send(&[0xFB, 0x00]), [0xFB, 0x00]);
        assert_eq!(host.set(uids::TPER_INFO, &named(8, &[1])), 0x00);
        assert_eq!(host.send(&[0xFC, end]), [0xFC, 0x00]);
        assert_eq!(host.cell(uids::TPER_INFO, 8), [kept]);
    }
}

/// 003 5.1.2 c (3739), the encoding of a key, and Table 210 (9526 to 9560), that of
/// ((00 00 00 09 00 00 00 32 AND 00 00 00 09 00 00 00 24) OR 00 00 00 09 00 00 82 73) AND 00 00 00 09 00 00 77 28; the copy has
/// lost the first UID's own row and prints the second UID with seven bytes in the text above the table.
///
/// Both are read as a Set's value: its columns have no such name, so it is INVALID_PARAMETER and the session goes on. With any
/// one token left out the payload is broken.
#[test]
fn printed_values() {
    let key = ["F2", "A4 00000202", "D010 000102030405060708090A0B0C0D0E0F", "F3"].map(hex).to_vec();
    let authority = |uid: &str| ["F2", "A4 00 00 0C 05", uid, "F3"].map(hex);
    let operator = |value: &str| ["F2", "A4 00 00 04 0E", value, "F3"].map(hex);
    let expression = [
        authority("A8 00 00 00 09 00 00 00 32"),
        authority("A8 00 00 00 09 00 00 00 24"),
        operator("00"),
        authority("A8 00 00 00 09 00 00 82 73"),
        operator("01"),
        authority("A8 00 00 00 09 00 00 77 28"),
        operator("00"),
    ];
    let expression = [vec![hex("F0")], expression.concat(), vec![hex("F1")]].concat();
    for (tokens, as_value) in [(key, list as fn(&[u8]) -> Vec<u8>), (expression, |tokens| tokens.to_vec())] {
        let request = |tokens: &[Vec<u8>]| call(uids::TPER_INFO, uids::SET, &named(1, &as_value(&tokens.concat())));
        let refused = [list(&[]), vec![0xF9], list(&[0x0C, 0, 0])].concat();
        assert_eq!(Host::sid().send(&request(&tokens)), refused);
        for at in 0..tokens.len() {
            let fewer = [&tokens[..at], &tokens[at + 1..]].concat();
            assert!(Host::sid().is_closed_by(&request(&fewer)), "without token {at}");
        }
    }
}

/// 003 5.1.2 d, g, h and i (3744, 3751, 3756, 3761): a list is F0 .. F1, a named value F2 name value F3, a struct a list of
/// named values, a set a list.
#[test]
fn printed_shapes() {
    let mut host = Host::admin1();
    // LockOnReset is a set, a Get's block a struct, a Set's column a named value.
    assert_eq!(host.set(uids::GLOBAL_RANGE, &hex("F2 09 F0 00 03 F1 F3")), 0x00);
    assert_eq!(block(9, 9), hex("F0 F2 03 09 F3 F2 04 09 F3 F1"));
    assert_eq!(host.get(uids::GLOBAL_RANGE, 9, 9).result, hex("F0 F0 F2 09 F0 00 03 F1 F3 F1 F1"));
}

/// 003 5.1.4.2.3 (5153 to 5171): Table, startRow and endRow are names 0, 1 and 2, and a Get on an object that has one fails.
#[test]
fn cell_blocks() {
    let mut host = Host::sid();
    let mut status = |held: &[u8]| host.call(uids::C_PIN_MSID, uids::GET, &list(held)).status;
    for name in 0..=2 {
        assert_eq!(status(&named(name, &[0])), 0x0C, "{name}");
    }
    assert_eq!(status(&[]), 0x00);
    assert_eq!(host.cell(uids::C_PIN_MSID, 3), bytes(&MSID));
    // "The first column", "the last column".
    let whole = host.call(uids::C_PIN_MSID, uids::GET, &list(&[]));
    assert_eq!(whole.result, list(&list(&[named(0, &uid(uids::C_PIN_MSID)), named(3, &bytes(&MSID))].concat())));
}
