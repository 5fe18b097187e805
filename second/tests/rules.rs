//! Numbers, the order of checks, and the readings that are settled.

mod common;

use common::{Host, HSN, MSID, N};
use second::requests::{self, built, integer, list, named, named_bytes, named_integer, named_integers};
use second::uid::{self, Uid};
use second::Card;

const PROVED: &[u8] = &[0xF0, 1, 0xF1];
const NOT_PROVED: &[u8] = &[0xF0, 0, 0xF1];
const EMPTY: &[u8] = &[0xF0, 0xF1];

fn sid() -> Host {
    let mut host = Host::new();
    assert_eq!(host.start(&uid::ADMIN_SP, Some(&MSID), Some(&uid::SID)), 0);
    host
}

#[test]
fn numbers_in_order() {
    let start = requests::envelope(0, 0, &requests::start_session(1, &uid::ADMIN_SP, true, None, None));
    let mut long = start.clone();
    long.resize(2048, 0xAB);
    let mut card = Card::factory(N, &MSID).unwrap();
    let mut buffer = [0xEE; 2048];
    let mut image = card.image();
    image[166] = 6;
    let mut unsound = Card::from_image(&image).unwrap();
    assert_eq!(unsound.command(&[0; 3000], &mut buffer[..1]), (1, 0));
    assert_eq!((unsound.power_cycle(), unsound.tper_reset()), (1, 1));
    assert_eq!(unsound.media(false, 0, 0), second::Ruling::Unsound);
    assert_eq!(card.command(&[0; 3000], &mut buffer[..2047]), (2, 0));
    assert_eq!(card.command(&[0; 2049], &mut buffer), (3, 0));
    assert_eq!(card.command(&[], &mut buffer), (4, 0));
    assert_eq!(card.tper_reset(), 7);
    let other = requests::envelope(0, 1, &[0x40]);
    assert_eq!(card.command(&other, &mut buffer), (5, 0));
    assert_eq!(card.command(&requests::envelope(0, 0, &[0x40]), &mut buffer), (6, 0));
    for payload in [requests::end_session(), requests::begin(), requests::commit(), requests::abandon()] {
        assert_eq!(card.command(&requests::envelope(0, 0, &payload), &mut buffer), (6, 0));
    }
    assert_eq!(card.image(), Card::factory(N, &MSID).unwrap().image());
    assert_eq!(buffer, [0xEE; 2048]);
    // Bytes past the envelope are ignored, up to 2,048.
    assert_eq!(card.command(&long, &mut buffer).0, 0);
    long.push(0);
    assert_eq!(card.command(&long, &mut buffer), (3, 0));
    // The session's numbers, one of them wrong or both swapped.
    for (tsn, hsn) in [(1, 0), (2, 1), (0, 1), (1, 2)] {
        assert_eq!(card.command(&requests::envelope(tsn, hsn, &[0xFA]), &mut buffer), (5, 0));
    }
    assert_eq!(card.command(&requests::envelope(1, 1, &[0xFA]), &mut buffer), (0, 60));
}

#[test]
fn envelopes() {
    let good = requests::envelope(0, 0, &requests::call(&uid::THIS_SP, &uid::GET, &[]));
    let outcome = |request: &[u8]| Host::new().send_raw(request).err().unwrap_or(0);
    assert_eq!(outcome(&good), 0);
    assert_eq!(good.len() % 4, 0);
    for cut in 0..good.len() {
        assert_eq!(outcome(&good[..cut]), 4);
    }
    for at in 0..56 {
        let mut other = good.clone();
        other[at] ^= 1;
        let expected = match at {
            // One byte less of payload, one more of pad: the sums still hold, the payload is cut short.
            55 => 6,
            4..=7 | 16..=19 | 40..=43 | 50..=54 => 4,
            20..=27 => 5,
            _ => 0,
        };
        assert_eq!(outcome(&other), expected, "{at}");
    }
    // Pad bytes may be anything; a payload of no bytes may not be.
    let mut padded = good.clone();
    let last = padded.len() - 1;
    padded[last] = 0x40;
    assert_eq!(outcome(&padded), 0);
    assert_eq!(outcome(&requests::envelope(0, 0, &[])), 4);
    let mut huge = good.clone();
    huge[52..56].copy_from_slice(&[0xFF; 4]);
    huge[40..44].copy_from_slice(&[0, 0, 0, 12]);
    huge[16..20].copy_from_slice(&[0, 0, 0, 36]);
    assert_eq!(outcome(&huge), 4);
}

#[test]
fn start_session_checks() {
    let start = |host: &mut Host, parameters: &[u8]| {
        host.start_with(&requests::call(&uid::SESSION_MANAGER, &uid::START_SESSION, parameters))
    };
    let head = |hsn: u64, sp: &[u8], write: u64| {
        built(|tokens| {
            integer(tokens, hsn);
            requests::bytes(tokens, sp);
            integer(tokens, write);
        })
    };
    let with = |more: &[(u64, &[u8])]| {
        let mut tokens = head(1, &uid::ADMIN_SP, 1);
        more.iter().for_each(|(name, value)| named_bytes(&mut tokens, *name, value));
        tokens
    };
    for refused in [
        vec![],
        head(1 << 32, &uid::ADMIN_SP, 1),
        head(1, &uid::ADMIN_SP[..7], 1),
        head(1, &uid::THIS_SP, 1),
        head(1, &uid::LOCKING_SP, 1),
        head(1, &uid::ADMIN_SP, 0),
        head(1, &uid::ADMIN_SP, 2),
        with(&[(0, &MSID)]),
        with(&[(0, &[])]),
        with(&[(1, &[])]),
        with(&[(3, &uid::SID), (0, &MSID)]),
        with(&[(3, &uid::SID), (3, &uid::SID)]),
        with(&[(3, &uid::USERS)]),
        with(&[(3, &uid::admin(1))]),
        with(&[(3, &uid::SID[..7])]),
        with(&[(0, &[0; 33]), (3, &uid::SID)]),
        with(&[(0, &[0; 33]), (3, &uid::ADMINS)]),
        with(&[(0, &[0; 33]), (3, &uid::ANYBODY)]),
        [head(1, &uid::ADMIN_SP, 1), vec![0]].concat(),
        [head(1, &uid::ADMIN_SP, 1), built(|tokens| named_integer(tokens, 3, 1))].concat(),
        built(|tokens| requests::bytes(tokens, &uid::ADMIN_SP)),
    ] {
        let mut host = Host::new();
        let before = host.card.image();
        let answer = start(&mut host, &refused);
        let sync = [0xF8, 0xA8, 0, 0, 0, 0, 0, 0, 0, 0xFF, 0xA8, 0, 0, 0, 0, 0, 0, 0xFF, 3, 0xF0, 0xF1];
        assert_eq!((answer.result(), answer.status()), (&sync[..], 0x0C), "{refused:02X?}");
        assert_eq!(host.card.image(), before);
    }
    let mut host = Host::new();
    assert_eq!(start(&mut host, &with(&[(0, &[0; 32]), (3, &uid::ADMINS)])).status(), 1);
    assert_eq!(start(&mut host, &with(&[(3, &uid::SID)])).status(), 1);
    for _ in 0..4 {
        assert_eq!(start(&mut host, &with(&[(0, &[]), (3, &uid::SID)])).status(), 1);
    }
    assert_eq!(start(&mut host, &with(&[(0, &MSID), (3, &uid::SID)])).status(), 0x12);
    assert_eq!(host.card.image()[166], 5);
    assert_eq!(start(&mut host, &with(&[(0, &[0; 32]), (3, &uid::ANYBODY)])).status(), 0);
    assert_eq!(host.card.image()[181..185], [0, 0, 0, 1]);
    // One is open: 07 whatever the parameters, and any other call 01, in a plain answer.
    assert_eq!(start(&mut host, &[]).status(), 0x07);
    let other = host.start_with(&requests::call(&uid::SESSION_MANAGER, &uid::GET, &[]));
    assert_eq!((other.result(), other.status()), (EMPTY, 1));
    let other = host.start_with(&requests::call(&uid::THIS_SP, &uid::START_SESSION, &head(1, &uid::ADMIN_SP, 1)));
    assert_eq!((other.result(), other.status()), (EMPTY, 1));
    assert_eq!(host.card.power_cycle(), 0);
    assert_eq!(start(&mut host, &with(&[(0, &MSID), (3, &uid::SID)])).status(), 0);
}

#[test]
fn session_numbers_go_round() {
    let mut image = Card::factory(N, &MSID).unwrap().image();
    image[202..206].copy_from_slice(&u32::MAX.to_be_bytes());
    let mut host = Host::with(Card::from_image(&image).unwrap());
    assert_eq!(host.start(&uid::ADMIN_SP, None, None), 0);
    assert_eq!(host.tsn, u32::MAX);
    host.end();
    assert_eq!(host.start(&uid::ADMIN_SP, None, None), 0);
    assert_eq!(host.tsn, 1);
}

#[test]
fn authenticate_checks() {
    let mut host = Host::new();
    assert_eq!(host.start(&uid::ADMIN_SP, None, None), 0);
    let call =
        |host: &mut Host, parameters: &[u8]| host.call(requests::call(&uid::THIS_SP, &uid::AUTHENTICATE, parameters));
    assert_eq!(call(&mut host, &[]), 0x0C);
    assert_eq!(call(&mut host, &[5]), 0x0C);
    assert_eq!(
        call(
            &mut host,
            &built(|tokens| {
                requests::bytes(tokens, &uid::SID);
                named_bytes(tokens, 3, &MSID)
            })
        ),
        0x0C
    );
    assert_eq!(
        call(
            &mut host,
            &built(|tokens| {
                requests::bytes(tokens, &uid::SID);
                named_integer(tokens, 0, 0)
            })
        ),
        0x0C
    );
    assert_eq!(host.authenticate(&uid::admin(1), &MSID).status(), 0x0C);
    assert_eq!(host.authenticate(&uid::SID, &[0; 33]).status(), 0x0C);
    assert_eq!(host.authenticate(&uid::ADMINS, &[0; 33]).status(), 0x0C);
    let mut outcome = |authority: &Uid, proof: &[u8], expected: &[u8]| {
        let answer = host.authenticate(authority, proof);
        assert_eq!((answer.status(), answer.result()), (0, expected));
        host.card.image()[166]
    };
    assert_eq!(outcome(&uid::ANYBODY, &[1; 32], PROVED), 0);
    assert_eq!(outcome(&uid::ADMINS, &[], NOT_PROVED), 0);
    assert_eq!(outcome(&uid::SID, &MSID[..31], NOT_PROVED), 1);
    assert_eq!(outcome(&uid::SID, &MSID, PROVED), 0);
    for tries in 1..=5 {
        assert_eq!(outcome(&uid::SID, &[], NOT_PROVED), tries);
    }
    let answer = host.authenticate(&uid::SID, &MSID);
    assert_eq!((answer.status(), answer.result()), (0x12, EMPTY));
    // Still proved; and the Set of a PIN frees it.
    assert_eq!(host.call(requests::set_pin(&uid::C_PIN_SID, &[])), 0);
    assert_eq!(host.card.image()[166], 0);
    let answer = host.send(&requests::authenticate(&uid::SID, None));
    assert_eq!((answer.status(), answer.result()), (0, PROVED));
}

#[test]
fn disabled_users() {
    let mut host = Host::admin1();
    let answer = host.authenticate(&uid::user(1), &[]);
    assert_eq!((answer.status(), answer.result()), (0, NOT_PROVED));
    assert_eq!(host.set(&uid::user(1), &[(5, 1)]), 0);
    assert_eq!(host.authenticate(&uid::user(1), &[]).result(), PROVED);
    assert_eq!(host.set(&uid::user(1), &[(5, 0)]), 0);
    host.end();
    assert_eq!(host.start(&uid::LOCKING_SP, None, Some(&uid::user(1))), 1);
    assert_eq!(host.start(&uid::LOCKING_SP, None, Some(&uid::USERS)), 1);
    assert_eq!(host.start(&uid::LOCKING_SP, None, Some(&uid::SID)), 0x0C);

    // A user sets its own PIN, no other's; still so once disabled.
    let mut host = Host::admin1();
    assert_eq!(host.set(&uid::user(2), &[(5, 1)]), 0);
    host.end();
    assert_eq!(host.start(&uid::LOCKING_SP, None, Some(&uid::user(2))), 0);
    assert_eq!(host.call(requests::set_pin(&uid::c_pin_user(2), b"mine")), 0);
    assert_eq!(host.call(requests::set_pin(&uid::c_pin_user(3), b"mine")), 1);
    assert_eq!(host.call(requests::set_pin(&uid::c_pin_admin(1), b"mine")), 1);
    assert_eq!(host.get(&uid::c_pin_user(2), None, None), []);
    assert_eq!(host.set(&uid::user(3), &[(5, 1)]), 1);
    host.end();
    assert_eq!(host.start(&uid::LOCKING_SP, Some(b"mine"), Some(&uid::user(2))), 0);
    assert_eq!(host.authenticate(&uid::admin(1), &MSID).result(), PROVED);
    assert_eq!(host.set(&uid::user(2), &[(5, 0)]), 0);
    assert_eq!(host.authenticate(&uid::user(2), b"mine").result(), NOT_PROVED);
    let proved = &host.card.image()[189..202];
    assert_eq!(proved, [0, 1, 0, 0, 0, 0, 1, 0, 0, 0, 0, 0, 0]);
}

#[test]
fn gets() {
    let mut host = Host::new();
    assert_eq!(host.start(&uid::ADMIN_SP, None, None), 0);
    assert_eq!(host.get(&uid::C_PIN_SID, None, None), []);
    assert_eq!(host.get(&uid::C_PIN_MSID, Some(1), Some(2)), []);
    assert_eq!(host.get(&uid::C_PIN_MSID, Some(4), None), []);
    assert_eq!(host.get(&uid::TPER_INFO, Some(1), Some(8)), [0xF2, 8, 0, 0xF3]);
    let with_uid = |uid: &Uid| [&[0xF2, 0, 0xA8][..], uid, &[0xF3]].concat();
    assert_eq!(host.get(&uid::TPER_INFO, None, Some(7)), with_uid(&uid::TPER_INFO));
    assert_eq!(host.call(requests::get(&uid::TPER_INFO, None, Some(9))), 0x0C);
    assert_eq!(host.call(requests::get(&uid::C_PIN_SID, Some(8), None)), 0x0C);
    assert_eq!(host.call(requests::get(&uid::C_PIN_SID, Some(u64::MAX), None)), 0x0C);
    assert_eq!(host.call(requests::get(&uid::C_PIN_SID, Some(4), Some(3))), 0x0C);
    for object in [uid::THIS_SP, uid::SID, uid::range(1), uid::GLOBAL_RANGE, uid::c_pin_admin(1), uid::SESSION_MANAGER]
    {
        assert_eq!(host.call(requests::get(&object, Some(4), Some(3))), 1);
    }
    let block = |host: &mut Host, parameters: &[u8]| host.call(requests::call(&uid::C_PIN_MSID, &uid::GET, parameters));
    let pair = |one: u64, other: u64| {
        let held = built(|tokens| {
            named_integer(tokens, one, 3);
            named_integer(tokens, other, 3)
        });
        built(|tokens| list(tokens, &held))
    };
    assert_eq!(block(&mut host, &[0xF0, 0xF1]), 0);
    assert_eq!(block(&mut host, &[]), 0x0C);
    assert_eq!(block(&mut host, &[0xF0, 0xF1, 0x00]), 0x0C);
    assert_eq!(block(&mut host, &[0xF0, 0x03, 0xF1]), 0x0C);
    assert_eq!(block(&mut host, &[0xF2, 0x03, 0x03, 0xF3]), 0x0C);
    assert_eq!(block(&mut host, &[0xF0, 0xF2, 0x03, 0xA1, 0x03, 0xF3, 0xF1]), 0x0C);
    assert_eq!(block(&mut host, &[0xF0, 0xF2, 0xA1, 0x03, 0x03, 0xF3, 0xF1]), 0x0C);
    assert_eq!(block(&mut host, &pair(3, 4)), 0);
    for (one, other) in [(4, 3), (3, 3), (4, 4), (0, 3), (1, 3), (3, 5)] {
        assert_eq!(block(&mut host, &pair(one, other)), 0x0C);
    }
    assert_eq!(host.authenticate(&uid::SID, &MSID).result(), PROVED);
    let cells = [&with_uid(&uid::C_PIN_SID)[..], &[0xF2, 5, 5, 0xF3, 0xF2, 6, 0, 0xF3, 0xF2, 7, 0, 0xF3]].concat();
    assert_eq!(host.get(&uid::C_PIN_SID, None, None), cells);
    host.end();

    host.activate();
    assert_eq!(host.start(&uid::LOCKING_SP, None, None), 0);
    assert_eq!(host.get(&uid::range(4), None, Some(19)), with_uid(&uid::range(4)));
    assert_eq!(host.call(requests::get(&uid::range(4), None, Some(20))), 0x0C);
    assert_eq!(host.get(&uid::user(8), Some(0), Some(18)), []);
    assert_eq!(host.call(requests::get(&uid::user(8), None, Some(19))), 0x0C);
    assert_eq!(
        host.get(&uid::MBR_CONTROL, Some(1), None),
        [0xF2, 1, 0, 0xF3, 0xF2, 2, 0, 0xF3, 0xF2, 3, 0xF0, 0, 0xF1, 0xF3]
    );
    for object in [
        uid::range(0),
        uid::range(5),
        uid::user(0),
        uid::user(9),
        uid::admin(0),
        uid::admin(5),
        uid::ANYBODY,
        uid::LOCKING_SP,
    ] {
        assert_eq!(host.call(requests::get(&object, None, None)), 1);
    }
    assert_eq!(host.authenticate(&uid::admin(1), &MSID).result(), PROVED);
    assert_eq!(host.get(&uid::admin(1), Some(1), None), [0xF2, 5, 1, 0xF3]);
    assert_eq!(host.get(&uid::c_pin_user(8), Some(1), Some(6)), [0xF2, 5, 5, 0xF3, 0xF2, 6, 0, 0xF3]);
}

#[test]
fn sets_in_order_of_checks() {
    let raw =
        |host: &mut Host, object: &Uid, parameters: &[u8]| host.call(requests::call(object, &uid::SET, parameters));
    let mut host = Host::new();
    host.activate();
    assert_eq!(host.start(&uid::LOCKING_SP, None, None), 0);
    // The row comes before the shape.
    assert_eq!(raw(&mut host, &uid::admin(1), &[0x3F]), 1);
    assert_eq!(raw(&mut host, &uid::admin(2), &[0x3F]), 0x0C);
    // Nothing named is allowed to all.
    assert_eq!(raw(&mut host, &uid::range(1), &[]), 0);
    assert_eq!(host.set(&uid::range(1), &[]), 0);
    // Shape, unknown and repeated columns before who may.
    let named_1 = |held: &[u8]| built(|tokens| named(tokens, 1, held));
    assert_eq!(raw(&mut host, &uid::range(1), &named_1(&[0x05])), 0x0C);
    assert_eq!(raw(&mut host, &uid::range(1), &named_1(&[0xF0, 0x05, 0xF1])), 0x0C);
    assert_eq!(raw(&mut host, &uid::range(1), &named_1(&[0xF0, 0xF2, 0xA1, 0x05, 0x01, 0xF3, 0xF1])), 0x0C);
    assert_eq!(raw(&mut host, &uid::range(1), &built(|tokens| named(tokens, 0, &[0xF0, 0xF1]))), 0x0C);
    assert_eq!(raw(&mut host, &uid::range(1), &[named_1(&[0xF0, 0xF1]), named_1(&[0xF0, 0xF1])].concat()), 0x0C);
    assert_eq!(host.set(&uid::range(1), &[(5, 1), (20, 1)]), 0x0C);
    assert_eq!(host.set(&uid::range(1), &[(5, 1), (u64::MAX, 1)]), 0x0C);
    assert_eq!(host.set(&uid::range(1), &[(5, 1), (5, 1)]), 0x0C);
    // Who may before the values.
    assert_eq!(host.set(&uid::range(1), &[(5, 2)]), 1);
    assert_eq!(host.authenticate(&uid::admin(1), &MSID).result(), PROVED);
    assert_eq!(host.set(&uid::range(1), &[(5, 2), (19, 0)]), 1);
    assert_eq!(host.set(&uid::range(1), &[(5, 2), (0, 0)]), 1);
    assert_eq!(host.set(&uid::range(1), &[(5, 1), (6, 2)]), 0x0C);
    assert_eq!(host.set(&uid::GLOBAL_RANGE, &[(3, 0)]), 1);
    assert_eq!(host.set(&uid::GLOBAL_RANGE, &[(8, 1), (5, 1)]), 0);
    assert_eq!(host.get(&uid::range(1), Some(5), Some(6)), [0xF2, 5, 0, 0xF3, 0xF2, 6, 0, 0xF3]);
    // Values of another kind.
    for value in [&[0xA1, 0x01][..], &[0xF0, 0x01, 0xF1], &[0xF2, 0x01, 0x01, 0xF3]] {
        let columns = built(|tokens| named(tokens, 5, value));
        assert_eq!(host.call(requests::set(&uid::range(1), &columns)), 0x0C);
        assert_eq!(host.call(requests::set(&uid::user(1), &columns)), 0x0C);
    }
    for value in [&[0x01][..], &[0xF0, 0xA0, 0xF1]] {
        let columns = built(|tokens| named(tokens, 3, value));
        assert_eq!(host.call(requests::set(&uid::c_pin_user(1), &columns)), 0x0C);
        assert_eq!(host.call(requests::set(&uid::c_pin_admin(1), &columns)), 0x0C);
    }
    assert_eq!(host.call(requests::set_pin(&uid::c_pin_user(1), &[7; 32])), 0);
    assert_eq!(host.call(requests::set_pin(&uid::c_pin_user(1), &[7; 33])), 0x0C);
    // A flag in a longer form.
    let columns = built(|tokens| named(tokens, 5, &[0xC0, 2, 0, 1]));
    assert_eq!(host.call(requests::set(&uid::range(1), &columns)), 0);
    assert_eq!(host.get(&uid::range(1), Some(5), Some(5)), [0xF2, 5, 1, 0xF3]);
}

#[test]
fn sets_of_resets() {
    let mut host = Host::admin1();
    for (values, status) in [
        (&[0][..], 0),
        (&[0, 3], 0),
        (&[3, 0], 0),
        (&[], 0x0C),
        (&[3], 0x0C),
        (&[0, 0], 0x0C),
        (&[0, 3, 3], 0x0C),
        (&[0, 3, 0], 0x0C),
        (&[0, 1], 0x0C),
    ] {
        let set = |column| built(|tokens| named_integers(tokens, column, values));
        assert_eq!(host.call(requests::set(&uid::range(1), &set(9))), status);
        assert_eq!(host.call(requests::set(&uid::MBR_CONTROL, &set(3))), status);
    }
    assert_eq!(host.get(&uid::range(1), Some(9), Some(9)), [0xF2, 9, 0xF0, 0, 3, 0xF1, 0xF3]);
    assert_eq!(host.get(&uid::MBR_CONTROL, Some(3), None), [0xF2, 3, 0xF0, 0, 3, 0xF1, 0xF3]);
    assert_eq!(host.set(&uid::range(1), &[(9, 0)]), 0x0C);
}

#[test]
fn a_row_is_judged_as_it_would_stand() {
    let mut host = Host::admin1();
    assert_eq!(host.set(&uid::range(1), &[(3, 100), (4, 100)]), 0);
    assert_eq!(host.set(&uid::range(2), &[(3, 200), (4, 100)]), 0);
    // Over range 2 with the old length, but not with both; in either order of the columns.
    assert_eq!(host.set(&uid::range(1), &[(3, 150)]), 0x0C);
    assert_eq!(host.set(&uid::range(1), &[(3, 150), (4, 50)]), 0);
    assert_eq!(host.set(&uid::range(1), &[(4, 10), (3, 190)]), 0);
    assert_eq!(host.set(&uid::range(1), &[(4, 11), (5, 1)]), 0x0C);
    assert_eq!(host.get(&uid::range(1), Some(4), Some(5)), [0xF2, 4, 10, 0xF3, 0xF2, 5, 0, 0xF3]);
    assert_eq!(host.set(&uid::range(1), &[(3, u64::MAX), (4, u64::MAX)]), 0x0C);
}

#[test]
fn lives_of_sps() {
    let mut host = Host::new();
    assert_eq!(host.start(&uid::ADMIN_SP, None, None), 0);
    let with = |sp: &Uid, method: &Uid| requests::call(sp, method, &[0]);
    assert_eq!(host.call(with(&uid::LOCKING_SP, &uid::ACTIVATE)), 0x0C);
    assert_eq!(host.call(with(&uid::ADMIN_SP, &uid::ACTIVATE)), 1);
    assert_eq!(host.call(with(&uid::THIS_SP, &uid::REVERT_SP)), 1);
    assert_eq!(host.call(with(&uid::ADMIN_SP, &uid::REVERT)), 0x0C);
    host.send(&requests::begin());
    assert_eq!(host.call(requests::activate(&uid::LOCKING_SP)), 1);
    assert_eq!(host.call(requests::revert(&uid::ADMIN_SP)), 1);
    assert_eq!(host.authenticate(&uid::SID, &MSID).result(), PROVED);
    assert_eq!(host.call(requests::activate(&uid::LOCKING_SP)), 0x3F);
    assert_eq!(host.call(requests::revert(&uid::LOCKING_SP)), 0x3F);
    assert_eq!(host.send(&requests::abandon()).payload, [0xFC, 0]);
    assert_eq!(host.send(&requests::abandon()).payload, [0xFC, 1]);
    // The proof outlives the transaction.
    assert_eq!(host.call(requests::activate(&uid::LOCKING_SP)), 0);
    assert_eq!(host.call(requests::set_pin(&uid::C_PIN_SID, b"new")), 0);
    assert_eq!(host.call(requests::activate(&uid::LOCKING_SP)), 0);
    host.end();
    assert_eq!(host.start(&uid::LOCKING_SP, Some(&MSID), Some(&uid::admin(1))), 0);
    assert_eq!(host.set(&uid::user(1), &[(5, 1)]), 0);
    assert_eq!(host.call(requests::call(&uid::THIS_SP, &uid::REVERT_SP, &[0])), 0x0C);
    host.end();
    assert_eq!(host.start(&uid::LOCKING_SP, Some(b"bad"), Some(&uid::user(1))), 1);
    // Locking Revert: the session to the Admin SP goes on; the SID's PIN stays, Tries of the Locking SP go.
    assert_eq!(host.start(&uid::ADMIN_SP, Some(b"new"), Some(&uid::SID)), 0);
    assert_eq!(host.card.image()[171], 1);
    assert_eq!(host.call(requests::revert(&uid::LOCKING_SP)), 0);
    assert_eq!(host.get(&uid::LOCKING_SP, Some(6), None), [0xF2, 6, 8, 0xF3]);
    host.end();
    let mut made = sid();
    assert_eq!(made.call(requests::set_pin(&uid::C_PIN_SID, b"new")), 0);
    made.end();
    let mut image = host.card.image();
    image[202..206].copy_from_slice(&made.card.image()[202..206]);
    assert_eq!(image, made.card.image());
}

#[test]
fn tries_outlive_a_transaction() {
    let mut host = sid();
    assert_eq!(host.authenticate(&uid::SID, b"no").result(), NOT_PROVED);
    host.send(&requests::begin());
    assert_eq!(host.authenticate(&uid::SID, b"no").result(), NOT_PROVED);
    host.send(&requests::abandon());
    assert_eq!(host.card.image()[166], 2);
    // A Set's zero stays, while its PIN goes back.
    host.send(&requests::begin());
    assert_eq!(host.call(requests::set_pin(&uid::C_PIN_SID, b"other")), 0);
    assert_eq!(host.authenticate(&uid::SID, b"other").result(), PROVED);
    host.send(&requests::abandon());
    assert_eq!(host.card.image()[166], 0);
    assert_eq!(host.authenticate(&uid::SID, &MSID).result(), PROVED);
}

#[test]
fn tper_reset_goes_by_the_cells_from_before() {
    let mut host = sid();
    assert_eq!(host.card.tper_reset(), 7);
    host.send(&requests::begin());
    assert_eq!(host.set(&uid::TPER_INFO, &[(8, 1)]), 0);
    assert_eq!(host.card.tper_reset(), 7);
    host.send(&requests::commit());
    host.send(&requests::begin());
    assert_eq!(host.set(&uid::TPER_INFO, &[(8, 0)]), 0);
    assert_eq!(host.authenticate(&uid::SID, b"no").result(), NOT_PROVED);
    assert_eq!(host.card.tper_reset(), 0);
    let image = host.card.image();
    // Abandoned (column 8 is 1 again), closed, Tries and the TSN counter as they were; nothing locked while inactive.
    assert_eq!(image[165], 1);
    assert_eq!(image[166], 1);
    assert_eq!(image[179..206], [&[0; 23][..], &[0, 0, 0, 2]].concat());
    assert_eq!(image[206..330], [0; 124]);
    assert_eq!(image[44..149], [0; 105]);
}

#[test]
fn a_broken_payload_abandons_and_closes() {
    let mut host = Host::admin1();
    host.send(&requests::begin());
    assert_eq!(host.set(&uid::range(1), &[(4, 7)]), 0);
    let (tsn, hsn) = (host.tsn, host.hsn);
    // Broken on 0, 0: number 6, and the session stays.
    assert_eq!(host.send_raw(&requests::envelope(0, 0, &[0x40])), Err(6));
    let answer = host.send_raw(&requests::envelope(tsn, hsn, &[0x40])).unwrap();
    assert_eq!((answer.tsn, answer.hsn, answer.status()), (0, 0, 0));
    assert_eq!(answer.result()[10..], [0xA8, 0, 0, 0, 0, 0, 0, 0xFF, 6, 0xF0, 0x81, HSN as u8, 2, 0xF1]);
    assert_eq!(host.start(&uid::LOCKING_SP, Some(&MSID), Some(&uid::admin(1))), 0);
    assert_eq!(host.tsn, 3);
    assert_eq!(host.get(&uid::range(1), Some(4), Some(4)), [0xF2, 4, 0, 0xF3]);
}
