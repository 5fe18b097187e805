//! One card's life: ownership, activation, a range, locks, a transaction lost with the power, and back.

mod common;

use common::{Host, MSID};
use second::requests;
use second::uid;
use second::Ruling::{Disk, Refused, Shadow};

const OWNER: &[u8] = b"the owner's own";

#[test]
fn a_life() {
    let mut host = Host::new();

    // Anybody reads the MSID; with it the owner proves SID and sets a PIN.
    assert_eq!(host.start(&uid::ADMIN_SP, None, None), 0);
    let cells = host.get(&uid::C_PIN_MSID, Some(3), Some(3));
    assert_eq!(cells, [&[0xF2, 3, 0xD0, 32][..], &MSID, &[0xF3]].concat());
    assert_eq!(host.call(requests::set_pin(&uid::C_PIN_SID, OWNER)), 1);
    let proof = host.authenticate(&uid::SID, &MSID);
    assert_eq!((proof.status(), proof.result()), (0, &[0xF0, 1, 0xF1][..]));
    assert_eq!(host.call(requests::set_pin(&uid::C_PIN_SID, OWNER)), 0);
    assert_eq!(host.get(&uid::LOCKING_SP, Some(6), Some(6)), [0xF2, 6, 8, 0xF3]);
    assert_eq!(host.call(requests::activate(&uid::LOCKING_SP)), 0);
    assert_eq!(host.get(&uid::LOCKING_SP, Some(6), Some(6)), [0xF2, 6, 9, 0xF3]);
    assert_eq!(host.get(&uid::ADMIN_SP, Some(6), None), [0xF2, 6, 9, 0xF3]);
    assert_eq!(host.set(&uid::TPER_INFO, &[(8, 1)]), 0);
    host.end();

    // Admin1 has SID's PIN now, not the MSID.
    assert_eq!(host.start(&uid::LOCKING_SP, Some(&MSID), Some(&uid::admin(1))), 1);
    assert_eq!(host.start(&uid::LOCKING_SP, Some(OWNER), Some(&uid::admin(1))), 0);
    assert_eq!(host.tsn, 2);
    let range = uid::range(1);
    assert_eq!(host.set(&range, &[(3, 300_000), (4, 1_000), (5, 1), (6, 1)]), 0);
    assert_eq!(host.card.media(false, 300_000, 1_000), Disk);
    assert_eq!(host.set(&range, &[(8, 1)]), 0);
    assert_eq!(host.card.media(false, 300_000, 1_000), Disk);
    assert_eq!(host.card.media(true, 300_999, 2), Refused);
    assert_eq!(host.card.media(true, 301_000, 1), Disk);
    assert_eq!(host.card.media(true, 299_999, 1), Disk);
    assert_eq!(host.card.media(true, 300_500, 0), Disk);

    // A transaction's changes are read in the session, but the media go by what was before it.
    assert_eq!(host.send(&requests::begin()).payload, [0xFB, 0]);
    assert_eq!(host.send(&requests::begin()).payload, [0xFB, 1]);
    assert_eq!(host.set(&range, &[(8, 0), (4, 10)]), 0);
    assert_eq!(host.set(&uid::MBR_CONTROL, &[(1, 1)]), 0);
    assert_eq!(host.call(requests::set_pin(&uid::c_pin_admin(1), b"lost")), 0);
    assert_eq!(host.get(&range, Some(4), Some(4)), [0xF2, 4, 10, 0xF3]);
    assert_eq!(host.card.media(true, 300_999, 2), Refused);
    assert_eq!(host.card.media(false, 0, 1), Disk);

    // The power goes: the transaction is abandoned, every row is locked.
    assert_eq!(host.card.power_cycle(), 0);
    assert_eq!(host.send_raw(&requests::envelope(host.tsn, host.hsn, &[0xFA])), Err(5));
    assert_eq!(host.card.media(false, 300_999, 2), Refused);
    assert_eq!(host.card.media(false, 0, 1), Disk);
    assert_eq!(host.start(&uid::LOCKING_SP, Some(b"lost"), Some(&uid::admin(1))), 1);
    assert_eq!(host.start(&uid::LOCKING_SP, Some(OWNER), Some(&uid::admin(1))), 0);
    assert_eq!(host.tsn, 1);
    let row = host.get(&range, Some(3), Some(9));
    let mut expected = vec![0xF2, 3, 0x83, 0x04, 0x93, 0xE0, 0xF3, 0xF2, 4, 0x82, 0x03, 0xE8, 0xF3];
    expected.extend([5, 6, 7, 8].iter().flat_map(|column| [0xF2, *column, 1, 0xF3]));
    expected.extend([0xF2, 9, 0xF0, 0, 0xF1, 0xF3]);
    assert_eq!(row, expected);

    // A committed one stays; TPER_RESET clears Done and locks, and keeps the TSNs.
    assert_eq!(host.send(&requests::begin()).payload, [0xFB, 0]);
    assert_eq!(host.set(&uid::MBR_CONTROL, &[(1, 1), (2, 1)]), 0);
    assert_eq!(host.send(&requests::commit()).payload, [0xFC, 0]);
    assert_eq!(host.send(&requests::commit()).payload, [0xFC, 1]);
    assert_eq!(host.card.media(false, 0, 1), Disk);
    assert_eq!(host.card.tper_reset(), 0);
    assert_eq!(host.card.media(false, 0, 1), Shadow);
    assert_eq!(host.start(&uid::LOCKING_SP, Some(OWNER), Some(&uid::admin(1))), 0);
    assert_eq!(host.tsn, 2);

    // RevertSP restores the Locking SP and closes; Revert of the Admin SP brings the factory state back.
    let answer = host.send(&requests::revert_sp());
    assert_eq!(answer.payload, [0xF0, 0xF1, 0xF9, 0xF0, 0, 0, 0, 0xF1]);
    assert_eq!(host.start(&uid::LOCKING_SP, None, None), 0x0C);
    assert_eq!(host.start(&uid::ADMIN_SP, Some(OWNER), Some(&uid::SID)), 0);
    assert_eq!(host.get(&uid::LOCKING_SP, Some(6), Some(6)), [0xF2, 6, 8, 0xF3]);
    assert_eq!(host.call(requests::revert(&uid::ADMIN_SP)), 0);
    let mut made = Host::new();
    assert_eq!(host.start(&uid::ADMIN_SP, Some(OWNER), Some(&uid::SID)), 1);
    assert_eq!(host.start(&uid::ADMIN_SP, Some(&MSID), Some(&uid::SID)), 0);
    host.end();
    assert_eq!(host.card.power_cycle(), 0);
    assert_eq!(made.card.power_cycle(), 0);
    assert_eq!(host.card, made.card);
}
