//! Columns, first values, statuses and types: what the sources print of them, asked of the card.

use compare::event::Event;

use crate::host::{bytes, hex, list, named, uid, Host, HSN, MSID, SECTORS};
use crate::uids;

const DISK: usize = 0;
const REFUSED: usize = 3;

/// Range 1, whose UID document 01 gives where 002's copy has a gap.
const RANGE1: &str = "00 00 08 02 00 03 00 01";

fn media(host: &mut Host, write: bool, start: u64, count: u64) -> usize {
    host.apply(&Event::Media { write, start, count }).number
}

/// 003 Tables 178 (6743 to 6764), 181 (6969 to 6976), 211 (9629 to 9636), 215 (9825 to 9835), 226 (11653 to 11672) and 229
/// (11858 to 11861), and 000 Table 20 for TPerInfo's 0x08: a printed column is known, the next one is not. Which of them
/// a Get shows is document 01's.
#[test]
fn columns() {
    let (admin, locking) = (Host::sid(), Host::admin1());
    for (host, object, last, shown) in [
        (&locking, uids::USER1, 0x12, vec![0, 5]),
        (&locking, uids::C_PIN_USER1, 0x07, vec![0, 5, 6, 7]),
        (&locking, uids::GLOBAL_RANGE, 0x13, vec![0, 3, 4, 5, 6, 7, 8, 9]),
        (&locking, uids::MBR_CONTROL, 0x03, vec![0, 1, 2, 3]),
        (&admin, uids::C_PIN_SID, 0x07, vec![0, 5, 6, 7]),
        (&admin, uids::C_PIN_MSID, 0x07, vec![0, 3]),
        (&admin, uids::TPER_INFO, 0x08, vec![0, 8]),
        (&admin, uids::LOCKING_SP, 0x07, vec![0, 6]),
    ] {
        let mut host = host.clone();
        let found: Vec<u8> = (0..=last).filter(|column| !host.cell(object, *column).is_empty()).collect();
        assert_eq!(found, shown, "{object}");
        assert_eq!(host.get(object, last + 1, last + 1).status, 0x0C, "{object}");
    }
}

/// What the columns of these tables are named for.
#[test]
fn columns_do_what_they_are_named_for() {
    let mut host = Host::admin1();
    // RangeStart 0x03, RangeLength 0x04, ReadLockEnabled 0x05, WriteLockEnabled 0x06, ReadLocked 0x07, WriteLocked 0x08.
    assert_eq!(host.set(RANGE1, &[named(3, &hex("82 03 E8")), named(4, &hex("81 64"))].concat()), 0x00);
    for (enabled, locked, write) in [(5, 7, false), (6, 8, true)] {
        assert_eq!(host.set(RANGE1, &named(enabled, &[1])), 0x00);
        assert_eq!(media(&mut host, write, 1_000, 100), DISK);
        assert_eq!(host.set(RANGE1, &named(locked, &[1])), 0x00);
        let ruled =
            [(999, 1), (1_000, 1), (1_099, 1), (1_100, 1)].map(|(at, count)| media(&mut host, write, at, count));
        assert_eq!(ruled, [DISK, REFUSED, REFUSED, DISK]);
        assert_eq!(media(&mut host, !write, 1_000, 100), DISK);
        assert_eq!(host.set(RANGE1, &[named(enabled, &[0]), named(locked, &[0])].concat()), 0x00);
    }
    // Enabled 0x05 of Authority, PIN 0x03 and Tries 0x06 of C_PIN.
    assert_eq!(host.set(uids::USER1, &named(5, &[1])), 0x00);
    assert_eq!(host.set(uids::C_PIN_USER1, &named(3, &bytes(b"pin"))), 0x00);
    host.end();
    assert_eq!(host.start(uids::LOCKING_SP, Some(uids::USER1), Some(b"wrong")), 0x01);
    assert_eq!(host.start(uids::LOCKING_SP, Some(uids::ADMIN1), Some(&MSID)), 0x00);
    assert_eq!(host.cell(uids::C_PIN_USER1, 6), [1]);
    host.end();
    assert_eq!(host.start(uids::LOCKING_SP, Some(uids::USER1), Some(b"pin")), 0x00);
    host.end();
    // ProgrammaticResetEnable 0x08 of TPerInfo (000 4.2.3.1).
    assert_eq!(host.start(uids::ADMIN_SP, Some(uids::SID), Some(&MSID)), 0x00);
    assert_eq!(host.apply(&Event::TperReset).number, 7);
    assert_eq!(host.set(uids::TPER_INFO, &named(8, &[1])), 0x00);
    assert_eq!(host.apply(&Event::TperReset).number, 0);
}

/// 002 Tables 16, 17 and 19; 000 Tables 19 (860, 861), 21 (892) and 23 (910, 911); 004 (982, 983, 1035, 1036). The numbers of
/// LifeCycle are of 002 Table 41 and 000 Table 39 (1554).
#[test]
fn first_values_of_the_admin_sp() {
    let mut host = Host::sid();
    // That SID's PIN is the MSID has opened this session. Persistence is FALSE.
    assert_eq!(host.cell(uids::C_PIN_SID, 7), [0]);
    assert_eq!(host.cell(uids::C_PIN_MSID, 3), bytes(&MSID));
    // ProgrammaticResetEnable is FALSE.
    assert_eq!(host.cell(uids::TPER_INFO, 8), [0]);
    // Manufactured, and Manufactured-Inactive.
    assert_eq!(host.cell(uids::ADMIN_SP, 6), [9]);
    assert_eq!(host.cell(uids::LOCKING_SP, 6), [8]);
}

/// 002 Tables 27 and 30; 000 Tables 30 (1187 to 1190), 31 (1199 to 1201), 35 (1272) and 36 (1288); 004 (1327 to 1330, 1337 to
/// 1339, 1404, 1422).
#[test]
fn first_values_of_the_locking_sp() {
    let mut host = Host::sid();
    assert_eq!(host.set(uids::C_PIN_SID, &named(3, &bytes(b"owner"))), 0x00);
    assert_eq!(host.call(uids::LOCKING_SP, uids::ACTIVATE, &[]).status, 0x00);
    host.end();
    // C_PIN_Admin1's PIN is SID's, not the MSID.
    assert_eq!(host.start(uids::LOCKING_SP, Some(uids::ADMIN1), Some(&MSID)), 0x01);
    assert_eq!(host.start(uids::LOCKING_SP, Some(uids::ADMIN1), Some(b"owner")), 0x00);
    for (authority, pin, enabled) in [
        (uids::ADMIN1, uids::C_PIN_ADMIN1, 1),
        (uids::USER1, uids::C_PIN_USER1, 0),
        (uids::USER2, uids::C_PIN_USER2, 0),
    ] {
        assert_eq!(host.cell(authority, 5), [enabled], "{authority}");
        // Tries and Persistence.
        assert_eq!(host.get(pin, 6, 7).result, list(&list(&hex("F2 06 00 F3 F2 07 00 F3"))), "{pin}");
    }
    // RangeStart, RangeLength, the four locks, LockOnReset: 0 0 F F F F Power Cycle.
    let row = hex("F2 03 00 F3 F2 04 00 F3 F2 05 00 F3 F2 06 00 F3 F2 07 00 F3 F2 08 00 F3 F2 09 F0 00 F1 F3");
    assert_eq!(host.get(uids::GLOBAL_RANGE, 3, 9).result, list(&list(&row)));
    // Enable, Done, DoneOnReset: False False Power Cycle.
    let row = hex("F2 01 00 F3 F2 02 00 F3 F2 03 F0 00 F1 F3");
    assert_eq!(host.get(uids::MBR_CONTROL, 1, 3).result, list(&list(&row)));
    // The users' PINs are "".
    for user in [uids::USER1, uids::USER2] {
        assert_eq!(host.set(user, &named(5, &[1])), 0x00);
        let proved = host.call(uids::THIS_SP, uids::AUTHENTICATE, &[uid(user), named(0, &[0xA0])].concat());
        assert_eq!(proved.result, list(&[1]), "{user}");
    }
}

/// 003 Table 166 (5484 to 5502), each in the case that its section (5.1.5) or document 01 names.
#[test]
fn statuses() {
    let mut host = Host::new();
    let parameters = [vec![HSN as u8], uid(uids::ADMIN_SP), vec![1]].concat();
    // INVALID_PARAMETER: an SPID that no SP has.
    assert_eq!(host.start(uids::THIS_SP, None, None), 0x0C);
    // NOT_AUTHORIZED and AUTHORITY_LOCKED_OUT: a wrong PIN, five times.
    for _ in 0..5 {
        assert_eq!(host.start(uids::ADMIN_SP, Some(uids::SID), Some(b"wrong")), 0x01);
    }
    assert_eq!(host.start(uids::ADMIN_SP, Some(uids::SID), Some(&MSID)), 0x12);
    assert_eq!(host.apply(&Event::PowerCycle).number, 0);
    // SUCCESS, and NO_SESSIONS_AVAILABLE while that one is open.
    assert_eq!(host.start(uids::ADMIN_SP, Some(uids::SID), Some(&MSID)), 0x00);
    let session = host.session;
    assert_eq!(host.start_with(&parameters).status, 0x07);
    host.session = session;
    // FAIL: Activate in a transaction.
    assert_eq!(host.send(&[0xFB, 0x00]), [0xFB, 0x00]);
    assert_eq!(host.call(uids::LOCKING_SP, uids::ACTIVATE, &[]).status, 0x3F);
}

/// 003 Tables 58 and 59 (3921, 3929): a boolean is 0 or 1; Table 122 (4628): a password has 32 bytes at the most; 5.1.4.2.18: a
/// uidref is always 8 bytes long.
#[test]
fn types() {
    let mut host = Host::sid();
    let statuses = [0, 1, 2].map(|value| host.set(uids::TPER_INFO, &named(8, &[value])));
    assert_eq!(statuses, [0x00, 0x00, 0x0C]);
    let statuses = [0, 32, 33].map(|length| host.set(uids::C_PIN_SID, &named(3, &bytes(&vec![b'p'; length]))));
    assert_eq!(statuses, [0x00, 0x00, 0x0C]);
    host.end();
    assert_eq!(host.start(uids::ADMIN_SP, Some(uids::SID), Some(&[b'p'; 32])), 0x00);
    host.end();
    let sp = [hex(uids::ADMIN_SP), vec![0]].concat();
    let statuses = [7, 9, 8].map(|length| {
        let parameters = [&[HSN as u8][..], &bytes(&sp[..length]), &[1]].concat();
        host.start_with(&parameters).status
    });
    assert_eq!(statuses, [0x0C, 0x0C, 0x00]);
}

/// 000 Table 10 and 004 Table 14: Power Cycle is 0, Programmatic 3. 000 4.3.5.2.1 and 4.3.5.3.1: { 0 } and { 0, 3 } are taken;
/// Hardware and HotPlug, 1 and 2, document 01 does not have.
#[test]
fn resets() {
    let mut host = Host::admin1();
    for (object, column) in [(uids::GLOBAL_RANGE, 9), (uids::MBR_CONTROL, 3)] {
        for (set, status) in [(vec![0], 0x00), (vec![0, 3], 0x00), (vec![0, 1], 0x0C), (vec![0, 2], 0x0C)] {
            let before = host.cell(object, column);
            assert_eq!(host.set(object, &named(column, &list(&set))), status, "{set:?}");
            let expected = if status == 0 { list(&set) } else { before };
            assert_eq!(host.cell(object, column), expected);
        }
    }
    // Both resets lock what is enabled.
    assert_eq!(host.set(uids::GLOBAL_RANGE, &named(6, &[1])), 0x00);
    assert_eq!(media(&mut host, true, 0, SECTORS), DISK);
    assert_eq!(host.apply(&Event::PowerCycle).number, 0);
    assert_eq!(media(&mut host, true, 0, SECTORS), REFUSED);
}
