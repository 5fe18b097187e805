//! UIDs: each names what the sources say it names. In brackets behind a table are lines of the copies.

use std::ops::RangeInclusive;

use crate::host::{bytes, call, hex, list, named, uid, Host, Reply, HSN, MSID};

/// 003 Table 239 (12824).
pub const SESSION_MANAGER: &str = "00 00 00 00 00 00 00 FF";
/// 003 Table 239 (12823); 000 Tables 16 (821) and 28 (1033, 1035).
pub const THIS_SP: &str = "00 00 00 00 00 00 00 01";

/// 003 Table 241 (12889 to 12893).
pub const START_SESSION: &str = "00 00 00 00 00 00 FF 02";
const SYNC_SESSION: &str = "00 00 00 00 00 00 FF 03";
pub const CLOSE_SESSION: &str = "00 00 00 00 00 00 FF 06";
/// 003 Table 241: Properties, StartTrustedSession, SyncTrustedSession. Document 01 does not have them.
const OTHER_SESSION_METHODS: [&str; 3] =
    ["00 00 00 00 00 00 FF 01", "00 00 00 00 00 00 FF 04", "00 00 00 00 00 00 FF 05"];

/// 003 Table 242 (12921); 002 Tables 12 and 23; 000 Tables 15 (749) and 27 (1001); 004 (886, 1178).
pub const GET: &str = "00 00 00 06 00 00 00 16";
/// 003 Table 242 (12922); 002 Tables 12 and 23; 000 Tables 15 (750) and 27 (1002); 004 (886, 1179).
pub const SET: &str = "00 00 00 06 00 00 00 17";
/// 003 Table 242 (12923); 000 Tables 15 (751) and 27 (1003); 004 (886, 1180).
pub const AUTHENTICATE: &str = "00 00 00 06 00 00 00 1C";
/// 002 Table 23 and 5.2.3 (3485); 000 Table 27 (1000) and 5.1.3 (1418); 004 (1177, 1560).
const REVERT_SP: &str = "00 00 00 06 00 00 00 11";
/// 002 Table 12 and 5.2.2 (3436); 000 Table 15 (752) and 5.1.2 (1383); 004 (886, 1501).
const REVERT: &str = "00 00 00 06 00 00 02 02";
/// 002 Table 12 and 5.2.1 (3390); 000 Table 15 (753) and 5.1.1 (1349); 004 (886).
pub const ACTIVATE: &str = "00 00 00 06 00 00 02 03";

/// 003 Table 245 (12998); 002 Table 19 and 5.2.2 (3449); 000 Table 23 (910); 004 (1035).
pub const ADMIN_SP: &str = "00 00 02 05 00 00 00 01";
/// 002 Table 19; 000 Table 23 (911); 004 (1036).
pub const LOCKING_SP: &str = "00 00 02 05 00 00 00 02";

/// 003 Tables 209 (9076) and 243 (12964); 000 Tables 18 (851) and 30 (1185); 004 (973, 1325).
const ANYBODY: &str = "00 00 00 09 00 00 00 01";
/// 003 Tables 209 (9077) and 243 (12965); 000 Tables 18 (852) and 30 (1186); 004 (974, 1326).
const ADMINS: &str = "00 00 00 09 00 00 00 02";
/// 003 Tables 209 (9081) and 243 (12971); 000 Table 18 (853); 004 (975).
pub const SID: &str = "00 00 00 09 00 00 00 06";
/// 000 Table 30 (1187 to 1190); 004 (1327 to 1330).
pub const ADMIN1: &str = "00 00 00 09 00 01 00 01";
const USERS: &str = "00 00 00 09 00 03 00 00";
pub const USER1: &str = "00 00 00 09 00 03 00 01";
pub const USER2: &str = "00 00 00 09 00 03 00 02";
/// 003 Tables 209 (9078 to 9084), 216 (9987) and 243 (12966 to 12982): Makers to AdminExch, Issuers to Reserve3, by the
/// last two bytes after 00 00 00 09 00 00. Document 01 does not know them.
const OTHER_AUTHORITIES: [(u8, RangeInclusive<u8>); 3] =
    [(0x00, 0x03..=0x05), (0x00, 0x07..=0x09), (0x02, 0x01..=0x08)];

/// 003 Table 245 (12997); 002 Table 16; 000 Tables 16 (807) and 19 (860); 004 (925, 982).
pub const C_PIN_SID: &str = "00 00 00 0B 00 00 00 01";
/// 002 Table 16; 000 Tables 16 (811) and 19 (861); 004 (929, 983).
pub const C_PIN_MSID: &str = "00 00 00 0B 00 00 84 02";
/// 002 Table 27 (1530); 000 Tables 28 (1111) and 31 (1199); 004 (1250, 1337).
pub const C_PIN_ADMIN1: &str = "00 00 00 0B 00 01 00 01";
/// 002 Table 27 (1542); 000 Tables 28 (1111) and 31 (1200); 004 (1253, 1338).
pub const C_PIN_USER1: &str = "00 00 00 0B 00 03 00 01";
/// 000 Tables 28 (1111) and 31 (1201); 004 (1254, 1339).
pub const C_PIN_USER2: &str = "00 00 00 0B 00 03 00 02";
/// 002 Table 17 (1043); 000 Tables 16 (813) and 21 (892); 004 (930).
pub const TPER_INFO: &str = "00 00 02 01 00 03 00 01";
/// 003 Table 245 (13001); 000 Table 35 (1272); 004 (1264, 1404).
pub const GLOBAL_RANGE: &str = "00 00 08 02 00 00 00 01";
/// 003 Table 244 (12991); 002 Table 30; 000 Table 36 (1288); 004 (1269, 1422).
pub const MBR_CONTROL: &str = "00 00 08 03 00 00 00 01";

/// 003 Table 242 (12899 to 12955) but for the six above, and 001's Assign and Deassign (585, 903), by the last two bytes
/// after 00 00 00 06 00 00. Document 01's rows have none of them.
const OTHER_METHODS: [(u8, RangeInclusive<u8>); 7] = [
    (0x00, 0x01..=0x10),
    (0x00, 0x12..=0x13),
    (0x02, 0x01..=0x01),
    (0x04, 0x01..=0x07),
    (0x06, 0x01..=0x11),
    (0x08, 0x03..=0x05),
    (0x0A, 0x01..=0x04),
];

/// UIDs of a table's rows, printed as ranges of their last two bytes.
fn rows(table: &str, ranges: &[(u8, RangeInclusive<u8>)]) -> Vec<String> {
    let row = |high: u8, low: u8| format!("{table} 00 00 {high:02X} {low:02X}");
    ranges.iter().flat_map(|(high, lows)| lows.clone().map(move |low| row(*high, low))).collect()
}

#[test]
fn session_manager() {
    let mut host = Host::new();
    let started = host.start_with(&[vec![HSN as u8], uid(ADMIN_SP), vec![1]].concat());
    // SMUID.SyncSession [HostSessionID, SPSessionID] (003 5.2.3.2); the first TSN is 1.
    let sync = [&[0xF8][..], &uid(SESSION_MANAGER), &uid(SYNC_SESSION), &list(&[HSN as u8, 1])].concat();
    assert_eq!(started, Reply { result: sync, status: 0x00 });
    host.session = (1, HSN);
    // SMUID.CloseSession [RemoteSessionNumber, LocalSessionNumber] (003 5.2.3.5): HSN, then TSN.
    assert!(host.is_closed_by(&[0xF8]));
    for method in OTHER_SESSION_METHODS.iter().chain(&[SYNC_SESSION, CLOSE_SESSION]) {
        host.session = (0, 0);
        let refused = Reply { result: list(&[]), status: 0x01 };
        assert_eq!(host.call(SESSION_MANAGER, method, &[]), refused, "{method}");
    }
}

/// 003 5.2.3.1 (5889 to 5901), by 002 4.1.1.2: Write is True alone, and of the optional parameters, named from 0 on, there are
/// HostChallenge and HostSigningAuthority, 0 and 3.
#[test]
fn parameters_of_start_session() {
    let status = |write: u8, name: u8, value: &[u8]| {
        let authority = if name == 3 { vec![] } else { named(3, &uid(SID)) };
        let optional = if name < 3 { [named(name, value), authority] } else { [authority, named(name, value)] };
        Host::new().start_with(&[vec![HSN as u8], uid(ADMIN_SP), vec![write], optional.concat()].concat()).status
    };
    assert_eq!(status(1, 0, &bytes(&MSID)), 0x00);
    assert_eq!(status(0, 0, &bytes(&MSID)), 0x0C);
    assert_eq!(status(1, 3, &uid(ANYBODY)), 0x00);
    for name in [1, 2, 4, 5, 6, 7, 8] {
        assert_eq!(status(1, name, &bytes(&MSID)), 0x0C, "{name}");
    }
}

#[test]
fn authorities_of_the_admin_sp() {
    let mut host = Host::new();
    let mut start = |authority: &str, pin: Option<&[u8]>| {
        let status = host.start(ADMIN_SP, Some(authority), pin);
        if status == 0 {
            host.end();
        }
        status
    };
    assert_eq!(start(ANYBODY, None), 0x00);
    // Known, but a class; one that is not known is 0C.
    assert_eq!(start(ADMINS, None), 0x01);
    assert_eq!(start(SID, Some(&MSID[1..])), 0x01);
    assert_eq!(start(SID, Some(&MSID)), 0x00);
    for authority in rows("00 00 00 09", &OTHER_AUTHORITIES).iter().map(String::as_str).chain([ADMIN1, USERS, USER1]) {
        assert_eq!(start(authority, Some(&MSID)), 0x0C, "{authority}");
    }
}

#[test]
fn authorities_of_the_locking_sp() {
    let mut host = Host::admin1();
    host.end();
    assert_eq!(host.start(LOCKING_SP, Some(ANYBODY), None), 0x00);
    host.end();
    // Known, but a class or disabled (000 Table 30: Enabled of User1 and User2 is F).
    for authority in [ADMINS, USERS, USER1, USER2] {
        assert_eq!(host.start(LOCKING_SP, Some(authority), None), 0x01, "{authority}");
    }
    for authority in rows("00 00 00 09", &OTHER_AUTHORITIES).iter().map(String::as_str).chain([SID]) {
        assert_eq!(host.start(LOCKING_SP, Some(authority), None), 0x0C, "{authority}");
    }
    assert_eq!(host.start(LOCKING_SP, Some(ADMIN1), Some(&MSID)), 0x00);
}

#[test]
fn objects_have_their_uid_in_column_0() {
    for (mut host, objects) in [
        (Host::sid(), vec![C_PIN_SID, C_PIN_MSID, TPER_INFO, ADMIN_SP, LOCKING_SP]),
        (Host::admin1(), vec![ADMIN1, USER1, USER2, C_PIN_ADMIN1, C_PIN_USER1, C_PIN_USER2, GLOBAL_RANGE, MBR_CONTROL]),
    ] {
        for object in objects {
            assert_eq!(host.cell(object, 0), uid(object), "{object}");
        }
    }
}

#[test]
fn methods() {
    let mut host = Host::sid();
    // Get and Set: a PIN that is seen by the next session, a cell that is seen by the next Get.
    assert_eq!(host.call(C_PIN_SID, SET, &named(1, &list(&named(3, &bytes(b"owner"))))).status, 0x00);
    assert_eq!(host.call(TPER_INFO, SET, &named(1, &list(&named(8, &[1])))).status, 0x00);
    let row = host.call(TPER_INFO, GET, &list(&named(3, &[8])));
    assert_eq!(row, Reply { result: list(&list(&named(8, &[1]))), status: 0x00 });
    // Authenticate: the result is Success (003 5.3.3.12).
    let mut prove = |pin: &[u8]| host.call(THIS_SP, AUTHENTICATE, &[uid(SID), named(0, &bytes(pin))].concat());
    assert_eq!(prove(b"other"), Reply { result: list(&[0]), status: 0x00 });
    assert_eq!(prove(b"owner"), Reply { result: list(&[1]), status: 0x00 });
    let life_cycle = |host: &mut Host| host.cell(LOCKING_SP, 6);
    let done = Reply { result: list(&[]), status: 0x00 };
    // Activate, Revert, RevertSP: the LifeCycle goes from 8 to 9 and back (002 Table 41).
    assert_eq!(life_cycle(&mut host), [8]);
    assert_eq!(host.call(LOCKING_SP, ACTIVATE, &[]), done);
    assert_eq!(life_cycle(&mut host), [9]);
    assert_eq!(host.call(LOCKING_SP, REVERT, &[]), done);
    assert_eq!(life_cycle(&mut host), [8]);
    assert_eq!(host.call(LOCKING_SP, ACTIVATE, &[]), done);
    host.end();
    assert_eq!(host.start(LOCKING_SP, Some(ADMIN1), Some(b"owner")), 0x00);
    assert_eq!(host.call(THIS_SP, REVERT_SP, &[]), done);
    assert_eq!(host.start(LOCKING_SP, None, None), 0x0C);
    assert_eq!(host.start(ADMIN_SP, Some(SID), Some(b"owner")), 0x00);
    assert_eq!(life_cycle(&mut host), [8]);
    // Revert of the Admin SP: SID's PIN is the MSID again (002 5.2.2).
    assert_eq!(host.call(ADMIN_SP, REVERT, &[]), done);
    assert_eq!(host.start(ADMIN_SP, Some(SID), Some(b"owner")), 0x01);
    assert_eq!(host.start(ADMIN_SP, Some(SID), Some(&MSID)), 0x00);
}

#[test]
fn methods_that_no_row_has() {
    let refused = Reply { result: list(&[]), status: 0x01 };
    for (mut host, objects) in [
        (Host::sid(), vec![THIS_SP, C_PIN_SID, LOCKING_SP]),
        (Host::admin1(), vec![THIS_SP, GLOBAL_RANGE, MBR_CONTROL]),
    ] {
        for method in rows("00 00 00 06", &OTHER_METHODS) {
            for object in &objects {
                assert_eq!(host.call(object, &method, &[]), refused, "{method} on {object}");
            }
        }
    }
}

/// "A bytes token representing the 8-byte value" (003 3.2.4.2): a uinteger token in the place of either is unexpected
/// (003 3.2.2.4.2, lines 1499 to 1506), and for a regular session the session is aborted.
#[test]
fn header_of_a_method() {
    let method = call(THIS_SP, GET, &list(&[]));
    let (invoking, rest) = method[1..].split_at(9);
    for broken in
        [[&[0xF8, 0x88][..], &hex(THIS_SP), rest].concat(), [&[0xF8][..], invoking, &[0x88], &rest[1..]].concat()]
    {
        assert!(Host::sid().is_closed_by(&broken));
    }
    assert_eq!(Host::sid().send(&method)[..3], [0xF0, 0xF1, 0xF9]);
}
