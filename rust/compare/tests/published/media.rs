//! 003 Tables 230 and 231: what becomes of a read or a write.

use compare::event::Event;

use crate::host::{named, Host};
use crate::uids;

/// "The MBR minimum size SHALL be 128 MB (0x08000000)" (002 4.3.3.4, line 1593; 000 4.3.5.4, line 1299), in sectors of 512 bytes.
const MBR: u64 = 0x0800_0000 / 512;

/// Start and end within the MBR.
const WITHIN: (u64, u64) = (MBR - 1, 1);
const ACROSS: (u64, u64) = (MBR - 1, 2);
const BEYOND: (u64, u64) = (MBR, 1);
const ANYWHERE: &[(u64, u64)] = &[WITHIN, ACROSS, BEYOND];

#[derive(Clone, Copy, PartialEq, Eq, Debug)]
enum Behavior {
    UserData = 0,
    FromMbr = 2,
    /// Terminated with a "Data Protection Error".
    Error = 3,
}

use Behavior::{Error, FromMbr, UserData};

/// A line of the tables; both values stand for N/A.
struct Row {
    enable: &'static [u8],
    done: &'static [u8],
    places: &'static [(u64, u64)],
    lock_enabled: &'static [u8],
    locked: &'static [u8],
    behavior: Behavior,
}

const TRUE: &[u8] = &[1];
const FALSE: &[u8] = &[0];
const NA: &[u8] = &[0, 1];

const fn row(
    enable: &'static [u8],
    done: &'static [u8],
    places: &'static [(u64, u64)],
    lock_enabled: &'static [u8],
    locked: &'static [u8],
    behavior: Behavior,
) -> Row {
    Row { enable, done, places, lock_enabled, locked, behavior }
}

/// 003 Table 230 (12111 to 12127).
const READS: [Row; 10] = [
    row(TRUE, FALSE, &[WITHIN], NA, NA, FromMbr),
    row(TRUE, FALSE, &[ACROSS], NA, NA, Error),
    row(TRUE, FALSE, &[BEYOND], FALSE, NA, UserData),
    row(TRUE, FALSE, &[BEYOND], TRUE, FALSE, UserData),
    row(TRUE, TRUE, ANYWHERE, FALSE, NA, UserData),
    row(TRUE, TRUE, ANYWHERE, TRUE, FALSE, UserData),
    row(TRUE, TRUE, ANYWHERE, TRUE, TRUE, Error),
    row(FALSE, NA, ANYWHERE, FALSE, NA, UserData),
    row(FALSE, NA, ANYWHERE, TRUE, FALSE, UserData),
    row(FALSE, NA, ANYWHERE, TRUE, TRUE, Error),
];

/// 003 Table 231 (12134 to 12149).
const WRITES: [Row; 10] = [
    row(TRUE, FALSE, &[WITHIN, ACROSS], NA, NA, Error),
    row(TRUE, FALSE, &[BEYOND], FALSE, NA, UserData),
    row(TRUE, FALSE, &[BEYOND], TRUE, FALSE, UserData),
    row(TRUE, FALSE, &[BEYOND], TRUE, TRUE, Error),
    row(TRUE, TRUE, ANYWHERE, FALSE, NA, UserData),
    row(TRUE, TRUE, ANYWHERE, TRUE, FALSE, UserData),
    row(TRUE, TRUE, ANYWHERE, TRUE, TRUE, Error),
    row(FALSE, NA, ANYWHERE, FALSE, NA, UserData),
    row(FALSE, NA, ANYWHERE, TRUE, FALSE, UserData),
    row(FALSE, NA, ANYWHERE, TRUE, TRUE, Error),
];

/// Every combination that a row stands for, with the lock columns of the global range for this direction.
fn hold(row: &Row, write: bool, lock_columns: [u8; 2]) {
    for enable in row.enable {
        for done in row.done {
            for lock_enabled in row.lock_enabled {
                for locked in row.locked {
                    let mut host = Host::admin1();
                    let set = [named(lock_columns[0], &[*lock_enabled]), named(lock_columns[1], &[*locked])].concat();
                    assert_eq!(host.set(uids::GLOBAL_RANGE, &set), 0x00);
                    let set = [named(1, &[*enable]), named(2, &[*done])].concat();
                    assert_eq!(host.set(uids::MBR_CONTROL, &set), 0x00);
                    for (start, count) in row.places {
                        let ruling = host.apply(&Event::Media { write, start: *start, count: *count }).number;
                        let case = [*enable, *done, *lock_enabled, *locked];
                        assert_eq!(ruling, row.behavior as usize, "{case:?} {start} {count}");
                    }
                }
            }
        }
    }
}

#[test]
fn reads() {
    READS.iter().for_each(|row| hold(row, false, [5, 7]));
}

#[test]
fn writes() {
    WRITES.iter().for_each(|row| hold(row, true, [6, 8]));
}
