//! Objects, authorities and PINs to choose from.

use crate::chance::Chance;
use crate::state::{State, PIN_ROWS, RANGES};
use second::uid::{self, Uid};

/// Authorities and PIN rows in the order of the image: SID, Admin1 to Admin4, User1 to User8.
pub const SID: usize = 0;
pub const ADMIN1: usize = 1;
pub const USER1: usize = 5;

/// An object as the generator sees it: what columns mean.
#[derive(Clone, Copy, PartialEq, Eq)]
pub enum Object {
    Pin(usize),
    Msid,
    TperInfo,
    Sp(Uid),
    ThisSp,
    Authority(usize),
    Range(usize),
    MbrControl,
    /// A UID that no access row has.
    Stranger(Uid),
}

impl Object {
    pub fn uid(self) -> Uid {
        match self {
            Object::Pin(SID) => uid::C_PIN_SID,
            Object::Pin(row) if row < USER1 => uid::c_pin_admin(row as u8),
            Object::Pin(row) => uid::c_pin_user((row - USER1) as u8 + 1),
            Object::Msid => uid::C_PIN_MSID,
            Object::TperInfo => uid::TPER_INFO,
            Object::Sp(uid) | Object::Stranger(uid) => uid,
            Object::ThisSp => uid::THIS_SP,
            Object::Authority(row) => authority_uid(row),
            Object::Range(0) => uid::GLOBAL_RANGE,
            Object::Range(row) => uid::range(row as u8),
            Object::MbrControl => uid::MBR_CONTROL,
        }
    }

    /// The last column that is known of the object.
    pub fn last_column(self) -> u64 {
        match self {
            Object::Pin(_) | Object::Msid | Object::Sp(_) => 7,
            Object::TperInfo => 8,
            Object::Authority(_) => 18,
            Object::Range(_) => 19,
            Object::MbrControl | Object::ThisSp | Object::Stranger(_) => 3,
        }
    }

    /// The columns that some host may set.
    pub fn settable(self) -> &'static [u64] {
        match self {
            Object::Pin(_) => &[3],
            Object::TperInfo => &[8],
            Object::Authority(_) => &[5],
            Object::Range(0) => &[5, 6, 7, 8, 9],
            Object::Range(_) => &[3, 4, 5, 6, 7, 8, 9],
            Object::MbrControl => &[1, 2, 3],
            _ => &[],
        }
    }
}

pub fn authority_uid(row: usize) -> Uid {
    match row {
        SID => uid::SID,
        row if row < USER1 => uid::admin(row as u8),
        row => uid::user((row - USER1) as u8 + 1),
    }
}

/// Every object of both SPs, and UIDs next to theirs.
pub fn all() -> Vec<Object> {
    let strangers = [
        uid::ANYBODY,
        uid::ADMINS,
        uid::USERS,
        uid::SESSION_MANAGER,
        uid::admin(5),
        uid::user(9),
        uid::c_pin_admin(5),
        uid::c_pin_user(9),
        uid::range(0),
        uid::range(5),
    ];
    let single = [Object::Msid, Object::TperInfo, Object::ThisSp, Object::MbrControl];
    let sps = [uid::ADMIN_SP, uid::LOCKING_SP].map(Object::Sp);
    let rows = (0..PIN_ROWS).flat_map(|row| [Object::Pin(row), Object::Authority(row)]);
    let ranges = (0..RANGES).map(Object::Range);
    single.into_iter().chain(sps).chain(rows).chain(ranges).chain(strangers.map(Object::Stranger)).collect()
}

/// A row of the Locking SP's authorities; Admin1 and User1 come often, so that something is done with them.
pub fn locking_row(chance: &mut Chance) -> usize {
    match chance.below(4) {
        0 => ADMIN1,
        1 => USER1,
        _ => ADMIN1 + chance.index(PIN_ROWS - ADMIN1),
    }
}

/// An object, most times of the SP that the session is open to.
pub fn object(chance: &mut Chance, locking: bool) -> Object {
    if chance.one_in(16) {
        return Object::Stranger(stranger(chance));
    }
    let of_locking = locking != chance.one_in(20);
    if of_locking {
        match chance.below(12) {
            0..=4 => Object::Range(chance.index(RANGES)),
            5 | 6 => Object::Pin(locking_row(chance)),
            7 | 8 => Object::Authority(locking_row(chance)),
            9 | 10 => Object::MbrControl,
            _ => Object::ThisSp,
        }
    } else {
        chance.of(&[
            Object::Pin(SID),
            Object::Pin(SID),
            Object::Msid,
            Object::TperInfo,
            Object::TperInfo,
            Object::Sp(uid::ADMIN_SP),
            Object::Sp(uid::LOCKING_SP),
            Object::ThisSp,
        ])
    }
}

/// A UID that is nearly one of the card's.
fn stranger(chance: &mut Chance) -> Uid {
    let k = chance.of(&[0, 5, 9, 0xFF]);
    let mut uid = chance.of(&[
        uid::admin(k),
        uid::user(k),
        uid::c_pin_admin(k),
        uid::c_pin_user(k),
        uid::range(k),
        uid::ANYBODY,
        uid::ADMINS,
        uid::USERS,
        uid::SID,
        uid::SESSION_MANAGER,
        uid::GET,
        uid::THIS_SP,
    ]);
    if chance.one_in(2) {
        chance.flip_bit(&mut uid);
    }
    uid
}

/// An authority's UID, known to the SP or not, and the PIN row it stands for, if it stands for one.
pub fn authority(chance: &mut Chance, state: &State, locking: bool) -> (Uid, Option<usize>) {
    match chance.below(36) {
        0 => (uid::ANYBODY, None),
        1 => (uid::ADMINS, None),
        2 => (uid::USERS, None),
        3 => (stranger(chance), None),
        // Of the other SP.
        4 => {
            let row = if locking { SID } else { locking_row(chance) };
            (authority_uid(row), Some(row))
        }
        _ if !locking => (uid::SID, Some(SID)),
        // Enabled or not.
        5..=7 => {
            let row = locking_row(chance);
            (authority_uid(row), Some(row))
        }
        _ => {
            let enabled: Vec<usize> = (ADMIN1..PIN_ROWS).filter(|row| state.enabled(*row)).collect();
            let row = if enabled.is_empty() || chance.one_in(2) { ADMIN1 } else { chance.of(&enabled) };
            (authority_uid(row), Some(row))
        }
    }
}

/// A PIN for a row: the right one, or one that is wrong by little.
pub fn offered_pin(chance: &mut Chance, state: &State, row: Option<usize>) -> Vec<u8> {
    let Some(row) = row else {
        return any_pin(chance, state);
    };
    // Once a guess was wrong the next one often is, or the Tries would never get to 5.
    let wrong = match state.tries(row) {
        0 => chance.one_in(5),
        5 => chance.one_in(3),
        _ => chance.one_in(2),
    };
    let mut pin = state.pin(row).to_vec();
    if wrong {
        match chance.below(6) {
            // The same bytes once filled up with zeros.
            0 => pin.push(0),
            1 => drop(pin.pop()),
            2 => pin.clear(),
            3 if !pin.is_empty() => {
                chance.flip_bit(&mut pin);
            }
            4 => pin.resize(33, 0),
            _ => pin = any_pin(chance, state),
        }
    }
    pin
}

/// Any PIN at all, now and then one too long.
pub fn any_pin(chance: &mut Chance, state: &State) -> Vec<u8> {
    match chance.below(10) {
        0 => vec![],
        1 => vec![0; chance.index(34)],
        2 => chance.bytes(33),
        3 => {
            let count = 33 + chance.index(1_900);
            chance.bytes(count)
        }
        4 => chance.bytes(32),
        5 => state.pin(chance.index(PIN_ROWS)).to_vec(),
        6 => state.msid().to_vec(),
        _ => {
            let count = chance.index(33);
            chance.bytes(count)
        }
    }
}
