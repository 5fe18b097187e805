//! Who may do what: objects, authorities and the access rows.

use crate::record::{Card, ADMIN1, RANGES, SID, USER1};
use crate::uid::{self, Uid};

const ADMIN_COUNT: u8 = 4;
const USER_COUNT: u8 = 8;

/// An object of one SP. The number of a PIN row or authority is its place in the record's order.
#[derive(Clone, Copy, PartialEq, Eq, Debug)]
pub(crate) enum Object {
    Pin(usize),
    Msid,
    TperInfo,
    AdminSp,
    LockingSp,
    ThisSp,
    Authority(usize),
    Range(usize),
    MbrControl,
}

#[derive(Clone, Copy, PartialEq, Eq, Debug)]
pub(crate) enum Method {
    Get,
    Set,
    Authenticate,
    Activate,
    Revert,
    RevertSp,
}

/// An authority that an SP knows.
#[derive(Clone, Copy, PartialEq, Eq, Debug)]
pub(crate) enum Authority {
    Anybody,
    Class,
    One(usize),
}

#[derive(Clone, Copy, PartialEq, Eq, Debug)]
pub(crate) enum Who {
    Anybody,
    /// The authority of this row, itself.
    One(usize),
    /// Any of Admin1 to Admin4.
    Admins,
}

/// Columns as a set of bits, column 0 the lowest. For a method without columns it is empty and only the host counts.
pub(crate) type Columns = u32;

#[derive(Clone, Copy, PartialEq, Eq, Debug)]
pub(crate) struct Grant {
    pub who: Who,
    pub columns: Columns,
}

/// One or two grants make a row; each adds to what the host may do.
pub(crate) type Row = [Option<Grant>; 2];

pub(crate) const fn column(number: u64) -> Columns {
    1 << number
}

/// Columns from `first` to `last`, both counted.
pub(crate) const fn columns(first: u64, last: u64) -> Columns {
    (column(last + 1) - 1) & !(column(first) - 1)
}

pub(crate) fn method(uid: &Uid) -> Option<Method> {
    match *uid {
        uid::GET => Some(Method::Get),
        uid::SET => Some(Method::Set),
        uid::AUTHENTICATE => Some(Method::Authenticate),
        uid::ACTIVATE => Some(Method::Activate),
        uid::REVERT => Some(Method::Revert),
        uid::REVERT_SP => Some(Method::RevertSp),
        _ => None,
    }
}

/// The row of Admin k or User k, where the last four bytes of a UID name one.
fn numbered(tail: &[u8]) -> Option<usize> {
    match *tail {
        [0, 1, 0, k] if (1..=ADMIN_COUNT).contains(&k) => Some(ADMIN1 + usize::from(k) - 1),
        [0, 3, 0, k] if (1..=USER_COUNT).contains(&k) => Some(USER1 + usize::from(k) - 1),
        _ => None,
    }
}

/// An authority known to the Locking SP (`locking`) or the Admin SP.
pub(crate) fn authority(locking: bool, uid: &[u8]) -> Option<Authority> {
    let uid: Uid = uid.try_into().ok()?;
    match uid {
        uid::ANYBODY => Some(Authority::Anybody),
        uid::ADMINS => Some(Authority::Class),
        uid::SID if !locking => Some(Authority::One(SID)),
        uid::USERS if locking => Some(Authority::Class),
        [0, 0, 0, 9, ..] if locking => numbered(&uid[4..]).map(Authority::One),
        _ => None,
    }
}

/// An object that the access rows of the SP name.
pub(crate) fn object(locking: bool, uid: &Uid) -> Option<Object> {
    match (locking, *uid) {
        (_, uid::THIS_SP) => Some(Object::ThisSp),
        (false, uid::C_PIN_SID) => Some(Object::Pin(SID)),
        (false, uid::C_PIN_MSID) => Some(Object::Msid),
        (false, uid::TPER_INFO) => Some(Object::TperInfo),
        (false, uid::ADMIN_SP) => Some(Object::AdminSp),
        (false, uid::LOCKING_SP) => Some(Object::LockingSp),
        (true, uid::MBR_CONTROL) => Some(Object::MbrControl),
        (true, uid::GLOBAL_RANGE) => Some(Object::Range(0)),
        (true, [0, 0, 8, 2, 0, 3, 0, k]) if (1..RANGES).contains(&usize::from(k)) => {
            Some(Object::Range(usize::from(k)))
        }
        (true, [0, 0, 0, 9, ..]) => numbered(&uid[4..]).map(Object::Authority),
        (true, [0, 0, 0, 0x0B, ..]) => numbered(&uid[4..]).map(Object::Pin),
        _ => None,
    }
}

/// The access row of an object and a method; None where the table has none. `locking` tells whose ThisSP is meant.
pub(crate) fn row(locking: bool, object: Object, method: Method) -> Option<Row> {
    use Who::{Admins, Anybody, One};
    let single = |who, columns| Some([Some(Grant { who, columns }), None]);
    let double =
        |who, columns, other, more| Some([Some(Grant { who, columns }), Some(Grant { who: other, columns: more })]);
    match (method, object) {
        (Method::Get, Object::Pin(SID)) => single(One(SID), column(0) | columns(5, 7)),
        (Method::Get, Object::Pin(_)) => single(Admins, column(0) | columns(5, 7)),
        (Method::Get, Object::Msid) => single(Anybody, column(0) | column(3)),
        (Method::Get, Object::TperInfo) => single(Anybody, column(0) | column(8)),
        (Method::Get, Object::AdminSp | Object::LockingSp) => single(Anybody, column(0) | column(6)),
        (Method::Get, Object::Authority(_)) => single(Admins, column(0) | column(5)),
        (Method::Get, Object::Range(_)) => double(Anybody, column(0), Admins, columns(3, 9)),
        (Method::Get, Object::MbrControl) => single(Anybody, columns(0, 3)),

        (Method::Set, Object::Pin(SID)) => single(One(SID), column(3)),
        (Method::Set, Object::Pin(row)) if row >= USER1 => double(Admins, column(3), One(row), column(3)),
        (Method::Set, Object::Pin(_)) => single(Admins, column(3)),
        (Method::Set, Object::TperInfo) => single(One(SID), column(8)),
        // "Not on Admin1": the pair itself is missing, so it is refused before its parameters are looked at.
        (Method::Set, Object::Authority(ADMIN1)) => None,
        (Method::Set, Object::Authority(_)) => single(Admins, column(5)),
        (Method::Set, Object::Range(0)) => single(Admins, columns(5, 9)),
        (Method::Set, Object::Range(_)) => single(Admins, columns(3, 9)),
        (Method::Set, Object::MbrControl) => single(Admins, columns(1, 3)),

        (Method::Authenticate, Object::ThisSp) => single(Anybody, 0),
        (Method::Activate, Object::LockingSp) => single(One(SID), 0),
        (Method::Revert, Object::AdminSp | Object::LockingSp) => single(One(SID), 0),
        (Method::RevertSp, Object::ThisSp) if locking => single(Admins, 0),
        _ => None,
    }
}

/// The last column that 003's table or document 01's rows know of an object.
pub(crate) fn last_column(object: Object) -> u64 {
    match object {
        Object::Pin(_) | Object::Msid | Object::AdminSp | Object::LockingSp => 7,
        Object::TperInfo => 8,
        Object::Authority(_) => 18,
        Object::Range(_) => 19,
        Object::MbrControl => 3,
        // No row lets a host Get or Set ThisSP.
        Object::ThisSp => 0,
    }
}

impl Card {
    fn is(&self, who: Who) -> bool {
        match who {
            Who::Anybody => true,
            Who::One(row) => self.session.proved[row],
            Who::Admins => self.session.proved[ADMIN1..USER1].contains(&true),
        }
    }

    fn held<'r>(&'r self, row: &'r Row) -> impl Iterator<Item = &'r Grant> {
        row.iter().flatten().filter(|grant| self.is(grant.who))
    }

    /// Whether the host may invoke the method of this row at all.
    pub(crate) fn may(&self, row: &Row) -> bool {
        self.held(row).next().is_some()
    }

    /// The columns this row lets the host touch.
    pub(crate) fn allowed_columns(&self, row: &Row) -> Columns {
        self.held(row).fold(0, |sum, grant| sum | grant.columns)
    }
}
