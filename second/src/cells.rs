//! Cells: how a Get writes them and how a Set reads them.

use crate::access::{self, column, Columns, Object};
use crate::answer::Answer;
use crate::record::{Card, MbrControl, Pin, Range, TRY_LIMIT};
use crate::tokens::{Atom, Value, Values};
use crate::uid::Uid;

/// LifeCycle, column 6 of an SP's row.
const MANUFACTURED_INACTIVE: u64 = 8;
const MANUFACTURED: u64 = 9;

impl Card {
    /// Named values of an object's columns, ascending.
    pub(crate) fn write_cells(&self, answer: &mut Answer<'_>, uid: &Uid, object: Object, chosen: Columns) {
        for number in (0..=access::last_column(object)).filter(|number| chosen & column(*number) != 0) {
            answer.start_name(number);
            self.write_cell(answer, uid, object, number);
            answer.end_name();
        }
    }

    fn write_cell(&self, answer: &mut Answer<'_>, uid: &Uid, object: Object, number: u64) {
        match (object, number) {
            (_, 0) => answer.bytes(uid),
            (Object::Pin(_), 5) => answer.integer(u64::from(TRY_LIMIT)),
            (Object::Pin(row), 6) => answer.integer(u64::from(self.tries[row])),
            // Every Persistence is False.
            (Object::Pin(_), 7) => answer.flag(false),
            (Object::Msid, 3) => answer.bytes(&self.msid),
            (Object::TperInfo, 8) => answer.flag(self.tables.reset_enabled),
            (Object::AdminSp, 6) => answer.integer(MANUFACTURED),
            (Object::LockingSp, 6) => {
                answer.integer(if self.tables.locking_active { MANUFACTURED } else { MANUFACTURED_INACTIVE });
            }
            (Object::Authority(row), 5) => answer.flag(self.tables.enabled[row]),
            (Object::Range(row), _) => write_range_cell(answer, &self.tables.ranges[row], number),
            (Object::MbrControl, 1) => answer.flag(self.tables.mbr.enable),
            (Object::MbrControl, 2) => answer.flag(self.tables.mbr.done),
            (Object::MbrControl, 3) => write_resets(answer, self.tables.mbr.done_on_reset_3),
            // No access row lets a host get any other.
            _ => (),
        }
    }
}

fn write_range_cell(answer: &mut Answer<'_>, range: &Range, number: u64) {
    match number {
        3 => answer.integer(range.start),
        4 => answer.integer(range.length),
        5 => answer.flag(range.read_lock_enabled),
        6 => answer.flag(range.write_lock_enabled),
        7 => answer.flag(range.read_locked),
        8 => answer.flag(range.write_locked),
        9 => write_resets(answer, range.lock_on_reset_3),
        _ => (),
    }
}

fn write_resets(answer: &mut Answer<'_>, with_3: bool) {
    answer.start_list();
    answer.integer(0);
    if with_3 {
        answer.integer(3);
    }
    answer.end_list();
}

/// A Set's list of named values, as column numbers and values.
#[derive(Clone, Copy)]
pub(crate) struct Cells<'a>(pub Values<'a>);

impl Cells<'_> {
    /// The columns named: None where an element names none, or one that is unknown or repeated.
    pub(crate) fn columns(self, last: u64) -> Option<Columns> {
        let mut named = 0;
        for value in self.0 {
            let Value::Named(Atom::Integer(number), _) = value else {
                return None;
            };
            if number > last || named & column(number) != 0 {
                return None;
            }
            named |= column(number);
        }
        Some(named)
    }
}

impl<'a> Iterator for Cells<'a> {
    type Item = (u64, Value<'a>);

    fn next(&mut self) -> Option<Self::Item> {
        match self.0.next()? {
            Value::Named(Atom::Integer(number), held) => Some((number, held.only()?)),
            _ => None,
        }
    }
}

pub(crate) fn integer(value: Value<'_>) -> Option<u64> {
    match value {
        Value::Integer(value) => Some(value),
        _ => None,
    }
}

pub(crate) fn flag(value: Value<'_>) -> Option<bool> {
    match value {
        Value::Integer(0) => Some(false),
        Value::Integer(1) => Some(true),
        _ => None,
    }
}

pub(crate) fn pin(value: Value<'_>) -> Option<Pin> {
    match value {
        Value::Bytes(bytes) => Pin::new(bytes),
        _ => None,
    }
}

/// A set of resets, {0} or {0, 3}: whether 3 is in it. A set has no order and no element twice.
fn resets(value: Value<'_>) -> Option<bool> {
    let Value::List(mut list) = value else {
        return None;
    };
    match (list.next(), list.next(), list.is_empty()) {
        (Some(Value::Integer(0)), None, true) => Some(false),
        (Some(Value::Integer(0)), Some(Value::Integer(3)), true) => Some(true),
        (Some(Value::Integer(3)), Some(Value::Integer(0)), true) => Some(true),
        _ => None,
    }
}

pub(crate) fn changed_mbr(mut mbr: MbrControl, cells: Cells<'_>) -> Option<MbrControl> {
    for (number, value) in cells {
        match number {
            1 => mbr.enable = flag(value)?,
            2 => mbr.done = flag(value)?,
            3 => mbr.done_on_reset_3 = resets(value)?,
            _ => return None,
        }
    }
    Some(mbr)
}

pub(crate) fn changed_range(mut range: Range, cells: Cells<'_>) -> Option<Range> {
    for (number, value) in cells {
        match number {
            3 => range.start = integer(value)?,
            4 => range.length = integer(value)?,
            5 => range.read_lock_enabled = flag(value)?,
            6 => range.write_lock_enabled = flag(value)?,
            7 => range.read_locked = flag(value)?,
            8 => range.write_locked = flag(value)?,
            9 => range.lock_on_reset_3 = resets(value)?,
            _ => return None,
        }
    }
    Some(range)
}
