//! Payloads of calls: most of them right and by a host that may, so that a session gets somewhere.

use super::objects::{self, Object};
use super::values::{self, bytes_tokens, integer_tokens, list_tokens, named_tokens};
use crate::chance::Chance;
use crate::state::State;
use second::requests;
use second::uid::{self, Uid};

/// A call whose parameters are misshapen now and then.
fn call(chance: &mut Chance, invoking: &Uid, method: &Uid, mut parameters: Vec<Vec<u8>>) -> Vec<u8> {
    if chance.one_in(12) {
        values::misshape(chance, &mut parameters);
    }
    requests::call(invoking, method, &parameters.concat())
}

fn locking(state: &State) -> bool {
    state.session().is_some_and(|session| session.locking)
}

pub fn start_session(chance: &mut Chance, state: &State) -> Vec<u8> {
    let locking = if state.locking_active() { !chance.one_in(4) } else { chance.one_in(12) };
    let sp = match chance.below(40) {
        0 => chance.of(&[uid::THIS_SP, uid::SID, uid::LOCKING_SP, [0, 0, 2, 5, 0, 0, 0, 3]]),
        _ if locking => uid::LOCKING_SP,
        _ => uid::ADMIN_SP,
    };
    let hsn = match chance.below(12) {
        0 => chance.of(&[0, 1, u64::from(u32::MAX), 1 << 32, u64::MAX]),
        _ => chance.below(1 << 32),
    };
    let write = if chance.one_in(30) { chance.of(&[0, 2]) } else { 1 };
    let mut parameters = vec![integer_tokens(hsn), bytes_tokens(&sp), integer_tokens(write)];
    let named = !chance.one_in(8);
    let (authority, row) = objects::authority(chance, state, locking);
    if named || chance.one_in(8) {
        let pin = objects::offered_pin(chance, state, row);
        // An omitted challenge is an empty one.
        if !pin.is_empty() || chance.one_in(2) {
            parameters.push(named_tokens(0, &bytes_tokens(&pin)));
        }
    }
    if named {
        parameters.push(named_tokens(3, &bytes_tokens(&authority)));
    }
    call(chance, &uid::SESSION_MANAGER, &uid::START_SESSION, parameters)
}

pub fn authenticate(chance: &mut Chance, state: &State) -> Vec<u8> {
    let (authority, row) = objects::authority(chance, state, locking(state));
    let mut parameters = vec![bytes_tokens(&authority)];
    let pin = objects::offered_pin(chance, state, row);
    if !pin.is_empty() || chance.one_in(2) {
        parameters.push(named_tokens(0, &bytes_tokens(&pin)));
    }
    let on = if chance.one_in(20) { objects::object(chance, locking(state)).uid() } else { uid::THIS_SP };
    call(chance, &on, &uid::AUTHENTICATE, parameters)
}

/// A Get with a cell block of any shape.
pub fn get(chance: &mut Chance, state: &State) -> Vec<u8> {
    let object = objects::object(chance, locking(state));
    let last = object.last_column();
    let mut column = || match chance.below(10) {
        0 => chance.of(&[last, last + 1, 31, 32, 64, u64::MAX]),
        _ => chance.below(last + 1),
    };
    let (mut start, mut end) = (column(), column());
    if start > end && !chance.one_in(6) {
        (start, end) = (end, start);
    }
    let mut block = vec![];
    if !chance.one_in(4) {
        block.push(named_tokens(3, &integer_tokens(start)));
    }
    if !chance.one_in(4) {
        block.push(named_tokens(4, &integer_tokens(end)));
    }
    if chance.one_in(10) {
        values::misshape(chance, &mut block);
    }
    call(chance, &object.uid(), &uid::GET, vec![list_tokens(&block)])
}

/// A Set of some columns in any order.
pub fn set(chance: &mut Chance, state: &State) -> Vec<u8> {
    let mut object = objects::object(chance, locking(state));
    if object.settable().is_empty() && !chance.one_in(4) {
        object = objects::object(chance, locking(state));
    }
    let mut columns = columns(chance, state, object);
    if chance.one_in(12) {
        values::misshape(chance, &mut columns);
    }
    call(chance, &object.uid(), &uid::SET, vec![named_tokens(1, &list_tokens(&columns))])
}

fn columns(chance: &mut Chance, state: &State, object: Object) -> Vec<Vec<u8>> {
    let mut left = object.settable().to_vec();
    let mut columns = vec![];
    if let Object::Range(1..) = object {
        // Start and length chosen together, or hardly any range would stand.
        if chance.one_in(2) {
            let (start, length) = values::placed(chance, state);
            columns.push(named_tokens(3, &integer_tokens(start)));
            columns.push(named_tokens(4, &integer_tokens(length)));
            left.retain(|column| *column > 4);
        }
    }
    let most = if columns.is_empty() { 1 } else { 0 };
    for _ in 0..chance.of(&[most, most, 2, 3, 7]) {
        if left.is_empty() {
            break;
        }
        let column = left.remove(chance.index(left.len()));
        let value =
            if chance.one_in(20) { values::odd(chance) } else { values::fitting(chance, state, object, column) };
        columns.push(named_tokens(column, &value));
    }
    if chance.one_in(16) {
        let column = chance.of(&[0, 1, 2, object.last_column(), object.last_column() + 1, 32, u64::MAX]);
        columns.push(named_tokens(column, &values::odd(chance)));
    }
    let turn = chance.index(columns.len());
    columns.rotate_left(turn);
    columns
}

/// Activate, Revert or RevertSP, most times on what it is for.
fn change_life(chance: &mut Chance, state: &State, method: &Uid, on: &[Uid]) -> Vec<u8> {
    let invoking = if chance.one_in(6) { objects::object(chance, locking(state)).uid() } else { chance.of(on) };
    call(chance, &invoking, method, vec![])
}

pub fn activate(chance: &mut Chance, state: &State) -> Vec<u8> {
    change_life(chance, state, &uid::ACTIVATE, &[uid::LOCKING_SP])
}

pub fn revert(chance: &mut Chance, state: &State) -> Vec<u8> {
    change_life(chance, state, &uid::REVERT, &[uid::LOCKING_SP, uid::ADMIN_SP])
}

pub fn revert_sp(chance: &mut Chance, state: &State) -> Vec<u8> {
    change_life(chance, state, &uid::REVERT_SP, &[uid::THIS_SP])
}

/// A method that the card does not have, or has elsewhere.
pub fn other_method(chance: &mut Chance, state: &State) -> Vec<u8> {
    let mut method = chance.of(&[
        uid::START_SESSION,
        uid::SYNC_SESSION,
        uid::CLOSE_SESSION,
        [0, 0, 0, 6, 0, 0, 0, 0x06],
        [0, 0, 0, 6, 0, 0, 0, 0x07],
        [0, 0, 0, 6, 0, 0, 2, 0x01],
        uid::THIS_SP,
    ]);
    if chance.one_in(3) {
        // No method of the card is so large.
        method[chance.index(4)] ^= 0x80;
    }
    let object = objects::object(chance, locking(state)).uid();
    let invoking = chance.of(&[uid::SESSION_MANAGER, object]);
    call(chance, &invoking, &method, vec![])
}
