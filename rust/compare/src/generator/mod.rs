//! Makes the next event of a history from what is known of the card.
//!
//! Every kind of event and of damage is a line of a table with its name; [`names`] has them all, so that a
//! run can show that each came up.

// The functions of a table have one signature, whether they change a length or not.
#![allow(clippy::ptr_arg)]

mod calls;
mod images;
pub(crate) mod objects;
pub(crate) mod payload_damage;
mod request_damage;
pub(crate) mod values;

use crate::chance::Chance;
use crate::event::Event;
use crate::state::State;
use objects::{ADMIN1, SID};
use second::requests;

/// The kind of the event that begins a history.
pub const NEW_CARD: &str = "new card";
/// The kind of an image that is loaded as it was.
pub(crate) const AS_IT_IS: &str = "image: as it is";
const ODD_ROOM: &str = "answer room";
pub const ROOM: usize = 2048;

/// A way to change bytes: a payload's, a request's or an image's.
struct Damage {
    name: &'static str,
    apply: fn(&mut Chance, &mut Vec<u8>),
}

/// An event and the name of its kind.
pub struct Step {
    pub name: &'static str,
    pub event: Event,
}

/// How a kind of event is made.
enum Make {
    /// A payload for the open session.
    InSession(fn(&mut Chance, &State) -> Vec<u8>),
    /// A payload on 0, 0.
    Outside(fn(&mut Chance, &State) -> Vec<u8>),
    Event(fn(&mut Chance, &State) -> Event),
    /// An image out of a table, under the table's own names.
    Image(&'static [Damage]),
}

struct Kind {
    name: &'static str,
    /// How often it comes, by what is going on.
    weight: fn(&State) -> u64,
    make: Make,
}

const KINDS: &[Kind] = &[
    Kind { name: "StartSession", weight: |state| by_session(state, 60, 2), make: Make::Outside(calls::start_session) },
    Kind { name: "other call on 0, 0", weight: |_| 2, make: Make::Outside(call_outside) },
    Kind { name: "no call on 0, 0", weight: |_| 1, make: Make::Outside(|chance, _| chance.of(&NO_CALLS).to_vec()) },
    Kind { name: "no open session", weight: |state| by_session(state, 3, 0), make: Make::Event(to_no_session) },
    Kind { name: "Get", weight: |state| by_session(state, 0, 18), make: Make::InSession(calls::get) },
    Kind { name: "Set", weight: |state| by_session(state, 0, 30), make: Make::InSession(calls::set) },
    Kind { name: "Authenticate", weight: |state| by_session(state, 0, 12), make: Make::InSession(calls::authenticate) },
    Kind { name: "Activate", weight: activate_weight, make: Make::InSession(calls::activate) },
    Kind { name: "Revert", weight: |state| by_session(state, 0, 1), make: Make::InSession(calls::revert) },
    Kind { name: "RevertSP", weight: |state| by_session(state, 0, 1), make: Make::InSession(calls::revert_sp) },
    Kind { name: "other method", weight: |state| by_session(state, 0, 1), make: Make::InSession(calls::other_method) },
    Kind {
        name: "end of session",
        weight: |state| by_session(state, 0, 4),
        make: Make::InSession(|_, _| requests::end_session()),
    },
    Kind {
        name: "start transaction",
        weight: |state| by_session(state, 0, 4),
        make: Make::InSession(|_, _| requests::begin()),
    },
    Kind {
        name: "commit",
        weight: |state| by_transaction(state, 1, 7),
        make: Make::InSession(|_, _| requests::commit()),
    },
    Kind {
        name: "abandon",
        weight: |state| by_transaction(state, 1, 5),
        make: Make::InSession(|_, _| requests::abandon()),
    },
    Kind { name: "power cycle", weight: power_weight, make: Make::Event(|_, _| Event::PowerCycle) },
    Kind { name: "TPER_RESET", weight: reset_weight, make: Make::Event(|_, _| Event::TperReset) },
    Kind { name: "read", weight: |_| 6, make: Make::Event(|chance, state| media(chance, state, false)) },
    Kind { name: "write", weight: |_| 6, make: Make::Event(|chance, state| media(chance, state, true)) },
    Kind { name: "new card refused", weight: |state| by_session(state, 1, 0), make: Make::Event(refused_card) },
    Kind { name: "sound images", weight: |state| by_session(state, 2, 0), make: Make::Image(images::SOUND) },
    Kind { name: "unsound images", weight: |state| by_session(state, 2, 1), make: Make::Image(images::UNSOUND) },
    Kind { name: "damaged images", weight: |state| by_session(state, 1, 0), make: Make::Image(images::ANY) },
];

/// FA, FB and FC, which need a session.
const NO_CALLS: [&[u8]; 4] = [&[0xFA], &[0xFB, 0x00], &[0xFC, 0x00], &[0xFC, 0x01]];

fn by_session(state: &State, without: u64, within: u64) -> u64 {
    if state.session().is_some() {
        within
    } else {
        without
    }
}

fn by_transaction(state: &State, without: u64, within: u64) -> u64 {
    if state.in_transaction() {
        within
    } else {
        by_session(state, 0, without)
    }
}

/// Without an active Locking SP there is little to do.
fn activate_weight(state: &State) -> u64 {
    let wanted = !state.locking_active() && state.proved(SID);
    by_session(state, 0, if wanted { 30 } else { 2 })
}

/// Where the authorities that everything hangs on are locked out, a power cycle helps.
fn power_weight(state: &State) -> u64 {
    if state.tries(SID) == 5 || state.tries(ADMIN1) == 5 {
        by_session(state, 15, 1)
    } else {
        by_session(state, 2, 1)
    }
}

fn reset_weight(state: &State) -> u64 {
    by_session(state, 3, if state.reset_enabled() { 2 } else { 1 })
}

/// The name of every kind of event, of damage and of image.
pub fn names() -> Vec<&'static str> {
    let plain = KINDS.iter().filter(|kind| !matches!(kind.make, Make::Image(_))).map(|kind| kind.name);
    let tables = [payload_damage::TABLE, request_damage::TABLE, images::SOUND, images::UNSOUND, images::ANY];
    [NEW_CARD, ODD_ROOM]
        .into_iter()
        .chain(plain)
        .chain(tables.into_iter().flatten().map(|damage| damage.name))
        .collect()
}

/// The names of the images that must be refused.
pub fn unsound_names() -> impl Iterator<Item = &'static str> {
    images::UNSOUND.iter().map(|damage| damage.name)
}

/// The names of the images that must be taken.
pub fn sound_names() -> impl Iterator<Item = &'static str> {
    images::SOUND.iter().map(|damage| damage.name)
}

/// The names of the ways to change a payload.
pub fn payload_names() -> impl Iterator<Item = &'static str> {
    payload_damage::TABLE.iter().map(|damage| damage.name)
}

/// A card to begin a history with.
pub fn new_card(chance: &mut Chance) -> Step {
    let sizes = [262_144, 262_145, 1_000_000, 1_000_000, 1 << 40, (1 << 40) - 1, 262_144 + chance.below(1 << 30)];
    let n = chance.of(&sizes);
    Step { name: NEW_CARD, event: Event::New { n, msid: chance.bytes(32) } }
}

/// The next event, from the last sound record; `sound` tells whether that is what the card has now.
pub fn next(chance: &mut Chance, state: &State, sound: bool) -> Step {
    if !sound && chance.one_in(4) {
        return Step { name: AS_IT_IS, event: Event::Load(state.0.clone()) };
    }
    let kind = chance.weighted(KINDS, |kind| (kind.weight)(state));
    match kind.make {
        Make::InSession(payload) => {
            let (tsn, hsn) = state.session().map_or((0, 0), |session| (session.tsn, session.hsn));
            let payload = payload(chance, state);
            request(chance, kind.name, tsn, hsn, payload)
        }
        Make::Outside(payload) => {
            let payload = payload(chance, state);
            request(chance, kind.name, 0, 0, payload)
        }
        Make::Event(event) => Step { name: kind.name, event: event(chance, state) },
        Make::Image(table) => {
            let change = &table[chance.index(table.len())];
            let mut image = state.0.clone();
            (change.apply)(chance, &mut image);
            Step { name: change.name, event: Event::Load(image) }
        }
    }
}

/// A request around a payload, now and then damaged or with an odd room for its answer.
fn request(chance: &mut Chance, mut name: &'static str, tsn: u32, hsn: u32, mut payload: Vec<u8>) -> Step {
    let damaged = chance.below(24);
    if damaged == 0 {
        name = apply(chance, payload_damage::TABLE, &mut payload);
    }
    let mut request = requests::envelope(tsn, hsn, &payload);
    if damaged == 1 {
        name = apply(chance, request_damage::TABLE, &mut request);
    }
    let mut room = ROOM;
    if chance.one_in(60) {
        name = ODD_ROOM;
        let any = chance.index(2 * ROOM + 1);
        room = chance.of(&[0, 1, ROOM - 1, ROOM + 1, 2 * ROOM, any]);
    }
    Step { name, event: Event::Command { room, request } }
}

fn apply(chance: &mut Chance, table: &'static [Damage], bytes: &mut Vec<u8>) -> &'static str {
    let damage = &table[chance.index(table.len())];
    (damage.apply)(chance, bytes);
    damage.name
}

/// What belongs into a session, sent on 0, 0.
fn call_outside(chance: &mut Chance, state: &State) -> Vec<u8> {
    let makers = [
        calls::get,
        calls::set,
        calls::authenticate,
        calls::activate,
        calls::revert,
        calls::revert_sp,
        calls::other_method,
    ];
    chance.of(&makers)(chance, state)
}

/// A request for a session while none is open.
fn to_no_session(chance: &mut Chance, state: &State) -> Event {
    let (tsn, hsn) = (1 + chance.below(3) as u32, chance.number() as u32);
    let payload = calls::get(chance, state);
    Event::Command { room: ROOM, request: requests::envelope(tsn, hsn, &payload) }
}

/// A question around the borders of ranges, shadow and disk.
fn media(chance: &mut Chance, state: &State, write: bool) -> Event {
    let mut start = if chance.one_in(8) { chance.below(state.n()) } else { values::near_border(chance, state) };
    let mut count = values::length(chance, state, start);
    // Past the disk's end nothing else counts, so most questions end within.
    if start.saturating_add(count) > state.n() && !chance.one_in(4) {
        start %= state.n();
        count = count.min(state.n() - start);
    }
    Event::Media { write, start, count }
}

/// A disk too small or too large, or an MSID of another length.
fn refused_card(chance: &mut Chance, _: &State) -> Event {
    let n = chance.of(&[0, 262_143, (1 << 40) + 1, u64::MAX]);
    let length = chance.of(&[0, 31, 33]);
    if chance.one_in(2) {
        Event::New { n, msid: chance.bytes(32) }
    } else {
        Event::New { n: 1_000_000, msid: chance.bytes(length) }
    }
}
