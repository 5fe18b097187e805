//! Every method on every object and column by every kind of host: what chance might leave out.

use crate::coverage::Coverage;
use crate::event::Event;
use crate::generator::objects::{self, authority_uid, Object, ADMIN1, SID, USER1};
use crate::generator::values::{bytes_tokens, integer_tokens, list_tokens, named_tokens};
use crate::generator::{Step, NEW_CARD, ROOM};
use crate::run::{Difference, Run};
use second::requests;
use second::uid::{self, Uid};

pub(crate) const SECTORS: u64 = 1_000_000;
pub(crate) const MSID: [u8; 32] = *b"0123456789abcdefghijklmnopqrstuv";
const PIN: &[u8] = b"pin";
pub(crate) const HSN: u64 = 105;
/// One more than the last that any table has.
const LAST_COLUMN: u64 = 20;

const ADMIN2: usize = ADMIN1 + 1;
const USER2: usize = USER1 + 1;

/// Who has the session: the SP, and the authority that is proved, if any.
#[derive(Clone, Copy)]
pub(crate) struct Host {
    pub sp: Uid,
    pub row: Option<usize>,
}

const HOSTS: [Host; 7] = [
    Host { sp: uid::ADMIN_SP, row: None },
    Host { sp: uid::ADMIN_SP, row: Some(SID) },
    Host { sp: uid::LOCKING_SP, row: None },
    Host { sp: uid::LOCKING_SP, row: Some(ADMIN1) },
    Host { sp: uid::LOCKING_SP, row: Some(ADMIN2) },
    Host { sp: uid::LOCKING_SP, row: Some(USER1) },
    Host { sp: uid::LOCKING_SP, row: Some(USER2) },
];

pub(crate) type Done = Result<(), Box<Difference>>;

pub fn tour(coverage: &mut Coverage) -> Result<(), Box<Difference>> {
    for host in HOSTS {
        for object in objects::all() {
            get_and_set(&mut Run::new(coverage), host, object)?;
            // These may end the session or the Locking SP, so each has a card of its own.
            let parameters = bytes_tokens(&uid::ANYBODY);
            call_alone(&mut Run::new(coverage), host, "Authenticate", object, &uid::AUTHENTICATE, &parameters)?;
            call_alone(&mut Run::new(coverage), host, "Activate", object, &uid::ACTIVATE, &[])?;
            call_alone(&mut Run::new(coverage), host, "Revert", object, &uid::REVERT, &[])?;
            call_alone(&mut Run::new(coverage), host, "RevertSP", object, &uid::REVERT_SP, &[])?;
        }
    }
    Ok(())
}

/// Each column by itself: a Get, and a Set with a value of each kind.
fn get_and_set(run: &mut Run<'_>, host: Host, object: Object) -> Done {
    enter(run, host)?;
    let values = [
        integer_tokens(1),
        integer_tokens(0),
        bytes_tokens(PIN),
        list_tokens(&[integer_tokens(0), integer_tokens(3)]),
        list_tokens(&[integer_tokens(0)]),
    ];
    for column in 0..=LAST_COLUMN {
        send(run, "Get", requests::get(&object.uid(), Some(column), Some(column)))?;
        for value in &values {
            send(run, "Set", requests::set(&object.uid(), &named_tokens(column, value)))?;
        }
    }
    send(run, "Get", requests::get(&object.uid(), None, None))
}

fn call_alone(
    run: &mut Run<'_>,
    host: Host,
    name: &'static str,
    object: Object,
    method: &Uid,
    parameters: &[u8],
) -> Done {
    enter(run, host)?;
    send(run, name, requests::call(&object.uid(), method, parameters))
}

/// A new card with the Locking SP active, and a host's session on it.
pub(crate) fn enter(run: &mut Run<'_>, host: Host) -> Done {
    run.step(Step { name: NEW_CARD, event: Event::New { n: SECTORS, msid: MSID.to_vec() } })?;
    start(run, Host { sp: uid::ADMIN_SP, row: Some(SID) })?;
    send(run, "Activate", requests::activate(&uid::LOCKING_SP))?;
    send(run, "end of session", requests::end_session())?;
    start(run, Host { sp: uid::LOCKING_SP, row: Some(ADMIN1) })?;
    // Those that a host is to be besides.
    for row in [ADMIN2, USER1, USER2] {
        send(run, "Set", requests::set_integer(&authority_uid(row), 5, 1))?;
        send(run, "Set", requests::set_pin(&Object::Pin(row).uid(), PIN))?;
    }
    send(run, "end of session", requests::end_session())?;
    start(run, host)
}

fn start(run: &mut Run<'_>, host: Host) -> Done {
    let authority = host.row.map(authority_uid);
    // Activate copies SID's PIN, the MSID, to Admin1.
    let pin = host.row.map(|row| if row <= ADMIN1 { &MSID[..] } else { PIN });
    send(run, "StartSession", requests::start_session(HSN, &host.sp, true, pin, authority.as_ref()))
}

/// TSN and HSN of the open session, or 0, 0.
pub(crate) fn numbers(run: &Run<'_>) -> (u32, u32) {
    run.session().map_or((0, 0), |session| (session.tsn, session.hsn))
}

/// A payload to the open session, or on 0, 0 where there is none.
pub(crate) fn send(run: &mut Run<'_>, name: &'static str, payload: Vec<u8>) -> Done {
    let (tsn, hsn) = numbers(run);
    run.step(Step { name, event: Event::Command { room: ROOM, request: requests::envelope(tsn, hsn, &payload) } })
}
