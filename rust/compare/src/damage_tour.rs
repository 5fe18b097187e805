//! Whole payloads and requests with every byte changed, left out or another put before it, each by itself.

use crate::coverage::Coverage;
use crate::event::Event;
use crate::generator::objects::{Object, ADMIN1};
use crate::generator::payload_damage::LEADS;
use crate::generator::values::{bytes_tokens, integer_tokens, list_tokens, named_tokens};
use crate::generator::{Step, AS_IT_IS, ROOM};
use crate::run::{Difference, Run};
use crate::tour::{enter, numbers, send, Done, Host, HSN, MSID};
use second::requests;
use second::uid;

pub fn damage_tour(coverage: &mut Coverage) -> Result<(), Box<Difference>> {
    let range = Object::Range(1).uid();
    let columns = [
        named_tokens(3, &integer_tokens(1_000)),
        named_tokens(4, &integer_tokens(100)),
        named_tokens(9, &list_tokens(&[integer_tokens(0), integer_tokens(3)])),
    ];
    let start = requests::start_session(HSN, &uid::LOCKING_SP, true, Some(&MSID), Some(&uid::admin(1)));
    damage_each(&mut Run::new(coverage), false, &start)?;
    for payload in [
        requests::get(&range, Some(3), Some(9)),
        requests::set(&range, &columns.concat()),
        requests::authenticate(&uid::admin(1), Some(&MSID)),
        requests::call(&uid::THIS_SP, &uid::GET, &bytes_tokens(&MSID)),
        requests::begin(),
        requests::commit(),
        requests::abandon(),
        requests::end_session(),
    ] {
        damage_each(&mut Run::new(coverage), true, &payload)?;
    }
    Ok(())
}

/// Every damage to one payload, each on the same record, with Admin1's session open or none.
fn damage_each(run: &mut Run<'_>, in_session: bool, payload: &[u8]) -> Done {
    enter(run, Host { sp: uid::LOCKING_SP, row: Some(ADMIN1) })?;
    if !in_session {
        send(run, "end of session", requests::end_session())?;
    }
    let image = run.image().to_vec();
    for (name, damaged) in damaged_payloads(payload) {
        send(run, name, damaged)?;
        put_back(run, &image)?;
    }
    let (tsn, hsn) = numbers(run);
    for (name, request) in damaged_requests(&requests::envelope(tsn, hsn, payload)) {
        run.step(Step { name, event: Event::Command { room: ROOM, request } })?;
        put_back(run, &image)?;
    }
    Ok(())
}

fn put_back(run: &mut Run<'_>, image: &[u8]) -> Done {
    if run.image() == image {
        return Ok(());
    }
    run.step(Step { name: AS_IT_IS, event: Event::Load(image.to_vec()) })
}

fn damaged_payloads(payload: &[u8]) -> Vec<(&'static str, Vec<u8>)> {
    let mut damaged = vec![];
    for at in 0..payload.len() {
        let (before, from) = payload.split_at(at);
        for lead in LEADS {
            damaged.push(("payload: byte changed", [before, &[*lead], &from[1..]].concat()));
            damaged.push(("payload: byte inserted", [before, &[*lead], from].concat()));
        }
        damaged.push(("payload: byte removed", [before, &from[1..]].concat()));
        damaged.push(("payload: cut short", before.to_vec()));
    }
    for lead in LEADS {
        damaged.push(("payload: something follows", [payload, &[*lead]].concat()));
    }
    damaged
}

fn damaged_requests(request: &[u8]) -> Vec<(&'static str, Vec<u8>)> {
    let mut damaged = vec![];
    for at in 0..request.len() {
        for bit in 0..8 {
            let mut flipped = request.to_vec();
            flipped[at] ^= 1 << bit;
            damaged.push(("envelope: bit flipped", flipped));
        }
        damaged.push(("request: cut short", request[..at].to_vec()));
    }
    damaged
}
