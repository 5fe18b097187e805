//! What is timed: a card in some state and a request for it.

use flamepocket::{Card, Refusal};
use second::requests::{self, built, named_integer, named_integers};
use second::uid;

const SECTORS: u64 = 1_000_000;
const MSID: [u8; 32] = *b"0123456789abcdefghijklmnopqrstuv";
const HSN: u32 = 105;

pub struct Scene {
    pub name: &'static str,
    pub card: Card,
    pub request: Vec<u8>,
}

/// The scenes in the order of the table. `Err` where the card refuses what leads up to them.
pub fn all() -> Result<Vec<Scene>, Refusal> {
    let idle = active_card()?;
    let (open, tsn) = {
        let mut card = idle.clone();
        card.command(&start_as_admin1())?;
        // The Admin SP's session, in which Activate was called, had TSN 1.
        (card, 2)
    };
    let in_session = |payload: Vec<u8>| requests::envelope(tsn, HSN, &payload);
    let columns = built(|tokens| {
        named_integer(tokens, 3, 1_000);
        named_integer(tokens, 4, 100);
        (5..=8).for_each(|column| named_integer(tokens, column, 1));
        named_integers(tokens, 9, &[0, 3]);
    });
    let mut broken = in_session(requests::end_session());
    // Another ComID.
    broken[4] = 0x20;
    Ok(vec![
        Scene { name: "StartSession", card: idle, request: start_as_admin1() },
        Scene {
            name: "Get (a range's row)",
            card: open.clone(),
            request: in_session(requests::get(&uid::range(1), None, None)),
        },
        Scene {
            name: "Set (a range's row)",
            card: open.clone(),
            request: in_session(requests::set(&uid::range(1), &columns)),
        },
        Scene { name: "end of session", card: open.clone(), request: in_session(requests::end_session()) },
        Scene { name: "refused packet", card: open, request: broken },
    ])
}

/// A card whose Locking SP is active, no session open.
fn active_card() -> Result<Card, Refusal> {
    let mut card = Card::factory(SECTORS, &MSID)?;
    let start = requests::start_session(u64::from(HSN), &uid::ADMIN_SP, true, Some(&MSID), Some(&uid::SID));
    card.command(&requests::envelope(0, 0, &start))?;
    card.command(&requests::envelope(1, HSN, &requests::activate(&uid::LOCKING_SP)))?;
    card.command(&requests::envelope(1, HSN, &requests::end_session()))?;
    Ok(card)
}

/// Activate has copied SID's PIN, the MSID, to Admin1.
fn start_as_admin1() -> Vec<u8> {
    let start = requests::start_session(u64::from(HSN), &uid::LOCKING_SP, true, Some(&MSID), Some(&uid::admin(1)));
    requests::envelope(0, 0, &start)
}
