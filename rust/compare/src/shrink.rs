//! Makes a history that shows a difference short: events are dropped while the difference stays.

use crate::event::Event;
use crate::run::{replay, Difference};
use crate::sides::Pair;
use crate::state::{place, IMAGE_LENGTH};

/// Where a request has its TSN and HSN, and how many bytes they take.
const NUMBERS_AT: usize = 20;
const NUMBERS_SIZE: usize = 8;

/// An event of a history, and whether it is a request for the session that was open then.
#[derive(Clone)]
pub struct Past {
    event: Event,
    in_session: bool,
}

impl Past {
    /// `image` is the card's before the event.
    pub fn new(event: Event, image: &[u8]) -> Self {
        let in_session = match (&event, session_numbers(image)) {
            (Event::Command { request, .. }, Some(numbers)) => {
                request.get(NUMBERS_AT..NUMBERS_AT + NUMBERS_SIZE) == Some(numbers)
            }
            _ => false,
        };
        Past { event, in_session }
    }
}

/// TSN and HSN of the open session, as bytes.
fn session_numbers(image: &[u8]) -> Option<&[u8]> {
    if image.len() != IMAGE_LENGTH || image[place::SESSION] != 1 {
        return None;
    }
    image.get(place::SESSION_TSN..place::SESSION_TSN + NUMBERS_SIZE)
}

/// The difference that the last event of `past` shows, or another one, by as few events as can be found.
pub fn shortest(mut past: Vec<Past>) -> Difference {
    let mut size = past.len();
    while size > 0 {
        let mut from = 0;
        while from < past.len() {
            let mut fewer = past.clone();
            fewer.drain(from..past.len().min(from + size));
            match until_difference(&fewer) {
                Some(shorter) => past = shorter,
                None => from += size,
            }
        }
        size /= 2;
    }
    let events: Vec<Event> = past.into_iter().map(|past| past.event).collect();
    match replay(&events) {
        Err(difference) => *difference,
        Ok(()) => Difference {
            events,
            words: "the difference did not come again: a program keeps something between calls".into(),
        },
    }
}

/// Runs events until a difference shows, and gives them up to there; None where none shows.
/// A request for the open session gets the numbers of the one that is open now: with sessions dropped they are others.
fn until_difference(events: &[Past]) -> Option<Vec<Past>> {
    let mut pair = Pair::new();
    let mut done = vec![];
    for past in events {
        let mut past = past.clone();
        if let (true, Event::Command { request, .. }, Some(numbers)) =
            (past.in_session, &mut past.event, session_numbers(pair.image()))
        {
            request[NUMBERS_AT..NUMBERS_AT + NUMBERS_SIZE].copy_from_slice(numbers);
        }
        let result = pair.apply(&past.event);
        done.push(past);
        if result.is_err() {
            return Some(done);
        }
    }
    None
}
