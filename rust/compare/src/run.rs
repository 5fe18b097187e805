//! Runs histories on both programs until they differ or there were enough events.

use std::fmt;

use crate::chance::Chance;
use crate::coverage::Coverage;
use crate::event::Event;
use crate::generator::{self, Step};
use crate::shrink::{self, Past};
use crate::sides::Pair;
use crate::state::{Session, State};
use flamepocket::ffi;

/// The longest history.
const LONGEST: u64 = 500;

/// A difference, as a script that shows it and in words.
#[derive(Debug)]
pub struct Difference {
    pub events: Vec<Event>,
    pub words: String,
}

impl fmt::Display for Difference {
    fn fmt(&self, out: &mut fmt::Formatter<'_>) -> fmt::Result {
        for event in &self.events {
            writeln!(out, "{event}")?;
        }
        for line in self.words.lines() {
            writeln!(out, "# {line}")?;
        }
        let before_last = self.events.split_last().map_or(&[][..], |(_, before)| before);
        if before_last.iter().any(|event| matches!(event, Event::Load(image) if ffi::sound(image) != 0)) {
            writeln!(out, "# pocket takes no unsound image: only `compare SCRIPT` goes on past it")?;
        }
        Ok(())
    }
}

/// Histories from a seed, `events` events or a few more in all; `coverage` counts them.
pub fn histories(seed: u64, events: u64, coverage: &mut Coverage) -> Result<(), Box<Difference>> {
    let mut chance = Chance::new(seed);
    let enough = coverage.events() + events;
    while coverage.events() < enough {
        let length = 1 + chance.below(LONGEST);
        history(&mut chance, length, coverage)?;
    }
    Ok(())
}

/// One card from its making on.
fn history(chance: &mut Chance, length: u64, coverage: &mut Coverage) -> Result<(), Box<Difference>> {
    let mut run = Run::new(coverage);
    for _ in 0..length {
        let step = match &run.state {
            Some(state) => generator::next(chance, state, run.sound),
            None => generator::new_card(chance),
        };
        run.step(step)?;
    }
    Ok(())
}

/// A history that is being run.
pub struct Run<'c> {
    pair: Pair,
    past: Vec<Past>,
    coverage: &'c mut Coverage,
    /// The last sound record.
    state: Option<State>,
    /// Whether that is what the card has now.
    sound: bool,
}

impl<'c> Run<'c> {
    pub fn new(coverage: &'c mut Coverage) -> Self {
        Run { pair: Pair::new(), past: vec![], coverage, state: None, sound: false }
    }

    /// The open session of the last sound record.
    pub fn session(&self) -> Option<Session> {
        self.state.as_ref().and_then(State::session)
    }

    pub fn image(&self) -> &[u8] {
        self.pair.image()
    }

    /// One event on both programs.
    pub fn step(&mut self, Step { name, event }: Step) -> Result<(), Box<Difference>> {
        self.past.push(Past::new(event.clone(), self.pair.image()));
        let Ok(outcome) = self.pair.apply(&event) else {
            return Err(Box::new(shrink::shortest(std::mem::take(&mut self.past))));
        };
        self.coverage.count(name, &event, &outcome);
        self.sound = outcome.sound;
        if self.sound {
            let was_open = self.state.as_ref().is_some_and(State::in_transaction);
            let now = State(outcome.image);
            if was_open && !now.in_transaction() && !matches!(event, Event::Load(_)) {
                self.coverage.count_transaction_end(name);
            }
            self.state = Some(now);
        }
        Ok(())
    }
}

/// A script on both programs: the words of a difference, at the event that shows it.
pub fn replay(events: &[Event]) -> Result<(), Box<Difference>> {
    let mut pair = Pair::new();
    for (at, event) in events.iter().enumerate() {
        if let Err(words) = pair.apply(event) {
            return Err(Box::new(Difference { events: events[..=at].to_vec(), words }));
        }
    }
    Ok(())
}

#[cfg(test)]
mod tests {
    use super::*;
    use crate::event::script;

    #[test]
    fn a_difference_is_a_script() {
        let events = vec![
            Event::New { n: 1_000_000, msid: vec![7; 32] },
            Event::Command { room: 2048, request: vec![] },
            Event::Load(vec![1, 2]),
            Event::Media { write: true, start: 5, count: 1 },
        ];
        let difference = Difference { events: events.clone(), words: "library: one\nsecond: another".into() };
        let text = difference.to_string();
        assert_eq!(script(&text), Ok(events));
        assert!(text.contains("# second: another\n# pocket takes no unsound image"));
        assert!(replay(&difference.events).is_ok());
    }
}
