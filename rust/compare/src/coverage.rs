//! Counts what a run came upon, and tells what it missed.

use std::collections::BTreeMap;
use std::fmt;

use crate::event::Event;
use crate::generator;
use crate::sides::Outcome;
use crate::state::State;
use second::uid;

/// What each kind of event is to have come to: statuses of methods (in hex), answers, numbers.
const EXPECTED: &[(&str, &[&str])] = &[
    ("StartSession", &["status 00", "status 01", "status 07", "status 0C", "status 12"]),
    ("other call on 0, 0", &["status 01"]),
    ("no call on 0, 0", &["number 6"]),
    ("no open session", &["number 5"]),
    ("Get", &["status 00", "status 01", "status 0C"]),
    ("Set", &["status 00", "status 01", "status 0C"]),
    ("Authenticate", &["status 00: 0", "status 00: 1", "status 01", "status 0C", "status 12"]),
    ("Activate", &["status 00", "status 01", "status 0C", "status 3F"]),
    ("Revert", &["status 00", "status 01", "status 0C", "status 3F"]),
    ("RevertSP", &["status 00", "status 01", "status 0C", "status 3F"]),
    ("other method", &["status 01"]),
    ("end of session", &["FA"]),
    ("start transaction", &["FB 00", "FB 01"]),
    ("commit", &["FC 00", "FC 01"]),
    ("abandon", &["FC 00", "FC 01"]),
    ("power cycle", &["number 0", "number 1"]),
    ("TPER_RESET", &["number 0", "number 1", "number 7"]),
    ("read", &["disk", "shadow", "past N", "refused", "number 1"]),
    ("write", &["disk", "past N", "refused", "number 1"]),
    ("answer room", &["number 2", "status 00"]),
    ("new card refused", &["number 1"]),
    ("envelope: ignored fields", &["status 00"]),
    ("envelope: pad not zero", &["status 00"]),
    ("request: filled up to the limit", &["status 00", "number 3"]),
    ("request: bytes beyond", &["status 00", "number 3"]),
    ("token: FF inserted", &["status 00"]),
    ("token: FF around each", &["status 00"]),
    ("atom: all in longer forms", &["status 00"]),
    ("nesting: 15 to 17", &["status 0C", "CloseSession"]),
];

/// The ways a transaction is to have ended, but for a broken payload.
const TRANSACTION_ENDS: &[&str] = &["commit", "abandon", "end of session", "power cycle", "TPER_RESET"];

const NUMBERS: [&str; 8] =
    ["number 0", "number 1", "number 2", "number 3", "number 4", "number 5", "number 6", "number 7"];
const STATUSES: [&str; 6] = ["status 00", "status 01", "status 07", "status 0C", "status 12", "status 3F"];
/// In the order of the library's numbers for them.
const RULINGS: [&str; 4] = ["disk", "unsound", "shadow", "refused"];

/// What is counted over all kinds of event, each to have come up.
const TOTALS: [(&str, &[&str]); 3] = [("by number", &NUMBERS), ("by status", &STATUSES), ("by ruling", &RULINGS)];

#[derive(Default)]
pub struct Coverage {
    events: u64,
    results: BTreeMap<(&'static str, String), u64>,
    totals: BTreeMap<&'static str, u64>,
    /// The kinds of event that ended a transaction.
    transaction_ends: BTreeMap<&'static str, u64>,
}

impl Coverage {
    pub fn count(&mut self, name: &'static str, event: &Event, outcome: &Outcome) {
        self.events += 1;
        let result = result(event, outcome);
        let (number, ruling) = match event {
            Event::Command { .. } if outcome.answer().is_some() => (0, None),
            Event::Media { .. } => (usize::from(outcome.number == 1), RULINGS.get(outcome.number)),
            _ => (outcome.number, None),
        };
        let status = STATUSES.iter().find(|status| result.starts_with(**status));
        for total in [NUMBERS.get(number), status, ruling].into_iter().flatten() {
            *self.totals.entry(total).or_default() += 1;
        }
        *self.results.entry((name, result)).or_default() += 1;
    }

    pub fn count_transaction_end(&mut self, name: &'static str) {
        *self.transaction_ends.entry(name).or_default() += 1;
    }

    pub fn events(&self) -> u64 {
        self.events
    }

    fn has(&self, name: &'static str, result: &str) -> bool {
        self.results.contains_key(&(name, result.to_string()))
    }

    /// What should have come up and did not, and what should not and did.
    pub fn gaps(&self) -> Vec<String> {
        let mut gaps = vec![];
        for total in TOTALS.iter().flat_map(|(_, totals)| *totals).filter(|total| !self.totals.contains_key(**total)) {
            gaps.push(format!("{total} never came"));
        }
        for name in generator::names() {
            if !self.results.keys().any(|(kind, _)| *kind == name) {
                gaps.push(format!("{name}: never came"));
            }
        }
        for (name, results) in EXPECTED {
            for result in results.iter().filter(|result| !self.has(name, result)) {
                gaps.push(format!("{name}: {result} never came"));
            }
        }
        for name in generator::unsound_names().filter(|name| self.has(name, "number 0")) {
            gaps.push(format!("{name}: taken as sound"));
        }
        for name in generator::sound_names().filter(|name| self.has(name, "number 1")) {
            gaps.push(format!("{name}: taken as unsound"));
        }
        for end in TRANSACTION_ENDS.iter().filter(|end| !self.transaction_ends.contains_key(**end)) {
            gaps.push(format!("no transaction ended by {end}"));
        }
        if !generator::payload_names().any(|name| self.transaction_ends.contains_key(name)) {
            gaps.push("no transaction ended by a broken payload".into());
        }
        gaps
    }
}

impl fmt::Display for Coverage {
    fn fmt(&self, out: &mut fmt::Formatter<'_>) -> fmt::Result {
        writeln!(out, "{} events", self.events)?;
        for (head, totals) in TOTALS {
            line(out, head, totals.iter().filter_map(|total| Some((*total, self.totals.get(total)?))))?;
        }
        for name in generator::names() {
            let of_name = self.results.iter().filter(|((kind, _), _)| *kind == name);
            line(out, name, of_name.map(|((_, result), count)| (result.as_str(), count)))?;
        }
        line(out, "transactions ended by", self.transaction_ends.iter().map(|(name, count)| (*name, count)))
    }
}

fn line<'a>(out: &mut fmt::Formatter<'_>, head: &str, counts: impl Iterator<Item = (&'a str, &'a u64)>) -> fmt::Result {
    let counts: Vec<String> = counts.map(|(name, count)| format!("{name} {count}x")).collect();
    writeln!(out, "{head:40} {}", counts.join(", "))
}

/// What an event came to, in a word or two.
fn result(event: &Event, outcome: &Outcome) -> String {
    match (event, outcome.answer()) {
        (Event::Command { .. }, Some(answer)) => answered(&answer[56..]),
        (Event::Media { start, count, .. }, _) => ruled(*start, *count, outcome).into(),
        _ => format!("number {}", outcome.number),
    }
}

fn ruled(start: u64, count: u64, outcome: &Outcome) -> &'static str {
    match outcome.number {
        0 => "disk",
        1 => "number 1",
        2 => "shadow",
        _ if u128::from(start) + u128::from(count) > u128::from(State(outcome.image.clone()).n()) => "past N",
        _ => "refused",
    }
}

/// An answer's payload, which is followed by pad.
fn answered(payload: &[u8]) -> String {
    match payload {
        [0xFA, ..] => "FA".into(),
        [lead @ (0xFB | 0xFC), number, ..] => format!("{lead:02X} {number:02X}"),
        _ if is_call_of(payload, &uid::CLOSE_SESSION) => "CloseSession".into(),
        [0xF0, flag @ (0 | 1), 0xF1, 0xF9, 0xF0, 0, ..] => format!("status 00: {flag}"),
        _ => {
            // F9, F0, status, 00, 00, F1 end every other payload; no pad byte is F9.
            let tail = payload.iter().rposition(|byte| *byte == 0xF9).and_then(|at| payload.get(at + 2));
            tail.map_or("?".into(), |status| format!("status {status:02X}"))
        }
    }
}

/// Whether a payload begins F8, the session manager's UID, this method's.
fn is_call_of(payload: &[u8], method: &[u8; 8]) -> bool {
    payload.first() == Some(&0xF8) && payload.get(11..19) == Some(method)
}

#[cfg(test)]
mod tests {
    use super::*;

    #[test]
    fn what_never_came_is_a_gap() {
        let gaps = Coverage::default().gaps();
        let totals = TOTALS.iter().flat_map(|(_, totals)| *totals).map(|total| format!("{total} never came"));
        let names = generator::names().into_iter().map(|name| format!("{name}: never came"));
        let ends = TRANSACTION_ENDS.iter().map(|end| format!("no transaction ended by {end}"));
        for gap in totals.chain(names).chain(ends) {
            assert!(gaps.contains(&gap), "{gap}");
        }
        assert_eq!(generator::unsound_names().count(), 28);
    }
}
