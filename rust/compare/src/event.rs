//! What the outside does to a card, each as a line of a script for the simulator `pocket`.

use std::fmt;
use std::str::FromStr;

#[derive(Clone, PartialEq, Eq, Debug)]
pub enum Event {
    /// A card as made: its sectors and its MSID.
    New {
        n: u64,
        msid: Vec<u8>,
    },
    /// These bytes for an image, whatever they are.
    Load(Vec<u8>),
    /// A request, and how many bytes the answer buffer has.
    Command {
        room: usize,
        request: Vec<u8>,
    },
    PowerCycle,
    TperReset,
    Media {
        write: bool,
        start: u64,
        count: u64,
    },
}

impl fmt::Display for Event {
    fn fmt(&self, out: &mut fmt::Formatter<'_>) -> fmt::Result {
        match self {
            Event::New { n, msid } => write!(out, "new {n} {}", hex(msid)),
            Event::Load(image) => write!(out, "load {}", hex(image)),
            Event::Command { room, request } => write!(out, "cmd {room} {}", hex(request)),
            Event::PowerCycle => out.write_str("power"),
            Event::TperReset => out.write_str("reset"),
            Event::Media { write: false, start, count } => write!(out, "read {start} {count}"),
            Event::Media { write: true, start, count } => write!(out, "write {start} {count}"),
        }
    }
}

impl FromStr for Event {
    type Err = String;

    fn from_str(line: &str) -> Result<Event, String> {
        let words: Vec<&str> = line.split_whitespace().collect();
        match words[..] {
            ["new", n, msid] => Ok(Event::New { n: number(n)?, msid: unhex(msid)? }),
            ["load", image] => Ok(Event::Load(unhex(image)?)),
            ["cmd", room, request] => Ok(Event::Command { room: number(room)?, request: unhex(request)? }),
            ["power"] => Ok(Event::PowerCycle),
            ["reset"] => Ok(Event::TperReset),
            ["read", start, count] => Ok(Event::Media { write: false, start: number(start)?, count: number(count)? }),
            ["write", start, count] => Ok(Event::Media { write: true, start: number(start)?, count: number(count)? }),
            _ => Err(format!("no line of a script: {line}")),
        }
    }
}

/// The events of a script; a line that starts with # is a comment.
pub fn script(text: &str) -> Result<Vec<Event>, String> {
    let lines = text.lines().map(str::trim);
    lines.filter(|line| !line.is_empty() && !line.starts_with('#')).map(str::parse).collect()
}

/// Bytes as hex digits; - for none, since a word of a script is never empty.
pub fn hex(bytes: &[u8]) -> String {
    if bytes.is_empty() {
        return "-".into();
    }
    bytes.iter().map(|byte| format!("{byte:02X}")).collect()
}

pub fn unhex(digits: &str) -> Result<Vec<u8>, String> {
    if digits == "-" {
        return Ok(vec![]);
    }
    let pairs = digits.as_bytes().chunks(2).map(|pair| match std::str::from_utf8(pair) {
        Ok(pair) if pair.len() == 2 && !pair.starts_with('+') => u8::from_str_radix(pair, 16).ok(),
        _ => None,
    });
    pairs.collect::<Option<_>>().ok_or_else(|| format!("no hex digits: {digits}"))
}

fn number<T: FromStr>(digits: &str) -> Result<T, String> {
    digits.parse().map_err(|_| format!("no number in bounds: {digits}"))
}

#[cfg(test)]
mod tests {
    use super::*;

    #[test]
    fn lines_are_read_as_they_are_written() {
        for line in [
            "new 1000000 00FF",
            "load -",
            "cmd 2048 -",
            "cmd 0 FA",
            "power",
            "reset",
            "read 0 1",
            "write 5 18446744073709551615",
        ] {
            assert_eq!(line.parse::<Event>().map(|event| event.to_string()), Ok(line.to_string()));
        }
    }

    #[test]
    fn other_lines_are_refused() {
        for line in ["", "new 5", "cmd 2048 F", "cmd 2048 +5", "cmd 2048 \u{e9}", "read 0 18446744073709551616", "off"]
        {
            assert!(line.parse::<Event>().is_err(), "{line}");
        }
        assert_eq!(script("# a comment\n\n power \n"), Ok(vec![Event::PowerCycle]));
    }
}
