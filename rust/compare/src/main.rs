//! `compare SEED EVENTS` runs histories from a seed; `compare SCRIPT` runs a script, such as a run that found a difference prints.

use std::process::ExitCode;

use compare::coverage::Coverage;
use compare::{event, run};

const USAGE: &str = "usage: compare SEED EVENTS\n       compare SCRIPT";

fn main() -> ExitCode {
    let arguments: Vec<String> = std::env::args().skip(1).collect();
    let result = match &arguments[..] {
        [seed, events] => match (seed.parse(), events.parse()) {
            (Ok(seed), Ok(events)) => Ok(histories(seed, events)),
            _ => Err(USAGE.into()),
        },
        [script] => replay(script),
        _ => Err(USAGE.into()),
    };
    result.unwrap_or_else(|message| {
        eprintln!("{message}");
        ExitCode::from(2)
    })
}

fn histories(seed: u64, events: u64) -> ExitCode {
    let mut coverage = Coverage::default();
    let result = run::histories(seed, events, &mut coverage);
    print!("{}", lines_as_comments(&coverage.to_string()));
    print!("{}", lines_as_comments(&coverage.gaps().join("\n")));
    shown(result)
}

fn replay(path: &str) -> Result<ExitCode, String> {
    let text = std::fs::read_to_string(path).map_err(|error| format!("{path}: {error}"))?;
    Ok(shown(run::replay(&event::script(&text)?)))
}

/// Prints a difference, if there is one: the whole output is then a script.
fn shown(result: Result<(), Box<run::Difference>>) -> ExitCode {
    match result {
        Ok(()) => {
            println!("# no difference");
            ExitCode::SUCCESS
        }
        Err(difference) => {
            print!("{difference}");
            ExitCode::FAILURE
        }
    }
}

fn lines_as_comments(text: &str) -> String {
    text.lines().map(|line| format!("# {line}\n")).collect()
}
