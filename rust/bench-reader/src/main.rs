//! Our payload reader against two plain Rust readers, on the same payloads in one run.
//!
//! First all three must say the same of many payloads, whole and damaged; then each is timed on every mix.

#![deny(unsafe_code)]

mod agreement;
mod clock;
mod damage;
#[allow(unsafe_code)]
mod ffi;
mod mixes;
mod readers;
mod report;
mod tokens;

use std::process::ExitCode;

use agreement::{Difference, Sample};
use mixes::Mix;

const SEED: u64 = 11;
const SAMPLES: usize = 40_000;

fn main() -> ExitCode {
    let arguments: Vec<String> = std::env::args().skip(1).collect();
    match asked(&arguments).and_then(measured) {
        Ok(()) => ExitCode::SUCCESS,
        Err(message) => {
            eprintln!("{}", message.trim_end());
            ExitCode::FAILURE
        }
    }
}

fn asked(arguments: &[String]) -> Result<usize, String> {
    if cfg!(debug_assertions) {
        return Err("times of an unoptimised build say nothing: run it with --release".into());
    }
    timing::runs(arguments)
}

fn measured(count: usize) -> Result<(), String> {
    let mixes = mixes::all();
    println!("{}", agreed(&mixes)?);
    println!("{}", conditions());
    let mut runs = vec![];
    for number in 1..=count {
        let run: report::Run = mixes.iter().map(clock::times).collect();
        println!("Run {number} of {count}\n{}", report::run(&mixes, &run));
        runs.push(run);
    }
    if count > 1 {
        print!("{}", report::all_runs(&mixes, &runs));
    }
    Ok(())
}

fn agreed(mixes: &[Mix]) -> Result<String, String> {
    for mix in mixes {
        as_meant(mix)?;
    }
    let agreement = agreement::seek(&readers::ALL, SEED, SAMPLES).map_err(|difference| difference.to_string())?;
    Ok(format!(
        "The readers agree on every payload below and on {SAMPLES} more from seed {SEED}, {} whole and {} broken.",
        agreement.whole, agreement.broken
    ))
}

/// The readers say the same of every payload of a mix, and it is whole or broken as its name says.
fn as_meant(mix: &Mix) -> Result<(), String> {
    for buffer in &mix.buffers {
        let sample = Sample { bytes: buffer.clone(), at: mix.at };
        match agreement::common(&readers::ALL, &sample) {
            Some(answer) if (answer.number != 0) == mix.whole => {}
            Some(answer) => return Err(format!("{}: the readers say {}", mix.name, answer.number)),
            None => return Err(Difference::new(&readers::ALL, sample).to_string()),
        }
    }
    Ok(())
}

fn conditions() -> String {
    format!(
        "Best of {} rounds, the readers by turns. A payload is read in place, in a buffer of its own; of a random or broken mix\n\
         sixteen by turns. The answer is a number and, of a call, three words in a lent array that is not cleared in between.\n\
         Machine: {}.\n\
         The yardsticks: {}. Ours: LLVM, by `tools/staticlib`.\n",
        clock::ROUNDS,
        timing::machine(),
        env!("COMPILED")
    )
}
