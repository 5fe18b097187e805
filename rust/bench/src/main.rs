//! Commands a second of the library and of the second program, on the same requests in one run.
//!
//! The library takes its record as an image and gives one back with every command; the second program
//! keeps its own in memory. So it is timed twice: as it is, and reading and writing an image as well.

#![forbid(unsafe_code)]

mod layout;
mod report;
mod scenes;

use std::hint::black_box;
use std::process::ExitCode;
use std::time::{Duration, Instant};

use flamepocket::ANSWER_ROOM;
use report::Rates;
use scenes::Scene;

/// Commands in one timed round, each on a card of its own, copied before the clock starts.
const BATCH: usize = 100;
/// Rounds of each program by turns; the best of them counts.
const ROUNDS: usize = 60;

fn main() -> ExitCode {
    let arguments: Vec<String> = std::env::args().skip(1).collect();
    match timing::runs(&arguments).and_then(measured) {
        Ok(()) => ExitCode::SUCCESS,
        Err(message) => {
            eprintln!("{message}");
            ExitCode::FAILURE
        }
    }
}

fn measured(count: usize) -> Result<(), String> {
    let scenes = scenes::all().map_err(|refusal| refusal.to_string())?;
    scenes.iter().try_for_each(same_result)?;
    println!("{}", conditions());
    let mut runs = vec![];
    for number in 1..=count {
        let run = scenes.iter().map(rates).collect::<Result<report::Run, _>>()?;
        println!("Run {number} of {count}\n{}", report::run(&scenes, &run));
        runs.push(run);
    }
    if count > 1 {
        print!("{}", report::all_runs(&scenes, &runs));
    }
    Ok(())
}

fn conditions() -> String {
    format!(
        "Commands a second: best of {ROUNDS} rounds of {BATCH} commands, the programs by turns.\n\
         Answer buffer {ANSWER_ROOM} bytes, not cleared between commands; requests as listed.\n\
         The record: {} bytes as an image, {} as the library's Card in memory.\n\
         Machine: {}.\n",
        flamepocket::ffi::record_length(),
        layout::CARD_BYTES,
        timing::machine()
    )
}

fn second_card(scene: &Scene) -> Result<second::Card, String> {
    second::Card::from_image(scene.card.image())
        .ok_or_else(|| format!("{}: the second program takes no such image", scene.name))
}

/// Times are worth nothing where the programs do not do the same.
fn same_result(scene: &Scene) -> Result<(), String> {
    let (mut card, mut other) = (scene.card.clone(), second_card(scene)?);
    let (mut answer, mut other_answer) = ([0; ANSWER_ROOM], [0; ANSWER_ROOM]);
    let result = match card.command_in(&scene.request, &mut answer) {
        Ok(count) => (0, count),
        Err(refusal) => (refusal.number(), 0),
    };
    let other_result = other.command(&scene.request, &mut other_answer);
    if (result, answer, card.image()) == (other_result, other_answer, &other.image()) {
        Ok(())
    } else {
        Err(format!("{}: the programs differ", scene.name))
    }
}

/// The rate of each program's best round: the library, the second program, the second program over images.
fn rates(scene: &Scene) -> Result<Rates, String> {
    let second = second_card(scene)?;
    let image = scene.card.image().to_vec();
    let mut best = [Duration::MAX; 3];
    let mut answer = [0; ANSWER_ROOM];
    for _ in 0..ROUNDS {
        let round = [
            timed(&scene.card, |card| {
                let _ = black_box(card.command_in(black_box(&scene.request), &mut answer));
            }),
            timed(&second, |card| {
                black_box(card.command(black_box(&scene.request), &mut answer));
            }),
            timed(&image, |image| {
                if let Some(mut card) = second::Card::from_image(image) {
                    black_box(card.command(black_box(&scene.request), &mut answer));
                    *image = card.image();
                }
            }),
        ];
        for (best, time) in best.iter_mut().zip(round) {
            *best = time.min(*best);
        }
    }
    Ok(best.map(|round| BATCH as f64 / round.as_secs_f64()))
}

/// The time of one round of commands on copies of a card.
fn timed<Card: Clone>(card: &Card, mut command: impl FnMut(&mut Card)) -> Duration {
    let mut cards = vec![card.clone(); BATCH];
    let start = Instant::now();
    cards.iter_mut().for_each(&mut command);
    let time = start.elapsed();
    black_box(cards);
    time
}
