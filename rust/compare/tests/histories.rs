//! The library and the second program on the tours and on histories from fixed seeds. Run it with `--release`.

use compare::coverage::Coverage;
use compare::run::{self, Difference};
use compare::{damage_tour, media_tour, tour};

const SEEDS: [u64; 4] = [1, 2, 3, 0x0F1A_3E00];
const EVENTS_EACH: u64 = 80_000;

/// Fails with the script of a difference.
fn agreed(result: Result<(), Box<Difference>>) {
    if let Err(difference) = result {
        panic!("\n{difference}");
    }
}

fn agreed_on(tour: fn(&mut Coverage) -> Result<(), Box<Difference>>) {
    let mut coverage = Coverage::default();
    agreed(tour(&mut coverage));
    println!("{} events", coverage.events());
}

#[test]
fn every_method_on_every_object_and_column() {
    agreed_on(tour::tour);
}

#[test]
fn media_at_every_border() {
    agreed_on(media_tour::media_tour);
}

#[test]
fn damage_at_every_byte() {
    agreed_on(damage_tour::damage_tour);
}

#[test]
fn histories_come_upon_everything() {
    let mut coverage = Coverage::default();
    for seed in SEEDS {
        agreed(run::histories(seed, EVENTS_EACH, &mut coverage));
    }
    println!("{coverage}");
    assert!(coverage.events() >= 300_000);
    let gaps = coverage.gaps();
    assert!(gaps.is_empty(), "{}", gaps.join("\n"));
}
