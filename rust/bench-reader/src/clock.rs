//! How long each reader takes for a mix.

use std::hint::black_box;
use std::time::{Duration, Instant};

use crate::mixes::Mix;
use crate::readers::{self, Reader};

/// Rounds of each reader by turns; the best of them counts.
pub const ROUNDS: usize = 600;
/// About how long a round of the obvious reader is: long enough for the clock, short enough to fall between what
/// else the machine does.
const ROUND: Duration = Duration::from_micros(100);

/// Nanoseconds for a payload, of each reader.
pub type Times = [f64; readers::COUNT];

pub fn times(mix: &Mix) -> Times {
    let turns = turns(mix);
    let mut best = [Duration::MAX; readers::COUNT];
    for _ in 0..ROUNDS {
        for (best, reader) in best.iter_mut().zip(&readers::ALL) {
            *best = round(reader, mix, turns).min(*best);
        }
    }
    best.map(|round| round.as_secs_f64() * 1e9 / (turns * mix.buffers.len()) as f64)
}

/// How often a round reads the mix.
fn turns(mix: &Mix) -> usize {
    let mut turns = 1;
    // One round alone may have been held up.
    while (0..8).map(|_| round(&readers::ALL[0], mix, turns)).min() < Some(ROUND) {
        turns *= 2;
    }
    turns
}

fn round(reader: &Reader, mix: &Mix, turns: usize) -> Duration {
    // Once before the clock starts, so that no reader finds what another has left.
    read(reader, mix, 1);
    let start = Instant::now();
    read(reader, mix, turns);
    start.elapsed()
}

fn read(reader: &Reader, mix: &Mix, turns: usize) {
    let mut words = [0; 3];
    for _ in 0..turns {
        for buffer in &mix.buffers {
            black_box((reader.read)(black_box(buffer), mix.at, &mut words));
            black_box(&words);
        }
    }
}
