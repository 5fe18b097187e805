//! The tables: one for each run, and one for all of them.

use timing::Spread;

use crate::clock::Times;
use crate::mixes::Mix;

/// Times of each mix, in the order of the mixes.
pub type Run = Vec<Times>;

pub fn run(mixes: &[Mix], run: &Run) -> String {
    let mut table = format!(
        "{:26} {:>6} {:>9} {:>9} {:>9} {:>13} {:>10}\n",
        "ns a payload", "bytes", "obvious", "lean", "ours", "ours/obvious", "ours/lean"
    );
    for (index, (mix, [obvious, lean, ours])) in mixes.iter().zip(run).enumerate() {
        table += &group(mixes, index);
        table += &format!(
            "  {:24} {:>6} {obvious:>9.1} {lean:>9.1} {ours:>9.1} {:>13.2} {:>10.2}\n",
            mix.name,
            mix.bytes(),
            ours / obvious,
            ours / lean
        );
    }
    table
}

pub fn all_runs(mixes: &[Mix], runs: &[Run]) -> String {
    let mut table = format!(
        "{:26} {:>6} {:>9} {:>9} {:>9}   {:^22}   {:^22}\n{:63}   {:>8} {:>6} {:>6}   {:>8} {:>6} {:>6}\n",
        format!("{} runs", runs.len()),
        "bytes",
        "obvious",
        "lean",
        "ours",
        "ours/obvious",
        "ours/lean",
        "ns a payload, the middle one of the runs",
        "least",
        "middle",
        "most",
        "least",
        "middle",
        "most"
    );
    for (index, mix) in mixes.iter().enumerate() {
        let spread = |figure: fn(&Times) -> f64| Spread::of(runs.iter().map(|run| figure(&run[index])));
        table += &group(mixes, index);
        table += &format!(
            "  {:24} {:>6} {:>9.1} {:>9.1} {:>9.1}   {}   {}\n",
            mix.name,
            mix.bytes(),
            spread(|times| times[0]).middle,
            spread(|times| times[1]).middle,
            spread(|times| times[2]).middle,
            spread(|times| times[2] / times[0]),
            spread(|times| times[2] / times[1])
        );
    }
    table
}

/// The group's name before its first mix.
fn group(mixes: &[Mix], index: usize) -> String {
    let before = index.checked_sub(1).map(|before| mixes[before].group);
    if before == Some(mixes[index].group) {
        String::new()
    } else {
        format!("{}\n", mixes[index].group)
    }
}
