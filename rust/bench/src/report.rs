//! The tables: one for each run, and one for all of them.

use timing::Spread;

use crate::scenes::Scene;

/// Commands a second of the library, of the second program, and of the second program over images.
pub type Rates = [f64; 3];
/// The rates of each scene, in the order of the scenes.
pub type Run = Vec<Rates>;

pub fn run(scenes: &[Scene], run: &Run) -> String {
    let mut table = format!(
        "{:20} {:>7} {:>12} {:>12} {:>7} {:>14} {:>7}\n",
        "request", "bytes", "library", "second", "ratio", "second+image", "ratio"
    );
    for (scene, [library, second, over_images]) in scenes.iter().zip(run) {
        table += &format!(
            "{:20} {:>7} {library:>12.0} {second:>12.0} {:>7.3} {over_images:>14.0} {:>7.3}\n",
            scene.name,
            scene.request.len(),
            library / second,
            library / over_images
        );
    }
    table
}

/// The least, the middle and the most of each ratio.
pub fn all_runs(scenes: &[Scene], runs: &[Run]) -> String {
    let heads = format!("{:>8} {:>6} {:>6}", "least", "middle", "most");
    let mut table = format!(
        "{:20}   {:^22}   {:^22}\n{:20}   {heads}   {heads}\n",
        format!("{} runs", runs.len()),
        "library/second",
        "library/second+image",
        "request"
    );
    for (index, scene) in scenes.iter().enumerate() {
        let spread = |ratio: fn(&Rates) -> f64| Spread::of(runs.iter().map(|run| ratio(&run[index])));
        table += &format!(
            "{:20}   {}   {}\n",
            scene.name,
            spread(|[library, second, _]| library / second),
            spread(|[library, _, over_images]| library / over_images)
        );
    }
    table
}
