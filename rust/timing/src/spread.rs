//! The figures of several runs: the least, the middle one and the most.

use std::fmt;

#[derive(Clone, Copy, PartialEq, Debug)]
pub struct Spread {
    pub least: f64,
    pub middle: f64,
    pub most: f64,
}

impl Spread {
    /// Of an even count the middle lies halfway between two figures; of none at all everything is 0.
    pub fn of(figures: impl IntoIterator<Item = f64>) -> Self {
        let mut sorted: Vec<f64> = figures.into_iter().collect();
        sorted.sort_by(f64::total_cmp);
        let (Some(&least), Some(&most)) = (sorted.first(), sorted.last()) else {
            return Spread { least: 0.0, middle: 0.0, most: 0.0 };
        };
        let (below, above) = (sorted[(sorted.len() - 1) / 2], sorted[sorted.len() / 2]);
        Spread { least, middle: (below + above) / 2.0, most }
    }
}

impl fmt::Display for Spread {
    fn fmt(&self, to: &mut fmt::Formatter) -> fmt::Result {
        write!(to, "{:>8.2} {:>6.2} {:>6.2}", self.least, self.middle, self.most)
    }
}

#[cfg(test)]
mod tests {
    use super::Spread;

    #[test]
    fn odd_even_one_and_none() {
        assert_eq!(Spread::of([3.0, 1.0, 2.0]), Spread { least: 1.0, middle: 2.0, most: 3.0 });
        assert_eq!(Spread::of([4.0, 1.0, 2.0, 3.0]), Spread { least: 1.0, middle: 2.5, most: 4.0 });
        assert_eq!(Spread::of([7.0]), Spread { least: 7.0, middle: 7.0, most: 7.0 });
        assert_eq!(Spread::of([]).most, 0.0);
    }
}
