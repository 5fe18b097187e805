//! A small generator of numbers (splitmix64), so that a run can be had again from its seed.

#![forbid(unsafe_code)]

pub struct Chance(u64);

impl Chance {
    pub fn new(seed: u64) -> Self {
        Chance(seed)
    }

    pub fn number(&mut self) -> u64 {
        self.0 = self.0.wrapping_add(0x9E37_79B9_7F4A_7C15);
        let mixed = (self.0 ^ self.0 >> 30).wrapping_mul(0xBF58_476D_1CE4_E5B9);
        let mixed = (mixed ^ mixed >> 27).wrapping_mul(0x94D0_49BB_1331_11EB);
        mixed ^ mixed >> 31
    }

    /// A number below `bound`; 0 where there is none.
    pub fn below(&mut self, bound: u64) -> u64 {
        self.number() % bound.max(1)
    }

    pub fn index(&mut self, length: usize) -> usize {
        self.below(length as u64) as usize
    }

    pub fn one_in(&mut self, many: u64) -> bool {
        self.below(many) == 0
    }

    pub fn byte(&mut self) -> u8 {
        self.number() as u8
    }

    pub fn bytes(&mut self, count: usize) -> Vec<u8> {
        (0..count).map(|_| self.byte()).collect()
    }

    /// Turns one bit of some bytes over.
    pub fn flip_bit(&mut self, bytes: &mut [u8]) {
        let at = self.index(bytes.len());
        bytes[at] ^= 1 << self.below(8);
    }

    /// One of several, each as likely as the next.
    pub fn of<T: Clone>(&mut self, choices: &[T]) -> T {
        choices[self.index(choices.len())].clone()
    }

    /// One of several, each as likely as its weight says.
    pub fn weighted<'t, T>(&mut self, choices: &'t [T], weight: impl Fn(&T) -> u64) -> &'t T {
        let mut left = self.below(choices.iter().map(&weight).sum());
        let found = choices.iter().find(|choice| {
            let taken = left < weight(choice);
            left = left.saturating_sub(weight(choice));
            taken
        });
        found.unwrap_or(&choices[0])
    }
}
