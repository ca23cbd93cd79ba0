//! Numbers that follow from a seed.

/// The numbers that follow from a seed.
pub struct Random(pub u64);

impl Random {
    /// The next 64 bits, by the method called SplitMix64.
    pub fn bits(&mut self) -> u64 {
        self.0 = self.0.wrapping_add(0x9E3779B97F4A7C15);
        let mixed = (self.0 ^ self.0 >> 30).wrapping_mul(0xBF58476D1CE4E5B9);
        let mixed = (mixed ^ mixed >> 27).wrapping_mul(0x94D049BB133111EB);
        mixed ^ mixed >> 31
    }

    /// A number below a limit above 0.
    pub fn below(&mut self, limit: usize) -> usize {
        (self.bits() >> 32) as usize % limit
    }

    /// One of some things.
    pub fn one<T: Copy>(&mut self, things: &[T]) -> T {
        things[self.below(things.len())]
    }
}
