//! A small generator of random numbers (splitmix64), as in dice.py: a seed means the same everywhere.

pub struct Dice(u64);

impl Dice {
    /// The dice of one case of a seed.
    pub fn new(seed: u64, case: u64) -> Dice {
        Dice(seed.wrapping_mul(1_000_003).wrapping_add(case).wrapping_mul(0xD129_0DDB_53C4_3E49))
    }

    pub fn next(&mut self) -> u64 {
        self.0 = self.0.wrapping_add(0x9E37_79B9_7F4A_7C15);
        let value = (self.0 ^ self.0 >> 30).wrapping_mul(0xBF58_476D_1CE4_E5B9);
        let value = (value ^ value >> 27).wrapping_mul(0x94D0_49BB_1331_11EB);
        value ^ value >> 31
    }

    /// A number from 0 to bound - 1.
    pub fn below(&mut self, bound: u64) -> u64 {
        self.next() % bound
    }

    /// A number from low to high, both included.
    pub fn between(&mut self, low: u64, high: u64) -> u64 {
        low + self.below(high - low + 1)
    }

    pub fn chance(&mut self, percent: u64) -> bool {
        self.below(100) < percent
    }

    pub fn pick<T: Copy>(&mut self, values: &[T]) -> T {
        values[self.below(values.len() as u64) as usize]
    }
}
