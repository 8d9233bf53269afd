//! A small seeded generator: the same seed gives the same tables, orders and keys to every contestant.

pub struct Dice(u64);

impl Dice {
    /// Dice for one purpose: different purposes do not follow each other.
    pub fn new(purpose: u64) -> Dice {
        let mut dice = Dice(purpose.wrapping_mul(0xD134_2543_DE82_EF95) ^ 0x5EED);
        dice.throw();
        dice
    }

    /// The next 64 bits (splitmix).
    fn throw(&mut self) -> u64 {
        self.0 = self.0.wrapping_add(0x9E37_79B9_7F4A_7C15);
        let z = (self.0 ^ (self.0 >> 30)).wrapping_mul(0xBF58_476D_1CE4_E5B9);
        let z = (z ^ (z >> 27)).wrapping_mul(0x94D0_49BB_1331_11EB);
        z ^ (z >> 31)
    }

    /// A number below `end`, which is not 0.
    pub fn below(&mut self, end: usize) -> usize {
        (((self.throw() >> 32) * end as u64) >> 32) as usize
    }

    /// A number from `first` to `last`.
    pub fn between(&mut self, first: u32, last: u32) -> u32 {
        first + self.below((last - first) as usize + 1) as u32
    }

    pub fn shuffle<T>(&mut self, things: &mut [T]) {
        for end in (1..things.len()).rev() {
            things.swap(end, self.below(end + 1));
        }
    }
}
