//! The corpus's own source of chance (splitmix64): the same seed and text
//! number always give the same throws.

pub struct Dice {
    state: u64,
}

const STRIDE: u64 = 0x9E37_79B9_7F4A_7C15;

impl Dice {
    pub fn new(seed: u64, number: u64) -> Dice {
        let mut dice = Dice { state: seed };
        let start = dice.throw();
        Dice {
            state: start ^ number.wrapping_mul(STRIDE).rotate_left(23),
        }
    }

    pub fn throw(&mut self) -> u64 {
        self.state = self.state.wrapping_add(STRIDE);
        let mut mixed = self.state;
        mixed = (mixed ^ (mixed >> 30)).wrapping_mul(0xBF58_476D_1CE4_E5B9);
        mixed = (mixed ^ (mixed >> 27)).wrapping_mul(0x94D0_49BB_1331_11EB);
        mixed ^ (mixed >> 31)
    }

    /// A number from `least` to `most`, both included.
    pub fn between(&mut self, least: i128, most: i128) -> i128 {
        let count = (most - least + 1).max(1);
        least + i128::from(self.throw()) % count
    }

    /// A place in a list of `count` things; 0 for an empty list.
    pub fn index(&mut self, count: usize) -> usize {
        (self.throw() % count.max(1) as u64) as usize
    }

    pub fn pick<T: Clone>(&mut self, list: &[T]) -> T {
        list[self.index(list.len())].clone()
    }

    pub fn chance(&mut self, percent: u64) -> bool {
        self.throw() % 100 < percent
    }

    pub fn byte(&mut self) -> u8 {
        self.throw().to_be_bytes()[0]
    }
}
