//! A small seeded generator of numbers: xorshift, with a product at its end.

pub struct Rng {
    state: u64,
}

impl Rng {
    /// Neighbouring seeds begin far apart, and no seed begins at 0, where the
    /// generator would stay.
    pub fn new(seed: u64) -> Rng {
        let mut state = seed.wrapping_add(0x9e37_79b9_7f4a_7c15);
        state = (state ^ (state >> 30)).wrapping_mul(0xbf58_476d_1ce4_e5b9);
        state = (state ^ (state >> 27)).wrapping_mul(0x94d0_49bb_1331_11eb);
        state ^= state >> 31;
        Rng {
            state: state.max(1),
        }
    }

    pub fn draw(&mut self) -> u64 {
        self.state ^= self.state >> 12;
        self.state ^= self.state << 25;
        self.state ^= self.state >> 27;
        self.state.wrapping_mul(0x2545_f491_4f6c_dd1d)
    }

    /// A number below `bound`; 0 where the bound is 0.
    pub fn below(&mut self, bound: usize) -> usize {
        // The upper half, for the lower bits are the weaker ones.
        let number = self.draw() >> 32;
        (number % (bound as u64).max(1)) as usize
    }

    /// A number from `low` to `high`, both included.
    pub fn between(&mut self, low: usize, high: usize) -> usize {
        low + self.below(high.saturating_sub(low) + 1)
    }

    /// True once in `times` on the average.
    pub fn once_in(&mut self, times: usize) -> bool {
        self.below(times) == 0
    }

    pub fn byte(&mut self) -> u8 {
        self.below(256) as u8
    }

    /// One of the choices, or nothing where there are none.
    pub fn pick<T: Clone>(&mut self, choices: &[T]) -> Option<T> {
        choices.get(self.below(choices.len())).cloned()
    }

    /// One number of the choices; 0 where there are none.
    pub fn one_of(&mut self, choices: &[usize]) -> usize {
        self.pick(choices).unwrap_or(0)
    }
}
