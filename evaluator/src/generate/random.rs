//! A small source of random numbers: splitmix64.

pub struct Random {
    state: u64,
}

impl Random {
    /// A source of its own for each file, so that files do not depend on how
    /// many were made before them.
    pub fn new(seed: u64, kind: u64, number: u64) -> Random {
        let mut random = Random::from_state(seed);
        for value in [kind, number] {
            random.state = random.draw().wrapping_add(value);
        }
        random
    }

    pub fn from_state(state: u64) -> Random {
        Random { state }
    }

    pub fn draw(&mut self) -> u64 {
        self.state = self.state.wrapping_add(0x9e37_79b9_7f4a_7c15);
        let mut mixed = self.state;
        mixed = (mixed ^ (mixed >> 30)).wrapping_mul(0xbf58_476d_1ce4_e5b9);
        mixed = (mixed ^ (mixed >> 27)).wrapping_mul(0x94d0_49bb_1331_11eb);
        mixed ^ (mixed >> 31)
    }

    /// A number below `bound`; 0 where there is none. The slight preference of
    /// the remainder for low numbers does no harm here.
    pub fn below(&mut self, bound: usize) -> usize {
        match bound {
            0 => 0,
            _ => (self.draw() % bound as u64) as usize,
        }
    }

    /// A number from `low` to `high`, both included.
    pub fn between(&mut self, low: usize, high: usize) -> usize {
        low + self.below((high + 1).saturating_sub(low))
    }

    pub fn percent(&mut self, chance: usize) -> bool {
        self.below(100) < chance
    }

    /// One of the choices, of which there is at least one.
    pub fn pick<'a, T: ?Sized + 'a, C: AsRef<T> + 'a>(&mut self, choices: &'a [C]) -> &'a T {
        choices[self.below(choices.len())].as_ref()
    }

    pub fn choose<T: Copy>(&mut self, choices: &[T]) -> T {
        choices[self.below(choices.len())]
    }

    pub fn shuffle<T>(&mut self, items: &mut [T]) {
        for last in (1..items.len()).rev() {
            items.swap(last, self.below(last + 1));
        }
    }
}
