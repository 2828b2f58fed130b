//! A small generator of pseudo-random numbers (SplitMix64), from a fixed seed,
//! so that every run compares the same cases. The only one in `tests/`.

pub struct Random {
    state: u64,
}

impl Random {
    pub fn new(seed: u64) -> Self {
        Random { state: seed }
    }

    pub fn number(&mut self) -> u64 {
        self.state = self.state.wrapping_add(0x9E37_79B9_7F4A_7C15);
        let mixed = (self.state ^ (self.state >> 30)).wrapping_mul(0xBF58_476D_1CE4_E5B9);
        let mixed = (mixed ^ (mixed >> 27)).wrapping_mul(0x94D0_49BB_1331_11EB);
        mixed ^ (mixed >> 31)
    }

    /// A number below the bound, which is not 0.
    pub fn below(&mut self, bound: usize) -> usize {
        (self.number() % bound as u64) as usize
    }

    /// A number from `low` to `high`, both included.
    pub fn between(&mut self, low: usize, high: usize) -> usize {
        low + self.below(high - low + 1)
    }

    pub fn one_in(&mut self, count: usize) -> bool {
        self.below(count) == 0
    }

    /// One of the items, of which there is at least one.
    pub fn pick<'a, T>(&mut self, items: &'a [T]) -> &'a T {
        &items[self.below(items.len())]
    }

    /// Any word, all alike.
    pub fn any_word(&mut self) -> u32 {
        self.number() as u32
    }

    /// A word: small, near a power of two, near the ends of the signed and
    /// unsigned numbers, or any.
    pub fn word(&mut self) -> u32 {
        let near = self.below(3) as u32;
        match self.below(6) {
            0 | 1 => self.below(10) as u32,
            2 => self.below(300) as u32,
            3 => (1u32 << self.below(32)).wrapping_add(near).wrapping_sub(1),
            4 => self.pick(&[0u32, 0x7FFF_FFFF, 0x8000_0000, 0xFFFF_FFFF, 1_020, 257]).wrapping_sub(near),
            _ => self.any_word(),
        }
    }
}
