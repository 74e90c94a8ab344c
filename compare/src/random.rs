//! A small generator of numbers that look random and are the same for the same seed (splitmix64).

pub struct Random {
    state: u64,
}

impl Random {
    pub fn from_seed(seed: u64) -> Random {
        Random { state: seed }
    }

    pub fn next_u64(&mut self) -> u64 {
        self.state = self.state.wrapping_add(0x9E37_79B9_7F4A_7C15);
        let mut mixed = self.state;
        mixed = (mixed ^ (mixed >> 30)).wrapping_mul(0xBF58_476D_1CE4_E5B9);
        mixed = (mixed ^ (mixed >> 27)).wrapping_mul(0x94D0_49BB_1331_11EB);
        mixed ^ (mixed >> 31)
    }

    pub fn word(&mut self) -> u32 {
        (self.next_u64() >> 32) as u32
    }

    pub fn byte(&mut self) -> u8 {
        (self.next_u64() >> 56) as u8
    }

    /// A number below `limit`, which isn't 0. That the low ones come a trifle more often doesn't matter here.
    pub fn below(&mut self, limit: usize) -> usize {
        (self.next_u64() % limit as u64) as usize
    }

    pub fn one_in(&mut self, limit: usize) -> bool {
        self.below(limit) == 0
    }

    pub fn pick<T: Copy>(&mut self, from: &[T]) -> T {
        from[self.below(from.len())]
    }

    /// A word of a random width, so that numbers of one to five bytes all come often.
    pub fn word_of_any_width(&mut self) -> u32 {
        let width = self.below(33) as u32;
        self.word().checked_shr(32 - width).unwrap_or(0)
    }
}

#[cfg(test)]
mod tests {
    use super::Random;

    #[test]
    fn the_same_seed_gives_the_same_numbers() {
        let (mut one, mut other) = (Random::from_seed(7), Random::from_seed(7));
        for _ in 0..100 {
            assert_eq!(one.next_u64(), other.next_u64());
        }
    }

    #[test]
    fn splitmix64_of_seed_0_begins_as_published() {
        assert_eq!(Random::from_seed(0).next_u64(), 0xE220_A839_7B1D_CDAF);
    }
}
