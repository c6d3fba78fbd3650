//! Numbers from a seed.

/// The seed that a program is given as its first argument, or else this one; nothing if it is no number.
pub fn seed_given(otherwise: u64) -> Option<u64> {
    match std::env::args().nth(1) {
        Some(word) => word.parse().ok(),
        None => Some(otherwise),
    }
}

/// A splitmix64 generator.
#[derive(Debug, Clone)]
pub struct Draws {
    state: u64,
}

impl Draws {
    /// The draws of a seed.
    pub fn new(seed: u64) -> Draws {
        Draws { state: seed }
    }

    /// Any word.
    pub fn word(&mut self) -> u64 {
        self.state = self.state.wrapping_add(0x9E37_79B9_7F4A_7C15);
        let mut word = self.state;
        word = (word ^ (word >> 30)).wrapping_mul(0xBF58_476D_1CE4_E5B9);
        word = (word ^ (word >> 27)).wrapping_mul(0x94D0_49BB_1331_11EB);
        word ^ (word >> 31)
    }

    /// A number below a bound; 0 where the bound is 0.
    pub fn below(&mut self, bound: usize) -> usize {
        (self.word() % bound.max(1) as u64) as usize
    }

    /// A number from the first to the last, both included.
    pub fn between(&mut self, first: usize, last: usize) -> usize {
        first + self.below(last - first + 1)
    }

    /// True once in so many times.
    pub fn once_in(&mut self, times: usize) -> bool {
        self.below(times) == 0
    }

    /// One of several.
    pub fn one_of<T: Copy>(&mut self, several: &[T]) -> T {
        several[self.below(several.len())]
    }

    /// Any byte.
    pub fn byte(&mut self) -> u8 {
        self.word() as u8
    }

    /// Any bytes.
    pub fn bytes(&mut self, count: usize) -> Vec<u8> {
        (0..count).map(|_| self.byte()).collect()
    }

    /// A set of states in which few, half or most are.
    pub fn set(&mut self) -> u64 {
        match self.below(4) {
            0 => self.word() & self.word() & self.word(),
            1 => self.word(),
            2 => 1 << self.below(64),
            _ => self.word() | self.word() | self.word(),
        }
    }
}

#[cfg(test)]
mod tests {
    use super::*;

    #[test]
    fn a_seed_gives_the_same_draws() {
        let words = |seed| {
            let mut draws = Draws::new(seed);
            [draws.word(), draws.word(), draws.word()]
        };
        assert_eq!(words(5), words(5));
        assert_ne!(words(5), words(6));
    }

    #[test]
    fn bounds_are_kept() {
        let mut draws = Draws::new(1);
        for _ in 0..1000 {
            assert!(draws.below(7) < 7);
            assert!((3..=5).contains(&draws.between(3, 5)));
        }
        assert_eq!(draws.below(0), 0);
    }
}
