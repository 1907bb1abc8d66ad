//! A small generator of random numbers that are the same in every run (splitmix64).

/// The state of the generator; bytes that it was given come before its own numbers.
pub struct Random {
    state: u64,
    given: Vec<u8>,
}

impl Random {
    /// Starts a generator; equal seeds give equal numbers.
    pub fn new(seed: u64) -> Random {
        Random {
            state: seed,
            given: vec![],
        }
    }

    /// Starts a generator whose first numbers come from these bytes, one byte for a small number.
    #[cfg(any(test, feature = "fuzz"))]
    pub fn given(bytes: &[u8]) -> Random {
        Random {
            state: 0,
            given: bytes.iter().rev().copied().collect(),
        }
    }

    /// Returns whether any of the given bytes are left.
    #[cfg(any(test, feature = "fuzz"))]
    pub fn is_given(&self) -> bool {
        !self.given.is_empty()
    }

    /// Returns a number made of this many of the given bytes, or else the next 64 bits.
    fn next(&mut self, bytes: usize) -> u64 {
        let Some(rest) = self.given.len().checked_sub(bytes) else {
            self.given.clear();
            return self.mixed();
        };
        let taken = self.given.split_off(rest);
        let number = |bits, byte: &u8| bits << 8 | u64::from(*byte);
        taken.iter().rev().fold(0, number)
    }

    /// Returns the next 64 bits of the generator.
    fn mixed(&mut self) -> u64 {
        self.state = self.state.wrapping_add(0x9e37_79b9_7f4a_7c15);
        let mixed = (self.state ^ (self.state >> 30)).wrapping_mul(0xbf58_476d_1ce4_e5b9);
        let mixed = (mixed ^ (mixed >> 27)).wrapping_mul(0x94d0_49bb_1331_11eb);
        mixed ^ (mixed >> 31)
    }

    /// Returns the next 64 bits.
    pub fn bits(&mut self) -> u64 {
        self.next(8)
    }

    /// Returns a number below the limit, which is not zero.
    pub fn below(&mut self, limit: usize) -> usize {
        let bytes = if limit <= 256 { 1 } else { 4 };
        (self.next(bytes) % limit as u64) as usize
    }

    /// Returns a byte.
    pub fn byte(&mut self) -> u8 {
        self.next(1) as u8
    }

    /// Fills a buffer with random bytes.
    pub fn fill(&mut self, buffer: &mut [u8]) {
        buffer.fill_with(|| self.byte());
    }

    /// Returns one of the choices; there must be at least one.
    pub fn pick<T: Copy>(&mut self, choices: &[T]) -> T {
        choices[self.below(choices.len())]
    }

    /// Flips this many bits of a buffer that is not empty, anywhere in it.
    pub fn flip(&mut self, buffer: &mut [u8], flips: usize) {
        for _ in 0..flips {
            let bit = self.below(8 * buffer.len());
            buffer[bit / 8] ^= 1 << (bit % 8);
        }
    }
}

#[cfg(test)]
mod tests {
    use super::*;

    /// The first two numbers for seed 1234567, as published with the generator.
    #[test]
    fn the_numbers_are_splitmix64() {
        let mut random = Random::new(1_234_567);
        assert_eq!(random.bits(), 6_457_827_717_110_365_317);
        assert_eq!(random.bits(), 3_203_168_211_198_807_973);
    }

    /// Given bytes come first, one or more for a number, then the generator's own numbers.
    #[test]
    fn given_bytes_come_first() {
        let mut random = Random::given(&[7, 9, 0, 0, 1, 44, 5]);
        assert_eq!((random.byte(), random.below(6)), (7, 3));
        assert_eq!((random.below(1000), random.is_given()), (300, true));
        let own = Random::new(0).bits();
        assert_eq!((random.bits(), random.is_given()), (own, false));
    }

    /// One flip, one bit.
    #[test]
    fn flips_turn_bits_over() {
        let mut buffer = [0; 24];
        Random::new(1).flip(&mut buffer, 1);
        assert_eq!(buffer.iter().map(|byte| byte.count_ones()).sum::<u32>(), 1);
    }
}
