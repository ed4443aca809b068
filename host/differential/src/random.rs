//! A small xorshift generator, so that a seed and a call's number give the same call on every machine.

pub struct Random {
    state: u64,
}

impl Random {
    /// The generator of one part of a run: seed and number are mixed so that neighbours have nothing in common.
    pub fn new(seed: u64, number: u64) -> Random {
        let mut mixed = seed.wrapping_mul(0x9E37_79B9_7F4A_7C15) ^ number.wrapping_add(0x632B_E59B_D9B4_E019);
        for _ in 0..2 {
            mixed = (mixed ^ (mixed >> 30)).wrapping_mul(0xBF58_476D_1CE4_E5B9);
            mixed = (mixed ^ (mixed >> 27)).wrapping_mul(0x94D0_49BB_1331_11EB);
            mixed ^= mixed >> 31;
        }
        Random { state: mixed | 1 }
    }

    /// xorshift64*.
    pub fn bits64(&mut self) -> u64 {
        self.state ^= self.state >> 12;
        self.state ^= self.state << 25;
        self.state ^= self.state >> 27;
        self.state.wrapping_mul(0x2545_F491_4F6C_DD1D)
    }

    pub fn bits32(&mut self) -> u32 {
        (self.bits64() >> 32) as u32
    }

    /// A number from 0 to n - 1, n at least 1.
    pub fn below(&mut self, n: u64) -> u64 {
        ((u128::from(self.bits64()) * u128::from(n)) >> 64) as u64
    }

    pub fn between(&mut self, low: u64, high: u64) -> u64 {
        low + self.below(high - low + 1)
    }

    pub fn index(&mut self, len: usize) -> usize {
        self.below(len as u64) as usize
    }

    /// True once in n times.
    pub fn once_in(&mut self, n: u64) -> bool {
        self.below(n) == 0
    }

    pub fn pick<T: Copy>(&mut self, from: &[T]) -> T {
        from[self.index(from.len())]
    }

    /// A number from 0 up to but not including 1.
    pub fn fraction(&mut self) -> f32 {
        (self.bits32() >> 8) as f32 / 16_777_216.0
    }
}
