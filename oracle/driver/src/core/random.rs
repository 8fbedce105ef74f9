//! A seeded generator: the same seed gives the same inputs everywhere.

/// xoshiro256**, seeded by splitmix64.
pub struct Random {
    state: [u64; 4],
}

fn splitmix(state: &mut u64) -> u64 {
    *state = state.wrapping_add(0x9e37_79b9_7f4a_7c15);
    let mut z = *state;
    z = (z ^ (z >> 30)).wrapping_mul(0xbf58_476d_1ce4_e5b9);
    z = (z ^ (z >> 27)).wrapping_mul(0x94d0_49bb_1331_11eb);
    z ^ (z >> 31)
}

impl Random {
    /// A separate generator for each seed, name and round.
    pub fn new(seed: u64, name: &str, round: u64) -> Random {
        let mut state = seed;
        for byte in name.bytes() {
            state = splitmix(&mut state) ^ u64::from(byte);
        }
        state = splitmix(&mut state) ^ round;
        Random {
            state: [(); 4].map(|()| splitmix(&mut state)),
        }
    }
    pub fn bits(&mut self) -> u64 {
        let s = &mut self.state;
        let result = s[1].wrapping_mul(5).rotate_left(7).wrapping_mul(9);
        let t = s[1] << 17;
        s[2] ^= s[0];
        s[3] ^= s[1];
        s[1] ^= s[2];
        s[0] ^= s[3];
        s[2] ^= t;
        s[3] = s[3].rotate_left(45);
        result
    }
    /// A number below `end`, which is not 0.
    pub fn below(&mut self, end: usize) -> usize {
        ((u128::from(self.bits()) * end as u128) >> 64) as usize
    }
    /// A number from `first` to `last`.
    pub fn between(&mut self, first: usize, last: usize) -> usize {
        first + self.below(last - first + 1)
    }
    /// True in `part` of `whole` cases.
    pub fn chance(&mut self, part: usize, whole: usize) -> bool {
        self.below(whole) < part
    }
    pub fn pick<T: Copy>(&mut self, list: &[T]) -> T {
        list[self.below(list.len())]
    }
    pub fn byte(&mut self) -> u8 {
        (self.bits() >> 56) as u8
    }
    /// An int of any size in bits, small ones as often as large ones.
    pub fn int(&mut self) -> i32 {
        let bits = self.below(32) as u32;
        let digits = (self.bits() as u32) & ((1u32 << bits).wrapping_sub(1));
        let sign = (self.bits() >> 63) as u32;
        (digits ^ sign.wrapping_neg()) as i32
    }
}
