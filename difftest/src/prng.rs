//! A small seeded generator of pseudo-random numbers: xoshiro256**, seeded by splitmix64.

pub struct Prng {
    state: [u64; 4],
}

fn splitmix64(seed: &mut u64) -> u64 {
    *seed = seed.wrapping_add(0x9e37_79b9_7f4a_7c15);
    let mut z = *seed;
    z = (z ^ (z >> 30)).wrapping_mul(0xbf58_476d_1ce4_e5b9);
    z = (z ^ (z >> 27)).wrapping_mul(0x94d0_49bb_1331_11eb);
    z ^ (z >> 31)
}

impl Prng {
    /// The numbers of a seed and an index: each log can be made again by itself.
    pub fn new(seed: u64, index: u64) -> Prng {
        let mut mixed = seed;
        let mut source = splitmix64(&mut mixed) ^ index;
        Prng {
            state: std::array::from_fn(|_| splitmix64(&mut source)),
        }
    }

    pub fn draw(&mut self) -> u64 {
        let s = &mut self.state;
        let answer = s[1].wrapping_mul(5).rotate_left(7).wrapping_mul(9);
        let t = s[1] << 17;
        s[2] ^= s[0];
        s[3] ^= s[1];
        s[1] ^= s[2];
        s[0] ^= s[3];
        s[2] ^= t;
        s[3] = s[3].rotate_left(45);
        answer
    }

    /// 0 up to `bound` less 1; `bound` is above 0.
    pub fn below(&mut self, bound: u64) -> u64 {
        ((u128::from(self.draw()) * u128::from(bound)) >> 64) as u64
    }

    /// `low` up to `high`, both included.
    pub fn between(&mut self, low: u64, high: u64) -> u64 {
        low + self.below(high - low + 1)
    }

    pub fn index(&mut self, length: usize) -> usize {
        self.below(length as u64) as usize
    }

    /// True once in `bound`.
    pub fn once_in(&mut self, bound: u64) -> bool {
        self.below(bound) == 0
    }

    pub fn pick<T: Copy>(&mut self, choices: &[T]) -> T {
        choices[self.index(choices.len())]
    }

    /// 1 up to `high`, each order of magnitude about as often.
    pub fn spread(&mut self, high: u64) -> u64 {
        let bits = self.between(1, u64::from(64 - high.leading_zeros()));
        let low = 1 << (bits - 1);
        self.between(low, (2 * low - 1).min(high))
    }

    pub fn shuffle<T>(&mut self, items: &mut [T]) {
        for last in (1..items.len()).rev() {
            items.swap(last, self.index(last + 1));
        }
    }
}
