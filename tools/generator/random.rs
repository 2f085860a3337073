//! Seeded random numbers (splitmix64): the same seed gives the same numbers on every machine.

#[derive(Clone)]
pub struct Random {
    state: u64,
    /// How many of the kind came before: where a few choices are to be met soon, they take turns.
    number: u64,
}

impl Random {
    pub fn new(seed: u64, number: u64) -> Random {
        Random { state: seed, number }
    }

    pub fn next(&mut self) -> u64 {
        self.state = self.state.wrapping_add(0x9e37_79b9_7f4a_7c15);
        let mut z = self.state;
        z = (z ^ (z >> 30)).wrapping_mul(0xbf58_476d_1ce4_e5b9);
        z = (z ^ (z >> 27)).wrapping_mul(0x94d0_49bb_1331_11eb);
        z ^ (z >> 31)
    }

    /// 0 to n − 1.
    pub fn below(&mut self, n: u64) -> u64 {
        self.next() % n
    }

    /// From a to b, ends included.
    pub fn between(&mut self, a: u32, b: u32) -> u32 {
        a + self.below(u64::from(b - a) + 1) as u32
    }

    pub fn pick<T: Copy>(&mut self, choices: &[T]) -> T {
        choices[self.below(choices.len() as u64) as usize]
    }

    /// The choices one after the other, from one job of the kind to the next.
    pub fn turn<T: Copy>(&self, choices: &[T]) -> T {
        choices[(self.number % choices.len() as u64) as usize]
    }

    /// How many jobs of the kind came before.
    pub fn number(&self) -> u64 {
        self.number
    }

    /// True once in n times.
    pub fn once_in(&mut self, n: u64) -> bool {
        self.below(n) == 0
    }

    /// From −1 to 1, in steps of 2^−23.
    pub fn unit(&mut self) -> f32 {
        (self.below((1 << 24) + 1) as i64 - (1 << 23)) as f32 / (1 << 23) as f32
    }
}
