//! A small generator with a fixed seed.

pub struct Dice(u64);

impl Dice {
    pub fn new(seed: u64) -> Dice {
        // A xorshift generator never leaves 0.
        Dice(seed | 1)
    }

    pub fn next(&mut self) -> u32 {
        self.0 ^= self.0 << 13;
        self.0 ^= self.0 >> 7;
        self.0 ^= self.0 << 17;
        (self.0 >> 32) as u32
    }

    /// From 0 up to, not including, `end`.
    pub fn below(&mut self, end: u32) -> u32 {
        self.next() % end
    }

    pub fn byte(&mut self) -> u8 {
        self.next() as u8
    }

    pub fn bytes<const N: usize>(&mut self) -> [u8; N] {
        [0; N].map(|_| self.byte())
    }

    pub fn one_in(&mut self, times: u32) -> bool {
        self.below(times) == 0
    }

    pub fn pick<T: Copy>(&mut self, from: &[T]) -> T {
        from[self.below(from.len() as u32) as usize]
    }

    /// One of them or more, in their order.
    pub fn some<T: Copy>(&mut self, from: &[T]) -> Vec<T> {
        // A bit for each; at least one of them is set.
        let chosen = 1 + self.below((1 << from.len()) - 1);
        let is_chosen = |at: &usize| chosen >> at & 1 == 1;
        (0..from.len())
            .filter(is_chosen)
            .map(|at| from[at])
            .collect()
    }
}
