//! Numbers that are the same in every run.

/// xorshift.
pub struct Random(pub u64);

impl Random {
    pub fn below(&mut self, n: u32) -> u32 {
        self.0 ^= self.0 << 13;
        self.0 ^= self.0 >> 7;
        self.0 ^= self.0 << 17;
        (self.0 >> 32) as u32 % n
    }

    pub fn index(&mut self, n: usize) -> usize {
        self.below(n as u32) as usize
    }

    /// Once in n times.
    pub fn once_in(&mut self, n: u32) -> bool {
        self.below(n) == 0
    }

    pub fn one_of<T: Copy>(&mut self, list: &[T]) -> T {
        list[self.index(list.len())]
    }

    pub fn shuffle<T>(&mut self, list: &mut [T]) {
        (1..list.len()).rev().for_each(|k| list.swap(k, self.index(k + 1)));
    }

    pub fn sign(&mut self) -> f32 {
        self.one_of(&[-1.0, 1.0])
    }

    /// From 0 to 1, of 24 bits.
    pub fn part(&mut self) -> f32 {
        self.below(1 << 24) as f32 / (1 << 24) as f32
    }

    /// A multiple of 1/16 from -n to n, or now and then any float in between.
    pub fn coordinate(&mut self, n: i32) -> f32 {
        let v = self.below(32 * n as u32 + 1) as f32 / 16.0 - n as f32;
        if self.once_in(4) {
            v + self.part() / 2.0
        } else {
            v
        }
    }
}
