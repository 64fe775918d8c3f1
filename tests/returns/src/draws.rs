//! Numbers from a seed: xorshift, by Marsaglia.

/// The numbers of a seed.
pub struct Draws {
    state: u64,
}

impl Draws {
    /// Those of this seed.
    pub fn new(seed: u64) -> Draws {
        Draws { state: seed.wrapping_mul(0x9E37_79B9_7F4A_7C15) | 1 }
    }

    /// The next one.
    pub fn draw(&mut self) -> u64 {
        self.state ^= self.state << 13;
        self.state ^= self.state >> 7;
        self.state ^= self.state << 17;
        self.state
    }

    /// A number below a limit, 0 if the limit is 0.
    pub fn below(&mut self, limit: usize) -> usize {
        let drawn = (self.draw() >> 16) as usize;
        if limit == 0 { 0 } else { drawn % limit }
    }

    /// Whether one of `all` times.
    pub fn one_in(&mut self, all: usize) -> bool {
        self.below(all) == 0
    }

    /// Two octets, the first of which is not zero.
    pub fn value(&mut self) -> [u8; 2] {
        [1 + self.below(255) as u8, self.below(256) as u8]
    }

    /// One of these.
    pub fn of<T: Copy>(&mut self, list: &[T]) -> T {
        list[self.below(list.len())]
    }
}
