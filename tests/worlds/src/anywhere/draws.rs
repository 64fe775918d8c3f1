//! Numbers from a seed (xorshift, by Marsaglia).

/// The numbers of a seed.
pub(crate) struct Draws {
    state: u64,
}

impl Draws {
    /// Those of this seed.
    pub(crate) fn new(seed: u64) -> Draws {
        Draws {
            state: seed.wrapping_mul(0x9E37_79B9_7F4A_7C15) | 1,
        }
    }

    /// A number below a limit that is not 0.
    pub(crate) fn below(&mut self, limit: usize) -> usize {
        self.state ^= self.state << 13;
        self.state ^= self.state >> 7;
        self.state ^= self.state << 17;
        (self.state >> 16) as usize % limit
    }

    /// Whether one of `all` times.
    pub(crate) fn one_in(&mut self, all: usize) -> bool {
        self.below(all) == 0
    }

    /// One of these.
    pub(crate) fn of<T: Copy>(&mut self, list: &[T]) -> T {
        list[self.below(list.len())]
    }
}
