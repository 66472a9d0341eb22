//! A tiny pseudo-random generator (xorshift on 64 bits) for recordings and records made from a
//! fixed seed.

pub struct XorShift {
    state: u64,
}

impl XorShift {
    /// The seed is any number but 0.
    pub fn new(seed: u64) -> XorShift {
        XorShift { state: seed }
    }

    pub fn draw(&mut self) -> u64 {
        self.state ^= self.state << 13;
        self.state ^= self.state >> 7;
        self.state ^= self.state << 17;
        self.state
    }

    /// A number from low to high, both included.
    pub fn range(&mut self, low: u64, high: u64) -> u64 {
        low + self.draw() % (high - low + 1)
    }
}
