// Written from docs/RULES.md alone: the pseudo-random numbers of `verdicts`.

pub struct Numbers(pub u64);

impl Numbers {
    /// A number from 0 to 2^31 - 1.
    pub fn draw(&mut self) -> i128 {
        self.0 = self
            .0
            .wrapping_mul(6364136223846793005)
            .wrapping_add(1442695040888963407);
        i128::from(self.0 >> 33)
    }
}
