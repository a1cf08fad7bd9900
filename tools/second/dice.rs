// Choices for random folders, from the numbers of `verdicts`.

use crate::numbers::Numbers;

pub struct Dice(pub Numbers);

impl Dice {
    /// From 0 to below the bound.
    pub fn below(&mut self, bound: usize) -> usize {
        (self.0.draw() % bound as i128) as usize
    }

    pub fn from_to(&mut self, least: i128, greatest: i128) -> i128 {
        least + self.0.draw() % (greatest - least + 1)
    }

    pub fn one_in(&mut self, count: usize) -> bool {
        self.below(count) == 0
    }

    pub fn one_of<T: Clone>(&mut self, choices: &[T]) -> T {
        choices[self.below(choices.len())].clone()
    }

    pub fn bytes(&mut self, count: usize) -> Vec<u8> {
        (0..count).map(|_| self.below(256) as u8).collect()
    }
}
