//! Random input, from a printed seed.

pub mod calls;
mod generator;
pub mod lists;
pub mod matrix;
pub mod sheets;
pub mod texts;
pub mod writer;

pub use generator::Random;
use std::io::Write;

/// The seed: `KAVUREHY_SEED`, or always the same. It is printed past the test harness, which hides the output of tests that
/// pass.
pub fn random(test: &str) -> Random {
    let seed = match std::env::var("KAVUREHY_SEED") {
        Ok(text) => text.parse().expect("KAVUREHY_SEED is a number"),
        Err(_) => 20261115,
    };
    let _ = writeln!(std::io::stderr(), "{test}: KAVUREHY_SEED={seed}");
    let of_test = test.bytes().fold(seed, |h: u64, b| {
        (h ^ u64::from(b)).wrapping_mul(0x100000001b3)
    });
    Random(of_test)
}

impl Random {
    /// A number from low to high.
    pub fn from(&mut self, low: usize, high: usize) -> usize {
        low + self.below(high - low + 1)
    }

    /// A number from low to high; often one of the two.
    pub fn edge(&mut self, low: usize, high: usize) -> usize {
        match self.below(4) {
            0 => low,
            1 => high,
            _ => self.from(low, high),
        }
    }

    /// Memory for a need: at times short, else exact or more.
    pub fn room(&mut self, need: usize) -> usize {
        match self.below(20) {
            0 => need.saturating_sub(self.from(1, 5)),
            1 => self.below(need + 1),
            2..=9 => need,
            _ => need + self.from(1, 20),
        }
    }

    /// True in this many of a hundred cases.
    pub fn chance(&mut self, percent: usize) -> bool {
        self.below(100) < percent
    }

    pub fn pick<'a, T>(&mut self, list: &'a [T]) -> &'a T {
        &list[self.below(list.len())]
    }
}
