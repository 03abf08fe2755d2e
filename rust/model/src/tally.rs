//! How often each number was answered.
use std::io::Write;

/// The highest number that is answered.
const HIGHEST: usize = 21;

/// How often each number was answered.
#[derive(Default)]
pub struct Tally([usize; HIGHEST + 1]);

impl Tally {
    pub fn add(&mut self, number: u32) {
        self.0[number as usize] += 1;
    }

    /// Each of these numbers must have been answered at least `least` times, and no other number ever.
    pub fn demand(&self, call: &str, least: usize, numbers: &[usize]) {
        for (number, &times) in self.0.iter().enumerate() {
            if numbers.contains(&number) {
                assert!(
                    times >= least,
                    "{call} answered {number} only {times} times"
                );
            } else {
                assert_eq!(times, 0, "{call} answered {number}");
            }
        }
        let seen: Vec<_> = numbers
            .iter()
            .map(|&n| format!("{n}: {}", self.0[n]))
            .collect();
        let _ = writeln!(std::io::stderr(), "{call} answered {}", seen.join(", "));
    }
}
