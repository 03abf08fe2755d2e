//! Costs, against the rule computed for each confidence, as Costs did before it had a table, and against a table in Rust.
use crate::forms::CHARACTERS;
use crate::generator::Random;
use crate::tables::COLUMNS;
use kavurehy::BARRED;
use std::hint::black_box;
use std::time::{Duration, Instant};

/// The confidences of a line of 255 columns, K = 40.
const CONFIDENCES: usize = COLUMNS * (CHARACTERS + 1);

/// One way from confidences to costs.
type Way = fn(&[u8], &mut [u32]);

const WAYS: [Way; 3] = [by_rule, by_table, by_call];

static TABLE: [u32; 256] = {
    let mut table = [0; 256];
    let mut c = 0;
    while c < 256 {
        table[c] = rule(c as u8);
        c += 1;
    }
    table
};

/// The largest n with 2ⁿ × c⁸ ≤ 2⁶⁴, found by a loop from 64 down; for 0 the label is barred.
const fn rule(c: u8) -> u32 {
    if c == 0 {
        return BARRED;
    }
    let power = (c as u64).pow(8);
    let (mut n, mut limit) = (64, 1_u64);
    while limit < power {
        if n == 1 {
            return 0;
        }
        n -= 1;
        limit *= 2;
    }
    n
}

fn by_rule(confidences: &[u8], costs: &mut [u32]) {
    for (cost, &confidence) in costs.iter_mut().zip(confidences) {
        *cost = rule(confidence);
    }
}

fn by_table(confidences: &[u8], costs: &mut [u32]) {
    for (cost, &confidence) in costs.iter_mut().zip(confidences) {
        *cost = TABLE[usize::from(confidence)];
    }
}

fn by_call(confidences: &[u8], costs: &mut [u32]) {
    kavurehy::costs(confidences, costs).expect("as much memory as confidences");
}

/// The time of a line's confidences by the rule, by the table and by Costs: the least of several rounds. They take turns and must agree.
pub fn times(rounds: usize) -> [Duration; 3] {
    let mut random = Random(9);
    let confidences: Vec<u8> = (0..CONFIDENCES).map(|_| random.below(256) as u8).collect();
    let mut expected = vec![0; CONFIDENCES];
    by_rule(&confidences, &mut expected);
    let mut least = [Duration::MAX; 3];
    for round in 0..rounds {
        for turn in 0..3 {
            let n = (round + turn) % 3;
            let mut costs = vec![0; CONFIDENCES];
            let start = Instant::now();
            WAYS[n](black_box(&confidences), black_box(&mut costs));
            least[n] = start.elapsed().min(least[n]);
            assert_eq!(costs, expected);
        }
    }
    least
}
