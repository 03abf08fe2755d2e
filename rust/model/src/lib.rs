//! Document 01 in plain Rust, as close to its sentences as possible, with five requests of document 02: classes of characters
//! (T-01), the difference of two prices (T-04), word lists (T-05), barred labels (T-06) and characters with several labels (T-07).
//! Nothing here is taken from the Rattle code; parser, matcher and search use other methods, and `ranked` breaks ties in another
//! way. `input` makes random input, `tally` counts answers.

pub mod alphabet;
pub mod bracket;
pub mod call;
pub mod class;
pub mod compare;
pub mod derivatives;
pub mod expression;
pub mod form;
pub mod input;
pub mod matrix;
pub mod opening;
pub mod ranked;
pub mod search;
pub mod sheet;
pub mod tally;
pub mod wordlist;
pub mod words;

use matrix::BARRED;

/// First merge each run of equal neighbours into one, then delete blanks.
pub fn collapse(path: &[u8]) -> Vec<u8> {
    let mut labels = path.to_vec();
    labels.dedup();
    labels.retain(|&x| x != 0);
    labels
}

/// One blank between each two equal neighbours and nowhere else.
pub fn spread(word: &[u8]) -> Vec<u8> {
    let mut path = Vec::new();
    for (n, &x) in word.iter().enumerate() {
        if n > 0 && word[n - 1] == x {
            path.push(0);
        }
        path.push(x);
    }
    path
}

/// The largest whole n with 2ⁿ × c⁸ ≤ 2⁶⁴; for 0 the label is barred.
pub fn cost(confidence: u8) -> u32 {
    if confidence == 0 {
        return BARRED;
    }
    let power = u128::from(confidence).pow(8);
    let most = (0..64).take_while(|n| (power << (n + 1)) <= 1 << 64);
    most.count() as u32
}

/// Refusal 17 for a list of labels from `low` to K.
pub fn bad_labels(k: usize, low: u8, list: &[u8]) -> bool {
    !(1..=95).contains(&k)
        || list.len() > 255
        || list.iter().any(|&x| x < low || usize::from(x) > k)
}
