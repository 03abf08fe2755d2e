//! Random word lists: with shared beginnings, around 127 letters, around 4,096 bytes, and every fault.
use super::Random;
use crate::alphabet::labels_of;
use std::collections::BTreeSet;

/// A list of any kind: several words, many short ones, few long ones, and the limits of letters and length. It has no fault, but
/// its letters or bytes may be too many.
pub fn list(r: &mut Random, alphabet: &[u8]) -> Vec<u8> {
    let words = match r.below(100) {
        0..=49 => words(r, alphabet, 8, 6),
        50..=64 => words(r, alphabet, 40, 3),
        65..=74 => words(r, alphabet, 4, 40),
        75..=93 => many_letters(r, alphabet),
        94..=98 => long(r, alphabet),
        _ => words(r, alphabet, 1_400, 3),
    };
    closed(&words)
}

/// The list of these words: each closed by a newline.
pub fn closed(words: &[Vec<u8>]) -> Vec<u8> {
    let close = |word: &Vec<u8>| [&word[..], b"\n"].concat();
    words.iter().flat_map(close).collect()
}

/// At most this many distinct words, seldom one alone, each of at most this many characters.
pub fn words(r: &mut Random, alphabet: &[u8], most: usize, length: usize) -> Vec<Vec<u8>> {
    let (mut words, mut known) = (Vec::new(), BTreeSet::new());
    let number = if r.chance(10) { 1 } else { r.from(2, most) };
    for _ in 0..number {
        let word = word(r, alphabet, &words, length);
        if known.insert(word.clone()) {
            words.push(word);
        }
    }
    words
}

/// A word that mostly begins as one of these does: it may be a beginning of one, or continue one.
fn word(r: &mut Random, alphabet: &[u8], words: &[Vec<u8>], length: usize) -> Vec<u8> {
    let mut word = match words {
        [] => Vec::new(),
        _ if r.chance(25) => Vec::new(),
        _ => r.pick(words).clone(),
    };
    word.truncate(r.edge(1, word.len().max(1)));
    let length = r.from(word.len().max(1), length);
    word.resize_with(length, || *r.pick(alphabet));
    word
}

/// 126 to 128 letters where the labels allow it, else somewhat fewer: one of the longest words is continued.
fn many_letters(r: &mut Random, alphabet: &[u8]) -> Vec<Vec<u8>> {
    let (most, length) = *r.pick(&[(2, 1), (4, 20), (12, 8), (30, 3)]);
    let mut words = words(r, alphabet, most, length);
    let mut left = r.from(126, 128).saturating_sub(letters(alphabet, &words));
    let longest = words.iter_mut().max_by_key(|word| word.len());
    let longest = longest.expect("at least one word");
    loop {
        let fits = |c: &u8| labels_of(alphabet, &[*c]).len() <= left;
        let fitting: Vec<u8> = alphabet.iter().copied().filter(fits).collect();
        if fitting.is_empty() {
            return words;
        }
        let c = *r.pick(&fitting);
        longest.push(c);
        left -= labels_of(alphabet, &[c]).len();
    }
}

/// How many letters these words need: for each beginning one for each label of its last character.
pub fn letters<W: AsRef<[u8]>>(alphabet: &[u8], words: &[W]) -> usize {
    let mut beginnings = BTreeSet::new();
    for word in words.iter().map(AsRef::as_ref) {
        beginnings.extend((1..=word.len()).map(|n| &word[..n]));
    }
    let labels = |beginning: &[u8]| labels_of(alphabet, &beginning[beginning.len() - 1..]).len();
    beginnings.into_iter().map(labels).sum()
}

/// Beginnings of one long word in any order, around 4,096 bytes in all.
fn long(r: &mut Random, alphabet: &[u8]) -> Vec<Vec<u8>> {
    let whole = long_word(r, alphabet);
    let mut lengths: Vec<usize> = (1..=whole.len()).rev().collect();
    let short = lengths.len() - 20;
    shuffle(r, &mut lengths[..short]);
    // with short ones last the number of bytes is met, or missed by one
    let mut left = r.from(4_094, 4_099);
    lengths.retain(|n| {
        let fits = *n < left;
        left -= if fits { n + 1 } else { 0 };
        fits
    });
    shuffle(r, &mut lengths);
    lengths.iter().map(|&n| whole[..n].to_vec()).collect()
}

/// 90 to 127 characters, most of them one with the fewest labels.
fn long_word(r: &mut Random, alphabet: &[u8]) -> Vec<u8> {
    let labels = |c: &&u8| labels_of(alphabet, &[**c]).len();
    let frequent = *alphabet.iter().min_by_key(labels).expect("an alphabet");
    let others = *r.pick(&[0, 5, 20, 100]);
    let mut word = vec![frequent; r.from(90, 127)];
    for c in &mut word {
        if r.chance(others) {
            *c = *r.pick(alphabet);
        }
    }
    word
}

/// Puts elements in any order.
pub fn shuffle<T>(r: &mut Random, list: &mut [T]) {
    for n in 1..list.len() {
        list.swap(n, r.below(n + 1));
    }
}

/// Spoils one thing of a list; it may still compile.
pub fn spoil(r: &mut Random, alphabet: &[u8], list: &mut Vec<u8>) {
    let n = r.below(list.len() + 1);
    match r.below(14) {
        0 => list.clear(),
        1 => {
            list.resize(r.edge(4_096, 9_000), *r.pick(alphabet));
            list.push(b'\n');
        }
        2..=3 => list.insert(n, *r.pick(&[0, 9, 13, 31, 127, 128, 255])),
        4 => list.insert(0, b'\n'),
        5 => list.push(b'\n'),
        6 => list.insert(n, b'\n'),
        7 => drop(list.pop()),
        8..=10 => repeat_line(r, list),
        11 => list.insert(n, r.from(32, 126) as u8),
        12 if n < list.len() => list[n] = r.from(32, 126) as u8,
        _ => list.truncate(n),
    }
}

/// Repeats a line, right after itself or elsewhere; or an empty line comes after one.
fn repeat_line(r: &mut Random, list: &mut Vec<u8>) {
    let mut lines: Vec<Vec<u8>> = list
        .split_inclusive(|&b| b == b'\n')
        .map(Vec::from)
        .collect();
    if lines.is_empty() {
        return;
    }
    let n = r.below(lines.len());
    let place = match r.chance(50) {
        true => n + 1,
        false => r.below(lines.len() + 1),
    };
    let line = match r.chance(70) {
        true => lines[n].clone(),
        false => vec![b'\n'],
    };
    lines.insert(place, line);
    *list = lines.concat();
}
