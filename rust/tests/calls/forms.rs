//! Random valid forms, and every way to damage one.
use model::form::{Form, Letter};
use model::input::Random;

/// A valid form of at most this many characters and letters.
pub fn random_form(r: &mut Random, most_characters: usize, most_letters: usize) -> Form {
    let k = r.edge(1, most_characters) as u8;
    form_over(r, k, most_letters)
}

/// A valid form of this K and of at most this many letters. A quarter have one label only, so that blanks are needed everywhere;
/// some have no first or no last letter, and so accept at most the empty word.
pub fn form_over(r: &mut Random, k: u8, most_letters: usize) -> Form {
    let l = r.edge(1, most_letters);
    let one_label = r.chance(25).then(|| r.from(1, k.into()) as u8);
    let firsts = *r.pick(&[0, 30, 60, 60, 100]);
    let lasts = *r.pick(&[0, 30, 60, 60, 100]);
    let dense = *r.pick(&[0, 15, 40, 70, 100]);
    let letters = (0..l)
        .map(|_| Letter {
            label: one_label.unwrap_or_else(|| r.from(1, k.into()) as u8),
            first: r.chance(firsts),
            last: r.chance(lasts),
        })
        .collect();
    let pairs = (1..=l as u8).flat_map(|i| (1..=l as u8).map(move |j| (i, j)));
    Form {
        k,
        empty: r.chance(30),
        letters,
        arcs: pairs.filter(|_| r.chance(dense)).collect(),
    }
}

/// The kinds of damage that `damaged` knows.
pub const KINDS: usize = 24;

/// A list that is no valid form, by one kind of damage to a valid one: a field out of range, or the layout broken.
pub fn damaged(r: &mut Random, kind: usize) -> Vec<u32> {
    let mut form = random_form(r, 20, 12);
    while form.letters.len() < 2 {
        form.letters.push(form.letters[0].clone());
    }
    form.arcs.extend([(1, 2), (2, 1)]);
    match kind {
        0 => Vec::new(),
        1..=10 => out_of_range(r, form, kind).words(),
        _ => broken(r, &form, kind),
    }
}

/// A field out of range: letters, characters, a label, an arc's target or source.
fn out_of_range(r: &mut Random, mut form: Form, kind: usize) -> Form {
    let l = form.letters.len();
    let i = r.below(l);
    let letter = r.from(1, l) as u8;
    match kind {
        1 => form.letters.clear(),
        2 => form
            .letters
            .resize(r.edge(128, 255), form.letters[i].clone()),
        3 => form.k = 0,
        4 => form.k = r.edge(96, 255) as u8,
        5 => form.letters[i].label = 0,
        6 => form.letters[i].label = r.edge(form.k as usize + 1, 255) as u8,
        7 => drop(form.arcs.insert((letter, 0))),
        8 => drop(form.arcs.insert((letter, r.edge(l + 1, 255) as u8))),
        9 => drop(form.arcs.insert((0, letter))),
        _ => drop(form.arcs.insert((r.edge(l + 1, 255) as u8, letter))),
    }
    form
}

/// The layout broken: a kind, an unnamed bit, a list cut short, arcs out of order or twice, a word too many, a wrong count.
fn broken(r: &mut Random, form: &Form, kind: usize) -> Vec<u32> {
    let mut words = form.words();
    let l = form.letters.len();
    let letter = r.from(1, l);
    let arc = 1 + l + r.below(form.arcs.len());
    let other_kind = |r: &mut Random, word: u32| {
        let kind = (word >> 28) + r.from(1, 15) as u32;
        word & 0x0fff_ffff | kind << 28
    };
    match kind {
        11 => words[0] = other_kind(r, words[0]),
        12 => words[0] |= 1 << *r.pick(&[9, 10, 11, 12, 13, 14, 15, 24, 25, 26, 27]),
        13 => words.truncate(r.from(1, l)),
        14 => words[letter] = other_kind(r, words[letter]),
        15 => words[letter] |= 1 << r.from(10, 27),
        16 => words[arc] = other_kind(r, words[arc]),
        17 => words[arc] |= 1 << r.from(16, 27),
        18 => words.swap(1 + l, arc.max(2 + l)),
        19 => words.insert(arc, words[arc]),
        20 => words.push(words[letter]),
        21 => words[0] += 1,
        22 => words[0] -= 1,
        _ => words.push(0),
    }
    words
}

/// A valid form in which a few bits are flipped: it may still be valid.
pub fn flipped(r: &mut Random) -> Vec<u32> {
    let mut words = random_form(r, 10, 6).words();
    flip(r, &mut words);
    words
}

/// Flips a few bits of a form.
pub fn flip(r: &mut Random, words: &mut [u32]) {
    for _ in 0..r.from(1, 3) {
        let n = r.below(words.len());
        words[n] ^= 1 << r.below(32);
    }
}
