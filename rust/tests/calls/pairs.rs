//! Random pairs of forms: one form twice, forms that differ in little, forms of texts that differ in one choice, forms of any
//! letters, forms of unequal K.
use crate::forms::{form_over, random_form};
use crate::list_words::choice;
use model::form::Form;
use model::input::lists::shuffle;
use model::input::texts::alphabet;
use model::input::writer::expression;
use model::input::Random;
use model::opening::compile;
use std::collections::BTreeSet;

/// The most characters, and the most letters of forms without a text and with one.
const CHARACTERS: usize = 4;
const LETTERS: usize = 5;
const TEXT_LETTERS: usize = 16;

/// Two valid forms; in one of ten cases K is unequal.
pub fn pair(r: &mut Random) -> [Form; 2] {
    let form = random_form(r, CHARACTERS, LETTERS);
    let other = match r.below(20) {
        0 => form.clone(),
        1..=5 => altered(r, &form),
        6..=12 => return of_texts(r),
        13..=17 => form_over(r, form.k, LETTERS),
        _ => {
            let k = (usize::from(form.k) + r.below(CHARACTERS - 1)) % CHARACTERS + 1;
            form_over(r, k as u8, LETTERS)
        }
    };
    [form, other]
}

/// A form with the same number of letters that differs in a few things: which letters are first or last, arcs, labels, the empty
/// word.
pub fn altered(r: &mut Random, form: &Form) -> Form {
    let mut other = form.clone();
    let l = form.letters.len();
    for _ in 0..r.from(1, 3) {
        let arc = (r.from(1, l) as u8, r.from(1, l) as u8);
        let letter = &mut other.letters[usize::from(arc.0) - 1];
        match r.below(7) {
            0..=1 => letter.first = !letter.first,
            2..=3 => letter.last = !letter.last,
            4 => letter.label = r.from(1, form.k.into()) as u8,
            5 if other.arcs.remove(&arc) => {}
            5 => drop(other.arcs.insert(arc)),
            _ => other.empty = !other.empty,
        }
    }
    other
}

/// The forms of two of the three texts of a choice that is cut, in any order.
fn of_texts(r: &mut Random) -> [Form; 2] {
    loop {
        let alphabet = alphabet(r, CHARACTERS);
        let Some(texts) = cut_choice(r, &alphabet) else {
            continue;
        };
        let n = r.below(3);
        let two = [n, (n + r.from(1, 2)) % 3].map(|n| compile(&alphabet, &texts[n]));
        if let [Ok((_, first)), Ok((_, second))] = two {
            if first.letters.len().max(second.letters.len()) <= TEXT_LETTERS {
                return [first, second];
            }
        }
    }
}

/// A text with a choice of characters, as `F(L|R)`, and the two texts that have the one and the other part of the choice, as
/// `F(L)` and `F(R)`; none for an alphabet of one character.
pub fn cut_choice(r: &mut Random, alphabet: &[u8]) -> Option<[Vec<u8>; 3]> {
    let distinct: BTreeSet<u8> = alphabet.iter().copied().collect();
    let mut characters: Vec<_> = distinct.into_iter().map(|c| vec![c]).collect();
    if characters.len() < 2 {
        return None;
    }
    shuffle(r, &mut characters);
    characters.truncate(r.from(2, 4));
    let (left, right) = characters.split_at(r.from(1, characters.len() - 1));
    let (before, after) = (part(r, alphabet), part(r, alphabet));
    let text = |part| [&before[..], b"(", &choice(part), b")", &after].concat();
    Some([&characters, left, right].map(text))
}

/// A short expression in a group, or nothing.
fn part(r: &mut Random, alphabet: &[u8]) -> Vec<u8> {
    match r.chance(40) {
        true => Vec::new(),
        false => [&b"("[..], &expression(r, alphabet, 1).0, b")"].concat(),
    }
}
