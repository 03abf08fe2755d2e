//! An expression's set of words, by its tree: where in a word each part may end.
use super::expression::Tree;

/// Is the word, of at most 63 characters, one of the expression's?
pub fn is_word(tree: &Tree, word: &[u8]) -> bool {
    ends(tree, word, 1) >> word.len() & 1 == 1
}

/// The places of the word where the expression may end if it begins at one of the places `from`; a place is a bit.
fn ends(tree: &Tree, word: &[u8], from: u64) -> u64 {
    match tree {
        Tree::Set(characters) => {
            let fits = |&n: &usize| from >> n & 1 == 1 && characters.contains(&word[n]);
            let places = (0..word.len()).filter(fits);
            places.fold(0, |set, n| set | 1 << (n + 1))
        }
        Tree::Join(parts) => parts.iter().fold(from, |at, part| ends(part, word, at)),
        Tree::Either(branches) => branches
            .iter()
            .fold(0, |set, branch| set | ends(branch, word, from)),
        Tree::Repeat(part, least, most) => {
            let at = (0..*least).fold(from, |at, _| ends(part, word, at));
            let more = most.map_or(word.len(), |m| m - least);
            up_to(part, word, at, more)
        }
    }
}

/// As many copies as one likes, at most `more`. Copies that end where an earlier one did lead nowhere else.
fn up_to(part: &Tree, word: &[u8], from: u64, more: usize) -> u64 {
    let (mut all, mut new) = (from, from);
    for _ in 0..more {
        new = ends(part, word, new) & !all;
        if new == 0 {
            break;
        }
        all |= new;
    }
    all
}
