//! Word lists: their form, by the beginnings of their words, and which words they have, by their lines alone.
use super::alphabet::{characters_of, is_alphabet, is_character, labels_of};
use super::form::{Form, Letter};
use std::collections::{BTreeMap, BTreeSet};

/// The form of a list, or the first of refusals 1, 2, 3, 21, 8 and 9 that applies. A beginning has a letter for each label of its
/// last character.
pub fn compile(alphabet: &[u8], list: &[u8]) -> Result<Form, u32> {
    let beginnings = beginnings(&words(alphabet, list)?);
    let labels = |beginning: &Beginning| labels_of(alphabet, &[beginning.character]);
    let counts = beginnings.iter().map(|b| labels(b).len());
    if counts.sum::<usize>() > 127 {
        return Err(9);
    }
    let mut form = Form::new(alphabet);
    // the letters of each beginning by its number, none for the empty one
    let mut letters = vec![BTreeSet::new()];
    for beginning in &beginnings {
        let letter = |label| Letter {
            label,
            first: beginning.shorter == 0,
            last: beginning.is_word,
        };
        let earlier = form.letters.len() as u8;
        form.letters
            .extend(labels(beginning).into_iter().map(letter));
        let own = (earlier + 1..=form.letters.len() as u8).collect();
        form.add_arcs(&letters[beginning.shorter], &own);
        letters.push(own);
    }
    Ok(form)
}

/// The same with form memory of this length: the first of refusals 1, 2, 3, 21, 8, 9 and 10.
pub fn compile_within(alphabet: &[u8], list: &[u8], memory: usize) -> Result<Form, u32> {
    let form = compile(alphabet, list)?;
    if form.words().len() > memory {
        return Err(10);
    }
    Ok(form)
}

/// The words of a list in its order, or the first of refusals 1, 2, 3, 21 and 8 that applies.
pub fn words<'a>(alphabet: &[u8], list: &'a [u8]) -> Result<Vec<&'a [u8]>, u32> {
    if !is_alphabet(alphabet) {
        return Err(1);
    }
    if !(1..=4096).contains(&list.len()) {
        return Err(2);
    }
    if !list.iter().all(|&b| is_character(b) || b == b'\n') {
        return Err(3);
    }
    let mut lines: Vec<&[u8]> = list.split(|&b| b == b'\n').collect();
    let closed = lines.pop() == Some(b"");
    let distinct: BTreeSet<&[u8]> = lines.iter().copied().collect();
    if !closed || lines.contains(&&b""[..]) || distinct.len() < lines.len() {
        return Err(21);
    }
    if !lines.concat().iter().all(|c| alphabet.contains(c)) {
        return Err(8);
    }
    Ok(lines)
}

/// A beginning of a word.
struct Beginning {
    /// The number of the beginning without the last character; 0 if that is empty.
    shorter: usize,
    /// The last character.
    character: u8,
    is_word: bool,
}

/// All beginnings, in the order in which reading the words first completes them; the first has number 1.
fn beginnings(words: &[&[u8]]) -> Vec<Beginning> {
    let mut list = Vec::new();
    let mut numbers = BTreeMap::new();
    for word in words {
        let mut at = 0;
        for &character in *word {
            let shorter = at;
            at = *numbers.entry((shorter, character)).or_insert_with(|| {
                list.push(Beginning {
                    shorter,
                    character,
                    is_word: false,
                });
                list.len()
            });
        }
        list[at - 1].is_word = true;
    }
    list
}

/// The words of a list that compiles, without letters and arcs: a list of labels is one if its characters are a line.
pub struct Listed<'a> {
    alphabet: &'a [u8],
    lines: BTreeSet<&'a [u8]>,
}

impl<'a> Listed<'a> {
    pub fn new(alphabet: &'a [u8], list: &'a [u8]) -> Listed<'a> {
        let lines = list.split_inclusive(|&b| b == b'\n').collect();
        Listed { alphabet, lines }
    }

    pub fn has(&self, word: &[u8]) -> bool {
        let mut line = characters_of(self.alphabet, word);
        line.push(b'\n');
        self.lines.contains(&line[..])
    }
}
