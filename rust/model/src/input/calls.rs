//! Random calls of Read.
use super::matrix::few_columns;
use super::texts::{alphabet, bad_alphabet, damage, text};
use super::Random;
use crate::call::Call;
use crate::matrix::Line;
use crate::opening::compile;

impl Call {
    /// A call with at most this many columns, mostly with enough memory.
    fn random(r: &mut Random, alphabet: Vec<u8>, text: Vec<u8>, most: usize) -> Call {
        let k = alphabet.len();
        let (letters, form) = match compile(&alphabet, &text) {
            Ok((_, form)) => (form.letters.len(), form.words().len()),
            Err(_) => (r.from(1, 4), r.from(3, 9)),
        };
        let columns = r.edge(0, most);
        Call {
            alphabet,
            text,
            form: r.room(form),
            line: Line::random(r, k, letters, columns),
        }
    }

    /// A text of any kind, and a matrix small enough to try all lists of labels.
    pub fn small(r: &mut Random) -> Call {
        let most = *r.pick(&[1, 2, 2, 3, 3, 4, 4, 8, 95]);
        let alphabet = alphabet(r, most);
        let size = r.from(1, 4);
        let text = text(r, &alphabet, size);
        let most = few_columns(alphabet.len());
        Call::random(r, alphabet, text, most)
    }

    /// A text that compiles.
    pub fn proper(
        r: &mut Random,
        characters: usize,
        columns: usize,
        write: impl Fn(&mut Random, &[u8]) -> Vec<u8>,
    ) -> Call {
        loop {
            let alphabet = alphabet(r, characters);
            let text = write(r, &alphabet);
            if compile(&alphabet, &text).is_ok() {
                return Call::random(r, alphabet, text, columns);
            }
        }
    }

    /// Spoils one thing.
    pub fn spoil(&mut self, r: &mut Random) {
        match r.below(10) {
            0 => self.alphabet = bad_alphabet(r),
            1 => damage(r, &mut self.text),
            2 => self.form = r.below(self.form + 1),
            _ => self.line.spoil(r),
        }
    }
}
