//! A call of Read, and what it should answer and write.
use crate::alphabet::characters_of;
use crate::derivatives::Machine;
use crate::expression::Tree;
use crate::form::Form;
use crate::matrix::Line;
use crate::opening::compile_within;
use crate::ranked::ranked;
use crate::search::{exhaustive, Best};
use crate::words::is_word;
use std::rc::Rc;

/// A call of Read; `form` is the length of the form memory.
#[derive(Clone, Debug)]
pub struct Call {
    pub alphabet: Vec<u8>,
    pub text: Vec<u8>,
    pub form: usize,
    pub line: Line,
}

/// What it should answer and write: the best path or the number of the refusal, the form's words, and how many work words may
/// hold anything.
pub struct Expected {
    pub answer: Result<Best, u32>,
    pub form: Vec<u32>,
    pub touched: usize,
}

impl Call {
    /// By the document; `search` finds the best path of an expression and its form.
    pub fn expected(&self, search: impl Fn(&Rc<Tree>, &Form) -> Option<Best>) -> Expected {
        match compile_within(&self.alphabet, &self.text, self.form) {
            Err(refusal) => Expected {
                answer: Err(refusal),
                form: Vec::new(),
                touched: 0,
            },
            Ok((tree, form)) => {
                let need = self.line.check(self.alphabet.len(), form.letters.len());
                Expected {
                    answer: need.and_then(|_| search(&tree, &form).ok_or(16)),
                    form: form.words(),
                    touched: need.unwrap_or(0),
                }
            }
        }
    }

    /// The best path by a search over all lists of labels; a list is a word if the characters of its labels spell one.
    pub fn search(&self, tree: &Tree, form: &Form) -> Option<Best> {
        let Line { costs, columns, .. } = &self.line;
        exhaustive(form.k, costs, *columns, |word| {
            is_word(tree, &self.characters(word))
        })
    }

    /// The best path by what remains of the tree, and by the form: the two must agree.
    pub fn search_twice(&self, machine: &Machine, form: &Form) -> Option<Best> {
        let best = machine.best(&self.line.costs, self.line.width);
        let other = ranked(form, &self.line.costs);
        assert_eq!(best, other, "the two methods differ: {self:?}");
        best
    }

    /// The characters of a word.
    pub fn characters(&self, word: &[u8]) -> Vec<u8> {
        characters_of(&self.alphabet, word)
    }
}
