//! Decode: an exhaustive search on small matrices, another exact method on long lines, each refusal in its place.
use crate::forms::{damaged, flipped, random_form, KINDS};
use crate::matrix::{matrix, Memory};
use crate::support::number;
use crate::LEAST;
use kavurehy::raw;
use model::collapse;
use model::form::Form;
use model::input::matrix::few_columns;
use model::input::{random, Random};
use model::matrix::Line;
use model::ranked::{ranked, search_twice};
use model::search::{tied, Best};
use model::tally::Tally;

/// A call of Decode.
#[derive(Clone, Debug)]
pub struct Call {
    pub form: Vec<u32>,
    pub line: Line,
}

/// What it answers and writes: the number, the price with the word's length, and all lent memory.
struct Answer {
    number: u32,
    counts: [u32; 2],
    memory: Memory,
}

impl Call {
    /// A call for this form with enough memory.
    fn proper(r: &mut Random, form: &Form, columns: usize) -> Call {
        Call {
            form: form.words(),
            line: Line::random(r, form.k.into(), form.letters.len(), columns),
        }
    }

    /// A valid form, and a matrix small enough to try all lists of labels.
    pub fn small(r: &mut Random) -> Call {
        let form = random_form(r, 4, 5);
        let columns = r.from(0, few_columns(form.k.into()));
        Call::proper(r, &form, columns)
    }

    /// Spoils one thing: refusals 11 to 15.
    fn spoil(&mut self, r: &mut Random) {
        match r.below(9) {
            0 => {
                let kind = r.below(KINDS);
                self.form = damaged(r, kind);
            }
            1 => self.form = flipped(r),
            _ => self.line.spoil(r),
        }
    }

    /// By the exported call.
    fn answer(&self) -> Answer {
        let mut memory = Memory::lend(&self.line);
        let mut counts = [u32::MAX; 2];
        let number = unsafe {
            raw::kavurehy_decode(
                self.form.as_ptr(),
                self.form.len(),
                self.line.costs.as_ptr(),
                self.line.costs.len(),
                self.line.width,
                self.line.columns,
                memory.path.memory().as_mut_ptr(),
                self.line.path,
                memory.word.memory().as_mut_ptr(),
                self.line.word,
                memory.work.memory().as_mut_ptr(),
                self.line.work,
                &mut counts,
            )
        };
        Answer {
            number,
            counts,
            memory,
        }
    }

    /// By the safe function.
    fn answer_safe(&self) -> Answer {
        let mut memory = Memory::lend(&self.line);
        let reading = kavurehy::decode(
            &self.form,
            matrix(&self.line),
            memory.path.memory(),
            memory.word.memory(),
            memory.work.memory(),
        );
        Answer {
            number: number(&reading),
            counts: reading.map_or([0; 2], |x| [x.price, x.length as u32]),
            memory,
        }
    }

    /// The form and the work words needed, or the first of refusals 11 to 15 that applies.
    fn check(&self) -> Result<(Form, usize), u32> {
        let form = Form::read(&self.form).ok_or(11u32)?;
        let need = self.line.check(form.k.into(), form.letters.len())?;
        Ok((form, need))
    }

    /// Decodes, and compares the answer and all lent memory with the document; `search` finds the best path of a form. Returns
    /// that path, or the number of the refusal.
    pub fn hold(
        &self,
        tally: &mut Tally,
        search: impl Fn(&Form) -> Option<Best>,
    ) -> Result<Best, u32> {
        let (expected, touched) = match self.check() {
            Err(refusal) => (Err(refusal), 0),
            Ok((form, need)) => (search(&form).ok_or(16), need),
        };
        let (number, price, path) = match &expected {
            Ok(best) => (0, best.price, &best.path[..]),
            Err(refusal) => (*refusal, 0, &[][..]),
        };
        let word = collapse(path);
        let counts = [price, word.len() as u32];
        for answer in [self.answer(), self.answer_safe()] {
            assert_eq!(
                (answer.number, answer.counts),
                (number, counts),
                "{self:x?}"
            );
            answer.memory.wrote(path, &word, touched);
        }
        tally.add(number);
        expected
    }

    /// The same with both methods of search.
    pub fn hold_small(&self, tally: &mut Tally) -> Result<Best, u32> {
        self.hold(tally, |form| search_twice(form, &self.line))
    }

    fn hold_long(&self, tally: &mut Tally) -> Result<Best, u32> {
        self.hold(tally, |form| ranked(form, &self.line.costs))
    }
}

#[test]
fn small_matrices() {
    let mut r = random("small_matrices");
    let mut tally = Tally::default();
    let (mut ties, mut parted, mut wordless) = (0, 0, 0);
    for _ in 0..120_000 {
        let mut call = Call::small(&mut r);
        let form = Form::read(&call.form).unwrap();
        match call.hold_small(&mut tally) {
            Ok(best) => {
                let costs = &call.line.costs;
                ties += usize::from(tied(form.k, costs, &best, |w| form.accepts(w)));
                let word = collapse(&best.path);
                parted += usize::from(word.windows(2).any(|pair| pair[0] == pair[1]));
            }
            Err(_) => wordless += usize::from(!form.empty && !form.letters.iter().any(|x| x.first)),
        }
        for _ in 0..r.from(1, 3) {
            call.spoil(&mut r);
        }
        let _ = call.hold_small(&mut tally);
    }
    tally.demand("decode", LEAST, &[0, 11, 12, 13, 14, 15, 16]);
    // lines with several best lists, lines whose best word needs a blank between equal labels, forms without a word
    assert!(
        ties >= LEAST && parted >= LEAST && wordless >= LEAST,
        "{ties} {parted} {wordless}"
    );
}

#[test]
fn damaged_forms() {
    let mut r = random("damaged_forms");
    for kind in 0..KINDS {
        for _ in 0..LEAST / 10 {
            let mut call = Call::small(&mut r);
            call.form = damaged(&mut r, kind);
            assert_eq!(
                call.hold_small(&mut Tally::default()),
                Err(11),
                "damage {kind}"
            );
        }
    }
}

#[test]
fn long_lines() {
    let mut r = random("long_lines");
    let mut tally = Tally::default();
    for n in 0..600 {
        let form = match n % 3 {
            0 => random_form(&mut r, 95, 127),
            1 => random_form(&mut r, 5, 30),
            _ => random_form(&mut r, 40, 60),
        };
        let columns = if r.chance(30) { 255 } else { r.from(0, 255) };
        let call = Call::proper(&mut r, &form, columns);
        let _ = call.hold_long(&mut tally);
    }
    tally.demand("decode of long lines", 100, &[0, 16]);
}

#[test]
fn too_many_columns() {
    let mut r = random("too_many_columns");
    let mut tally = Tally::default();
    for columns in [255, 256, 257, 1000] {
        let mut form = random_form(&mut r, 3, 3);
        form.empty = true;
        let call = Call {
            form: form.words(),
            line: Line::unbarred(&mut r, form.k.into(), form.letters.len(), columns),
        };
        let answer = call.hold_long(&mut tally);
        assert_eq!(answer.err(), (columns > 255).then_some(12));
    }
}
