//! Compare: random pairs on small matrices, as they are and spoilt; damaged forms; long lines; the parts of a choice.
use crate::compare_call::{apart, hold_long, hold_small};
use crate::compile::compiled;
use crate::forms::{damaged, flip, form_over, random_form, KINDS};
use crate::matrix::matrix;
use crate::pairs::{altered, cut_choice, pair};
use crate::LEAST;
use kavurehy::Refusal;
use model::compare::Call;
use model::form::Form;
use model::input::matrix::few_columns;
use model::input::texts::alphabet;
use model::input::{random, Random};
use model::matrix::{need, Line, BARRED};
use model::tally::Tally;
use std::collections::BTreeMap;
use std::io::Write;

/// Pairs that are compared on small matrices, each as it is and then spoilt.
const PAIRS: usize = 100_000;

/// A call for these forms with enough memory, and a matrix that fits one of them.
fn proper(r: &mut Random, forms: &[Form; 2], columns: usize) -> Call {
    let [first, second] = forms;
    let k = r.pick(forms).k;
    let letters = first.letters.len().max(second.letters.len());
    Call {
        first: first.words(),
        second: second.words(),
        line: Line::random(r, k.into(), letters, columns),
    }
}

/// A pair, and a matrix small enough to try all lists of labels.
fn small(r: &mut Random) -> Call {
    let forms = pair(r);
    let k = forms[0].k.max(forms[1].k);
    let columns = r.from(0, few_columns(k.into()));
    proper(r, &forms, columns)
}

/// Spoils one thing: refusals 11 to 13 and 15.
fn spoil(r: &mut Random, call: &mut Call) {
    let kind = r.below(KINDS);
    let list = match r.chance(50) {
        true => &mut call.first,
        false => &mut call.second,
    };
    match r.below(12) {
        0..=1 => *list = damaged(r, kind),
        2 => {
            call.first = damaged(r, kind);
            call.second = damaged(r, kind);
        }
        3 if !list.is_empty() => flip(r, list),
        // as many work words as this form needs, one less, none
        4..=6 => {
            let letters = list.first().map_or(0, |head| head & 0xff);
            let need = need(call.line.columns.min(255), letters as usize);
            call.line.work = *r.pick(&[need, need - 1, 0]);
        }
        _ => call.line.spoil(r),
    }
}

/// What was seen, and how often.
#[derive(Debug, Default)]
struct Seen {
    /// Differences below 0, of 0, above 0.
    differences: [usize; 3],
    /// Those of lines without columns.
    no_columns: usize,
    /// Those of lines with a barred label.
    barred: usize,
    /// Each refusal: while Decode refuses the first form and reads with the second; the other way round; refuses both with it.
    by: BTreeMap<u32, [usize; 3]>,
    /// Calls with several faults before 16, by their lowest two.
    faults: BTreeMap<[u32; 2], usize>,
}

impl Seen {
    /// Adds a call that was held, and what was answered.
    fn add(&mut self, call: &Call, answer: Result<i32, u32>) {
        match answer {
            Ok(difference) => {
                self.differences[(difference.signum() + 1) as usize] += 1;
                self.no_columns += usize::from(call.line.columns == 0);
                self.barred += usize::from(call.line.costs.contains(&BARRED));
            }
            Err(refusal) => self.add_refused(call, refusal),
        }
    }

    fn add_refused(&mut self, call: &Call, refusal: u32) {
        let by = self.by.entry(refusal).or_default();
        match apart(call).map(Result::err) {
            [Some(_), None] => by[0] += 1,
            [None, Some(_)] => by[1] += 1,
            [first, second] => by[2] += usize::from(first == second),
        }
        if let [first, second, ..] = call.faults()[..] {
            *self.faults.entry([first, second]).or_default() += 1;
        }
    }

    /// Each must have been seen often enough.
    fn demand(&self) {
        let _ = writeln!(std::io::stderr(), "compared: {self:?}");
        let mut times = self.differences.to_vec();
        times.extend([self.no_columns, self.barred]);
        for refusal in [11, 12, 15, 16] {
            times.extend(self.by[&refusal]);
        }
        for two in [[11, 12], [11, 13], [11, 15], [12, 13], [12, 15], [13, 15]] {
            times.push(self.faults[&two]);
        }
        assert!(times.iter().all(|&n| n >= LEAST), "{self:?}");
    }
}

#[test]
fn small_pairs() {
    let mut r = random("small_pairs");
    let (mut tally, mut seen) = (Tally::default(), Seen::default());
    for _ in 0..PAIRS {
        let mut call = small(&mut r);
        seen.add(&call, hold_small(&call, &mut tally));
        for _ in 0..r.from(1, 3) {
            spoil(&mut r, &mut call);
        }
        seen.add(&call, hold_small(&call, &mut tally));
    }
    tally.demand("compare", LEAST, &[0, 11, 12, 13, 15, 16]);
    seen.demand();
}

#[test]
fn damaged_pairs() {
    let mut r = random("damaged_pairs");
    for kind in 0..KINDS {
        for _ in 0..LEAST / 10 {
            let mut call = small(&mut r);
            call.second = damaged(&mut r, kind);
            let answer = hold_small(&call, &mut Tally::default());
            assert_eq!(answer, Err(11), "damage {kind}");
        }
    }
}

#[test]
fn long_pairs() {
    let mut r = random("long_pairs");
    let mut tally = Tally::default();
    for n in 0..240 {
        let (characters, letters) = [(95, 127), (5, 30), (40, 60)][n % 3];
        let first = random_form(&mut r, characters, letters);
        let second = match r.below(3) {
            0 => altered(&mut r, &first),
            1 => form_over(&mut r, first.k, letters),
            _ => form_over(&mut r, first.k, 3),
        };
        let columns = if r.chance(30) { 255 } else { r.from(0, 255) };
        let call = proper(&mut r, &[first, second], columns);
        let _ = hold_long(&call, &mut tally);
    }
    tally.demand("compare on long lines", 50, &[0, 16]);
}

/// What Compare says of a text with a choice against the one part of the choice, of the text against the other part, and of the
/// parts against each other, on a line of up to 24 columns. None if there is one character only, or if the text does not compile.
fn of_choice(r: &mut Random) -> Option<[Result<i32, Refusal>; 3]> {
    let alphabet = alphabet(r, 4);
    let texts = cut_choice(r, &alphabet)?;
    let forms = texts.map(|text| compiled(kavurehy::compile, &alphabet, &text));
    let [Ok(whole), Ok(left), Ok(right)] = forms else {
        return None;
    };
    let (letters, columns) = ((whole[0] & 0xff) as usize, r.from(0, 24));
    let line = Line::random(r, alphabet.len(), letters, columns);
    let pairs = [(&whole, &left), (&whole, &right), (&left, &right)];
    Some(pairs.map(|(first, second)| {
        let mut work = vec![0; line.work];
        kavurehy::compare(first, second, matrix(&line), &mut work)
    }))
}

/// A text with a choice has the price of the cheaper part, and the differences of three forms add up: by the library alone.
#[test]
fn parts_of_choices() {
    const NONE: Result<i32, Refusal> = Err(Refusal::NoReading);
    let mut r = random("parts_of_choices");
    let (mut both, mut one, mut none) = (0, 0, 0);
    while both + one + none < PAIRS / 5 {
        match of_choice(&mut r) {
            Some([Ok(left), Ok(right), Ok(across)]) => {
                assert_eq!((left.max(right), right - left), (0, across));
                both += 1;
            }
            Some([Ok(0), NONE, NONE] | [NONE, Ok(0), NONE]) => one += 1,
            Some([NONE, NONE, NONE]) => none += 1,
            Some(others) => panic!("{others:?}"),
            None => {}
        }
    }
    let seen = [both, one, none];
    let said = "choices on lines that both parts read, one, none";
    let _ = writeln!(std::io::stderr(), "{said}: {seen:?}");
    assert!(seen.iter().all(|&n| n >= LEAST), "{seen:?}");
}
