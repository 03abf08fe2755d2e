//! Barred labels: an exhaustive search on small matrices that have some, two other exact methods on long lines, and refusal 13.
use crate::decode;
use crate::read_call::{hold_both, hold_long, hold_small};
use crate::LEAST;
use model::call::Call;
use model::form::Form;
use model::input::random;
use model::input::writer::expression;
use model::matrix::{Line, BARRED};
use model::opening::compile_within;
use model::ranked::ranked;
use model::search::{tied, Best};
use model::tally::Tally;
use std::io::Write;

/// Matrices of each test, each with at least one barred label.
const MATRICES: usize = 200_000;

/// What was seen on them, and how often.
#[derive(Debug, Default)]
struct Seen {
    matrices: usize,
    /// Lines with a reading.
    read: usize,
    /// Those whose best path is another than if barred labels cost 1,000,000.
    changed: usize,
    /// Those with several best lists.
    tied: usize,
    /// Those with a barred blank.
    blank: usize,
    /// Lines without a reading that have one if barred labels cost 1,000,000: they have columns enough.
    unread: usize,
    /// Those with a column that is barred throughout.
    column: usize,
}

impl Seen {
    /// Adds a line that was held, and what was answered.
    fn add(&mut self, form: &Form, line: &Line, answer: &Result<Best, u32>) {
        assert!(line.costs.contains(&BARRED), "{line:?}");
        let lowered: Vec<u32> = line.costs.iter().map(|&c| c.min(1_000_000)).collect();
        let instead = ranked(form, &lowered);
        let mut columns = line.costs.chunks(line.width);
        self.matrices += 1;
        match answer {
            Ok(best) => {
                let several = tied(form.k, &line.costs, best, |w| form.accepts(w));
                self.read += 1;
                self.changed += usize::from(instead.unwrap().path != best.path);
                self.tied += usize::from(several);
                self.blank += usize::from(columns.any(|column| column[0] == BARRED));
            }
            Err(_) if instead.is_some() => {
                let barred = |column: &[u32]| column.iter().all(|&c| c == BARRED);
                self.unread += 1;
                self.column += usize::from(columns.any(barred));
            }
            Err(_) => {}
        }
    }

    /// Each must have been seen often enough.
    fn demand(&self, call: &str) {
        let _ = writeln!(std::io::stderr(), "{call} with barred labels: {self:?}");
        assert_eq!(self.matrices, MATRICES);
        let read = [self.read, self.changed, self.tied, self.blank];
        let unread = [self.unread, self.column];
        assert!(read.iter().chain(&unread).all(|&n| n >= LEAST), "{self:?}");
    }
}

/// Decode by random forms.
#[test]
fn barred_matrices() {
    let mut r = random("barred_matrices");
    let (mut tally, mut seen) = (Tally::default(), Seen::default());
    while seen.matrices < MATRICES {
        let mut call = decode::Call::small(&mut r);
        call.line.bar(&mut r);
        if call.line.costs.contains(&BARRED) {
            let answer = call.hold_small(&mut tally);
            seen.add(&Form::read(&call.form).unwrap(), &call.line, &answer);
        }
    }
    tally.demand("decode with barred labels", LEAST, &[0, 16]);
    seen.demand("decode");
}

/// Read, and Decode by the form of the same text; few letters, since `ranked` takes long for many.
#[test]
fn barred_reads() {
    let mut r = random("barred_reads");
    let (mut tally, mut seen) = (Tally::default(), Seen::default());
    while seen.matrices < MATRICES {
        let mut call = Call::small(&mut r);
        call.line.bar(&mut r);
        let Ok((_, form)) = compile_within(&call.alphabet, &call.text, call.form) else {
            continue;
        };
        if form.letters.len() <= 20 && call.line.costs.contains(&BARRED) {
            let answer = hold_both(&call, &form, &mut tally);
            seen.add(&form, &call.line, &answer);
        }
    }
    tally.demand("read and decode with barred labels", LEAST, &[0, 16]);
    seen.demand("read");
}

/// Up to 255 columns, against the two other methods.
#[test]
fn barred_long_reads() {
    let mut r = random("barred_long_reads");
    let mut tally = Tally::default();
    for _ in 0..1_500 {
        let mut call = Call::proper(&mut r, 20, 255, |r, alphabet| expression(r, alphabet, 8).0);
        call.line.bar(&mut r);
        if call.line.costs.contains(&BARRED) {
            hold_long(&call, &mut tally, 300);
        }
    }
    tally.demand("read of long lines with barred labels", 50, &[0, 10, 16]);
}

/// What Read and Decode say of `aa` over `ab` on three columns with this cost at this place: the price, or the refusal. The one
/// path is 1 0 1.
fn answer(place: usize, cost: u32) -> Result<u32, u32> {
    let mut costs = [5, 1, 9].repeat(3);
    costs[place] = cost;
    let line = Line {
        costs,
        width: 3,
        columns: 3,
        path: 3,
        word: 3,
        work: 20,
    };
    let decode = decode::Call {
        form: vec![0x10020002, 0x20000101, 0x20000201, 0x30000102],
        line: line.clone(),
    };
    let read = Call {
        alphabet: b"ab".to_vec(),
        text: b"aa".to_vec(),
        form: 4,
        line,
    };
    let answer = hold_small(&read, &mut Tally::default());
    assert_eq!(decode.hold_small(&mut Tally::default()), answer);
    answer.map(|best| best.price)
}

/// The barred number is the only one over 1,000,000 that is not refused, on the path and beside it.
#[test]
fn costs_over_the_limit() {
    for place in 0..9 {
        for cost in [1_000_001, 1_000_000_000, 2_147_483_648, 4_294_967_294] {
            assert_eq!(answer(place, cost), Err(13), "{cost} at {place}");
        }
    }
    for (place, price) in [(1, 1_000_006), (3, 1_000_002), (7, 1_000_006)] {
        assert_eq!(answer(place, 1_000_000), Ok(price));
        assert_eq!(answer(place, 4_294_967_295), Err(16));
    }
    for place in [0, 2, 4, 5, 6, 8] {
        assert_eq!(answer(place, 1_000_000), Ok(7));
        assert_eq!(answer(place, 4_294_967_295), Ok(7));
    }
}
