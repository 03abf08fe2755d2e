//! A call of Compare by the library, in both orders of its forms, compared with what the document says of it and with two calls of
//! Decode.
use crate::matrix::matrix;
use crate::support::{number, Lent};
use kavurehy::{raw, Refusal};
use model::compare::Call;
use model::form::Form;
use model::ranked::{ranked, search_twice};
use model::search::Best;
use model::tally::Tally;

/// What it answers and leaves: the number, the difference, and the work memory.
struct Answer {
    number: u32,
    difference: i32,
    work: Lent<u32>,
}

/// By the exported call.
fn answer(call: &Call) -> Answer {
    let mut work = Lent::new(call.line.work);
    let mut difference = Lent::new(1);
    let number = unsafe {
        raw::kavurehy_compare(
            call.first.as_ptr(),
            call.first.len(),
            call.second.as_ptr(),
            call.second.len(),
            call.line.costs.as_ptr(),
            call.line.costs.len(),
            call.line.width,
            call.line.columns,
            work.memory().as_mut_ptr(),
            call.line.work,
            difference.memory().try_into().unwrap(),
        )
    };
    difference.kept_beyond(1);
    Answer {
        number,
        difference: difference.memory()[0],
        work,
    }
}

/// By the safe function.
fn answer_safe(call: &Call) -> Answer {
    let mut work = Lent::new(call.line.work);
    let matrix = matrix(&call.line);
    let difference = kavurehy::compare(&call.first, &call.second, matrix, work.memory());
    Answer {
        number: number(&difference),
        difference: difference.unwrap_or(0),
        work,
    }
}

/// What Decode says of each form, with path and word memory enough: the price, or the number of the refusal.
pub fn apart(call: &Call) -> [Result<u32, u32>; 2] {
    let columns = call.line.columns.min(255);
    [&call.first, &call.second].map(|form| {
        let (mut path, mut word) = (vec![0; columns], vec![0; columns]);
        let mut work = vec![0; call.line.work];
        let reading = kavurehy::decode(form, matrix(&call.line), &mut path, &mut word, &mut work);
        reading.map(|x| x.price).map_err(Refusal::number)
    })
}

/// What Compare must say if Decode says this of each form: the difference of the prices, or the lowest refusal.
fn together(apart: [Result<u32, u32>; 2]) -> Result<i32, u32> {
    match apart {
        [Ok(first), Ok(second)] => Ok(first as i32 - second as i32),
        [Err(refusal), Ok(_)] | [Ok(_), Err(refusal)] => Err(refusal),
        [Err(first), Err(second)] => Err(first.min(second)),
    }
}

/// Compares by both functions, and the answers and all lent memory with what is expected.
fn agree(call: &Call, expected: Result<i32, u32>, touched: usize) {
    let number = expected.err().unwrap_or(0);
    let difference = expected.unwrap_or(0);
    for answer in [answer(call), answer_safe(call)] {
        assert_eq!(
            (answer.number, answer.difference),
            (number, difference),
            "{call:x?}"
        );
        answer.work.kept_beyond(touched);
    }
}

/// Compares in both orders, and the answers with the document and with Decode; `search` finds the best path of a form. Returns the
/// difference, or the number of the refusal.
fn hold(
    call: &Call,
    tally: &mut Tally,
    search: impl Fn(&Form) -> Option<Best>,
) -> Result<i32, u32> {
    let decoded = call.decoded(search);
    let touched = decoded.as_ref().map_or(0, |decoded| decoded.need);
    let expected = decoded.and_then(|decoded| decoded.difference());
    assert_eq!(together(apart(call)), expected, "by Decode: {call:x?}");
    agree(call, expected, touched);
    let opposite = expected.map(|difference| -difference);
    agree(&call.exchanged(), opposite, touched);
    tally.add(expected.err().unwrap_or(0));
    expected
}

/// The same with both methods of search.
pub fn hold_small(call: &Call, tally: &mut Tally) -> Result<i32, u32> {
    hold(call, tally, |form| search_twice(form, &call.line))
}

pub fn hold_long(call: &Call, tally: &mut Tally) -> Result<i32, u32> {
    hold(call, tally, |form| ranked(form, &call.line.costs))
}
