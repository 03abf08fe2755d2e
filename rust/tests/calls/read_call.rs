//! A call of Read by the library, compared with what the document says of it.
use crate::decode;
use crate::matrix::{matrix, Memory};
use crate::support::{number, Lent};
use kavurehy::raw;
use model::call::{Call, Expected};
use model::collapse;
use model::derivatives::Machine;
use model::expression::Tree;
use model::form::Form;
use model::opening::compile;
use model::search::Best;
use model::tally::Tally;
use std::rc::Rc;

/// What it answers and writes: the number, the price with the lengths of word and form, and all lent memory.
struct Answer {
    number: u32,
    counts: [u32; 3],
    form: Lent<u32>,
    memory: Memory,
}

/// By the exported call.
fn answer(call: &Call) -> Answer {
    let mut form = Lent::new(call.form);
    let mut memory = Memory::lend(&call.line);
    let mut counts = [u32::MAX; 3];
    let number = unsafe {
        raw::kavurehy_read(
            call.alphabet.as_ptr(),
            call.alphabet.len(),
            call.text.as_ptr(),
            call.text.len(),
            call.line.costs.as_ptr(),
            call.line.costs.len(),
            call.line.width,
            call.line.columns,
            form.memory().as_mut_ptr(),
            call.form,
            memory.path.memory().as_mut_ptr(),
            call.line.path,
            memory.word.memory().as_mut_ptr(),
            call.line.word,
            memory.work.memory().as_mut_ptr(),
            call.line.work,
            &mut counts,
        )
    };
    Answer {
        number,
        counts,
        form,
        memory,
    }
}

/// By the safe function.
fn answer_safe(call: &Call) -> Answer {
    let mut form = Lent::new(call.form);
    let mut memory = Memory::lend(&call.line);
    let reading = kavurehy::read(
        &call.alphabet,
        &call.text,
        matrix(&call.line),
        form.memory(),
        memory.path.memory(),
        memory.word.memory(),
        memory.work.memory(),
    );
    Answer {
        number: number(&reading),
        counts: reading.map_or([0; 3], |x| [x.price, x.length as u32, x.form as u32]),
        form,
        memory,
    }
}

/// Compares an answer and all lent memory with what is expected.
fn compare(call: &Call, expected: &Expected, answer: &Answer) {
    let (number, price, path, form) = match &expected.answer {
        Ok(best) => (0, best.price, &best.path[..], expected.form.len()),
        Err(refusal) => (*refusal, 0, &[][..], 0),
    };
    let word = call.characters(&collapse(path));
    let counts = [price, word.len() as u32, form as u32];
    assert_eq!((answer.number, answer.counts), (number, counts), "{call:?}");
    answer.form.wrote(&expected.form);
    answer.memory.wrote(path, &word, expected.touched);
}

/// Reads, and compares the answer with the document; returns the path, or the number of the refusal.
pub fn hold(
    call: &Call,
    tally: &mut Tally,
    search: impl Fn(&Rc<Tree>, &Form) -> Option<Best>,
) -> Result<Best, u32> {
    let expected = call.expected(search);
    for answer in [answer(call), answer_safe(call)] {
        compare(call, &expected, &answer);
    }
    tally.add(*expected.answer.as_ref().err().unwrap_or(&0));
    expected.answer
}

/// With a search over all lists of labels.
pub fn hold_small(call: &Call, tally: &mut Tally) -> Result<Best, u32> {
    hold(call, tally, |tree, form| call.search(tree, form))
}

/// With a search over all lists of labels; Decode must answer the same by the form of the text.
pub fn hold_both(call: &Call, form: &Form, tally: &mut Tally) -> Result<Best, u32> {
    let answer = hold_small(call, tally);
    let by_form = decode::Call {
        form: form.words(),
        line: call.line.clone(),
    };
    assert_eq!(by_form.hold_small(tally), answer, "{call:?}");
    answer
}

/// With two other methods; none if what may remain of the tree has more than `most` states.
pub fn hold_long(call: &Call, tally: &mut Tally, most: usize) -> Option<Result<Best, u32>> {
    let (tree, _) = compile(&call.alphabet, &call.text).ok()?;
    let machine = Machine::new(&tree, &call.alphabet, most)?;
    Some(hold(call, tally, |_, form| {
        call.search_twice(&machine, form)
    }))
}
