//! The peer: Decode in safe Rust by the same state numbering, with the ideas of the proved code. State 0 is the start, 2i - 1
//! is on letter i, 2i is in the blanks after it; row t of the work memory starts at t * (2L + 1). Types are those of the crate
//! `kavurehy`; none of its calls is used.

mod automaton;
mod checks;
mod table;
mod trace;

use automaton::Automaton;
use kavurehy::{work_words, Matrix, Reading, Refusal};

/// The price that means 'impossible': no path of usable costs reaches it.
const TOP: u32 = 1_000_000_000;

/// What Decode does: the checks in their order, the table of costs to go, the path and its collapse.
#[inline(never)]
pub fn decode(
    form: &[u32],
    matrix: Matrix<'_>,
    path: &mut [u8],
    word: &mut [u8],
    work: &mut [u32],
) -> Result<Reading, Refusal> {
    if !checks::is_form(form) {
        return Err(Refusal::BadForm);
    }
    checks::check_matrix(form[0], matrix, [path.len(), word.len(), work.len()])?;
    let mut firsts = [0; 127];
    let count = automaton::put_firsts(form, &mut firsts);
    let automaton = Automaton::of(form, &firsts[..count]);
    let work = &mut work[..work_words(matrix.columns, automaton.count)];
    let price = table::fill(form, &automaton, matrix, work);
    if price >= TOP {
        return Err(Refusal::NoReading);
    }
    let path = &mut path[..matrix.columns];
    trace::trace(&automaton, matrix, work, path);
    let length = collapse(path, word);
    Ok(Reading { price, length })
}

/// Writes the path's collapse and returns its length.
fn collapse(path: &[u8], word: &mut [u8]) -> usize {
    let (mut before, mut length) = (0, 0);
    for &x in path {
        if x != before && x != 0 {
            word[length] = x;
            length += 1;
        }
        before = x;
    }
    length
}
