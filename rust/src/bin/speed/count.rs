//! One sheet by one decoder, for valgrind to count its instructions.
use crate::forms::Form;
use crate::matrices::Kind;
use crate::race::{Decoder, Lent, Sheet};
use crate::tables::{COLUMNS, LINES};
use kavurehy::Matrix;

pub fn count(form: &Form, kind: Kind, decoder: Decoder) {
    let sheet = Sheet::new(&form.words, kind, COLUMNS, LINES);
    let mut lent = sheet.lent();
    for matrix in sheet.matrices() {
        lent.clear();
        counted(&form.words, matrix, decoder, &mut lent);
    }
}

/// One line. The name is the one that `--toggle-collect` is given.
#[inline(never)]
fn counted(form: &[u32], matrix: Matrix<'_>, decoder: Decoder, lent: &mut Lent) -> Option<u32> {
    decoder.run(form, matrix, lent)
}
