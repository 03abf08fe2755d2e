//! What Decode and Read are lent besides a form or a text: a matrix, and path, word and work memory.
use crate::support::Lent;
use kavurehy::Matrix;
use model::matrix::Line;

/// The view of a line's matrix.
pub fn matrix(line: &Line) -> Matrix<'_> {
    Matrix {
        costs: &line.costs,
        width: line.width,
        columns: line.columns,
    }
}

/// Path, word and work memory between guards.
pub struct Memory {
    pub path: Lent<u8>,
    pub word: Lent<u8>,
    pub work: Lent<u32>,
}

impl Memory {
    pub fn lend(line: &Line) -> Memory {
        Memory {
            path: Lent::new(line.path),
            word: Lent::new(line.word),
            work: Lent::new(line.work),
        }
    }

    /// It holds the path and the word, and nothing else was written except these first work words.
    pub fn wrote(&self, path: &[u8], word: &[u8], work: usize) {
        self.path.wrote(path);
        self.word.wrote(word);
        self.work.kept_beyond(work);
    }
}
