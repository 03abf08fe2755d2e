//! What is turned away: refusals 11 to 15.
use kavurehy::{work_words, Matrix, Refusal, BARRED};

/// Is the list a valid form?
pub fn is_form(list: &[u32]) -> bool {
    let Some((&head, words)) = list.split_first() else {
        return false;
    };
    let (letters, characters) = (head & 0xff, head >> 16 & 0xff);
    if head & !0x00ff_01ff != 1 << 28
        || !(1..=127).contains(&letters)
        || !(1..=95).contains(&characters)
        || words.len() < letters as usize
    {
        return false;
    }
    let (words, arcs) = words.split_at(letters as usize);
    let ordered = arcs
        .windows(2)
        .fold(true, |o, pair| o & (pair[0] < pair[1]));
    all(words, |w| is_letter(w, characters)) && all(arcs, |w| is_arc(w, letters)) && ordered
}

/// Is the word a letter over this number of characters?
fn is_letter(word: u32, characters: u32) -> bool {
    word & !0x3ff == 2 << 28 && (1..=characters).contains(&(word & 0xff))
}

/// Is the word an arc between two of this number of letters?
fn is_arc(word: u32, letters: u32) -> bool {
    let numbers = 1..=letters;
    word & !0xffff == 3 << 28
        && numbers.contains(&(word >> 8 & 0xff))
        && numbers.contains(&(word & 0xff))
}

/// Does each word pass? All are looked at: without an early exit the loop is vectorised.
fn all(words: &[u32], passes: impl Fn(u32) -> bool) -> bool {
    words.iter().fold(true, |all, &word| all & passes(word))
}

/// Refusals 12 to 15, for the form with this head and lent memory of these lengths: path, word, work.
pub fn check_matrix(head: u32, matrix: Matrix<'_>, lent: [usize; 3]) -> Result<(), Refusal> {
    let (letters, characters) = (head & 0xff, head >> 16 & 0xff);
    let Matrix {
        costs,
        width,
        columns,
    } = matrix;
    if columns > 255 || width != characters as usize + 1 || costs.len() != columns * width {
        return Err(Refusal::Matrix);
    }
    if !all(costs, |c| c <= 1_000_000 || c == BARRED) {
        return Err(Refusal::Cost);
    }
    let [path, word, work] = lent;
    if path < columns || word < columns {
        return Err(Refusal::OutputMemory);
    }
    if work < work_words(columns, letters as usize) {
        return Err(Refusal::Work);
    }
    Ok(())
}
