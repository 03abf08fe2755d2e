//! The table of costs to go, from the last row to the first.
use super::automaton::{Automaton, Letter};
use super::TOP;
use kavurehy::Matrix;

/// No key of a possible price is above this; the least key of a list is at most this.
const FAR: usize = 256 * TOP as usize + 255;

/// What is computed from a column, in memory that all columns share; 256 of each, so that a byte needs no check.
struct Column {
    /// The costs, by label.
    costs: [u32; 256],
    /// A key for each letter, by its number: 256 times the price of going on by it, plus its label. The least key of some
    /// letters has the least price, and says which label has it.
    keys: [usize; 256],
}

/// Fills the table and returns the least price, `TOP` if there is none.
pub fn fill(form: &[u32], automaton: &Automaton, matrix: Matrix<'_>, work: &mut [u32]) -> u32 {
    let states = automaton.states();
    let mut column = Column {
        costs: [0; 256],
        keys: [FAR; 256],
    };
    let (mut rows, mut next) = work.split_at_mut(matrix.columns * states);
    fill_last(form, next);
    for costs in matrix.costs.chunks_exact(matrix.width).rev() {
        let (before, row) = rows.split_at_mut(rows.len() - states);
        column.costs[..costs.len()].copy_from_slice(costs);
        column.fill_keys(automaton.letters(), next);
        column.fill_row(automaton, next, row);
        (rows, next) = (before, row);
    }
    next[0]
}

/// The row after the last column: a state at which a word may end costs nothing.
fn fill_last(form: &[u32], row: &mut [u32]) {
    let cost = |ends: bool| if ends { 0 } else { TOP };
    row[0] = cost(form[0] & 0x100 != 0);
    for (word, pair) in form[1..].iter().zip(row[1..].chunks_exact_mut(2)) {
        pair.fill(cost(word & 0x200 != 0));
    }
}

impl Column {
    /// The keys, from the row after the column.
    #[inline(always)]
    fn fill_keys(&mut self, letters: &[Letter], next: &[u32]) {
        let prices = next[1..].chunks_exact(2);
        for ((key, letter), price) in self.keys[1..].iter_mut().zip(letters).zip(prices) {
            let label = usize::from(letter.label);
            *key = (self.costs[label] as usize + price[0] as usize) * 256 + label;
        }
    }

    /// The column's row, from the row after it.
    #[inline(always)]
    fn fill_row(&self, automaton: &Automaton, next: &[u32], row: &mut [u32]) {
        let blank = self.costs[0] as usize;
        let mut arcs = automaton.arcs[0];
        let mut least = self.least_key(arcs);
        row[0] = (least / 256).min(blank + next[0] as usize) as u32;
        let letters = automaton.letters().iter().zip(&automaton.arcs[1..]);
        let pairs = row[1..].chunks_exact_mut(2).zip(next[1..].chunks_exact(2));
        for (((letter, own_arcs), key), (here, next)) in letters.zip(&self.keys[1..]).zip(pairs) {
            if !letter.as_before {
                arcs = own_arcs;
                least = self.least_key(arcs);
            }
            let other = match least as u8 == letter.label {
                true => self.least_other(arcs, letter.label),
                false => least,
            };
            let rest = blank + next[1] as usize;
            here[0] = (other.min(*key) / 256).min(rest) as u32;
            here[1] = (least / 256).min(rest) as u32;
        }
    }

    /// The least key of the arcs' targets.
    #[inline(always)]
    fn least_key(&self, arcs: &[u32]) -> usize {
        least_of(arcs, |j| self.keys[usize::from(j)])
    }

    /// The least key of the arcs' targets with another label than this.
    #[inline(always)]
    fn least_other(&self, arcs: &[u32], label: u8) -> usize {
        least_of(arcs, |j| match self.keys[usize::from(j)] {
            key if key as u8 == label => FAR,
            key => key,
        })
    }
}

/// The least of `FAR` and what each arc's target offers. By pairs: then the compiler makes conditional moves of the
/// comparisons. One by one it makes jumps, and on random arcs the peer is no faster than the plain loop.
#[inline(always)]
fn least_of(arcs: &[u32], offer: impl Fn(u8) -> usize) -> usize {
    let offer = |arc: u32| offer(arc as u8);
    let pairs = arcs.chunks_exact(2);
    let start = match pairs.remainder() {
        [arc] => offer(*arc).min(FAR),
        _ => FAR,
    };
    pairs.fold(start, |least, pair| {
        least.min(offer(pair[0]).min(offer(pair[1])))
    })
}
