//! The best path, traced forward through the table: the set of all equally cheap states is advanced column by column, by the
//! lowest label that lies on a cheapest path.
use super::automaton::Automaton;
use kavurehy::Matrix;

/// A list of distinct states; 256 places, so that a byte needs no check.
struct List {
    states: [u8; 256],
    count: u8,
}

impl List {
    fn of_start() -> List {
        List {
            states: [0; 256],
            count: 1,
        }
    }

    /// Adds the state if `fits` holds. There is no jump, since processors often predict it wrongly.
    #[inline(always)]
    fn push_if(&mut self, fits: bool, s: u8) {
        self.states[usize::from(self.count)] = s;
        self.count += u8::from(fits);
    }

    fn members(&self) -> &[u8] {
        &self.states[..usize::from(self.count)]
    }
}

/// A set of states: a truth value for each, and the list of its members.
struct Set {
    has: [bool; 256],
    list: List,
}

impl Set {
    fn empty() -> Set {
        Set {
            has: [false; 256],
            list: List {
                states: [0; 256],
                count: 0,
            },
        }
    }

    /// Puts the state if `fits` holds.
    #[inline(always)]
    fn put_if(&mut self, fits: bool, s: u8) {
        let has = &mut self.has[usize::from(s)];
        self.list.push_if(fits & !*has, s);
        *has |= fits;
    }

    fn clear(&mut self) {
        for &s in self.list.members() {
            self.has[usize::from(s)] = false;
        }
        self.list.count = 0;
    }
}

/// A column of the matrix, the row after it, and what the path may still cost.
struct Column<'a> {
    costs: &'a [u32],
    row: &'a [u32],
    left: u32,
}

impl Column<'_> {
    /// Does a step to this state by this label lie on a cheapest path? The sum has 64 bits, since the label may be barred.
    #[inline(always)]
    fn is_cheapest(&self, label: u8, state: u8) -> bool {
        let (cost, rest) = (self.costs[usize::from(label)], self.row[usize::from(state)]);
        u64::from(cost) + u64::from(rest) == u64::from(self.left)
    }
}

/// Writes one label for each column.
pub fn trace(automaton: &Automaton, matrix: Matrix<'_>, work: &[u32], path: &mut [u8]) {
    let (first, rows) = work.split_at(automaton.states());
    let columns = matrix.costs.chunks_exact(matrix.width);
    let rows = rows.chunks_exact(automaton.states());
    let mut left = first[0];
    let mut from = List::of_start();
    let mut near = Set::empty();
    for ((at, costs), row) in path.iter_mut().zip(columns).zip(rows) {
        let column = Column { costs, row, left };
        reach(automaton, &column, from.members(), &mut near);
        *at = keep_lowest(automaton, near.list.members(), &mut from);
        near.clear();
        left -= costs[usize::from(*at)];
    }
}

/// Puts the states that lie on a cheapest path from these: the blanks, and only if there are none, the letters.
#[inline(always)]
fn reach(automaton: &Automaton, column: &Column, from: &[u8], near: &mut Set) {
    for s in from {
        let blanks = s.div_ceil(2) * 2;
        near.put_if(column.is_cheapest(0, blanks), blanks);
    }
    if near.list.count == 0 {
        for &s in from {
            put_letters(automaton, column, s, near);
        }
    }
}

/// Puts the letters that lie on a cheapest path from this state: the one that it is on, and those that may come after it.
#[inline(always)]
fn put_letters(automaton: &Automaton, column: &Column, s: u8, near: &mut Set) {
    let own = automaton.entering[usize::from(s)];
    near.put_if(own != 0 && column.is_cheapest(own, s), s);
    for arc in automaton.arcs[usize::from(s.div_ceil(2))] {
        let to = 2 * (*arc as u8) - 1;
        let label = automaton.entering[usize::from(to)];
        near.put_if((label != own) & column.is_cheapest(label, to), to);
    }
}

/// Lists the states that are entered by the lowest label, and returns it.
#[inline(always)]
fn keep_lowest(automaton: &Automaton, near: &[u8], list: &mut List) -> u8 {
    let label = |s: u8| automaton.entering[usize::from(s)];
    let labels = near.iter().map(|&s| label(s));
    let lowest = labels.min().unwrap_or(0);
    list.count = 0;
    for &s in near {
        list.push_if(label(s) == lowest, s);
    }
    lowest
}
