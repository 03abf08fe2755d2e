//! What is computed from a valid form once a call.

/// Lists by letter have letter i at index i; index 0 is the start.
pub struct Automaton<'a> {
    /// L.
    pub count: usize,
    letters: [Letter; 128],
    /// The words of each letter's arcs; of the start, the letters that may be first.
    pub arcs: [&'a [u32]; 128],
    /// The label by which each state is entered: 2i - 1 by the label of letter i, the others by the blank.
    pub entering: [u8; 256],
}

#[derive(Clone, Copy, Default)]
pub struct Letter {
    pub label: u8,
    /// Are the targets of its arcs those of the letter before it?
    pub as_before: bool,
}

impl<'a> Automaton<'a> {
    /// Of a valid form and the list of its first letters.
    pub fn of(form: &'a [u32], firsts: &'a [u32]) -> Automaton<'a> {
        let count = (form[0] & 0xff) as usize;
        let (words, arcs) = form[1..].split_at(count);
        let arcs = arcs_by_source(count, arcs, firsts);
        let mut automaton = Automaton {
            count,
            letters: [Letter::default(); 128],
            arcs,
            entering: [0; 256],
        };
        for (i, word) in (1..).zip(words) {
            automaton.letters[i] = Letter {
                label: *word as u8,
                as_before: i > 1 && same_targets(arcs[i - 1], arcs[i]),
            };
            automaton.entering[2 * i - 1] = *word as u8;
        }
        automaton
    }

    /// The letters from the first on.
    pub fn letters(&self) -> &[Letter] {
        &self.letters[1..=self.count]
    }

    /// The number of states.
    pub fn states(&self) -> usize {
        2 * self.count + 1
    }
}

/// Lists the letters that may be first, and returns their number.
pub fn put_firsts(form: &[u32], list: &mut [u32; 127]) -> usize {
    let letters = &form[1..=(form[0] & 0xff) as usize];
    let mut count = 0;
    for (j, word) in (1..).zip(letters) {
        if word & 0x100 != 0 {
            list[count] = j;
            count += 1;
        }
    }
    count
}

/// Arcs are in the order of their sources.
fn arcs_by_source<'a>(count: usize, mut rest: &'a [u32], firsts: &'a [u32]) -> [&'a [u32]; 128] {
    let mut lists = [firsts; 128];
    for (i, list) in (1..).zip(&mut lists[1..=count]) {
        let from_others = |w: &u32| (w >> 8 & 0xff) != i;
        let end = rest.iter().position(from_others).unwrap_or(rest.len());
        (*list, rest) = rest.split_at(end);
    }
    lists
}

fn same_targets(a: &[u32], b: &[u32]) -> bool {
    a.len() == b.len() && a.iter().zip(b).all(|(a, b)| *a as u8 == *b as u8)
}
