//! The compiled form: its list of words, and the words that it accepts.
use std::collections::BTreeSet;

#[derive(Clone, Debug, PartialEq)]
pub struct Letter {
    pub label: u8,
    pub first: bool,
    pub last: bool,
}

/// A form by its parts; letters are numbered from 1, an arc is a source and a target.
#[derive(Clone, Debug)]
pub struct Form {
    pub k: u8,
    pub empty: bool,
    pub letters: Vec<Letter>,
    pub arcs: BTreeSet<(u8, u8)>,
}

impl Form {
    /// A form over this alphabet without letters.
    pub fn new(alphabet: &[u8]) -> Form {
        Form {
            k: alphabet.len() as u8,
            empty: false,
            letters: Vec::new(),
            arcs: BTreeSet::new(),
        }
    }

    /// Adds an arc from each source to each target.
    pub fn add_arcs(&mut self, sources: &BTreeSet<u8>, targets: &BTreeSet<u8>) {
        for &source in sources {
            self.arcs
                .extend(targets.iter().map(|&target| (source, target)));
        }
    }

    /// The list of 32-bit words.
    pub fn words(&self) -> Vec<u32> {
        let bit = |b: bool, n: u32| u32::from(b) << n;
        let mut words = vec![
            1 << 28 | u32::from(self.k) << 16 | bit(self.empty, 8) | self.letters.len() as u32,
        ];
        for x in &self.letters {
            words.push(2 << 28 | bit(x.last, 9) | bit(x.first, 8) | u32::from(x.label));
        }
        for &(source, target) in &self.arcs {
            words.push(3 << 28 | u32::from(source) << 8 | u32::from(target));
        }
        words
    }

    /// The form that a list is, if it is valid: the fields are in range, and writing them down again gives the same list.
    pub fn read(words: &[u32]) -> Option<Form> {
        let &head = words.first()?;
        let l = (head & 0xff) as usize;
        let form = Form {
            k: (head >> 16) as u8,
            empty: head >> 8 & 1 == 1,
            letters: words
                .get(1..=l)?
                .iter()
                .map(|w| Letter {
                    label: *w as u8,
                    first: w >> 8 & 1 == 1,
                    last: w >> 9 & 1 == 1,
                })
                .collect(),
            arcs: words[1 + l..]
                .iter()
                .map(|w| ((w >> 8) as u8, *w as u8))
                .collect(),
        };
        let numbers = 1..=l as u8;
        let in_range = (1..=127).contains(&l)
            && (1..=95).contains(&form.k)
            && form.letters.iter().all(|x| (1..=form.k).contains(&x.label))
            && form
                .arcs
                .iter()
                .all(|(i, j)| numbers.contains(i) && numbers.contains(j));
        (in_range && form.words() == words).then_some(form)
    }

    pub fn letter(&self, i: u8) -> &Letter {
        &self.letters[usize::from(i) - 1]
    }

    /// Some walk from a first letter along arcs to a last letter spells the word; bit 8 of the head for the empty word. From
    /// the word's end: after which letters the rest can be spelt.
    pub fn accepts(&self, word: &[u8]) -> bool {
        let Some((&first, rest)) = word.split_first() else {
            return self.empty;
        };
        let numbers = || 1..=self.letters.len() as u8;
        let mut good: BTreeSet<u8> = numbers().filter(|&i| self.letter(i).last).collect();
        for &x in rest.iter().rev() {
            let fits = |j: &u8| good.contains(j) && self.letter(*j).label == x;
            good = self
                .arcs
                .iter()
                .filter(|(_, j)| fits(j))
                .map(|(i, _)| *i)
                .collect();
        }
        good.iter()
            .any(|&i| self.letter(i).first && self.letter(i).label == first)
    }
}
