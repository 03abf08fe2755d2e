//! CompileList: random lists against the model, and every short list of a few bytes.
use crate::compile::Compiler;
use crate::LEAST;
use kavurehy::{raw, LIST_BYTES};
use model::alphabet::labels_of;
use model::input::lists::{letters, list, spoil};
use model::input::random;
use model::input::texts::{alphabet, bad_alphabet};
use model::tally::Tally;
use model::wordlist::{compile, compile_within, words};
use std::io::Write;

const CASES: usize = 120_000;

/// The numbers that CompileList answers.
const REFUSALS: [usize; 8] = [0, 1, 2, 3, 8, 9, 10, 21];

/// Compiles a list, and compares with the model; returns the number of the refusal, or 0.
pub fn hold(alphabet: &[u8], list: &[u8], memory: usize) -> u32 {
    let compiler = Compiler {
        raw: raw::kavurehy_compile_list,
        safe: kavurehy::compile_list,
    };
    let expected = compile_within(alphabet, list, memory);
    compiler.hold(alphabet, list, memory, expected)
}

/// Do two of these words begin with the same character?
pub fn shares(words: &[&[u8]]) -> bool {
    let mut firsts: Vec<u8> = words.iter().map(|word| word[0]).collect();
    firsts.sort_unstable();
    firsts.windows(2).any(|pair| pair[0] == pair[1])
}

/// Has a character of these words several labels?
pub fn repeats(alphabet: &[u8], words: &[&[u8]]) -> bool {
    let characters = words.concat();
    characters
        .iter()
        .any(|&c| labels_of(alphabet, &[c]).len() > 1)
}

/// What was seen, and how often.
#[derive(Debug, Default)]
struct Seen {
    /// Lists that compiled.
    compiled: usize,
    /// Those where two words share a beginning.
    shared: usize,
    /// Those with a character that has several labels.
    repeated: usize,
    /// Those with both.
    both: usize,
    /// Those where a word begins another.
    begun: usize,
    /// Those of 4,096 bytes.
    longest: usize,
    /// Lists of 126, 127 and 128 letters.
    letters: [usize; 3],
}

impl Seen {
    /// Adds a list that was held, and the number of the refusal, or 0.
    fn add(&mut self, alphabet: &[u8], list: &[u8], number: u32) {
        let Ok(words) = words(alphabet, list) else {
            return;
        };
        let letters = letters(alphabet, &words);
        assert_eq!(number == 9, letters > 127);
        if let Some(n) = (126..=128).position(|n| n == letters) {
            self.letters[n] += 1;
        }
        if number == 0 {
            self.add_compiled(alphabet, list, &words);
        }
    }

    fn add_compiled(&mut self, alphabet: &[u8], list: &[u8], words: &[&[u8]]) {
        let (shared, repeated) = (shares(words), repeats(alphabet, words));
        let mut sorted = words.to_vec();
        sorted.sort_unstable();
        let begun = sorted.windows(2).any(|pair| pair[1].starts_with(pair[0]));
        self.compiled += 1;
        self.shared += usize::from(shared);
        self.repeated += usize::from(repeated);
        self.both += usize::from(shared && repeated);
        self.begun += usize::from(begun);
        self.longest += usize::from(list.len() == LIST_BYTES);
    }

    /// Most must have both, and the others must have been seen often enough.
    fn demand(&self) {
        let _ = writeln!(std::io::stderr(), "word lists: {self:?}");
        assert!(4 * self.shared > 3 * self.compiled, "{self:?}");
        assert!(5 * self.repeated > 3 * self.compiled, "{self:?}");
        assert!(2 * self.both > self.compiled, "{self:?}");
        assert!(
            self.begun >= LEAST && self.longest >= LEAST / 10,
            "{self:?}"
        );
        assert!(self.letters.iter().all(|&n| n >= LEAST), "{self:?}");
    }
}

#[test]
fn random_lists() {
    let mut r = random("random_lists");
    let (mut tally, mut seen) = (Tally::default(), Seen::default());
    for _ in 0..CASES {
        let most = *r.pick(&[2, 4, 4, 10, 30, 95]);
        let mut alphabet = alphabet(&mut r, most);
        let mut list = list(&mut r, &alphabet);
        if r.chance(30) {
            for _ in 0..r.from(1, 3) {
                spoil(&mut r, &alphabet, &mut list);
            }
        }
        if r.chance(2) {
            alphabet = bad_alphabet(&mut r);
        }
        let need = compile(&alphabet, &list).map_or(5, |form| form.words().len());
        let memory = r.room(need);
        let number = hold(&alphabet, &list, memory);
        tally.add(number);
        seen.add(&alphabet, &list, number);
    }
    tally.demand("compile_list", LEAST, &REFUSALS);
    seen.demand();
}

/// Every list of up to this many of these bytes. No alphabet has c, and in the second a has two labels.
fn hold_all(bytes: &[u8], most: u32, tally: &mut Tally) {
    let number = bytes.len();
    for alphabet in [&b"ab"[..], b"aba"] {
        for length in 0..=most {
            for n in 0..number.pow(length) {
                let byte = |place| bytes[n / number.pow(place) % number];
                let list: Vec<u8> = (0..length).map(byte).collect();
                tally.add(hold(alphabet, &list, 27));
            }
        }
    }
}

#[test]
fn every_short_list() {
    let mut tally = Tally::default();
    hold_all(b"abc\n\t\x7f\0\xff", 6, &mut tally);
    hold_all(b"abc\n", 8, &mut tally);
    let numbers = [0, 2, 3, 8, 10, 21];
    tally.demand("compile_list of every short list", 4, &numbers);
}
