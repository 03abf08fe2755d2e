//! Characters with several labels: an exhaustive search on small matrices, where Decode must read the same by the form; laws of
//! the words; and lines, sets and limits by hand.
use crate::compile::{accepted, any_labels, word};
use crate::read_call::hold_both;
use crate::texts::{answers, labels};
use crate::LEAST;
use kavurehy::Refusal;
use model::alphabet::characters_of;
use model::call::Call;
use model::collapse;
use model::expression::{parse, Tree};
use model::form::Form;
use model::input::texts::{alphabet, text};
use model::input::writer::expression;
use model::input::{random, Random};
use model::matrix::{need, Line};
use model::opening::{compile, compile_within};
use model::ranked::ranked;
use model::search::{tied, Best};
use model::tally::Tally;
use model::words::is_word;
use std::io::Write;

/// Lines of the search, each over an alphabet with a repeated character.
const LINES: usize = 200_000;

/// Words of each law.
const WORDS: usize = 20_000;

/// Does an earlier label have the same character? The blank has no character.
fn is_later(alphabet: &[u8], x: usize) -> bool {
    x > 0 && alphabet[..x - 1].contains(&alphabet[x - 1])
}

/// Is a character repeated?
pub fn repeats(alphabet: &[u8]) -> bool {
    (1..=alphabet.len()).any(|x| is_later(alphabet, x))
}

/// What was seen on the lines, and how often.
#[derive(Debug, Default)]
struct Seen {
    lines: usize,
    /// Lines with a reading.
    read: usize,
    /// Those whose best path has two unequal labels of one character side by side: the character twice, without a blank.
    beside: usize,
    /// Those whose best word needs a blank between equal labels.
    parted: usize,
    /// Those with several best lists.
    tied: usize,
    /// Those whose best path uses a label that is not the first of its character.
    later: usize,
    /// Those whose best path would be another if each character had its first label only.
    changed: usize,
    /// Those that would then be read as another word, or not at all.
    misread: usize,
    /// Lines without a reading.
    unread: usize,
}

impl Seen {
    /// Adds a line that was held, and what was answered.
    fn add(&mut self, call: &Call, tree: &Tree, form: &Form, answer: &Result<Best, u32>) {
        assert!(repeats(&call.alphabet), "{call:?}");
        self.lines += 1;
        match answer {
            Ok(best) => {
                let is_word = |w: &[u8]| is_word(tree, &call.characters(w));
                let several = tied(form.k, &call.line.costs, best, is_word);
                self.tied += usize::from(several);
                self.add_path(call, form, &best.path);
            }
            Err(_) => self.unread += 1,
        }
    }

    /// Adds the best path of a line.
    fn add_path(&mut self, call: &Call, form: &Form, path: &[u8]) {
        let later = |x: usize| is_later(&call.alphabet, x);
        let twins = |pair: &[u8]| {
            let characters = call.characters(&collapse(pair));
            characters.len() == 2 && characters[0] == characters[1]
        };
        let word = collapse(path);
        let spelt = |path: &Vec<u8>| call.characters(&collapse(path));
        let mut firsts = call.line.clone();
        firsts.bar_where(|_, x| later(x));
        let instead = ranked(form, &firsts.costs).map(|best| best.path);
        let other_word = instead.as_ref().map(spelt) != Some(call.characters(&word));
        self.read += 1;
        self.beside += usize::from(path.windows(2).any(twins));
        self.parted += usize::from(word.windows(2).any(|pair| pair[0] == pair[1]));
        self.later += usize::from(path.iter().any(|&x| later(x.into())));
        self.changed += usize::from(instead.as_deref() != Some(path));
        self.misread += usize::from(other_word);
    }

    /// Each must have been seen often enough. A best path without later labels stays the best one without them.
    fn demand(&self) {
        let _ = writeln!(std::io::stderr(), "read of repeated characters: {self:?}");
        assert_eq!(self.lines, LINES);
        assert_eq!(self.later, self.changed);
        let words = [self.read, self.beside, self.parted, self.tied];
        let others = [self.later, self.changed, self.misread, self.unread];
        assert!(words.iter().chain(&others).all(|&n| n >= LEAST), "{self:?}");
    }
}

/// Read, and Decode by the form of the same text, past all other refusals; few letters, since `ranked` takes long for many.
#[test]
fn repeated_reads() {
    let mut r = random("repeated_reads");
    let (mut tally, mut seen) = (Tally::default(), Seen::default());
    while seen.lines < LINES {
        let call = Call::small(&mut r);
        let Ok((tree, form)) = compile_within(&call.alphabet, &call.text, call.form) else {
            continue;
        };
        if form.letters.len() <= 20 && repeats(&call.alphabet) {
            let answer = hold_both(&call, &form, &mut tally);
            seen.add(&call, &tree, &form, &answer);
        }
    }
    tally.demand("read and decode of repeated characters", LEAST, &[0, 16]);
    seen.demand();
}

/// The same words over another alphabet of the same characters: for each character any of its labels there.
fn relabelled(r: &mut Random, from: &[u8], to: &[u8], words: &[Vec<u8>]) -> Vec<Vec<u8>> {
    let mut relabel = |word: &Vec<u8>| any_labels(r, to, &characters_of(from, word));
    words.iter().map(&mut relabel).collect()
}

/// Whether a form accepts a list of labels depends on their characters alone.
#[test]
fn words_by_characters() {
    let mut r = random("words_by_characters");
    let (mut yes, mut no) = (0, 0);
    while yes + no < WORDS {
        let alphabet = alphabet(&mut r, 12);
        let (text, tree) = expression(&mut r, &alphabet, 4);
        let words = [(); 8].map(|_| word(&mut r, &tree, &alphabet));
        let others = relabelled(&mut r, &alphabet, &alphabet, &words);
        let answers = accepted(&alphabet, &text, &words);
        assert_eq!(accepted(&alphabet, &text, &others), answers);
        let pairs = words.iter().zip(&others).zip(answers.iter().flatten());
        for (_, accepted) in pairs.filter(|((word, other), _)| word != other) {
            yes += usize::from(*accepted);
            no += usize::from(!accepted);
        }
    }
    assert!(yes >= WORDS / 10 && no >= WORDS / 10, "{yes} {no}");
}

/// The characters of an alphabet, each once, in another order.
fn without_repeats(r: &mut Random, alphabet: &[u8]) -> Vec<u8> {
    let mut once = alphabet.to_vec();
    once.sort_unstable();
    once.dedup();
    let first = r.below(once.len());
    once.rotate_left(first);
    once
}

/// Order and repetition in an alphabet change neither the set of words nor a refusal of the text, except that fewer labels are
/// fewer letters.
#[test]
fn words_without_repeats() {
    let mut r = random("words_without_repeats");
    let (mut yes, mut no, mut refused) = (0, 0, 0);
    while yes + no < WORDS {
        let alphabet = alphabet(&mut r, 12);
        let once = without_repeats(&mut r, &alphabet);
        let text = text(&mut r, &alphabet, 4);
        let tree = parse(&alphabet, &text).ok();
        let words: Vec<_> = (0..8)
            .filter_map(|_| Some(word(&mut r, tree.as_ref()?, &alphabet)))
            .collect();
        let others = relabelled(&mut r, &alphabet, &once, &words);
        let answers = accepted(&alphabet, &text, &words);
        let answers_once = accepted(&once, &text, &others);
        if answers == Err(Refusal::Letters) {
            assert!(matches!(answers_once, Ok(_) | Err(Refusal::Letters)));
            continue;
        }
        assert_eq!(answers_once, answers);
        refused += usize::from(answers.is_err());
        for accepted in answers.iter().flatten().filter(|_| repeats(&alphabet)) {
            yes += usize::from(*accepted);
            no += usize::from(!accepted);
        }
    }
    let seen = [yes, no, refused];
    assert!(seen.iter().all(|&n| n >= WORDS / 10), "{seen:?}");
}

/// What Read and Decode say of a line with memory for exactly that: path, price and word, or the number of the refusal.
fn line(alphabet: &[u8], text: &str, costs: &[u32]) -> Result<(Vec<u8>, u32, String), u32> {
    let (_, form) = compile(alphabet, text.as_bytes())?;
    let width = alphabet.len() + 1;
    let columns = costs.len() / width;
    let call = Call {
        alphabet: alphabet.to_vec(),
        text: text.as_bytes().to_vec(),
        form: form.words().len(),
        line: Line {
            costs: costs.to_vec(),
            width,
            columns,
            path: columns,
            word: columns,
            work: need(columns, form.letters.len()),
        },
    };
    let Best { path, price } = hold_both(&call, &form, &mut Tally::default())?;
    let word = call.characters(&collapse(&path));
    Ok((path, price, String::from_utf8(word).unwrap()))
}

/// A crossed and a plain seven side by side are two sevens without a blank; one shape twice needs one.
#[test]
fn two_sevens() {
    let says = |path: &[u8], price: u32, word: &str| Ok((path.to_vec(), price, word.to_string()));
    let (unlike, alike) = ([0, 1, 5, 0, 5, 1], [0, 1, 5, 0, 1, 5]);
    assert_eq!(line(b"77", "77", &unlike), says(&[1, 2], 2, "77"));
    assert_eq!(line(b"77", "77", &alike), says(&[1, 2], 6, "77"));
    assert_eq!(line(b"77", "7", &unlike), says(&[0, 2], 1, "7"));
    assert_eq!(line(b"77", "7", &alike), says(&[0, 1], 1, "7"));
    assert_eq!(line(b"77", "77", &[0, 1, 5]), Err(16));
    assert_eq!(line(b"7", "77", &[0, 1, 0, 1]), Err(16));
    assert_eq!(
        line(b"7", "77", &[0, 1, 0, 1, 0, 1]),
        says(&[1, 0, 1], 2, "77")
    );
    assert_eq!(line(b"7a7", "[^7]", &[0, 0, 5, 0]), says(&[2], 5, "a"));
    let mut form = [0; 9];
    assert_eq!(kavurehy::compile(b"77", b"77", &mut form), Ok(9));
    let letters = [0x10020004, 0x20000101, 0x20000102, 0x20000201, 0x20000202];
    let arcs = [0x30000103, 0x30000104, 0x30000203, 0x30000204];
    assert_eq!(form[..], [&letters[..], &arcs].concat());
}

/// Each kind of set means all labels of its characters, in label order.
#[test]
fn labels_of_sets() {
    let sets: [(&str, &[u8]); 11] = [
        ("7", &[1, 3]),
        ("a", &[2]),
        ("[5-8]", &[1, 3]),
        (".", &[1, 2, 3]),
        ("[[:digit:]]", &[1, 3]),
        ("[^[:alpha:]]", &[1, 3]),
        ("[^[:digit:]]", &[2]),
        ("[a7]", &[1, 2, 3]),
        ("[77]", &[1, 3]),
        ("[^a]", &[1, 3]),
        ("[^7]", &[2]),
    ];
    for (text, expected) in sets {
        assert_eq!(labels(b"7a7", text), expected, "{text}");
    }
    assert_eq!(labels(b"+a+", "\\+"), [1, 3]);
    assert_eq!(labels(b"7a7", "a7"), [2, 1, 3]);
    assert_eq!(labels(b"b7a7b", "[a-b]7"), [1, 3, 5, 2, 4]);
}

/// Letters are counted by label; 8 is no label at all; 1 is about length and bytes.
#[test]
fn limits() {
    assert_eq!(labels(b"777", "7"), [1, 2, 3]);
    assert_eq!(labels(b"777", "7{42}"), [1, 2, 3].repeat(42));
    answers(b"777", 9, "7{43}");
    answers(b"77", 8, "[^7]");
    answers(b"77", 8, "[^[:digit:]]");
    answers(b"77", 8, "a");
    answers(b"aa", 4, "*");
    answers(b"aa", 2, "");
    answers(b"ba b", 0, "b* [ab]");
    for (number, byte) in [(0, b'a'), (0, b' '), (0, b'~'), (1, 31), (1, 127)] {
        answers(&[byte; 95], number, ".");
        answers(&[byte; 96], 1, ".");
    }
    assert_eq!(labels(&[b'a'; 95], "a"), Vec::from_iter(1..=95));
    answers(&[b'a'; 95], 9, "aa");
}
