//! Compile: random texts against the model, and what the forms accept.
use crate::support::{number, Lent};
use crate::LEAST;
use kavurehy::{raw, Refusal, FORM_WORDS};
use model::alphabet::{characters_of, labels_of};
use model::derivatives::Machine;
use model::expression::{parse, Tree};
use model::form::Form;
use model::input::texts::{alphabet, bad_alphabet, text};
use model::input::writer::expression;
use model::input::{random, Random};
use model::opening::{compile, compile_within};
use model::tally::Tally;
use model::words::is_word;

const CASES: usize = 200_000;

/// A call that writes a form, given an alphabet and a text or a word list: as it is exported, and as a safe function.
pub struct Compiler {
    pub raw: Raw,
    pub safe: Safe,
}

type Raw =
    unsafe extern "C" fn(*const u8, usize, *const u8, usize, *mut u32, usize, &mut [u32; 1]) -> u32;

pub type Safe = fn(&[u8], &[u8], &mut [u32]) -> Result<usize, Refusal>;

impl Compiler {
    /// Compiles both ways, and compares the answer and the form memory with what is expected; returns the number of the refusal,
    /// or 0.
    pub fn hold(
        &self,
        alphabet: &[u8],
        text: &[u8],
        memory: usize,
        expected: Result<Form, u32>,
    ) -> u32 {
        let refusal = *expected.as_ref().err().unwrap_or(&0);
        let written = expected.map_or(Vec::new(), |form| form.words());
        let said = || format!("{} {}", alphabet.escape_ascii(), text.escape_ascii());
        let mut form = Lent::new(memory);
        let mut counts = [u32::MAX];
        let answered = unsafe {
            (self.raw)(
                alphabet.as_ptr(),
                alphabet.len(),
                text.as_ptr(),
                text.len(),
                form.memory().as_mut_ptr(),
                memory,
                &mut counts,
            )
        };
        let length = written.len() as u32;
        assert_eq!((answered, counts), (refusal, [length]), "{}", said());
        form.wrote(&written);

        let mut form = Lent::new(memory);
        let answer = (self.safe)(alphabet, text, form.memory());
        assert_eq!(number(&answer), refusal, "{}", said());
        assert_eq!(answer.unwrap_or(0), written.len(), "{}", said());
        form.wrote(&written);
        refusal
    }
}

/// Compiles a text, and compares with the model.
pub fn hold(alphabet: &[u8], text: &[u8], memory: usize) -> u32 {
    let compiler = Compiler {
        raw: raw::kavurehy_compile,
        safe: kavurehy::compile,
    };
    let expected = compile_within(alphabet, text, memory).map(|(_, form)| form);
    compiler.hold(alphabet, text, memory, expected)
}

#[test]
fn random_texts() {
    let mut r = random("random_texts");
    let mut tally = Tally::default();
    for _ in 0..CASES {
        let most = *r.pick(&[2, 4, 10, 95]);
        let mut alphabet = alphabet(&mut r, most);
        let size = r.from(1, 8);
        let text = text(&mut r, &alphabet, size);
        if r.chance(2) {
            alphabet = bad_alphabet(&mut r);
        }
        let need = compile(&alphabet, &text).map_or(5, |c| c.1.words().len());
        let memory = r.room(need);
        tally.add(hold(&alphabet, &text, memory));
    }
    tally.demand("compile", LEAST, &[0, 1, 2, 3, 4, 5, 6, 7, 8, 9, 10, 19]);
}

/// The model parses the tree that an expression was written from, and the form accepts that tree's words and no others.
#[test]
fn words_of_texts() {
    let mut r = random("words_of_texts");
    let (mut yes, mut no) = (0, 0);
    for _ in 0..CASES / 10 {
        let alphabet = alphabet(&mut r, 5);
        let (text, tree) = expression(&mut r, &alphabet, 5);
        if text.len() <= 255 {
            assert_eq!(parse(&alphabet, &text), Ok(tree.clone()));
        }
        let machine = Machine::new(&tree, &alphabet, 100);
        let words = [(); 20].map(|_| word(&mut r, &tree, &alphabet));
        let answers = match accepted(&alphabet, &text, &words) {
            Err(Refusal::TextLength | Refusal::Letters) => continue,
            answers => answers.unwrap(),
        };
        for (word, accepted) in words.iter().zip(answers) {
            assert_eq!(is_word(&tree, &characters_of(&alphabet, word)), accepted);
            if let Some(machine) = &machine {
                assert_eq!(machine.is_word(word), accepted);
            }
            yes += usize::from(accepted);
            no += usize::from(!accepted);
        }
    }
    assert!(yes >= CASES / 10 && no >= CASES / 10, "{yes} {no}");
}

/// Does Judge of the compiled text accept each of these words? The refusal if the text does not compile.
pub fn accepted(alphabet: &[u8], text: &[u8], words: &[Vec<u8>]) -> Result<Vec<bool>, Refusal> {
    let form = compiled(kavurehy::compile, alphabet, text)?;
    words.iter().map(|w| kavurehy::judge(&form, w)).collect()
}

/// The form that a safe function writes.
pub fn compiled(compile: Safe, alphabet: &[u8], text: &[u8]) -> Result<Vec<u32>, Refusal> {
    let mut form = vec![0; FORM_WORDS];
    let length = compile(alphabet, text, &mut form)?;
    form.truncate(length);
    Ok(form)
}

/// The text for which Compile was seen to use the most stack, on a thread with less than 1.5 times that (FIGURES.md).
#[test]
fn deepest_text() {
    let compile = || {
        kavurehy::compile(
            b"ab",
            b"((((((((((((((((a{127}))))))))))))))))",
            &mut vec![0; FORM_WORDS],
        )
    };
    let thread = std::thread::Builder::new().stack_size(384 * 1024);
    assert_eq!(thread.spawn(compile).unwrap().join().unwrap(), Ok(254));
}

/// A word of at most 60 labels: one of the expression's if it is not longer, at times with one label changed.
pub fn word(r: &mut Random, tree: &Tree, alphabet: &[u8]) -> Vec<u8> {
    let mut characters = Vec::new();
    spell(r, tree, &mut characters);
    characters.truncate(60);
    let mut word = any_labels(r, alphabet, &characters);
    if !word.is_empty() && r.chance(50) {
        let n = r.below(word.len());
        word[n] = r.from(1, alphabet.len()) as u8;
    }
    word
}

/// One of its labels for each character.
pub fn any_labels(r: &mut Random, alphabet: &[u8], characters: &[u8]) -> Vec<u8> {
    let any_label = |&c: &u8| *r.pick(&labels_of(alphabet, &[c]));
    characters.iter().map(any_label).collect()
}

fn spell(r: &mut Random, tree: &Tree, word: &mut Vec<u8>) {
    match tree {
        Tree::Set(characters) => word.push(*r.pick(characters)),
        Tree::Join(parts) => parts.iter().for_each(|part| spell(r, part, word)),
        Tree::Either(branches) => {
            let branch = r.pick(branches);
            spell(r, branch, word);
        }
        Tree::Repeat(part, least, most) => {
            let times = least + r.below(4);
            for _ in 0..most.map_or(times, |m| m.min(times)) {
                spell(r, part, word);
            }
        }
    }
}
