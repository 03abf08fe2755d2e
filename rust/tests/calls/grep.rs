//! Classes in brackets against `grep -E -x` in the C locale, which knows characters and no labels. Where no grep can be started,
//! these tests say so and pass.
use crate::compile::{accepted, word};
use crate::repeats::repeats;
use kavurehy::Refusal;
use model::alphabet::characters_of;
use model::expression::{parse, Tree};
use model::input::texts::alphabet;
use model::input::writer::CLASSES;
use model::input::{random, Random};
use std::io::Write;
use std::process::{Command, Output, Stdio};

/// Pairs of an expression and a word, and words for each expression.
const PAIRS: usize = 40_000;
const WORDS: usize = 40;

/// Can grep be started? If not, that is said past the test harness.
fn is_there(test: &str) -> bool {
    let started = Command::new("grep").arg("-V").output();
    if let Err(error) = &started {
        let _ = writeln!(std::io::stderr(), "{test}: no grep, not tested: {error}");
    }
    started.is_ok()
}

/// What grep prints about these lines, and how it ends.
fn grep(text: &str, lines: &[u8]) -> Output {
    let mut child = Command::new("grep")
        .args(["-E", "-x", "-n", "-e", text])
        .env("LC_ALL", "C")
        .stdin(Stdio::piped())
        .stdout(Stdio::piped())
        .stderr(Stdio::piped())
        .spawn()
        .expect("grep");
    // The lines are few enough for a pipe. If grep refuses the text, it does not read them.
    let _ = child.stdin.take().unwrap().write_all(lines);
    child.wait_with_output().expect("grep ends")
}

/// Does grep select each of these words? It must not refuse the text.
fn selected(alphabet: &[u8], text: &str, words: &[Vec<u8>]) -> Vec<bool> {
    let mut lines = Vec::new();
    for word in words {
        lines.extend(characters_of(alphabet, word));
        lines.push(b'\n');
    }
    let output = grep(text, &lines);
    assert!(
        matches!(output.status.code(), Some(0 | 1)),
        "{text}: {output:?}"
    );
    let mut selected = vec![false; words.len()];
    for line in String::from_utf8(output.stdout).unwrap().lines() {
        let (number, _) = line.split_once(':').expect("a numbered line");
        selected[number.parse::<usize>().unwrap() - 1] = true;
    }
    selected
}

/// Each class and its complement, with each of the 95 characters as a word; a bracket without a character is refusal 8.
#[test]
fn members_by_grep() {
    if !is_there("members_by_grep") {
        return;
    }
    let all: Vec<u8> = (32..=126).collect();
    let words: Vec<Vec<u8>> = (1..=95).map(|x| vec![x]).collect();
    for (name, _) in CLASSES {
        for text in [format!("[[:{name}:]]"), format!("[^[:{name}:]]")] {
            let selected = selected(&all, &text, &words);
            let expected = match selected.contains(&true) {
                true => Ok(selected),
                false => Err(Refusal::Foreign),
            };
            let accepted = accepted(&all, text.as_bytes(), &words);
            assert_eq!(accepted, expected, "{text}");
        }
    }
}

/// A character that is itself anywhere in a bracket: not `]`, `-`, `[` or `^`.
fn character(r: &mut Random, alphabet: &[u8]) -> char {
    loop {
        let c = match r.chance(70) {
            true => *r.pick(alphabet),
            false => r.from(32, 126) as u8,
        };
        if !b"]-[^".contains(&c) {
            return char::from(c);
        }
    }
}

/// A class, at times after an ordinary `[`.
fn class(r: &mut Random, name: &str) -> String {
    format!("{}[:{name}:]", r.pick(&["", "", "", "["]))
}

/// At most two classes, characters and ranges.
fn items(r: &mut Random, alphabet: &[u8]) -> String {
    let number = r.from(0, 2);
    let item = |_| {
        let (c, d) = (character(r, alphabet), character(r, alphabet));
        match r.below(4) {
            0 => {
                let name = r.pick(&CLASSES).0;
                class(r, name)
            }
            1 => format!("{}-{}", c.min(d), c.max(d)),
            _ => c.to_string(),
        }
    };
    (0..number).map(item).collect()
}

/// A bracket with a class of this name, at times a complement, with `]` or `-` first and `-`, `[` or `^` last.
fn bracket(r: &mut Random, alphabet: &[u8], name: &str) -> String {
    let open = *r.pick(&["[", "[", "[^"]);
    let first = *r.pick(&["", "", "", "]", "-"]);
    let last = *r.pick(&["", "", "", "-", "[", "^"]);
    let (before, after) = (items(r, alphabet), items(r, alphabet));
    format!("{open}{first}{before}{}{after}{last}]", class(r, name))
}

/// A bracket or an ordinary character, mostly repeated.
fn piece(r: &mut Random, alphabet: &[u8]) -> String {
    let c = char::from(*r.pick(alphabet));
    let whole = match r.chance(25) && c.is_ascii_alphanumeric() {
        true => c.to_string(),
        false => {
            let name = r.pick(&CLASSES).0;
            bracket(r, alphabet, name)
        }
    };
    whole + *r.pick(&["", "", "*", "+", "?", "{2}", "{1,}", "{0,2}"])
}

/// One to three pieces, at times with a group or a choice.
fn expression(r: &mut Random, alphabet: &[u8]) -> String {
    let [p, q, s] = [(); 3].map(|_| piece(r, alphabet));
    match r.below(6) {
        0 | 1 => p,
        2 => p + &q,
        3 => format!("{p}|{q}{s}"),
        4 => format!("({p}|{q})*{s}"),
        _ => format!("{p}({q}{s})+"),
    }
}

/// A word of the expression, at times with one label changed, or any short word.
fn random_word(r: &mut Random, tree: &Tree, alphabet: &[u8]) -> Vec<u8> {
    let k = alphabet.len();
    match r.chance(40) {
        true => word(r, tree, alphabet),
        false => (0..r.from(0, 4)).map(|_| r.from(1, k) as u8).collect(),
    }
}

/// Judge of a compiled text accepts a word exactly if grep selects its characters; many alphabets repeat some.
#[test]
fn words_by_grep() {
    if !is_there("words_by_grep") {
        return;
    }
    let mut r = random("words_by_grep");
    let (mut yes, mut no, mut repeated) = (0, 0, 0);
    while yes + no < PAIRS {
        let most = *r.pick(&[6, 12, 30]);
        let alphabet = alphabet(&mut r, most);
        let text = expression(&mut r, &alphabet);
        let tree = match parse(&alphabet, text.as_bytes()) {
            Err(8) => continue,
            tree => tree.unwrap(),
        };
        let words: Vec<_> = (0..WORDS)
            .map(|_| random_word(&mut r, &tree, &alphabet))
            .collect();
        match accepted(&alphabet, text.as_bytes(), &words) {
            Err(Refusal::Letters) => {}
            Err(refusal) => panic!("{text} over {}: {refusal}", alphabet.escape_ascii()),
            Ok(accepted) => {
                let selected = selected(&alphabet, &text, &words);
                let said = alphabet.escape_ascii();
                assert_eq!(accepted, selected, "{text} over {said}");
                let words = accepted.iter().filter(|&&word| word).count();
                yes += words;
                no += WORDS - words;
                repeated += if repeats(&alphabet) { WORDS } else { 0 };
            }
        }
    }
    let seen = [yes, no, repeated];
    assert!(seen.iter().all(|&n| n >= PAIRS / 4), "{seen:?}");
}

/// Names that no class has.
const UNKNOWN: [&str; 9] = [
    "digits", "alph", "ALPHA", "Digit", "word", "ascii", "a", "xdigits", "hex",
];

/// Where the only fault is a name that no class has, Compile answers 19, and grep refuses the text.
#[test]
fn unknown_names_by_grep() {
    if !is_there("unknown_names_by_grep") {
        return;
    }
    let mut r = random("unknown_names_by_grep");
    for _ in 0..300 {
        let alphabet = alphabet(&mut r, 12);
        let name = *r.pick(&UNKNOWN);
        let text = bracket(&mut r, &alphabet, name);
        let answer = accepted(&alphabet, text.as_bytes(), &[]);
        assert_eq!(answer, Err(Refusal::ClassName), "{text}");
        let status = grep(&text, b"").status.code();
        assert_eq!(status, Some(2), "{text}");
    }
}
