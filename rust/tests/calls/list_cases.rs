//! Word lists with their numbers or forms written by hand: the model and CompileList must both answer so.
use crate::lists::hold;
use kavurehy::{compile_list, FORM_WORDS, LIST_BYTES};
use model::wordlist::compile;

/// This list over this alphabet must be answered with this number.
fn answers(alphabet: &[u8], number: u32, list: &[u8]) {
    let by_model = compile(alphabet, list).err().unwrap_or(0);
    assert_eq!(by_model, number, "model: {}", list.escape_ascii());
    assert_eq!(hold(alphabet, list, FORM_WORDS), number);
}

/// These lists over the alphabet `ab`.
fn answer(number: u32, lists: &[&str]) {
    for list in lists {
        answers(b"ab", number, list.as_bytes());
    }
}

/// A word of this many a.
fn a(length: usize) -> String {
    "a".repeat(length)
}

/// The words of one a, two a, and so on up to this many.
fn up_to(most: usize) -> String {
    (1..=most).map(|n| a(n) + "\n").collect()
}

/// An empty line, a repeated line, no final newline; no line is trimmed.
#[test]
fn lines() {
    answer(0, &["a\n", "a\nb\n", "ab\nba\naa\n", "a\naa\naaa\n"]);
    answer(21, &["\n", "\na\n", "a\n\n", "a\n\nb\n", "\n\n", "\n\na\n"]);
    answer(21, &["a", "ab", "a\nb", "a\na", "\na"]);
    answer(
        21,
        &["a\na\n", "ab\nab\n", "a\nb\na\n", "a\nab\nb\nba\nab\n"],
    );
    answers(b"a ", 0, b" \na\na \n a\n");
    answers(b"a ", 21, b" \n \n");
    answers(b"aa", 21, b"a\na\n");
}

/// Every list of one byte, and of one byte and a newline.
#[test]
fn bytes() {
    let all: Vec<u8> = (32..=126).collect();
    for byte in 0..=255 {
        let (alone, closed) = match byte {
            b'\n' => (21, 21),
            32..=126 => (21, 0),
            _ => (3, 3),
        };
        answers(&all, alone, &[byte]);
        answers(&all, closed, &[byte, b'\n']);
    }
    answer(3, &["a\r\n", "a\tb\n", "a\nb\n\0"]);
}

#[test]
fn lengths() {
    let most = up_to(89);
    assert_eq!(most.len() + 2, LIST_BYTES);
    answer(0, &[&(most.clone() + "b\n")]);
    answer(2, &["", &(most.clone() + "ba\n"), &(most + "b\n\n")]);
    for (byte, number) in [("a", 21), ("c", 21), ("\n", 21), ("\t", 3)] {
        answer(number, &[&byte.repeat(LIST_BYTES)]);
        answer(2, &[&byte.repeat(LIST_BYTES + 1)]);
    }
    answer(9, &[&(a(LIST_BYTES - 1) + "\n")]);
    answer(2, &[&(a(LIST_BYTES) + "\n")]);
}

/// Of several faults the first in the order 1, 2, 3, 21, 8, 9, 10, wherever they are.
#[test]
fn order() {
    let over = a(128);
    let alphabets: [&[u8]; 6] = [b"", b"a\n", b"\x7f", b"a\x1f", &[0x80], &[b'a'; 96]];
    for alphabet in alphabets {
        for list in ["", "\t", "a", "\n", "a\na\n", "c\n", "a\n"] {
            answers(alphabet, 1, list.as_bytes());
        }
    }
    answer(3, &["\n\t", "\t\n\n", "a\na\n\x7f\n", "a\t", "c\n\t\n"]);
    answer(3, &[&(over.clone() + "\n\t\n")]);
    answer(
        21,
        &["c", "c\nc\n", "\nc\n", "c\n\n", "c\na\na\n", "a\na\nc\n"],
    );
    answer(
        21,
        &[&over, &(over.clone() + "\n\n"), &format!("a\n{over}\na\n")],
    );
    answer(8, &["c\n", "a\nc\n", "ac\n", "ab\naca\n", "A\n"]);
    answer(8, &[&format!("{over}c\n"), &format!("c\n{over}\n")]);
    assert_eq!(hold(b"ab", format!("{over}\n").as_bytes(), 0), 9);
    assert_eq!(hold(b"ab", b"c\n", 0), 8);
    assert_eq!(hold(b"ab", b"a\nab\n", 4), 0);
    for memory in 0..4 {
        assert_eq!(hold(b"ab", b"a\nab\n", memory), 10);
    }
}

/// At most 127 letters, counted by label; shared ones count once.
#[test]
fn letters() {
    answer(0, &[&(a(127) + "\n"), &up_to(88)]);
    answer(9, &[&(a(128) + "\n"), &(a(255) + "\n"), &(a(256) + "\n")]);
    let shared = |first, second| format!("{}\n{}b\n", a(first), a(second));
    answer(0, &[&shared(126, 125), &shared(126, 0), &shared(1, 126)]);
    answer(9, &[&shared(127, 125), &shared(127, 0), &shared(1, 127)]);
    answers(&[b'a'; 95], 0, b"a\n");
    answers(&[b'a'; 95], 9, b"aa\n");
    answers(b"aab", 0, (a(63) + "b\n").as_bytes());
    answers(b"aab", 9, (a(64) + "\n").as_bytes());
    answers(b"aab", 9, (a(63) + "b\nb\n").as_bytes());
}

/// This is the list's form, in memory of exactly its length.
fn writes(alphabet: &[u8], list: &str, expected: &[u32]) {
    answers(alphabet, 0, list.as_bytes());
    let mut form = vec![0; expected.len()];
    let length = compile_list(alphabet, list.as_bytes(), &mut form);
    assert_eq!(length, Ok(expected.len()), "{list}");
    assert_eq!(form, expected, "{list}");
}

#[test]
fn forms() {
    // a word that begins another, in both orders
    let begun = [0x10020002, 0x20000301, 0x20000202, 0x30000102];
    writes(b"ab", "a\nab\n", &begun);
    writes(b"ab", "ab\na\n", &begun);
    // letters by their first occurrence
    let letters = [0x10020004, 0x20000102, 0x20000201, 0x20000101, 0x20000202];
    let arcs = [0x30000102, 0x30000304];
    writes(b"ab", "ba\nab\n", &[&letters[..], &arcs].concat());
    let letters = [0x10020004, 0x20000101, 0x20000201, 0x20000302, 0x20000202];
    let arcs = [0x30000102, 0x30000104];
    writes(b"ab", "aa\nb\nab\n", &[&letters[..], &arcs].concat());
    // equal endings are not shared
    let letters = [0x10020004, 0x20000101, 0x20000201, 0x20000102, 0x20000201];
    let arcs = [0x30000102, 0x30000304];
    writes(b"ab", "aa\nba\n", &[&letters[..], &arcs].concat());
}

/// A letter for each label, ascending; what follows is shared.
#[test]
fn forms_with_repeats() {
    let sevens = [0x10020004, 0x20000101, 0x20000102, 0x20000201, 0x20000202];
    let arcs = [0x30000103, 0x30000104, 0x30000203, 0x30000204];
    writes(b"77", "77\n", &[&sevens[..], &arcs].concat());
    let letters = [0x10030004, 0x20000301, 0x20000303, 0x20000202, 0x20000302];
    let arcs = [0x30000103, 0x30000203];
    writes(b"7a7", "7\n7a\na\n", &[&letters[..], &arcs].concat());
    let letters = [0x10030003, 0x20000102, 0x20000201, 0x20000203];
    let arcs = [0x30000102, 0x30000103];
    writes(b"7a7", "a7\n", &[&letters[..], &arcs].concat());
}
