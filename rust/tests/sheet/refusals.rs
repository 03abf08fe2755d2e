//! Inputs that are sheets and are turned away by Read: each number, and the lowest where several apply.
use crate::{prints, refuses};

/// This number of columns, each of them this line.
pub fn columns(number: usize, line: &str) -> String {
    format!("{line}\n").repeat(number)
}

/// Numbers, each with sheets that are turned away with it.
pub fn refused() -> Vec<(u32, Vec<Vec<u8>>)> {
    vec![
        (1, alphabets()),
        (
            2,
            vec![b"ab\n\n".to_vec(), long(256), b"a\n\n0 0\n".to_vec()],
        ),
        (3, bytes_outside("ab\na?\n")),
        (4, texts("* a** () (a a) a||b ^a a$ \\a |a")),
        (5, texts("(((((((((((((((((a)))))))))))))))))")),
        (6, texts("a{0} a{2,1} a{256} a{ a{1,2,3} a{x}")),
        (7, texts("[b-a] [a [[:a] [a-b-b] [a-[:alpha:]]")),
        (8, texts("c ac [c] [^ab] \\. [[:digit:]]")),
        (9, texts("a{128} [ab]{64} (a{16}){8}")),
        (12, matrices()),
        (13, costs()),
        // 16,385 work words twice, then 16,640 and 16,575
        (
            15,
            vec![work(144, 56), work(112, 72), work(255, 32), work(64, 127)],
        ),
        (
            16,
            vec![
                b"ab\na\n".to_vec(),
                b"ab\naa\n0 0 0\n0 0 0\n".to_vec(),
                b"ab\na\n0 - 0\n".to_vec(),
            ],
        ),
        (19, texts("[[:a:]] [[::]] a[^[:Alpha:]] [[:x:]c] [[:a]b:]]")),
    ]
}

/// Texts over the alphabet `ab`, with spaces between.
fn texts(list: &str) -> Vec<Vec<u8>> {
    let sheet = |text| format!("ab\n{text}\n5 1 9\n").into_bytes();
    list.split(' ').map(sheet).collect()
}

fn alphabets() -> Vec<Vec<u8>> {
    let repeated = ["a!".repeat(48) + "\na\n", "a".repeat(96) + "\na*\n0 0\n"];
    let empty = [b"\na*\n".to_vec(), b"\n\n".to_vec(), b"\n\n0\n".to_vec()];
    let many = (32..=127).chain(*b"\na*\n").collect();
    let mut all = bytes_outside("?\na\n");
    all.extend(repeated.map(String::into_bytes));
    all.extend(empty);
    all.push(many);
    all
}

/// The sheet with each byte outside 32 to 126, except the newline, in the place of `?`.
fn bytes_outside(sheet: &str) -> Vec<Vec<u8>> {
    let (before, after) = sheet.split_once('?').unwrap();
    let outside = (0..=255).filter(|b| !(32..=126).contains(b) && *b != b'\n');
    outside
        .map(|b| [before.as_bytes(), &[b], after.as_bytes()].concat())
        .collect()
}

/// A repeated bracket, a text of this length, over the alphabet `a`.
fn long(length: usize) -> Vec<u8> {
    format!("a\n[{}]*\n0 0\n", "a".repeat(length - 3)).into_bytes()
}

/// Over 255 columns, and widths other than K + 1.
fn matrices() -> Vec<Vec<u8>> {
    let over = [256, 257, 5_461].map(|n| format!("ab\na*\n{}", columns(n, "0 1 1")));
    let narrow = ["0", "0 1", "0 1 1 1", "0 1 1 1 1"].map(|line| format!("ab\na*\n{line}\n"));
    let one = [1, 255, 256, 16_384].map(|n| format!("ab\na*\n{}", columns(n, "0")));
    let all = over.into_iter().chain(narrow).chain(one);
    all.map(String::into_bytes).collect()
}

fn costs() -> Vec<Vec<u8>> {
    let sheet = |cost| format!("a\na*\n0 0\n0 {cost}\n").into_bytes();
    [1_000_001, 1_000_002, 1_048_577, 9_999_999]
        .map(sheet)
        .to_vec()
}

/// This number of columns and of letters: (T + 1) × (2L + 1) work words.
fn work(number: usize, letters: usize) -> Vec<u8> {
    format!("a\na{{0,{letters}}}\n{}", columns(number, "0 1")).into_bytes()
}

#[test]
fn each_number() {
    for (number, sheets) in refused() {
        sheets.iter().for_each(|sheet| refuses(sheet, number));
    }
}

/// The limits that pass: 95 characters, 255 bytes of text, 127 letters, 16 groups, 255 columns.
#[test]
fn limits_that_pass() {
    let all: String = (' '..='~').collect();
    prints(format!("{all}\n.?\n").as_bytes(), "0\n\n\n");
    prints(format!("{}\n.?\n", "a".repeat(95)).as_bytes(), "0\n\n\n");
    prints(&long(255), "0\n\n0\n");
    prints(b"a\na{0,127}\n0 1\n", "0\n\n0\n");
    let nested = format!("a\n{}a{}*\n", "(".repeat(16), ")".repeat(16));
    prints(nested.as_bytes(), "0\n\n\n");
    // 16,383 work words twice, then 16,128 and 16,320
    for (number, letters) in [(128, 63), (126, 64), (255, 31), (63, 127)] {
        let blanks = vec!["0"; number].join(" ");
        prints(&work(number, letters), &format!("0\n\n{blanks}\n"));
    }
}

/// 127 letters, each followed by each: 16,257 words of form.
#[test]
fn largest_form() {
    let all: String = (' '..='~').collect();
    let none = format!("{all}\n(.|[ -?])*\n");
    prints(none.as_bytes(), "0\n\n\n");
    let column = format!("{}0", "1 ".repeat(95));
    let tildes = none + &columns(63, &column);
    let path = ["95"; 63].join(" ");
    prints(tildes.as_bytes(), &format!("0\n~\n{path}\n"));
}

/// The lowest number; among 4 to 8 and 19 the leftmost, before 9.
#[test]
fn first_number() {
    let refusals = [
        (1, "a\u{7f}\n\n0\n"),
        (1, "\n**\n0 0\n9999999 0\n"),
        (1, "a\u{1f}\n\u{1}\n"),
        (2, "ab\n\n0 9999999\n"),
        (3, "ab\n\u{1f}**c\n0\n"),
        (4, "ab\n**c\n0\n"),
        (6, "ab\na{0}c**\n1000001\n"),
        (7, "ab\n[b-a]c*\n0\n"),
        (7, "ab\n[[:x:]b-a]c*\n0\n"),
        (19, "ab\n[[:x:]]c*\n0\n"),
        (19, "ab\na{128}[[:x:]c]\n1000001\n"),
        (8, "ab\nc[[:x:]]\n0\n"),
        (8, "ab\nc**\n0\n"),
        (9, "ab\na{128}\n0\n"),
        (12, "ab\naa\n1000001\n"),
        (13, "ab\naa\n1000001 0 0\n"),
    ];
    for (number, sheet) in refusals {
        refuses(sheet.as_bytes(), number);
    }
    let both = format!("a\na{{32}}\n{}0 1000001\n", columns(254, "0 1"));
    refuses(both.as_bytes(), 13);
    let neither = format!("a\na{{127}}\n{}", columns(70, "0 1"));
    refuses(neither.as_bytes(), 15);
}
