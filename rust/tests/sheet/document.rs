//! Document 01's example and its lines to try, as sheets, and lines with classes and with repeated characters.
use crate::{prints, refuses};

/// Over the alphabet `ab`: this text and these columns print these lines. Lines are written with `/` between.
pub fn line(text: &str, columns: &str, lines: &str) {
    let sheet = format!("ab/{text}/{columns}").replace('/', "\n");
    prints(sheet.as_bytes(), &lines.replace('/', "\n"));
}

#[test]
fn the_example() {
    prints(b"ab\naa\n5 1 9\n5 1 9\n5 1 9\n", "7\naa\n1 0 1\n");
}

#[test]
fn lines_to_try() {
    line("ab", "5 1 9/5 9 2/", "3/ab/1 2/");
    line("aa", "5 1 9/5 1 9/5 1 9/", "7/aa/1 0 1/");
    line("aa", "5 1 9/5 1 9/", "refused 16/");
    line("a*", "", "0///");
    line("a", "", "refused 16/");
    line("a|b", "0 4 4/", "4/a/1/");
    line("a", "0 0 0/0 0 0/", "0/a/0 1/");
    line("a{2}", "1 0 9/1 0 9/1 0 9/1 0 9/", "1/aa/1 0 1 1/");
    line("(a|b)*", "3 1 1/3 1 1/", "2/a/1 1/");
    line("ab*", "5 1 9/5 9 2/", "3/ab/1 2/");
    line("ab*", "5 1 9/5 9 2/9 9 3/9 1 9/", "15/ab/1 2 2 0/");
}

#[test]
fn texts_to_try() {
    line("a{127}", "", "refused 16/");
    line("a{128}", "", "refused 9/");
    line("a{0}", "", "refused 6/");
    line("a{2,1}", "", "refused 6/");
    line("a*?", "", "0///");
    line("a**", "", "refused 4/");
    line("[b-a]", "", "refused 7/");
    line("c", "", "refused 8/");
}

#[test]
fn costs_to_try() {
    line("a", "0 1000000 0/", "1000000/a/1/");
    line("a", "0 1000001 0/", "refused 13/");
    line("a", "1000001 0 0/", "refused 13/");
    line("a", "0 0 9999999/", "refused 13/");
}

/// The traps: blanks deleted before merging, equal labels without a blank, ties by walk, ranges by label.
#[test]
fn traps() {
    line("a", "9 0 9/0 9 9/9 0 9/", "9/a/0 0 1/");
    line("aa", "9 0 9/9 0 9/9 0 9/", "9/aa/1 0 1/");
    line("ba|ab", "0 1 1/0 1 1/", "2/ab/1 2/");
    line("b?a|ab?", "0 1 1/0 0 0/", "0/a/0 1/");
    prints(b"cba\n[a-c]\n9 0 9 9\n", "0\nc\n1\n");
    refuses(b"cba\n[c-a]\n9 0 9 9\n", 7);
}

/// Classes, as document 02 adds them.
#[test]
fn classes() {
    line("[[:alpha:]]{2}", "5 1 9/5 9 2/", "3/ab/1 2/");
    line("[^a[:digit:]]", "5 1 9/", "9/b/2/");
    prints(
        b"7 -+\n[[:digit:]-]+\n9 0 0 9 0\n9 9 9 0 9\n",
        "0\n7-\n1 3\n",
    );
    refuses(b"7 -+\n[[:digit:]-+]\n", 7);
    refuses(b"7 -+\n[[:digits:]]\n", 19);
    refuses(b"7 -+\n[[:alpha:]]\n", 8);
}

/// An alphabet that lists a character more than once, as document 02 allows it: the path tells which of its labels was read.
#[test]
fn repeated_characters() {
    prints(b"77\n77\n0 1 5\n0 5 1\n", "2\n77\n1 2\n");
    prints(b"77\n77\n0 1 5\n0 1 5\n", "6\n77\n1 2\n");
    prints(b"77\n7\n0 1 5\n0 5 1\n", "1\n7\n0 2\n");
    prints(b"77\n77\n0 1 -\n0 1 -\n0 1 -\n", "2\n77\n1 0 1\n");
    prints(b"7a7\n[^7]\n0 0 5 0\n", "5\na\n2\n");
    prints(
        b"a1aa\na*\n9 9 9 9 0\n9 0 9 9 9\n9 9 9 0 9\n",
        "0\naaa\n4 1 3\n",
    );
    refuses(b"77\n77\n0 1 -\n0 1 -\n", 16);
    refuses(b"77\n[^7]\n0 1 5\n", 8);
    refuses(b"777\n7{43}\n", 9);
    refuses(b"77\n7\n0 1\n", 12);
}

/// No column line: the width counts as K + 1 whatever K is, and there are three lines although word and path are empty.
#[test]
fn no_column_line() {
    let all: Vec<u8> = (32..=126).collect();
    for k in [1, 2, 40, 95] {
        for text in [".*", ".?", ".{0,1}", "(.|..)?"] {
            if k * text.matches('.').count() <= 127 {
                let sheet = [&all[..k], b"\n", text.as_bytes(), b"\n"].concat();
                prints(&sheet, "0\n\n\n");
            }
        }
        refuses(&[&all[..k], b"\n.\n"].concat(), 16);
    }
}

/// Empty word, but not an empty path: the second line alone is empty.
#[test]
fn empty_word() {
    line("a*", "1 2 0/", "1//0/");
    line("b?", "0 0 0/0 0 0/", "0//0 0/");
}

/// 255 columns at 1,000,000 each; a word of 255 characters; labels of two digits.
#[test]
fn largest() {
    let dear = format!("a\na*\n{}", "1000000 1000000\n".repeat(255));
    let blanks = ["0"; 255].join(" ");
    prints(dear.as_bytes(), &format!("255000000\n\n{blanks}\n"));

    let letters = format!("ab\n(ab)*a\n{}9 0 9\n", "9 0 9\n9 9 0\n".repeat(127));
    let word = format!("{}a", "ab".repeat(127));
    let path = format!("{}1", "1 2 ".repeat(127));
    prints(letters.as_bytes(), &format!("0\n{word}\n{path}\n"));

    let all: String = (' '..='~').collect();
    let column = format!("{}0\n", "1 ".repeat(95));
    let tildes = format!("{all}\n~+\n{}", column.repeat(170));
    let path = ["95"; 170].join(" ");
    prints(tildes.as_bytes(), &format!("0\n~\n{path}\n"));
}
