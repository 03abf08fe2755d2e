//! Barred labels in sheets: a lone `-` in the place of a cost.
use crate::document::line;
use crate::layout::{are_refused, is_refused};
use crate::refusals::columns;
use crate::{prints, refuses};

/// First, between and last in a line, in the first line and in the last; the path avoids it.
#[test]
fn in_every_place() {
    line("(a|b)?", "- 2 3/", "2/a/1/");
    line("(a|b)?", "1 - 0/", "0/b/2/");
    line("(a|b)?", "2 1 -/", "1/a/1/");
    line("(a|b)?", "- - 3/", "3/b/2/");
    line("(a|b)?", "- 2 -/", "2/a/1/");
    line("(a|b)?", "1 - -/", "1//0/");
    line("ab*", "- 1 9/5 9 2/", "3/ab/1 2/");
    line("ab*", "5 1 9/5 9 -/", "6/a/1 0/");
    line("ab*", "5 - 9/5 9 2/", "14/a/0 1/");
    line("ab", "- 1 -/- - 2/", "3/ab/1 2/");
    line("a*", "- 1000000 0/1000000 - 0/", "2000000/a/1 0/");
}

/// No reading, although there are columns enough: a label of each word, a blank between equal labels, a whole column.
#[test]
fn no_reading() {
    for (text, columns) in [
        ("a", "0 - 0/"),
        ("ab", "5 1 9/5 9 -/"),
        ("a+", "0 - 0/0 - 0/0 - 0/"),
        ("aa", "5 1 9/- 1 9/5 1 9/"),
        ("a*", "- - -/"),
        ("(a|b)*", "0 0 0/- - -/"),
        ("(a|b)*", "0 0 0/- - -/0 0 0/"),
        ("(a|b)*", "- - -/- - -/- - -/"),
        ("b*", "0 0 0/- 0 -/"),
    ] {
        line(text, columns, "refused 16/");
    }
}

/// Only in the place of a cost: in the first two lines it is a character, and a sign of brackets.
#[test]
fn as_a_character() {
    prints(b"-\n-\n- 5\n", "5\n-\n1\n");
    prints(b"-\n-*\n5 -\n", "5\n\n0\n");
    refuses(b"-\n-\n5 -\n", 16);
    prints(b"a-b\n[a-b]\n0 - 0 7\n", "7\nb\n3\n");
}

/// Each path is barred except one of 255 columns at 1,000,000 each.
#[test]
fn one_path() {
    let sheet = format!(
        "ab\n(ab)*a\n{}- 1000000 -\n",
        "- 1000000 -\n- - 1000000\n".repeat(127)
    );
    let word = format!("{}a", "ab".repeat(127));
    let path = format!("{}1", "1 2 ".repeat(127));
    prints(sheet.as_bytes(), &format!("255000000\n{word}\n{path}\n"));
}

/// Items that are no cost: signs, the barred number in digits, numbers with the same low 32 bits.
#[test]
fn no_items() {
    let signs = "-0 0- -- -5 5- -1 --- -+ +- + _ ~ − – -. -\t -\r -\0";
    let digits = "4294967295 -4294967295 4294967295- 04294967295 4294967294 \
        8589934591 18446744069414584319 18446744073709551615";
    for item in signs.split(' ').chain(digits.split(' ')) {
        are_refused(&format!(
            "{item} 0 0/|0 {item} 0/|0 0 {item}/|- - -/- - {item}/|{item} - -/"
        ));
    }
}

/// Spaces, newlines and unequal columns, as with numbers.
#[test]
fn layout() {
    are_refused("-  - -/|- -  -/|- - - /| - - -/|-\t- -/|---/|- --/|-,-,-/|- - -\r/");
    are_refused("-|- - -|0 0 0/- - -|- - -/-|- - -//|/- - -/|- - -//- - -/");
    are_refused("- - -/- -/|- -/- - -/|0 0 0/- - - -/|-/0 0 0/|0 0 0/-/");
    is_refused(b"-");
    is_refused(b"-\n");
    is_refused(b"- -\n");
    is_refused(b"-\n-");
    is_refused(b"- -\n- -\n-");
}

/// The refusals that come before 16.
#[test]
fn before_no_reading() {
    refuses(b"a\x7f\na\n- - -\n", 1);
    refuses(b"ab\nc\n- - -\n", 8);
    for narrow in ["-", "- -", "- - - -"] {
        refuses(format!("ab\na\n{narrow}\n").as_bytes(), 12);
    }
    refuses(format!("a\na\n{}", columns(256, "- -")).as_bytes(), 12);
    refuses(b"ab\na\n- 1000001 -\n", 13);
    refuses(b"ab\na\n- 0 -\n- - 9999999\n", 13);
    refuses(
        format!("a\na{{127}}\n{}", columns(64, "- -")).as_bytes(),
        15,
    );
    refuses(format!("a\na*\n{}", columns(255, "- -")).as_bytes(), 16);
}

/// 16,384 costs are a sheet, barred ones among them; with one more it is none.
#[test]
fn counted_as_costs() {
    let alphabet: String = (' '..='~').take(63).collect();
    let column = format!("0{}", " -".repeat(63));
    let wide = |number| format!("{alphabet}\n!?\n{}", columns(number, &column));
    let blanks = ["0"; 255].join(" ");
    prints(wide(255).as_bytes(), &format!("0\n\n{blanks}\n"));
    refuses(wide(256).as_bytes(), 12);
    refuses(wide(257).as_bytes(), 18);
    for (number, refusal) in [(16_384, 12), (16_385, 18)] {
        refuses(
            format!("a\na*\n{}", columns(number, "-")).as_bytes(),
            refusal,
        );
        let one_column = vec!["-"; number].join(" ");
        refuses(format!("a\na*\n{one_column}\n").as_bytes(), refusal);
    }
}
