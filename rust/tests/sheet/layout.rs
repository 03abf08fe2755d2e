//! Refusal 18: each kind of damage to a sheet, also where another number would apply.
use crate::refusals::{columns, refused};
use crate::{prints, refuses};

pub fn is_refused(input: &[u8]) {
    refuses(input, 18);
}

/// Column lines that make no sheet, with `|` between; a newline is written `/`.
pub fn are_refused(columns: &str) {
    for lines in columns.split('|') {
        is_refused(format!("ab/a*/{lines}").replace('/', "\n").as_bytes());
    }
}

#[test]
fn too_few_lines() {
    for input in ["", "a", "\n", "ab", "ab\n", "ab\na", "ab\na*", "5 1 9\n"] {
        is_refused(input.as_bytes());
    }
}

#[test]
fn no_final_newline() {
    are_refused("0|0 0 0|0 0 0/0|0 0 0/0 0 0");
}

/// First, between and last, where it is a doubled final newline.
#[test]
fn empty_column_lines() {
    are_refused("/|/0 0 0/|0 0 0//0 0 0/|0 0 0//|0 0 0///|//");
    for input in ["\n\n\n", "\n\n\n\n", "ab\n\n\n"] {
        is_refused(input.as_bytes());
    }
}

#[test]
fn numbers() {
    are_refused("00 0 0/|0 01 0/|0 0 00/|0 0 0000001/|0000000 0 0/|0 0 0/0 0 02/");
    are_refused("10000000 0 0/|0 0 99999999/|0 12345678 0/|00000000 0 0/");
    are_refused(
        "4294967296 0 0/|4294967301 0 0/|18446744073709551616 0 0/|18446744073709551621 0 0/",
    );
}

#[test]
fn spaces_and_signs() {
    are_refused("0  0 0/|0 0  0/|0 0 0 /| 0 0 0/| /|0 0 0/ /|   /");
    are_refused("0\t0 0/|0 0\t0/|0 0 0\t/|\t0 0 0/|0 0 0\r/|0\u{a0}0 0/");
    are_refused("-0 0 0/|0 -1 0/|-1 0 0/|0 +1 0/|0 1. 0/|0 1e1 0/|0 x 0/|0x1 0 0/|0,0,0/|0 0 0\0/|0 0 ²/|٣ 0 0/");
}

#[test]
fn unequal_columns() {
    are_refused("0 0 0/0 0/|0 0/0 0 0/|0 0 0/0 0 0/0 0 0 0/|0/0 0 0/|0 0 0/0/0 0 0/");
}

/// Every byte except digits in the place of a digit, of a space and of the final newline. In the place of a digit `-` bars the label.
#[test]
fn every_other_byte() {
    let sheet = b"ab\na*\n7 7 7\n7 7 7\n";
    let with = |place: usize, byte: u8| {
        let mut changed = *sheet;
        changed[place] = byte;
        changed
    };
    for place in [6, 7, 8, 12, 13, 17] {
        let barred = |byte: u8| byte == b'-' && sheet[place] == b'7';
        let other = |byte: &u8| *byte != sheet[place] && !byte.is_ascii_digit() && !barred(*byte);
        for byte in (0..=255).filter(other) {
            is_refused(&with(place, byte));
        }
    }
    prints(&with(6, b'-'), "14\na\n1 0\n");
    prints(&with(8, b'-'), "14\n\n0 0\n");
    prints(&with(12, b'-'), "14\na\n0 1\n");
}

/// A sheet of this number of equal columns for the first K characters.
fn wide(k: usize, number: usize) -> Vec<u8> {
    let alphabet: String = (' '..='~').take(k).collect();
    let column = vec!["0"; k + 1].join(" ");
    format!("{alphabet}\n!?\n{}", columns(number, &column)).into_bytes()
}

/// 16,384 costs are a sheet, whatever Read says of it; with one more it is none.
#[test]
fn too_many_costs() {
    for (k, number) in [(63, 255), (95, 170)] {
        let blanks = vec!["0"; number].join(" ");
        prints(&wide(k, number), &format!("0\n\n{blanks}\n"));
    }
    refuses(&wide(63, 256), 12);
    refuses(&wide(63, 257), 18);
    refuses(&wide(95, 171), 18);
    for (number, refusal) in [(16_384, 12), (16_385, 18)] {
        let one_each = format!("a\na*\n{}", columns(number, "0"));
        refuses(one_each.as_bytes(), refusal);
        let one_column = format!("a\na*\n{}\n", vec!["0"; number].join(" "));
        refuses(one_column.as_bytes(), refusal);
    }
}

/// 18 comes first: each sheet that is turned away with another number, damaged.
#[test]
fn before_every_number() {
    for (_, sheets) in refused() {
        let few = sheets.iter().take(4).chain(sheets.last());
        for sheet in few {
            is_refused(&sheet[..sheet.len() - 1]);
            for line in ["\n", "00\n", "10000000\n", "1 \n", "-1\n", "1\t1\n", "0"] {
                is_refused(&[sheet, line.as_bytes()].concat());
            }
            is_refused(&[&sheet[..], b"0\n0 0\n"].concat());
        }
    }
    let alone = |line: &[u8]| is_refused(&[line, b"\n"].concat());
    alone(b"aa");
    alone(&[200; 300]);
}
