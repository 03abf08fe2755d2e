//! Inputs up to and over 65,535 bytes, written whole and in chunks.
use crate::process::{answer, answer_chunked};
use model::sheet;
use std::time::Duration;

/// A sheet of exactly this many bytes, 3 to 5 for each cost: 170 columns for the 95 characters.
fn sheet_of(bytes: usize) -> Vec<u8> {
    let mut sheet: Vec<u8> = (32..=126).chain(*b"\n[a-e]*z?[ !]\n").collect();
    let mut costs = 170 * 96;
    let mut place = 0u32;
    while costs > 0 {
        let left = bytes - sheet.len();
        let digits = (left / costs - 1) as u32;
        place = place * 29 % 997 + 1;
        let cost = 10u32.pow(digits - 1) + place % 90;
        sheet.extend(cost.to_string().bytes());
        costs -= 1;
        sheet.push(if costs % 96 == 0 { b'\n' } else { b' ' });
    }
    assert_eq!(sheet.len(), bytes);
    sheet
}

/// Whole, and in chunks with pauses: the same answer, that of the model.
fn holds(input: &[u8], number: u32) {
    let (by_model, printed) = sheet::answer(input);
    assert_eq!(by_model, number, "model, {} bytes", input.len());
    let printed = String::from_utf8(printed).unwrap();
    assert_eq!(answer(input), printed, "{} bytes", input.len());
    for (size, pause) in [
        (1_000, 300),
        (4_096, 2_000),
        (20_000, 9_000),
        (65_535, 9_000),
    ] {
        let chunked = answer_chunked(input, size, Duration::from_micros(pause));
        assert_eq!(chunked, printed, "{} bytes by {size}", input.len());
    }
}

#[test]
fn none_and_one() {
    holds(b"", 18);
    for byte in [b'\n', b'a', b'0', 0, 255] {
        holds(&[byte], 18);
    }
    holds(b"\n\n", 1);
}

#[test]
fn the_most() {
    for bytes in [60_000, 65_534, 65_535] {
        holds(&sheet_of(bytes), 0);
    }
    let mut open = sheet_of(65_535);
    open[65_534] = b'0';
    holds(&open, 18);
    holds(&[b'a'; 65_535], 18);
    holds(&[b'\n'; 65_535], 18);
}

/// Over the limit, also where the first 65,535 or 65,536 bytes are a sheet.
#[test]
fn too_many() {
    for bytes in [65_536, 70_000] {
        holds(&sheet_of(bytes), 18);
        for byte in [b'a', b'\n', b'0', 0] {
            holds(&vec![byte; bytes], 18);
        }
        let mut sheet = sheet_of(65_535);
        sheet.resize(bytes, b'\n');
        holds(&sheet, 18);
    }
    let mut sheet = sheet_of(65_536);
    sheet.resize(70_000, b'0');
    holds(&sheet, 18);
    let text = [b"a\n".to_vec(), vec![b'a'; 69_997], b"\n".to_vec()].concat();
    holds(&text, 18);
}

/// More than a thousand pieces, the last of one byte.
#[test]
fn many_pieces() {
    for (bytes, piece, number) in [(65_535, 62, 0), (65_536, 51, 18)] {
        assert_eq!(bytes % piece, 1);
        let input = sheet_of(bytes);
        let (by_model, printed) = sheet::answer(&input);
        assert_eq!(by_model, number, "model, {bytes} bytes");
        let chunked = answer_chunked(&input, piece, Duration::from_micros(100));
        assert_eq!(chunked.as_bytes(), printed, "{bytes} bytes by {piece}");
    }
}

/// Sheets with a long line: refusals 1 and 2.
#[test]
fn long_lines() {
    let alphabet = [vec![b'a'; 65_532], b"\na\n".to_vec()].concat();
    holds(&alphabet, 1);
    let text = [b"a\n".to_vec(), vec![b'a'; 65_532], b"\n".to_vec()].concat();
    holds(&text, 2);
}

/// Byte by byte.
#[test]
fn single_bytes() {
    let pause = Duration::from_micros(500);
    let example = b"ab\naa\n5 1 9\n5 1 9\n5 1 9\n";
    assert_eq!(answer_chunked(example, 1, pause), "7\naa\n1 0 1\n");
    assert_eq!(answer_chunked(&example[..23], 1, pause), "refused 18\n");
    assert_eq!(answer_chunked(b"ab\na*\n", 1, pause), "0\n\n\n");
}
