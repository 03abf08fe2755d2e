//! Document 01's lines for Read and Decode, the forms written by hand, and the limits.
use kavurehy::{collapse, decode, judge, read, spread, work_words};
use kavurehy::{Matrix, Reading, Refusal, TextReading};

/// Over the alphabet `ab`.
const AB: &[u32] = &[0x10020002, 0x20000101, 0x20000202, 0x30000102];
const AA: &[u32] = &[0x10020002, 0x20000101, 0x20000201, 0x30000102];
const A: &[u32] = &[0x10020001, 0x20000301];
const A_STAR: &[u32] = &[0x10020101, 0x20000301, 0x30000101];
const A_OR_B: &[u32] = &[0x10020002, 0x20000301, 0x20000302];
const ANY: &[u32] = &[
    0x10020102, 0x20000301, 0x20000302, 0x30000101, 0x30000102, 0x30000201, 0x30000202,
];
/// `ab*`, as document 01 gives it.
const A_B_STAR: &[u32] = &[0x10020002, 0x20000301, 0x20000202, 0x30000102, 0x30000202];

/// What Read says of a line with memory for four columns: path, word and price, or the number of the refusal. Decode must say
/// the same of the form.
fn line<const N: usize>(
    text: &str,
    form: &[u32],
    columns: [[u32; 3]; N],
) -> Result<(Vec<u8>, String, u32), u32> {
    let costs = columns.concat();
    let matrix = Matrix {
        costs: &costs,
        width: 3,
        columns: N,
    };
    let (mut path, mut labels, mut work) = ([9; 4], [9; 4], [9; 25]);
    let decoded = decode(form, matrix, &mut path, &mut labels, &mut work);

    let (mut words, mut again, mut word) = ([9; 7], [9; 4], [9; 4]);
    let text = text.as_bytes();
    let answer = read(
        b"ab", text, matrix, &mut words, &mut again, &mut word, &mut work,
    );
    assert_eq!(words[..form.len()], *form);
    assert_eq!(path, again);
    assert_eq!(decoded.err(), answer.err());
    let price = answer.map_err(Refusal::number)?.price;
    let Reading { length, .. } = decoded.unwrap();
    let form = form.len();
    assert_eq!(decoded, Ok(Reading { price, length }));
    assert_eq!(
        answer,
        Ok(TextReading {
            price,
            length,
            form
        })
    );
    let spelt: Vec<u8> = labels[..length].iter().map(|x| x + b'a' - 1).collect();
    assert_eq!(word[..length], spelt);
    Ok((path[..N].to_vec(), String::from_utf8(spelt).unwrap(), price))
}

#[test]
fn lines_of_the_document() {
    let says = |path: &[u8], word: &str, price: u32| Ok((path.to_vec(), word.to_string(), price));
    let ab = [[5, 1, 9], [5, 9, 2]];
    assert_eq!(line("ab", AB, ab), says(&[1, 2], "ab", 3));
    assert_eq!(line("aa", AA, [[5, 1, 9]; 3]), says(&[1, 0, 1], "aa", 7));
    assert_eq!(line("aa", AA, [[5, 1, 9]; 2]), Err(16));
    assert_eq!(line("a*", A_STAR, []), says(&[], "", 0));
    assert_eq!(line("a", A, []), Err(16));
    assert_eq!(line("a|b", A_OR_B, [[0, 4, 4]]), says(&[1], "a", 4));
    assert_eq!(line("a", A, [[0, 0, 0]; 2]), says(&[0, 1], "a", 0));
    let four = [[1, 0, 9]; 4];
    assert_eq!(line("a{2}", AA, four), says(&[1, 0, 1, 1], "aa", 1));
    assert_eq!(line("(a|b)*", ANY, [[3, 1, 1]; 2]), says(&[1, 1], "a", 2));
    assert_eq!(line("ab*", A_B_STAR, ab), says(&[1, 2], "ab", 3));
    assert_eq!(judge(A_B_STAR, &[1, 2, 2]), Ok(true));
    assert_eq!(judge(A_B_STAR, &[2]), Ok(false));
}

/// One of a, b and c: the two cheapest prefixes of each arc do not suffice here.
#[test]
fn exact_where_two_prefixes_fail() {
    let form = [0x10030003, 0x20000301, 0x20000302, 0x20000303];
    let costs = [0, 9, 9, 9, 6, 3, 9, 2, 2, 1, 0, 3, 3, 4, 0, 2];
    let matrix = Matrix {
        costs: &costs,
        width: 4,
        columns: 4,
    };
    let (mut path, mut word, mut work) = ([9; 4], [9; 4], [9; 35]);
    let reading = decode(&form, matrix, &mut path, &mut word, &mut work);
    assert_eq!(
        reading,
        Ok(Reading {
            price: 6,
            length: 1
        })
    );
    assert_eq!(path, [0, 0, 2, 2]);
    assert_eq!(word, [2, 9, 9, 9]);
}

#[test]
fn limits() {
    let with = |cost: u32, words: usize| {
        let costs = [cost, 1, 9, 5, 1, 9, 5, 1, 9];
        let matrix = Matrix {
            costs: &costs,
            width: 3,
            columns: 3,
        };
        let (mut path, mut word, mut work) = ([9; 3], [9; 3], vec![9; words]);
        let answer = decode(AA, matrix, &mut path, &mut word, &mut work);
        let mut form = [9; 4];
        let from_text = read(
            b"ab", b"aa", matrix, &mut form, &mut path, &mut word, &mut work,
        );
        assert_eq!(from_text.map(|r| r.price), answer.map(|r| r.price));
        answer
    };
    assert_eq!(work_words(3, 2), 20);
    assert_eq!(
        with(1_000_000, 20),
        Ok(Reading {
            price: 7,
            length: 2
        })
    );
    assert_eq!(with(1_000_001, 20), Err(Refusal::Cost));
    assert_eq!(with(5, 19), Err(Refusal::Work));
}

/// 255 columns at 1,000,000 each, and 127 letters, each followed by each.
#[test]
fn largest() {
    let mut form = vec![0x1002007f];
    form.extend((1..=127).map(|i| 0x20000300 | (i % 2 + 1)));
    form.extend((1..=127).flat_map(|i| (1..=127).map(move |j| 0x30000000 | i << 8 | j)));
    let costs = vec![1_000_000; 255 * 3];
    let matrix = Matrix {
        costs: &costs,
        width: 3,
        columns: 255,
    };
    let (mut path, mut word) = ([9; 255], [9; 255]);
    let mut work = vec![9; work_words(255, 127)];
    let reading = decode(&form, matrix, &mut path, &mut word, &mut work);
    assert_eq!(
        reading,
        Ok(Reading {
            price: 255_000_000,
            length: 1
        })
    );
    let mut first = [0; 255];
    first[254] = 1;
    assert_eq!(path, first);
}

#[test]
fn collapse_and_spread() {
    let (mut word, mut path) = ([9; 6], [9; 6]);
    assert_eq!(collapse(2, &[1, 1, 0, 1, 2, 0], &mut word), Ok(3));
    assert_eq!(word, [1, 1, 2, 9, 9, 9]);
    assert_eq!(spread(2, &[1, 1, 2], &mut path), Ok(4));
    assert_eq!(path, [1, 0, 1, 2, 9, 9]);
    assert_eq!(
        spread(2, &[1, 1, 2], &mut path[..3]),
        Err(Refusal::OutputMemory)
    );
    assert_eq!(collapse(1, &[2], &mut word), Err(Refusal::Label));
    assert_eq!(collapse(95, &[0; 256], &mut [0; 256]), Err(Refusal::Label));
}
