//! Compare by hand: every set of faults, lines without columns, the largest differences, one list as both forms.
use crate::compare_call::{hold_long, hold_small};
use crate::matrix::matrix;
use model::compare::Call;
use model::matrix::{need, Line, BARRED};
use model::tally::Tally;

/// `a`, `b` and `ab` over two characters, `a?` and `aa` over any number of them.
const A: [u32; 2] = [0x10020001, 0x20000301];
const B: [u32; 2] = [0x10020001, 0x20000302];
const AB: [u32; 4] = [0x10020002, 0x20000101, 0x20000202, 0x30000102];

fn optional_a(k: u32) -> Vec<u32> {
    vec![0x10000101 | k << 16, 0x20000301]
}

fn two_a(k: u32) -> Vec<u32> {
    vec![0x10000002 | k << 16, 0x20000101, 0x20000201, 0x30000102]
}

/// A call with this many work words.
fn call(first: &[u32], second: &[u32], costs: Vec<u32>, width: usize, work: usize) -> Call {
    Call {
        first: first.to_vec(),
        second: second.to_vec(),
        line: Line {
            columns: costs.len() / width.max(1),
            costs,
            width,
            path: 0,
            word: 0,
            work,
        },
    }
}

type Spoil = fn(&mut Call);

/// Ways to get each refusal on a call of `a` and `ab`, which need 12 and 20 work words. None undoes one of an earlier refusal.
const SPOILS: [(u32, &[Spoil]); 5] = [
    (
        16,
        &[
            |call| call.first[1] ^= 0x200,
            |call| call.second[2] ^= 0x200,
            |call| call.line.costs.fill(BARRED),
        ],
    ),
    (
        15,
        &[
            |call| call.line.work = 19,
            |call| call.line.work = 12,
            |call| call.line.work = 0,
        ],
    ),
    (
        13,
        &[
            |call| call.line.costs[0] = 1_000_001,
            |call| call.line.costs[8] = BARRED - 1,
        ],
    ),
    (
        12,
        &[
            |call| call.line.costs.push(0),
            |call| call.line.columns = 256,
            |call| call.line.width = 4,
            |call| call.first[0] += 1 << 16,
            |call| call.second[0] += 1 << 16,
        ],
    ),
    (
        11,
        &[
            |call| call.first.push(0),
            |call| call.second.clear(),
            |call| {
                call.first[0] |= 1 << 31;
                call.second[1] = 0x20000000;
            },
        ],
    ),
];

/// Holds the call with none or one of the ways to get each refusal: the last of them is the answer.
fn hold_spoilt(
    call: &Call,
    spoils: &[(u32, &[Spoil])],
    expected: Result<i32, u32>,
    tally: &mut Tally,
) {
    let Some(((refusal, ways), later)) = spoils.split_first() else {
        assert_eq!(hold_small(call, tally), expected, "{call:x?}");
        return;
    };
    hold_spoilt(call, later, expected, tally);
    for spoil in *ways {
        let mut spoilt = call.clone();
        spoil(&mut spoilt);
        hold_spoilt(&spoilt, later, Err(*refusal), tally);
    }
}

/// Of several refusals the lowest is given: every set of them, each of them in several ways.
#[test]
fn every_set_of_faults() {
    let mut tally = Tally::default();
    let costs = vec![5, 1, 9, 5, 9, 2, 5, 9, 2];
    hold_spoilt(&call(&A, &AB, costs, 3, 20), &SPOILS, Ok(6), &mut tally);
    tally.demand("compare with faults", 1, &[0, 11, 12, 13, 15, 16]);
}

/// Without columns only the empty word can be read, for nothing; the forms must still have the K of the width, and work memory
/// is needed.
#[test]
fn no_columns() {
    let mut tally = Tally::default();
    let mut held = |first: &[u32], second: &[u32], width, work| {
        hold_small(&call(first, second, Vec::new(), width, work), &mut tally)
    };
    for width in 0..=6 {
        for (k, other) in [(1, 1), (2, 2), (2, 3), (3, 5)] {
            let fits = k == other && width == k as usize + 1;
            let answer = |fitting| if fits { fitting } else { Err(12) };
            let (optional, two) = (optional_a(other), two_a(other));
            assert_eq!(held(&optional_a(k), &optional, width, 3), answer(Ok(0)));
            assert_eq!(held(&optional_a(k), &optional, width, 2), answer(Err(15)));
            assert_eq!(held(&optional_a(k), &two, width, 5), answer(Err(16)));
            assert_eq!(held(&optional_a(k), &two, width, 4), answer(Err(15)));
            assert_eq!(held(&two_a(k), &two, width, 5), answer(Err(16)));
        }
    }
    tally.demand("compare without columns", 2, &[0, 12, 15, 16]);
}

/// One form must pay the most in each column, the other pays nothing.
#[test]
fn largest_differences() {
    let mut tally = Tally::default();
    for columns in [1, 2, 254, 255] {
        let costs = [1_000_000, 1_000_000, 0].repeat(columns);
        let dear = call(&A, &B, costs, 3, need(columns, 1));
        let price = columns as i32 * 1_000_000;
        assert_eq!(hold_long(&dear, &mut tally), Ok(price));
        assert_eq!(hold_long(&dear.exchanged(), &mut tally), Ok(-price));
    }
}

/// Both forms may be the same list in memory, or parts of one list.
#[test]
fn one_list_as_both() {
    let forms = [A, B].concat();
    let costs = [7, 1, 3, 7, 1, 3];
    let line = call(&A, &B, costs.to_vec(), 3, 9).line;
    let mut work = vec![0; line.work];
    let mut difference = |first, second| kavurehy::compare(first, second, matrix(&line), &mut work);
    assert_eq!(difference(&forms[..2], &forms[..2]), Ok(0));
    assert_eq!(difference(&forms[..2], &forms[2..]), Ok(-4));
    assert_eq!(difference(&forms[2..], &forms[..2]), Ok(4));
}
