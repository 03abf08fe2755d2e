//! Read, from the text to the path: an exhaustive search on small matrices, another exact method on longer lines, each refusal
//! in its place.
use crate::read_call::{hold, hold_long, hold_small};
use crate::LEAST;
use model::call::Call;
use model::collapse;
use model::input::random;
use model::input::texts::many_letters;
use model::input::writer::expression;
use model::matrix::Line;
use model::opening::compile;
use model::ranked::ranked;
use model::search::tied;
use model::tally::Tally;
use model::words::is_word;

/// The numbers that Read answers.
const REFUSALS: [usize; 17] = [0, 1, 2, 3, 4, 5, 6, 7, 8, 9, 10, 12, 13, 14, 15, 16, 19];

#[test]
fn small_reads() {
    let mut r = random("small_reads");
    let mut tally = Tally::default();
    let (mut ties, mut parted, mut several) = (0, 0, 0);
    for _ in 0..150_000 {
        let mut call = Call::small(&mut r);
        if let Ok(best) = hold_small(&call, &mut tally) {
            let (tree, form) = compile(&call.alphabet, &call.text).unwrap();
            let costs = &call.line.costs;
            let is_word = |w: &[u8]| is_word(&tree, &call.characters(w));
            ties += usize::from(tied(form.k, costs, &best, is_word));
            let word = collapse(&best.path);
            parted += usize::from(word.windows(2).any(|pair| pair[0] == pair[1]));
            several += usize::from(word.len() > 1);
        }
        for _ in 0..r.from(1, 3) {
            call.spoil(&mut r);
        }
        let _ = hold_small(&call, &mut tally);
    }
    tally.demand("read", LEAST, &REFUSALS);
    // lines with several best lists, lines whose best word needs a blank between equal labels, words of several letters
    assert!(
        ties >= LEAST && parted >= LEAST && several >= LEAST,
        "{ties} {parted} {several}"
    );
}

/// Up to 24 columns and 12 characters.
#[test]
fn medium_reads() {
    let mut r = random("medium_reads");
    let mut tally = Tally::default();
    let mut left_out = 0;
    for _ in 0..20_000 {
        let call = Call::proper(&mut r, 12, 24, |r, alphabet| expression(r, alphabet, 5).0);
        left_out += usize::from(hold_long(&call, &mut tally, 200).is_none());
    }
    tally.demand("read of medium lines", LEAST, &[0, 10, 16]);
    assert!(left_out < 2_000, "{left_out} lines were left out");
}

/// Up to 255 columns, 127 letters and 95 characters, and all three seen.
#[test]
fn long_reads() {
    let mut r = random("long_reads");
    let mut tally = Tally::default();
    let mut left_out = 0;
    let mut most = [0; 3];
    for n in 0..1_200 {
        let (characters, size) = [(95, 12), (5, 10), (40, 8), (95, 0)][n % 4];
        let call = Call::proper(&mut r, characters, 255, |r, alphabet| match size {
            0 => many_letters(r, alphabet),
            _ => expression(r, alphabet, size).0,
        });
        match hold_long(&call, &mut tally, 1_000) {
            None => left_out += 1,
            Some(Err(_)) => {}
            Some(Ok(best)) => {
                let form = compile(&call.alphabet, &call.text).unwrap().1;
                let seen = [best.path.len(), form.letters.len(), form.k.into()];
                most = std::array::from_fn(|i| most[i].max(seen[i]));
            }
        }
    }
    tally.demand("read of long lines", 20, &[0, 10, 16]);
    assert_eq!(most, [255, 127, 95]);
    assert!(left_out < 120, "{left_out} lines were left out");
}

#[test]
fn too_many_columns() {
    let mut tally = Tally::default();
    let mut r = random("too_many_columns");
    for columns in [255, 256, 257, 1000] {
        let call = Call {
            alphabet: b"ab".to_vec(),
            text: b"(a|b)*".to_vec(),
            form: 7,
            line: Line::unbarred(&mut r, 2, 2, columns),
        };
        let answer = hold(&call, &mut tally, |_, form| ranked(form, &call.line.costs));
        assert_eq!(answer.err(), (columns > 255).then_some(12));
    }
}
