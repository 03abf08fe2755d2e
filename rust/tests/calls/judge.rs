//! Judge: random forms, words along their walks and beside them, damaged forms, forms with a bit flipped.
use crate::forms::{damaged, flipped, random_form, KINDS};
use crate::LEAST;
use kavurehy::{raw, Refusal};
use model::bad_labels;
use model::form::Form;
use model::input::{random, Random};
use model::tally::Tally;

const CASES: usize = 60_000;

/// What a random walk spells, begun on a first letter where there is one, and sometimes spoilt.
fn word(r: &mut Random, form: &Form, length: usize) -> Vec<u8> {
    let l = form.letters.len() as u8;
    let firsts: Vec<u8> = (1..=l).filter(|&i| form.letter(i).first).collect();
    let mut at = if firsts.is_empty() {
        1
    } else {
        *r.pick(&firsts)
    };
    let mut word = Vec::new();
    while word.len() < length {
        word.push(form.letter(at).label);
        let next: Vec<u8> = form
            .arcs
            .range((at, 0)..=(at, 255))
            .map(|&(_, j)| j)
            .collect();
        if next.is_empty() {
            break;
        }
        at = *r.pick(&next);
    }
    if !word.is_empty() && r.chance(40) {
        let n = r.below(word.len());
        word[n] = *r.pick(&[0, 1, 2, form.k, form.k + 1, 255]);
    }
    word
}

/// Judges, and compares the answer with the document.
fn hold(form: &[u32], word: &[u8], tally: &mut Tally) -> Option<bool> {
    let expected = match Form::read(form) {
        None => Err(11),
        Some(f) if bad_labels(f.k.into(), 1, word) => Err(17),
        Some(f) => Ok(f.accepts(word)),
    };
    let mut accepted = [u32::MAX];
    let number = unsafe {
        raw::kavurehy_judge(
            form.as_ptr(),
            form.len(),
            word.as_ptr(),
            word.len(),
            &mut accepted,
        )
    };
    tally.add(number);
    assert_eq!(number, expected.err().unwrap_or(0), "{form:x?} {word:?}");
    assert_eq!(
        accepted,
        [u32::from(expected == Ok(true))],
        "{form:x?} {word:?}"
    );
    assert_eq!(
        kavurehy::judge(form, word).map_err(Refusal::number),
        expected
    );
    expected.ok()
}

#[test]
fn judge() {
    let mut r = random("judge");
    let mut tally = Tally::default();
    let (mut yes, mut no) = (0, 0);
    for _ in 0..CASES {
        let form = random_form(&mut r, 6, 8);
        let length = match r.below(20) {
            0 => *r.pick(&[254, 255, 256, 257]),
            _ => r.from(0, 12),
        };
        let word = word(&mut r, &form, length);
        match hold(&form.words(), &word, &mut tally) {
            Some(true) => yes += 1,
            Some(false) => no += 1,
            None => {}
        }
        hold(&flipped(&mut r), &word, &mut tally);
    }
    assert!(
        yes >= LEAST && no >= LEAST,
        "{yes} words accepted, {no} rejected"
    );
    for kind in 0..KINDS {
        for _ in 0..LEAST / 10 {
            let form = damaged(&mut r, kind);
            assert!(Form::read(&form).is_none(), "damage {kind}: {form:x?}");
            hold(&form, &[1], &mut tally);
        }
    }
    tally.demand("judge", LEAST, &[0, 11, 17]);
}

/// ab*, a+, letters that no path goes through, and (a|b)*, each with words over its labels.
const TURNED: [(&[u32], &[&[u8]]); 4] = [
    (
        &[0x10020002, 0x20000301, 0x20000202, 0x30000102, 0x30000202],
        &[&[1, 2], &[], &[1], &[2], &[1, 1], &[1, 2, 2]],
    ),
    (
        &[0x10010001, 0x20000301, 0x30000101],
        &[&[], &[1], &[1, 1, 1]],
    ),
    (
        &[0x10020103, 0x20000301, 0x20000202, 0x20000002, 0x30000103],
        &[&[], &[1], &[2], &[1, 2]],
    ),
    (
        &[
            0x10020102, 0x20000301, 0x20000302, 0x30000101, 0x30000102, 0x30000201, 0x30000202,
        ],
        &[&[], &[2], &[1, 2], &[2, 2, 1]],
    ),
];

#[test]
fn judge_with_each_bit_turned() {
    let mut tally = Tally::default();
    let (mut yes, mut no, mut bad) = (0, 0, 0);
    for (form, words) in TURNED {
        for bit in 0..32 * form.len() {
            let mut turned = form.to_vec();
            turned[bit / 32] ^= 1 << (bit % 32);
            for word in words {
                match hold(&turned, word, &mut tally) {
                    Some(true) => yes += 1,
                    Some(false) => no += 1,
                    None => bad += 1,
                }
            }
        }
    }
    assert_eq!(
        [yes, no, bad],
        [113, 88, 2583],
        "accepted, rejected, refused"
    );
    tally.demand("judge with a bit turned", 1, &[0, 11]);
}
