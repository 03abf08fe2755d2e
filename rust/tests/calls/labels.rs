//! Collapse, Spread and the costs of confidences.
use crate::support::{number, Lent};
use crate::LEAST;
use kavurehy::{raw, Refusal, BARRED};
use model::input::{random, Random};
use model::tally::Tally;
use std::{fs, path::Path};

const CASES: usize = 60_000;

/// A list of labels, mostly a valid one for an alphabet of K; equal neighbours are frequent.
fn labels(r: &mut Random, k: usize, low: usize) -> Vec<u8> {
    let length = match r.below(10) {
        0 => 0,
        1 => *r.pick(&[254, 255, 256, 300]),
        _ => r.from(0, 40),
    };
    let high = k.clamp(low, 95).min(if r.chance(50) { 3 } else { 95 });
    let mut list: Vec<u8> = (0..length)
        .map(|_| r.from(low, high.max(low)) as u8)
        .collect();
    if length > 0 && r.chance(20) {
        let n = r.below(length);
        list[n] = *r.pick(&[0, k.min(254) as u8 + 1, 255]);
    }
    list
}

fn alphabet(r: &mut Random) -> usize {
    match r.below(20) {
        0 => *r.pick(&[0, 96, 255, 256, usize::MAX]),
        1 => *r.pick(&[1, 95]),
        _ => r.from(1, 95),
    }
}

/// Compares both functions of a call that fills one list, and the memory, with what is expected; returns the number.
fn hold(
    given: (usize, &[u8]),
    expected: &Result<Vec<u8>, u32>,
    memory: usize,
    call: impl Fn(&mut [u8], &mut [u32; 1]) -> u32,
    safe: impl Fn(&mut [u8]) -> Result<usize, Refusal>,
) -> u32 {
    let (refusal, written) = match expected {
        Ok(list) => (0, &list[..]),
        Err(refusal) => (*refusal, &[][..]),
    };
    let mut lent = Lent::new(memory);
    let mut counts = [u32::MAX];
    let answered = call(lent.memory(), &mut counts);
    let length = [written.len() as u32];
    assert_eq!((answered, counts), (refusal, length), "{given:?}");
    lent.wrote(written);

    let mut lent = Lent::new(memory);
    let answer = safe(lent.memory());
    assert_eq!(number(&answer), refusal, "{given:?}");
    assert_eq!(answer.unwrap_or(0), written.len());
    lent.wrote(written);
    refusal
}

#[test]
fn collapse() {
    let mut r = random("collapse");
    let mut tally = Tally::default();
    for _ in 0..CASES {
        let k = alphabet(&mut r);
        let path = labels(&mut r, k, 0);
        let memory = r.room(path.len());
        let expected = match memory < path.len() {
            true => Err(14),
            false if model::bad_labels(k, 0, &path) => Err(17),
            false => Ok(model::collapse(&path)),
        };
        let call = |word: &mut [u8], counts: &mut [u32; 1]| unsafe {
            let word_memory = word.len();
            let word = word.as_mut_ptr();
            raw::kavurehy_collapse(k, path.as_ptr(), path.len(), word, word_memory, counts)
        };
        let safe = |word: &mut [u8]| kavurehy::collapse(k, &path, word);
        tally.add(hold((k, &path), &expected, memory, call, safe));
    }
    tally.demand("collapse", LEAST, &[0, 14, 17]);
}

#[test]
fn spread() {
    let mut r = random("spread");
    let mut tally = Tally::default();
    for _ in 0..CASES {
        let k = alphabet(&mut r);
        let word = labels(&mut r, k, 1);
        let need = word.len() + word.windows(2).filter(|pair| pair[0] == pair[1]).count();
        let memory = r.room(need);
        let expected = match memory < need {
            true => Err(14),
            false if model::bad_labels(k, 1, &word) => Err(17),
            false => Ok(model::spread(&word)),
        };
        let call = |path: &mut [u8], counts: &mut [u32; 1]| unsafe {
            let path_memory = path.len();
            let path = path.as_mut_ptr();
            raw::kavurehy_spread(k, word.as_ptr(), word.len(), path, path_memory, counts)
        };
        let safe = |path: &mut [u8]| kavurehy::spread(k, &word, path);
        tally.add(hold((k, &word), &expected, memory, call, safe));
        if let Ok(path) = expected {
            assert_eq!(model::collapse(&path), word);
        }
    }
    tally.demand("spread", LEAST, &[0, 14, 17]);
}

#[test]
fn costs() {
    let every: Vec<u8> = (0..=255).collect();
    let mut all = Lent::new(256);
    assert_eq!(kavurehy::costs(&every, all.memory()), Ok(()));
    all.wrote(&every.iter().map(|&c| model::cost(c)).collect::<Vec<u32>>());
    for (confidence, cost) in [(255, 0), (182, 3), (181, 4), (128, 8), (1, 64), (0, BARRED)] {
        assert_eq!(all.memory()[confidence], cost);
    }
    assert_eq!(BARRED, 4_294_967_295);

    let mut r = random("costs");
    let mut tally = Tally::default();
    for _ in 0..CASES / 5 {
        let length = *r.pick(&[0, 1, 10, 100, 255, 256, 1000]);
        let confidences: Vec<u8> = (0..length).map(|_| r.bits() as u8).collect();
        let mut memory = Lent::new(r.room(length));
        let short = memory.memory().len() < length;
        let answer = kavurehy::costs(&confidences, memory.memory());
        tally.add(number(&answer));
        if short {
            assert_eq!(answer, Err(Refusal::OutputMemory));
            memory.wrote(&[]);
        } else {
            assert_eq!(answer, Ok(()));
            memory.wrote(
                &confidences
                    .iter()
                    .map(|&c| model::cost(c))
                    .collect::<Vec<u32>>(),
            );
        }
    }
    tally.demand("costs", LEAST, &[0, 14]);
}

/// The file that is checked by eye has each cost in the line of its confidence.
#[test]
fn table_of_costs() {
    let file = Path::new(env!("CARGO_MANIFEST_DIR")).join("../crates/confidence/src/table.rt");
    let text = fs::read_to_string(file).expect("the table's file");
    let lines: Vec<&str> = text.lines().filter(|l| l.starts_with(' ')).collect();
    let expected: Vec<String> = (0..=255)
        .map(|c| format!("    {}, // {c}", model::cost(c)))
        .collect();
    assert_eq!(lines, expected);
}
