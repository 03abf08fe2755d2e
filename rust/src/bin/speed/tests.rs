//! The decoders agree: all three on small forms with many ties, peer and Decode also on barred labels and on what is turned away. And
//! Decode and Costs are fast.
use crate::costs;
use crate::forms::{random_arcs, Form};
use crate::generator::Random;
use crate::matrices::Kind;
use crate::peer;
use crate::plain::plain;
use crate::race::Sheet;
use kavurehy::{work_words, Matrix, Reading, Refusal};
use model::matrix::Line;

/// What a call answers, and all that it leaves in path and word.
#[derive(Debug, PartialEq)]
struct Answer {
    reading: Result<Reading, Refusal>,
    path: Vec<u8>,
    word: Vec<u8>,
}

type Decode = fn(&[u32], Matrix<'_>, &mut [u8], &mut [u8], &mut [u32]) -> Result<Reading, Refusal>;

impl Answer {
    fn by(decode: Decode, form: &[u32], line: &Line) -> Answer {
        let (mut path, mut word) = (vec![0xee; line.path], vec![0xee; line.word]);
        let mut work = vec![0xeeee_eeee; line.work];
        let matrix = Matrix {
            costs: &line.costs,
            width: line.width,
            columns: line.columns,
        };
        Answer {
            reading: decode(form, matrix, &mut path, &mut word, &mut work),
            path,
            word,
        }
    }

    /// The answer of peer and Decode.
    fn by_both(form: &[u32], line: &Line) -> Answer {
        let answer = Answer::by(kavurehy::decode, form, line);
        let by_peer = Answer::by(peer::decode, form, line);
        assert_eq!(by_peer, answer, "{form:x?} {line:?}");
        answer
    }
}

/// A form of this size, its arcs few or many, at times one that accepts the empty word.
fn small_form(random: &mut Random, letters: usize, characters: usize) -> Vec<u32> {
    let arcs = random.below(letters * letters + 1);
    let mut form = random_arcs(random, letters, characters, arcs);
    form[0] |= (random.below(2) as u32) << 8;
    form
}

/// Compares all three on this number of forms with each kind of matrix. Returns how often there was a reading and how often none.
fn agree<const STATES: usize, const WIDTH: usize>(random: &mut Random, forms: usize) -> [usize; 2] {
    let mut seen = [0; 2];
    for n in 0..4 * forms {
        let form = small_form(random, STATES / 2, WIDTH - 1);
        let columns = random.below(STATES + 1).min(255);
        let line = Line {
            costs: Kind::ALL[n % 4].costs(random, WIDTH, columns),
            width: WIDTH,
            columns,
            path: columns,
            word: columns,
            work: work_words(columns, STATES / 2),
        };
        let (mut path, mut work) = (vec![0xee; columns], vec![0xeeee_eeee; line.work]);
        let price = plain::<STATES, WIDTH>(&form, &line.costs, &mut path, &mut work);
        let answer = Answer::by_both(&form, &line);
        let expected = price.ok_or(Refusal::NoReading);
        assert_eq!(
            answer.reading.map(|r| r.price),
            expected,
            "{form:x?} {line:?}"
        );
        assert_eq!(answer.path, path, "{form:x?} {line:?}");
        seen[usize::from(price.is_none())] += 1;
    }
    seen
}

#[test]
fn the_three_agree() {
    let mut random = Random(model::input::random("the_three_agree").bits());
    let seen = [
        agree::<3, 2>(&mut random, 50),
        agree::<5, 2>(&mut random, 100),
        agree::<7, 3>(&mut random, 200),
        agree::<13, 4>(&mut random, 200),
        agree::<25, 6>(&mut random, 100),
        agree::<121, 41>(&mut random, 5),
        agree::<255, 96>(&mut random, 5),
    ];
    let [readings, none] = [0, 1].map(|n| seen.iter().map(|s| s[n]).sum::<usize>());
    assert!(readings > 1000 && none > 100, "{readings} and {none}");
}

#[test]
fn refusals_agree() {
    let mut r = model::input::random("refusals_agree");
    let mut seen = [0; 18];
    for n in 0..2000 {
        let (letters, k, columns) = (1 + r.below(9), 1 + r.below(6), r.below(9));
        let mut form = small_form(&mut Random(r.bits()), letters, k);
        let mut line = Line::random(&mut r, k, letters, columns);
        match n % 4 {
            0 => {
                let word = r.below(form.len());
                form[word] ^= 1 << r.below(32);
            }
            1 => form.truncate(r.below(form.len())),
            _ => line.spoil(&mut r),
        }
        let answer = Answer::by_both(&form, &line);
        seen[answer.reading.map_or_else(Refusal::number, |_| 0) as usize] += 1;
    }
    assert!(seen[11..=15].iter().all(|&count| count > 50), "{seen:?}");
}

/// Peer and Decode on matrices with barred labels, which the plain loop does not take.
#[test]
fn barred_labels_agree() {
    let mut r = model::input::random("barred_labels_agree");
    let mut seen = [0; 2];
    for _ in 0..4000 {
        let (letters, k, columns) = (1 + r.below(9), 1 + r.below(6), 1 + r.below(9));
        let form = small_form(&mut Random(r.bits()), letters, k);
        let mut line = Line::unbarred(&mut r, k, letters, columns);
        line.bar(&mut r);
        let answer = Answer::by_both(&form, &line);
        seen[usize::from(answer.reading.is_err())] += 1;
    }
    assert!(seen.iter().all(|&count| count > 500), "{seen:?}");
}

/// No contract says how fast Decode is, so a slow search would be noticed here: the request's factor against the peer, and ratios
/// to the plain loop far above those in docs/FIGURES.md, so that a busy machine does not matter.
#[test]
fn decode_is_fast() {
    for (name, bound) in [("star", 0.2), ("six", 0.45), ("random", 0.65)] {
        let form = Form::named(name).expect("a form of the benchmark");
        let sheet = Sheet::new(&form.words, Kind::Network, 255, 4);
        let [plain, peer, decode] = sheet.times(15).map(|time| time.as_secs_f64());
        assert!(
            decode < bound * plain,
            "{name}: {} of the plain loop",
            decode / plain
        );
        assert!(decode < 2.0 * peer, "{name}: {} of the peer", decode / peer);
    }
}

/// No contract says that Costs makes its table only once a call. Made anew for each confidence, it took longer than the rule, fifty
/// times as long as a table in Rust.
#[test]
fn costs_are_fast() {
    let [_, table, costs] = costs::times(50).map(|time| time.as_secs_f64());
    assert!(costs < 3.0 * table, "{} of the table", costs / table);
}
