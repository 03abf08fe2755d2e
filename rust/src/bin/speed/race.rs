//! The three decoders, and their times on a sheet.
use crate::forms::letters;
use crate::generator::Random;
use crate::matrices::Kind;
use crate::peer;
use crate::plain::plain;
use kavurehy::{work_words, Matrix, Refusal};
use std::time::{Duration, Instant};

#[derive(Clone, Copy, Debug)]
pub enum Decoder {
    Plain,
    Peer,
    Decode,
}

/// The memory that is lent, each list as long as is needed.
pub struct Lent {
    path: Vec<u8>,
    word: Vec<u8>,
    work: Vec<u32>,
}

impl Lent {
    pub fn clear(&mut self) {
        self.path.fill(0);
        self.word.fill(0);
        self.work.fill(0);
    }
}

impl Decoder {
    pub const ALL: [Decoder; 3] = [Decoder::Plain, Decoder::Peer, Decoder::Decode];

    pub fn named(name: &str) -> Option<Decoder> {
        match name {
            "plain" => Some(Decoder::Plain),
            "peer" => Some(Decoder::Peer),
            "decode" => Some(Decoder::Decode),
            _ => None,
        }
    }

    /// The price of a line, none if there is no reading.
    #[inline(always)]
    pub fn run(self, form: &[u32], matrix: Matrix<'_>, lent: &mut Lent) -> Option<u32> {
        let Lent { path, word, work } = lent;
        let reading = match self {
            Decoder::Plain => return by_plain(form, matrix, path, work),
            Decoder::Peer => peer::decode(form, matrix, path, word, work),
            Decoder::Decode => kavurehy::decode(form, matrix, path, word, work),
        };
        match reading {
            Ok(reading) => Some(reading.price),
            Err(Refusal::NoReading) => None,
            Err(refusal) => panic!("{refusal}"),
        }
    }
}

/// The plain loop of this form's size.
fn by_plain(form: &[u32], matrix: Matrix<'_>, path: &mut [u8], work: &mut [u32]) -> Option<u32> {
    let sized = match (letters(form), matrix.width) {
        (15, 41) => plain::<31, 41>,
        (30, 41) => plain::<61, 41>,
        (60, 41) => plain::<121, 41>,
        (127, 41) => plain::<255, 41>,
        size => panic!("no plain loop for {size:?}"),
    };
    sized(form, matrix.costs, path, work)
}

/// A form, and lines that are read with it.
pub struct Sheet<'a> {
    form: &'a [u32],
    columns: usize,
    width: usize,
    lines: Vec<Vec<u32>>,
}

impl Sheet<'_> {
    /// This number of lines of a kind, the same at each call.
    pub fn new(form: &[u32], kind: Kind, columns: usize, lines: usize) -> Sheet<'_> {
        let mut random = Random(7);
        let width = (form[0] >> 16 & 0xff) as usize + 1;
        let lines = (0..lines).map(|_| kind.costs(&mut random, width, columns));
        Sheet {
            form,
            columns,
            width,
            lines: lines.collect(),
        }
    }

    pub fn matrices(&self) -> impl Iterator<Item = Matrix<'_>> {
        self.lines.iter().map(|costs| Matrix {
            costs,
            width: self.width,
            columns: self.columns,
        })
    }

    pub fn lent(&self) -> Lent {
        Lent {
            path: vec![0; self.columns],
            word: vec![0; self.columns],
            work: vec![0; work_words(self.columns, letters(self.form))],
        }
    }

    /// The time of all lines by each decoder, in the order of `Decoder::ALL`: of each line the least of several rounds.
    pub fn times(&self, rounds: usize) -> [Duration; 3] {
        let mut lent = self.lent();
        let mut least = vec![[Duration::MAX; 3]; self.lines.len()];
        for round in 0..rounds {
            for (matrix, least) in self.matrices().zip(&mut least) {
                self.race(matrix, round, &mut lent, least);
            }
        }
        [0, 1, 2].map(|n| least.iter().map(|times| times[n]).sum())
    }

    /// One line by each decoder; another one is first in each round. They must agree.
    fn race(&self, matrix: Matrix<'_>, round: usize, lent: &mut Lent, least: &mut [Duration; 3]) {
        let mut expected = None;
        for turn in 0..3 {
            let n = (round + turn) % 3;
            lent.clear();
            let start = Instant::now();
            let price = Decoder::ALL[n].run(self.form, matrix, lent);
            least[n] = start.elapsed().min(least[n]);
            let answer = (price, lent.path.clone());
            let expected = expected.get_or_insert_with(|| answer.clone());
            assert_eq!(answer, *expected, "{:?} differs", Decoder::ALL[n]);
        }
    }
}
