//! Reads lines that have one name of a list each: the levels and collars of a crane's mast. The costs are made as a network's
//! would be, as in `src/bin/mast.rs`. For each line the table has what was written; what its cheapest labels, column by column,
//! collapse to; and what is read by the list, with the price. The last line has too few columns for any name.
//!
//!     cargo run --release --offline --example levels
use kavurehy::{collapse, compile_list, costs, decode, work_words, Matrix, Refusal, FORM_WORDS};

/// There are two shapes of 7.
const ALPHABET: &[u8] = b"acelorv 12345678907";
const WIDTH: usize = ALPHABET.len() + 1;

/// Characters that are easily taken for one another.
const ALIKE: [&[u8; 2]; 4] = [b"l1", b"ec", b"o0", b"rv"];

/// A xorshift generator: the same lines on every machine.
struct Random(u64);

impl Random {
    /// From `low` up to but not including `high`.
    fn within(&mut self, low: usize, high: usize) -> usize {
        self.0 ^= self.0 << 13;
        self.0 ^= self.0 >> 7;
        self.0 ^= self.0 << 17;
        low + (self.0 % (high - low) as u64) as usize
    }

    /// One of the labels of a character.
    fn label(&mut self, c: u8) -> usize {
        let labels: Vec<usize> = (1..WIDTH).filter(|x| ALPHABET[x - 1] == c).collect();
        labels[self.within(0, labels.len())]
    }

    /// A column's confidences: this one in the label `top`, little in the others.
    fn column(&mut self, top: usize, confidence: usize) -> Vec<u8> {
        let mut column: Vec<u8> = (0..WIDTH).map(|_| self.within(1, 9) as u8).collect();
        column[top] = confidence as u8;
        column
    }

    /// The columns of one character: a few on it, then a few in the blank. Now and then one that looks like it gets more.
    fn character(&mut self, c: u8) -> Vec<Vec<u8>> {
        let label = self.label(c);
        let pair = ALIKE.iter().find(|pair| pair.contains(&c));
        let other = pair.and_then(|pair| pair.iter().find(|&&d| d != c));
        let doubtful = other.filter(|_| self.within(0, 6) == 0);
        let mut columns = Vec::new();
        for _ in 0..self.within(1, 4) {
            let confidence = self.within(90, 240);
            let mut column = self.column(label, confidence);
            if let Some(&other) = doubtful {
                column[self.label(other)] = confidence as u8 + 15;
            }
            columns.push(column);
        }
        for _ in 0..self.within(1, 3) {
            let confidence = self.within(150, 250);
            columns.push(self.column(0, confidence));
        }
        columns
    }

    /// The costs of a line.
    fn line(&mut self, written: &str) -> Vec<u32> {
        let columns = written.bytes().flat_map(|c| self.character(c));
        let confidences: Vec<u8> = columns.flatten().collect();
        let mut line = vec![0; confidences.len()];
        costs(&confidences, &mut line).expect("as much memory as confidences");
        line
    }
}

/// The characters of a word.
fn spelt(word: &[u8]) -> String {
    let character = |&x: &u8| char::from(ALPHABET[usize::from(x) - 1]);
    word.iter().map(character).collect()
}

/// What the cheapest labels collapse to.
fn by_columns(line: &[u32]) -> Result<String, Refusal> {
    let cheapest = |column: &[u32]| (0..WIDTH).min_by_key(|&x| column[x]).unwrap() as u8;
    let path: Vec<u8> = line.chunks(WIDTH).map(cheapest).collect();
    let mut word = vec![0; path.len()];
    let length = collapse(ALPHABET.len(), &path, &mut word)?;
    Ok(spelt(&word[..length]))
}

/// What is read by a form, and the price.
fn by_form(form: &[u32], line: &[u32]) -> Result<(String, u32), Refusal> {
    let columns = line.len() / WIDTH;
    let matrix = Matrix {
        costs: line,
        width: WIDTH,
        columns,
    };
    let (mut path, mut word) = (vec![0; columns], vec![0; columns]);
    let letters = (form[0] & 0xff) as usize;
    let mut work = vec![0; work_words(columns, letters)];
    let reading = decode(form, matrix, &mut path, &mut word, &mut work)?;
    Ok((spelt(&word[..reading.length]), reading.price))
}

/// Prints the row of a line.
fn row(form: &[u32], written: &str, line: &[u32]) -> Result<(), Refusal> {
    let columns = by_columns(line)?;
    match by_form(form, line) {
        Ok((word, price)) => println!("{written:<8}  {columns:<16}  {word:<11}  {price:>5}"),
        Err(refusal) => println!("{written:<8}  {columns:<16}  {refusal}"),
    }
    Ok(())
}

fn main() -> Result<(), Refusal> {
    let levels = (1..=17).map(|n| format!("level {n}\n"));
    let collars = (1..=4).map(|n| format!("collar {n}\n"));
    let list: String = levels.chain(collars).collect();
    let mut form = vec![0; FORM_WORDS];
    let length = compile_list(ALPHABET, list.as_bytes(), &mut form)?;
    let form = &form[..length];

    println!("written   column by column  by the list  price");
    let mut random = Random(0x9e37_79b9_7f4a_7c15);
    for name in list.lines() {
        row(form, name, &random.line(name))?;
    }
    let cut = random.line("level 7");
    row(form, "level 7", &cut[..6 * WIDTH])
}
