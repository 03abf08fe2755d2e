//! Writes the example: a mast check of twenty levels, each observed on both faces, as forty sheets in the folder that is
//! named as argument. The costs are made as a network's would be: for each column confidences in all labels, one of them
//! high, its neighbours in handwriting lower, turned into costs by the proved call.
//!
//!     cargo run --release --offline --bin mast -- ../examples/mast
use kavurehy::BARRED;
use std::{env, fmt::Write as _, fs, path::Path};

const ALPHABET: &str = "FLR 0123456789.";
const TEXT: &str = r"F[LR] [0-9]{1,3}\.[0-9]{4}";

/// Characters that are easily taken for one another.
const ALIKE: [&str; 7] = ["F7", "L1", "R8", " .", "49", "56", "03"];

/// A xorshift generator: the same sheets on every machine.
struct Random(u64);

impl Random {
    fn below(&mut self, n: u64) -> u64 {
        self.0 ^= self.0 << 13;
        self.0 ^= self.0 >> 7;
        self.0 ^= self.0 << 17;
        self.0 % n
    }

    /// From `low` up to but not including `high`.
    fn within(&mut self, low: u64, high: u64) -> u8 {
        (low + self.below(high - low)) as u8
    }
}

fn label(c: char) -> usize {
    1 + ALPHABET.find(c).expect("a character of the alphabet")
}

fn like(c: char) -> Option<char> {
    let pair = ALIKE.iter().find(|pair| pair.contains(c))?;
    pair.chars().find(|&d| d != c)
}

/// One column's confidences: `high` in the label `top`, `second` in another label, little in the others.
fn column(random: &mut Random, (top, high): (usize, u8), second: Option<(usize, u8)>) -> Vec<u8> {
    let mut confidences: Vec<u8> = (0..=ALPHABET.len()).map(|_| random.within(0, 3)).collect();
    confidences[top] = high;
    if let Some((other, low)) = second {
        confidences[other] = low;
    }
    confidences
}

/// The columns of one character: a few on it, then a few in the blank. Now and then a digit and a sign that look alike are
/// exchanged: the expression says which of them may be there.
fn character(random: &mut Random, c: char) -> Vec<Vec<u8>> {
    let mut columns = Vec::new();
    let two_digits = c.is_ascii_digit() && like(c).is_some_and(|d| d.is_ascii_digit());
    let doubtful = !two_digits && random.below(3) == 0;
    for _ in 0..1 + random.below(3) {
        let high = random.within(90, 250);
        let other = like(c).map(|d| {
            let low = if doubtful {
                high.saturating_add(4)
            } else {
                high / 4
            };
            (label(d), low)
        });
        columns.push(column(random, (label(c), high), other));
    }
    for _ in 0..1 + random.below(2) {
        let high = random.within(150, 254);
        columns.push(column(random, (0, high), Some((label(c), 255 - high))));
    }
    columns
}

/// The columns of a line: one in the blank, then those of each character.
fn line(random: &mut Random, written: &str) -> Vec<Vec<Vec<u8>>> {
    let mut parts = vec![vec![column(random, (0, 240), None)]];
    for c in written.chars() {
        parts.push(character(random, c));
    }
    parts
}

/// Gives `d` this many eighths of the confidence of `c` in its columns: the two are hard to tell apart.
fn make_alike(columns: &mut [Vec<u8>], (c, d): (char, char), eighths: u16) {
    for column in columns {
        column[label(d)] = (u16::from(column[label(c)]) * eighths / 8) as u8;
    }
}

/// A cost as it is in a sheet.
fn item(cost: &u32) -> String {
    match *cost {
        BARRED => "-".to_string(),
        number => number.to_string(),
    }
}

fn sheet(columns: &[Vec<u8>]) -> String {
    let mut sheet = format!("{ALPHABET}\n{TEXT}\n");
    for confidences in columns {
        let mut costs = vec![0; confidences.len()];
        kavurehy::costs(confidences, &mut costs).expect("as much memory as confidences");
        let items: Vec<String> = costs.iter().map(item).collect();
        writeln!(sheet, "{}", items.join(" ")).expect("writing to memory");
    }
    sheet
}

/// An angle in ten-thousandths of a gon, as it is written.
fn angle(face: &str, units: u64) -> String {
    format!("{face} {}.{:04}", units / 10_000, units % 10_000)
}

fn main() {
    let folder = env::args().nth(1).expect("a folder to write to");
    fs::create_dir_all(&folder).expect("a folder that can be made");
    let mut random = Random(0x9e37_79b9_7f4a_7c15);
    let mut left = 1_124_500;
    for level in 1..=20 {
        left = left + random.below(400) - 200;
        let right = left + 2_000_000 + random.below(40);
        for (face, units) in [("FL", left), ("FR", right)] {
            let mut parts = line(&mut random, &angle(face, units));
            match (level, face) {
                (6, "FR") => make_alike(&mut parts[2], ('R', 'L'), 7), // the label is nearly as likely FL
                (17, "FL") => make_alike(&mut parts[2], ('L', 'R'), 8), // as likely FR: FL is the first by labels
                _ => {}
            }
            let mut columns = parts.concat();
            if (level, face) == (14, "FR") {
                columns.truncate(8); // the line runs off the sheet: fewer columns than any word has letters
            }
            let file = Path::new(&folder).join(format!("{level:02}-{face}.sheet"));
            fs::write(file, sheet(&columns)).expect("a file that can be written");
        }
    }
}
