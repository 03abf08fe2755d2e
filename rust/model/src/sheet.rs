//! The sheet program: the layout of its input, and what it prints.
use crate::call::Call;
use crate::collapse;
use crate::derivatives::Machine;
use crate::expression::Tree;
use crate::form::Form;
use crate::matrix::{Line, BARRED};
use crate::ranked::ranked;
use crate::search::Best;
use std::rc::Rc;

/// The parts of a sheet.
#[derive(Clone, Debug, PartialEq)]
pub struct Sheet {
    pub alphabet: Vec<u8>,
    pub text: Vec<u8>,
    pub columns: Vec<Vec<u32>>,
}

impl Sheet {
    /// Alphabet line, expression line, then one line for each column: costs with one space between.
    pub fn write(&self) -> Vec<u8> {
        let mut lines = vec![self.alphabet.clone(), self.text.clone()];
        let line = |column: &Vec<u32>| spaced(column.iter().map(write_cost));
        lines.extend(self.columns.iter().map(line));
        let closed = |line: Vec<u8>| [line, b"\n".to_vec()].concat();
        lines.into_iter().flat_map(closed).collect()
    }

    /// The sheet that an input is, if it is one: the parts that can be found in it give the same bytes when they are written
    /// down again.
    pub fn read(input: &[u8]) -> Option<Sheet> {
        let mut lines: Vec<&[u8]> = input.split(|&b| b == b'\n').collect();
        lines.pop();
        let [alphabet, text, columns @ ..] = &lines[..] else {
            return None;
        };
        let column = |line: &&[u8]| line.split(|&b| b == b' ').map(read_cost).collect();
        let sheet = Sheet {
            alphabet: alphabet.to_vec(),
            text: text.to_vec(),
            columns: columns.iter().map(column).collect::<Option<_>>()?,
        };
        (sheet.within_limits() && input.len() <= 65_535 && sheet.write() == input).then_some(sheet)
    }

    /// Equal columns, 16,384 costs at most, each barred or of 7 digits at most.
    fn within_limits(&self) -> bool {
        let equal = self.columns.windows(2).all(|c| c[0].len() == c[1].len());
        let costs = self.columns.concat();
        let short = |&c: &u32| c <= 9_999_999 || c == BARRED;
        equal && costs.len() <= 16_384 && costs.iter().all(short)
    }

    /// The call of Read that the program makes.
    pub fn call(&self) -> Call {
        let k = self.alphabet.len();
        Call {
            alphabet: self.alphabet.clone(),
            text: self.text.clone(),
            form: 16_384,
            line: Line {
                costs: self.columns.concat(),
                width: self.columns.first().map_or(k + 1, Vec::len),
                columns: self.columns.len(),
                path: 255,
                word: 255,
                work: 16_384,
            },
        }
    }
}

/// A cost in decimal, or `-` for a barred label.
fn write_cost(cost: &u32) -> String {
    match *cost {
        BARRED => "-".to_string(),
        number => number.to_string(),
    }
}

fn read_cost(item: &[u8]) -> Option<u32> {
    match item {
        b"-" => Some(BARRED),
        digits => std::str::from_utf8(digits).ok()?.parse().ok(),
    }
}

/// Items with one space between.
fn spaced(items: impl Iterator<Item = String>) -> Vec<u8> {
    items.collect::<Vec<_>>().join(" ").into_bytes()
}

/// The best path: by a search over all lists of labels if they are few, else by two other methods, or by one of them if there
/// are too many states for the other.
fn search(call: &Call, tree: &Rc<Tree>, form: &Form) -> Option<Best> {
    let lists = (u32::from(form.k) + 1).checked_pow(call.line.columns as u32);
    if lists.is_some_and(|n| n <= 10_000) {
        return call.search(tree, form);
    }
    match Machine::new(tree, &call.alphabet, 300) {
        Some(machine) => call.search_twice(&machine, form),
        None => ranked(form, &call.line.costs),
    }
}

/// The number answered for an input, 0 for a reading, and what is printed.
pub fn answer(input: &[u8]) -> (u32, Vec<u8>) {
    let Some(sheet) = Sheet::read(input) else {
        return refused(18);
    };
    let call = sheet.call();
    match call.expected(|tree, form| search(&call, tree, form)).answer {
        Err(number) => refused(number),
        Ok(Best { price, path }) => {
            let word = call.characters(&collapse(&path));
            let price = price.to_string().into_bytes();
            let path = spaced(path.iter().map(u8::to_string));
            (0, [price, word, path, Vec::new()].join(&b'\n'))
        }
    }
}

fn refused(number: u32) -> (u32, Vec<u8>) {
    (number, format!("refused {number}\n").into_bytes())
}
