//! Says by how much the label of each line was read as FL, face left, or as FR, face right. The arguments are sheets, as the sheet
//! program takes them, whose expression has `F[LR]` once. With `FL` in its place there is one form, with `FR` another, and the
//! line is compared by the two. A row has the file's name, and the price with FL less that with FR: negative if FL is cheaper. If
//! a call refuses, it has the refusal's number: 16 if there is no reading with FL or none with FR.
//!
//!     cargo run --release --offline --example faces -- ../examples/mast/*.sheet
use kavurehy::{compare, compile, work_words, Matrix, Refusal, BARRED, FORM_WORDS};
use std::io::{self, ErrorKind, Write};
use std::{env, fs, path::Path, process::ExitCode};

/// Either label, as the expressions have it.
const EITHER: &str = "F[LR]";

/// The parts of a sheet; the costs of its columns are one after another.
struct Sheet<'a> {
    alphabet: &'a str,
    text: &'a str,
    costs: Vec<u32>,
    width: usize,
    columns: usize,
}

/// A cost of at most 7 digits, without a sign and without zeros in front, or `-` for a barred label.
fn cost(item: &str) -> Option<u32> {
    if item == "-" {
        return Some(BARRED);
    }
    let number: u32 = item.parse().ok()?;
    (number <= 9_999_999 && number.to_string() == item).then_some(number)
}

/// Alphabet line, expression line, then one line for each column.
fn sheet(content: &str) -> Result<Sheet<'_>, String> {
    let lines = content.strip_suffix('\n').ok_or("no newline at its end")?;
    let (alphabet, rest) = lines.split_once('\n').ok_or("no line with an expression")?;
    let mut rest = rest.split('\n');
    let mut sheet = Sheet {
        alphabet,
        text: rest.next().unwrap_or_default(),
        costs: Vec::new(),
        width: alphabet.len() + 1,
        columns: 0,
    };
    for (n, line) in rest.enumerate() {
        let column: Option<Vec<u32>> = line.split(' ').map(cost).collect();
        let column = column.ok_or(format!("line {}: not costs with one space between", n + 3))?;
        if n == 0 {
            sheet.width = column.len();
        } else if column.len() != sheet.width {
            return Err(format!("line {}: not as many costs as in line 3", n + 3));
        }
        sheet.costs.extend(column);
        sheet.columns += 1;
    }
    Ok(sheet)
}

/// Memory that is lent for one sheet after another.
struct Lent {
    left: Vec<u32>,
    right: Vec<u32>,
    work: Vec<u32>,
}

impl Lent {
    /// Enough for any sheet.
    fn new() -> Lent {
        Lent {
            left: vec![0; FORM_WORDS],
            right: vec![0; FORM_WORDS],
            work: vec![0; work_words(255, 127)],
        }
    }

    /// The price with the expression `left` less that with `right`.
    fn difference(&mut self, sheet: &Sheet, left: &str, right: &str) -> Result<i32, Refusal> {
        let alphabet = sheet.alphabet.as_bytes();
        let left = compile(alphabet, left.as_bytes(), &mut self.left)?;
        let right = compile(alphabet, right.as_bytes(), &mut self.right)?;
        let matrix = Matrix {
            costs: &sheet.costs,
            width: sheet.width,
            columns: sheet.columns,
        };
        compare(
            &self.left[..left],
            &self.right[..right],
            matrix,
            &mut self.work,
        )
    }
}

/// The row of a file, or what is wrong with it.
fn row(file: &Path, lent: &mut Lent) -> Result<String, String> {
    let content = fs::read_to_string(file).map_err(|error| error.to_string())?;
    let sheet = sheet(&content)?;
    if sheet.text.matches(EITHER).count() != 1 {
        return Err(format!("the expression does not have {EITHER} once"));
    }
    let [left, right] = ["FL", "FR"].map(|label| sheet.text.replace(EITHER, label));
    let name = file.file_name().unwrap_or_default().to_string_lossy();
    let name = name.strip_suffix(".sheet").unwrap_or(&name);
    Ok(match lent.difference(&sheet, &left, &right) {
        Ok(difference) => format!("{name}\t{difference}"),
        Err(refusal) => format!("{name}\trefused {}", refusal.number()),
    })
}

/// Prints the rows, up to the first file that has none. If nobody reads them any more, that is no fault.
fn print_rows() -> Result<(), String> {
    let mut lent = Lent::new();
    for file in env::args_os().skip(1) {
        let file = Path::new(&file);
        let row = row(file, &mut lent).map_err(|what| format!("{}: {what}", file.display()))?;
        match writeln!(io::stdout(), "{row}") {
            Err(error) if error.kind() == ErrorKind::BrokenPipe => break,
            written => written.map_err(|error| error.to_string())?,
        }
    }
    Ok(())
}

fn main() -> ExitCode {
    match print_rows() {
        Ok(()) => ExitCode::SUCCESS,
        Err(what) => {
            eprintln!("{what}");
            ExitCode::FAILURE
        }
    }
}
