//! The tables, from which those in docs/FIGURES.md are made.
use crate::costs;
use crate::forms::{compile, letters, random_arcs, Form, CHARACTERS, LETTERS};
use crate::generator::Random;
use crate::matrices::Kind;
use crate::race::Sheet;
use kavurehy::FORM_WORDS;
use std::hint::black_box;
use std::time::Instant;

pub const COLUMNS: usize = 255;
pub const LINES: usize = 40;

pub fn all(rounds: usize) {
    println!(
        "Forty lines of T = 255, K = 40, L = 60; of each line the least of {rounds} rounds.\n"
    );
    head("form | matrix");
    for form in Form::all() {
        for kind in Kind::ALL {
            one(rounds, &form, kind);
        }
    }
    println!("\nCalls, with costs like a network's.\n");
    calls(rounds);
    println!("\nRandom arcs, costs like a network's, forty lines: by columns, by arcs, by letters with six arcs each.\n");
    by_columns(rounds);
    println!();
    by_arcs(rounds);
    println!();
    by_letters(rounds);
    println!("\nCosts of the confidences of one line.\n");
    confidences(rounds);
}

/// The head of a table of sheets, with these columns first.
fn head(columns: &str) {
    let first = columns.split('|').count();
    println!(
        "| {columns} | plain ms | peer ms | Decode ms | peer/plain | Decode/plain | Decode/peer |"
    );
    println!("|{}", "---|".repeat(first + 6));
}

/// A row of such a table.
fn row(first: &str, sheet: &Sheet, rounds: usize) {
    let [plain, peer, decode] = sheet.times(rounds).map(|time| time.as_secs_f64() * 1e3);
    println!(
        "| {first} | {plain:.2} | {peer:.2} | {decode:.2} | {:.3} | {:.3} | {:.2} |",
        peer / plain,
        decode / plain,
        decode / peer,
    );
}

/// The row of one sheet.
pub fn one(rounds: usize, form: &Form, kind: Kind) {
    let first = format!("{}, {} arcs | {}", form.name, form.arcs(), kind.name());
    let sheet = Sheet::new(&form.words, kind, COLUMNS, LINES);
    row(&first, &sheet, rounds);
}

/// One Compile beside one line and forty.
fn calls(rounds: usize) {
    println!("| form | expression | Compile µs | Decode, one line µs | Decode, forty lines ms |");
    println!("|---|---|---|---|---|");
    for form in Form::all() {
        let decode = |lines| {
            let [_, _, time] = Sheet::new(&form.words, Kind::Network, COLUMNS, lines).times(rounds);
            time.as_secs_f64()
        };
        let (expression, compile) = match form.text {
            Some(text) => (format!("`{text}`"), compile_time(text, rounds)),
            None => ("none".to_string(), "none".to_string()),
        };
        let (line, sheet) = (decode(1) * 1e6, decode(LINES) * 1e3);
        let name = form.name;
        println!("| {name} | {expression} | {compile} | {line:.0} | {sheet:.2} |");
    }
}

/// The microseconds of one Compile.
fn compile_time(text: &str, rounds: usize) -> String {
    let mut form = vec![0; FORM_WORDS];
    let mut forty = || {
        let start = Instant::now();
        for _ in 0..40 {
            black_box(compile(black_box(text), black_box(&mut form)));
        }
        start.elapsed().as_secs_f64() * 1e6
    };
    let least = (0..rounds).map(|_| forty()).fold(f64::MAX, f64::min);
    format!("{:.1}", least / 40.0)
}

fn by_columns(rounds: usize) {
    head("T");
    let form = random_arcs(&mut Random(400), LETTERS, CHARACTERS, 400);
    for columns in [32, 64, 128, 255] {
        let sheet = Sheet::new(&form, Kind::Network, columns, LINES);
        row(&columns.to_string(), &sheet, rounds);
    }
}

fn by_arcs(rounds: usize) {
    head("arcs");
    for arcs in [100, 200, 400, 800, 1600, 3600] {
        by_form(LETTERS, arcs, |form| form.len() - 1 - LETTERS, rounds);
    }
}

fn by_letters(rounds: usize) {
    head("L");
    for n in [15, 30, 60, 127] {
        by_form(n, 6 * n, letters, rounds);
    }
}

/// A row for a form with random arcs; `first` is what the row is named after.
fn by_form(letters: usize, arcs: usize, first: impl Fn(&[u32]) -> usize, rounds: usize) {
    let form = random_arcs(&mut Random(arcs as u64), letters, CHARACTERS, arcs);
    let sheet = Sheet::new(&form, Kind::Network, COLUMNS, LINES);
    row(&first(&form).to_string(), &sheet, rounds);
}

/// Costs against its rule and against a table in Rust.
pub fn confidences(rounds: usize) {
    let [rule, table, costs] = costs::times(rounds).map(|time| time.as_secs_f64() * 1e6);
    println!("| rule µs | table µs | Costs µs | Costs/rule | Costs/table |");
    println!("|---|---|---|---|---|");
    println!(
        "| {rule:.1} | {table:.1} | {costs:.1} | {:.3} | {:.2} |",
        costs / rule,
        costs / table,
    );
}
