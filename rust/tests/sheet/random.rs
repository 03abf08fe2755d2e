//! Random sheets: valid, spoilt and with damaged bytes against the model, and as they are written against the call Read.
use crate::process::answer;
use kavurehy::Matrix;
use model::input::sheets::edit;
use model::input::{random, Random};
use model::matrix::BARRED;
use model::sheet::{self, Sheet};
use model::tally::Tally;
use std::io::{stderr, Write};

/// All numbers that the program can answer: 16,384 words are enough for every form, 255 bytes for every path and word.
const REFUSALS: [usize; 16] = [0, 1, 2, 3, 4, 5, 6, 7, 8, 9, 12, 13, 15, 16, 18, 19];

fn input(r: &mut Random) -> Vec<u8> {
    let mut sheet = Sheet::random(r);
    while r.chance(30) {
        sheet.spoil(r);
    }
    let mut bytes = sheet.write();
    while r.chance(25) {
        edit(r, &mut bytes);
    }
    bytes
}

/// The sheet that an input is, with 1,000,000 in the place of each barred label's cost; none if no label is barred.
fn lowered(input: &[u8]) -> Option<Sheet> {
    let sheet = Sheet::read(input)?;
    let mut other = sheet.clone();
    let costs = other.columns.iter_mut().flatten();
    for cost in costs.filter(|cost| **cost == BARRED) {
        *cost = 1_000_000;
    }
    (other != sheet).then_some(other)
}

#[test]
fn random_sheets() {
    let mut r = random("random_sheets");
    let mut tally = Tally::default();
    let (mut read, mut unread) = (0, 0);
    for _ in 0..4_000 {
        let input = input(&mut r);
        let (number, printed) = sheet::answer(&input);
        tally.add(number);
        if let Some(other) = lowered(&input) {
            let (instead, _) = sheet::answer(&other.write());
            read += usize::from(number == 0);
            unread += usize::from((number, instead) == (16, 0));
        }
        let said = input.escape_ascii();
        assert_eq!(answer(&input).as_bytes(), printed, "{said}");
    }
    tally.demand("the sheet program", 20, &REFUSALS);
    let seen = format!("with barred labels: {read} read, {unread} not, and only because of them");
    let _ = writeln!(stderr(), "{seen}");
    assert!(read >= 50 && unread >= 50, "{seen}");
}

/// What the program should print for a sheet: the answer of the call Read on its parts.
fn by_call(sheet: &Sheet) -> String {
    let call = sheet.call();
    let matrix = Matrix {
        costs: &call.line.costs,
        width: call.line.width,
        columns: call.line.columns,
    };
    let (mut form, mut work) = (vec![0; call.form], vec![0; call.line.work]);
    let [mut path, mut word] = [[0; 255]; 2];
    let answer = kavurehy::read(
        &call.alphabet,
        &call.text,
        matrix,
        &mut form,
        &mut path,
        &mut word,
        &mut work,
    );
    match answer {
        Err(refusal) => format!("refused {}\n", refusal.number()),
        Ok(reading) => {
            let word = String::from_utf8_lossy(&word[..reading.length]);
            let path: Vec<String> = path[..matrix.columns].iter().map(u8::to_string).collect();
            format!("{}\n{word}\n{}\n", reading.price, path.join(" "))
        }
    }
}

/// For a sheet that is written down the program prints what the call Read answers for its parts.
#[test]
fn written_and_read() {
    let mut r = random("written_and_read");
    let mut written = 0;
    while written < 2_000 {
        let sheet = Sheet::random(&mut r);
        let bytes = sheet.write();
        if Sheet::read(&bytes).as_ref() == Some(&sheet) {
            written += 1;
            assert_eq!(answer(&bytes), by_call(&sheet), "{}", bytes.escape_ascii());
        }
    }
}
