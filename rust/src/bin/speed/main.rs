//! How long Decode takes: against a plain Rust loop over the same table, and against a peer, Decode in Rust by the same state
//! numbering with the ideas of the proved code. A sheet is forty lines of 255 columns, K = 40, L = 60. The three take turns on
//! each line, with cleared work memory, and must find the same price and path; a line's time is the least of several rounds.
//! And how long Costs takes: against its rule and against a table in Rust.
//!
//! In rust/, after `.ci/archive`:
//!
//!     cargo run --release --offline --bin speed                              all tables, nine rounds
//!     cargo run --release --offline --bin speed -- 25                        all tables, 25 rounds
//!     cargo run --release --offline --bin speed -- sheet 25 random network   one row of the first table
//!     cargo run --release --offline --bin speed -- costs 25                  the last table, of Costs
//!
//! Forms: angle, six, loop, star, random. Matrices: network, ties, equal, limit. The instructions of one sheet, as valgrind
//! counts them inside the function `counted`:
//!
//!     cargo build --release --offline --bin speed
//!     for decoder in plain peer decode; do
//!         valgrind --tool=callgrind --callgrind-out-file=/dev/null --toggle-collect='*count::counted*' \
//!             target/release/speed count random network $decoder 2>&1 | grep Collected
//!     done
#[path = "../../../model/src/input/generator.rs"]
mod generator;

mod costs;
mod count;
mod forms;
mod matrices;
mod peer;
mod plain;
mod race;
mod tables;
#[cfg(test)]
mod tests;

use forms::Form;
use matrices::Kind;
use race::Decoder;
use std::{env, process};

const ROUNDS: usize = 9;

fn main() {
    let arguments: Vec<String> = env::args().skip(1).collect();
    let arguments: Vec<&str> = arguments.iter().map(String::as_str).collect();
    if run(&arguments).is_none() {
        eprintln!(
            "speed [ROUNDS] | sheet ROUNDS FORM MATRIX | costs ROUNDS | count FORM MATRIX plain|peer|decode"
        );
        process::exit(2);
    }
}

/// What the arguments ask for; none if they ask for nothing that there is.
fn run(arguments: &[&str]) -> Option<()> {
    match arguments {
        [] => tables::all(ROUNDS),
        ["sheet", rounds, form, kind] => tables::one(
            number_of_rounds(rounds)?,
            &Form::named(form)?,
            Kind::named(kind)?,
        ),
        ["costs", rounds] => tables::confidences(number_of_rounds(rounds)?),
        ["count", form, kind, decoder] => count::count(
            &Form::named(form)?,
            Kind::named(kind)?,
            Decoder::named(decoder)?,
        ),
        [rounds] => tables::all(number_of_rounds(rounds)?),
        _ => return None,
    }
    Some(())
}

fn number_of_rounds(text: &str) -> Option<usize> {
    text.parse().ok().filter(|&rounds| rounds > 0)
}
