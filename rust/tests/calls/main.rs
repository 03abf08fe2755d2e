//! The exported calls against document 01, on random input from a printed seed (`KAVUREHY_SEED` sets another). `model` says what
//! the document says, by other means than the Rattle code; every list that is lent is between guards. `grep` asks another program.

mod barred;
mod classes;
mod compare;
mod compare_call;
mod compare_cases;
mod compile;
mod decode;
mod forms;
mod grep;
mod judge;
mod labels;
mod lines;
mod list_cases;
mod list_words;
mod lists;
mod matrix;
mod pairs;
mod read;
mod read_call;
mod repeats;
mod support;
mod texts;

/// Each call must answer with each of its numbers at least this often on the random input of its test.
const LEAST: usize = 500;
