//! The sheet program as a process, against document 01: `target/bin/sheet`, which `examples/read_mast` builds. What is written here by
//! hand must hold for the program and for the model.

mod barred;
mod document;
mod examples;
mod layout;
mod lengths;
mod process;
mod random;
mod refusals;
mod streams;

/// The program and the model print this for this input.
fn prints(input: &[u8], printed: &str) {
    let said = || input.escape_ascii().to_string();
    let by_model = model::sheet::answer(input).1;
    assert_eq!(by_model, printed.as_bytes(), "model: {}", said());
    assert_eq!(process::answer(input), printed, "{}", said());
}

/// The program and the model turn this input away with this number.
fn refuses(input: &[u8], number: u32) {
    prints(input, &format!("refused {number}\n"));
}
