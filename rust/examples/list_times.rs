//! How long CompileList takes for lists that are slow to compile, with the model's time for the same list beside it: the least of
//! several rounds, in which the two take turns and must agree.
//!
//!     cargo run --release --offline --example list_times
use kavurehy::{compile_list, FORM_WORDS};
use model::wordlist;
use std::hint::black_box;
use std::time::{Duration, Instant};

const ROUNDS: usize = 25;

/// The bytes 32 to 126.
fn all() -> Vec<u8> {
    (32..=126).collect()
}

/// Up to 89 times a, the shortest first: 4,094 bytes.
fn steps() -> String {
    (1..=89).map(|n| "a".repeat(n) + "\n").collect()
}

/// 1,365 words of two characters: 4,095 bytes, and too many letters.
fn pairs() -> String {
    let pair = |n: u8, m: u8| [char::from(n), char::from(m), '\n'];
    let pairs = (b' '..=b'~').flat_map(|n| (b' '..=b'~').map(move |m| pair(n, m)));
    pairs.take(1365).flatten().collect()
}

/// 64 words of 63 characters that differ in the last one: 4,096 bytes.
fn endings() -> String {
    let ending = |c: u8| "a".repeat(62) + &char::from(c).to_string() + "\n";
    (b'0'..b'0' + 64).map(ending).collect()
}

/// How long it takes, and what it gives.
fn timed<T>(call: impl FnOnce() -> T) -> (Duration, T) {
    let start = Instant::now();
    let answer = call();
    (start.elapsed(), answer)
}

/// What the call answers: the form or the number of the refusal.
fn by_call(alphabet: &[u8], list: &[u8], form: &mut [u32]) -> Result<Vec<u32>, u32> {
    let length = compile_list(alphabet, list, form).map_err(|refusal| refusal.number())?;
    Ok(form[..length].to_vec())
}

fn by_model(alphabet: &[u8], list: &[u8]) -> Result<Vec<u32>, u32> {
    wordlist::compile(alphabet, list).map(|form| form.words())
}

/// The least time of the call and of the model, and the number of letters or the refusal.
fn least(alphabet: &[u8], list: &[u8]) -> ([Duration; 2], String) {
    let mut times = [Duration::MAX; 2];
    let mut said = String::new();
    let mut memory = vec![0; FORM_WORDS];
    for _ in 0..ROUNDS {
        let (call, form) = timed(|| by_call(black_box(alphabet), black_box(list), &mut memory));
        let (model, expected) = timed(|| by_model(black_box(alphabet), black_box(list)));
        assert_eq!(form, expected);
        times = [call.min(times[0]), model.min(times[1])];
        said = match form {
            Ok(form) => format!("{} letters", form[0] & 0xff),
            Err(number) => format!("refused {number}"),
        };
    }
    (times, said)
}

fn main() {
    let lists = [
        ("steps over ab", b"ab".to_vec(), steps()),
        ("steps over 95 characters", all(), steps()),
        ("pairs over 95 characters", all(), pairs()),
        ("endings over 95 characters", all(), endings()),
    ];
    println!(
        "{:<26}  bytes  {:<11}  {:>9}  {:>9}  ratio",
        "list", "", "call", "model"
    );
    for (name, alphabet, list) in lists {
        let (times, said) = least(&alphabet, list.as_bytes());
        let [call, model] = times.map(|time| time.as_secs_f64() * 1e6);
        let (bytes, ratio) = (list.len(), call / model);
        println!(
            "{name:<26}  {bytes:>5}  {said:<11}  {call:>6.0} µs  {model:>6.0} µs  {ratio:>5.2}"
        );
    }
}
