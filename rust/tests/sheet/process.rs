//! Runs the sheet program with a time limit.
use std::io::{ErrorKind, Read, Write};
use std::os::fd::OwnedFd;
use std::path::{Path, PathBuf};
use std::process::{Child, ChildStdin, Command, ExitStatus, Stdio};
use std::thread::{scope, sleep};
use std::time::{Duration, Instant};

/// After this time the program is taken not to end by itself.
const LIMIT: Duration = Duration::from_secs(20);

/// A sheet has at most this many bytes; the program reads one more to see that there are too many.
const MOST: usize = 65_535;

pub fn program() -> PathBuf {
    let path = Path::new(env!("CARGO_MANIFEST_DIR")).join("../target/bin/sheet");
    assert!(
        path.is_file(),
        "{} is missing: run `examples/read_mast` first",
        path.display()
    );
    path
}

/// The program started by a shell script, in which `$0` is the program.
pub fn under_shell(script: &str) -> Command {
    let mut command = Command::new("sh");
    command.arg("-c").arg(script).arg(program());
    command
}

/// How the program ended.
pub fn end(child: &mut Child) -> ExitStatus {
    let start = Instant::now();
    loop {
        if let Some(status) = child.try_wait().unwrap() {
            return status;
        }
        if start.elapsed() > LIMIT {
            child.kill().and_then(|()| child.wait()).unwrap();
            panic!("the program did not end by itself within {LIMIT:?}");
        }
        sleep(Duration::from_micros(100));
    }
}

/// What the program printed, once it has ended: little enough for a pipe. It must end with exit code 0 and print nothing on
/// standard error.
pub fn printed(child: &mut Child) -> String {
    let status = end(child);
    let mut output = String::new();
    let mut errors = String::new();
    let stdout = child.stdout.as_mut().unwrap();
    stdout.read_to_string(&mut output).expect("plain text");
    let stderr = child.stderr.as_mut().unwrap();
    stderr.read_to_string(&mut errors).expect("plain text");
    assert_eq!((status.code(), &errors[..]), (Some(0), ""), "{status}");
    output
}

/// Starts a program with this input, and with pipes for what it prints.
fn start_with(command: &mut Command, input: Stdio) -> Child {
    command
        .stdin(input)
        .stdout(Stdio::piped())
        .stderr(Stdio::piped())
        .spawn()
        .expect("a program that can be run")
}

/// Starts a program with pipes.
pub fn start(command: &mut Command) -> Child {
    start_with(command, Stdio::piped())
}

/// What the program prints if this is its input.
pub fn answer_on(input: impl Into<OwnedFd>) -> String {
    let input: OwnedFd = input.into();
    printed(&mut start_with(&mut Command::new(program()), input.into()))
}

/// What the program prints if `write` writes its input.
pub fn answer_to(write: impl FnOnce(ChildStdin) + Send) -> String {
    let mut child = start(&mut Command::new(program()));
    let stdin = child.stdin.take().unwrap();
    scope(|s| {
        s.spawn(|| write(stdin));
        printed(&mut child)
    })
}

/// What the program prints for an input.
pub fn answer(input: &[u8]) -> String {
    answer_to(|mut stdin| put(&mut stdin, input, MOST))
}

/// The same for an input written in chunks of this size with a pause after each.
pub fn answer_chunked(input: &[u8], size: usize, pause: Duration) -> String {
    answer_to(|mut stdin| {
        let mut left = MOST;
        for chunk in input.chunks(size) {
            put(&mut stdin, chunk, left);
            left = left.saturating_sub(chunk.len());
            sleep(pause);
        }
    })
}

/// Writes bytes of which the program reads at least `least`, if there are that many; after those it may have ended.
fn put(stdin: &mut ChildStdin, bytes: &[u8], least: usize) {
    if let Err(error) = stdin.write_all(bytes) {
        let gone = error.kind() == ErrorKind::BrokenPipe && bytes.len() > least;
        assert!(gone, "{error}: {} bytes, of {least}", bytes.len());
    }
}
