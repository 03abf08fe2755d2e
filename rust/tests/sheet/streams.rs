//! Inputs and outputs that end, fail or are not there: the program ends by itself, and prints no other answer. After a read that fails
//! it prints nothing.
use crate::process::{answer_on, answer_to, end, printed, program, start, under_shell};
use std::fs::File;
use std::io::{pipe, PipeReader, PipeWriter, Write};
use std::net::Shutdown;
use std::os::fd::AsRawFd;
use std::os::unix::net::UnixStream;
use std::process::{Child, Command};
use std::thread::sleep;
use std::time::Duration;

extern "C" {
    fn fcntl(fd: i32, command: i32, ...) -> i32;
    fn kill(process: i32, signal: i32) -> i32;
}

/// Linux's numbers: to get a descriptor's flags and to set them, the flag for reads that do not wait, the signals to stop and continue.
const F_GETFL: i32 = 3;
const F_SETFL: i32 = 4;
const O_NONBLOCK: i32 = 0o4000;
const SIGSTOP: i32 = 19;
const SIGCONT: i32 = 18;

const EXAMPLE: &[u8] = b"ab\naa\n5 1 9\n5 1 9\n5 1 9\n";

/// Writes the example to the program and closes the input.
fn put_example(child: &mut Child) {
    let mut stdin = child.stdin.take().unwrap();
    stdin.write_all(EXAMPLE).unwrap();
}

/// The answer comes when the input has ended, not before.
#[test]
fn waits_for_the_end() {
    let mut child = start(&mut Command::new(program()));
    let mut stdin = child.stdin.take().unwrap();
    for line in EXAMPLE.split_inclusive(|&b| b == b'\n') {
        stdin.write_all(line).unwrap();
        sleep(Duration::from_millis(30));
        assert!(child.try_wait().unwrap().is_none(), "ended too early");
    }
    drop(stdin);
    assert_eq!(printed(&mut child), "7\naa\n1 0 1\n");
}

/// Input that is cut off counts as the shorter input.
#[test]
fn cut_off() {
    for end in 0..EXAMPLE.len() {
        let output = answer_to(|mut stdin| stdin.write_all(&EXAMPLE[..end]).unwrap());
        let expected = match end {
            6 | 12 | 18 => "refused 16\n",
            _ => "refused 18\n",
        };
        assert_eq!(output, expected, "{end} bytes");
    }
}

/// Input that ends at once, and input without end.
#[test]
fn other_inputs() {
    for path in ["/dev/null", "/dev/zero", "/dev/urandom"] {
        assert_eq!(
            answer_on(File::open(path).unwrap()),
            "refused 18\n",
            "{path}"
        );
    }
}

/// No input at all, and input that cannot be read: nothing is printed.
#[test]
fn unreadable_inputs() {
    let mut closed = start(&mut under_shell("exec \"$0\" <&-"));
    assert_eq!(printed(&mut closed), "");
    let mut for_writing = start(&mut under_shell("exec \"$0\" 0>/dev/null"));
    assert_eq!(printed(&mut for_writing), "");
    assert_eq!(answer_on(File::open("/").unwrap()), "", "a folder");
}

/// A sheet that has a reading; its first lines alone have one too, from two lines on.
const LINES: &[u8] = b"ab\na*b?\n5 1 9\n5 9 2\n1 9 9\n";

/// What is printed for its first lines: without a column, with one, with two, with all three.
const READINGS: [(usize, &str); 4] = [
    (8, "0\n\n\n"),
    (14, "1\na\n1\n"),
    (20, "3\nab\n1 2\n"),
    (26, "4\nab\n1 2 0\n"),
];

/// A pipe that holds these bytes. Reads of it do not wait: one that finds nothing fails, as long as there is a writer.
fn nonblocking_pipe(bytes: &[u8]) -> (PipeReader, PipeWriter) {
    let (reader, mut writer) = pipe().unwrap();
    let fd = reader.as_raw_fd();
    let set = unsafe { fcntl(fd, F_SETFL, fcntl(fd, F_GETFL) | O_NONBLOCK) };
    assert_eq!(set, 0, "fcntl");
    writer.write_all(bytes).unwrap();
    (reader, writer)
}

/// The same with sockets.
fn nonblocking_socket(bytes: &[u8]) -> (UnixStream, UnixStream) {
    let (reader, mut writer) = UnixStream::pair().unwrap();
    reader.set_nonblocking(true).unwrap();
    writer.set_nonblocking(true).unwrap();
    writer.write_all(bytes).unwrap();
    (reader, writer)
}

/// A read that fails because nothing is there yet is not the end: nothing is printed, though the lines that came have a reading.
#[test]
fn pause_of_a_nonblocking_pipe() {
    for end in 0..=LINES.len() {
        let (reader, writer) = nonblocking_pipe(&LINES[..end]);
        assert_eq!(answer_on(reader), "", "{end} bytes");
        drop(writer);
    }
}

#[test]
fn pause_of_a_nonblocking_socket() {
    for end in 0..=LINES.len() {
        let (reader, writer) = nonblocking_socket(&LINES[..end]);
        assert_eq!(answer_on(reader), "", "{end} bytes");
        drop(writer);
    }
}

/// A connection that the other side has broken off without having read what was sent to it.
#[test]
fn broken_connection() {
    for end in 0..=LINES.len() {
        let (mut reader, mut writer) = UnixStream::pair().unwrap();
        reader.write_all(b"unread").unwrap();
        writer.write_all(&LINES[..end]).unwrap();
        drop(writer);
        assert_eq!(answer_on(reader), "", "{end} bytes");
    }
}

/// The same bytes with a pause on a pipe whose reads wait: the whole reading.
#[test]
fn pause_of_a_blocking_pipe() {
    for (end, _) in READINGS {
        let output = answer_to(|mut stdin| {
            stdin.write_all(&LINES[..end]).unwrap();
            sleep(Duration::from_millis(30));
            stdin.write_all(&LINES[end..]).unwrap();
        });
        assert_eq!(output, READINGS[3].1, "{end} bytes");
    }
}

/// Stopped while it waits, and continued: no read fails because of that.
#[test]
fn stopped_and_continued() {
    let mut child = start(&mut Command::new(program()));
    let mut stdin = child.stdin.take().unwrap();
    for line in LINES.split_inclusive(|&b| b == b'\n') {
        stdin.write_all(line).unwrap();
        for signal in [SIGSTOP, SIGCONT] {
            sleep(Duration::from_millis(10));
            assert_eq!(unsafe { kill(child.id() as i32, signal) }, 0, "kill");
        }
    }
    drop(stdin);
    assert_eq!(printed(&mut child), READINGS[3].1);
}

/// The writer closes: that is the end, also of input whose reads do not wait.
#[test]
fn closed_by_the_writer() {
    for (end, reading) in READINGS {
        let lines = &LINES[..end];
        let output = answer_to(|mut stdin| stdin.write_all(lines).unwrap());
        assert_eq!(output, reading, "{end} bytes, pipe");
        let (reader, writer) = nonblocking_socket(lines);
        writer.shutdown(Shutdown::Write).unwrap();
        assert_eq!(answer_on(reader), reading, "{end} bytes, socket");
    }
}

/// The byte too many comes late: with it the answer comes, though the input goes on. If a read fails in its place there is none.
#[test]
fn byte_too_many() {
    let mut child = start(&mut Command::new(program()));
    let mut stdin = child.stdin.take().unwrap();
    for bytes in [65_534, 1, 1] {
        assert!(child.try_wait().unwrap().is_none(), "ended too early");
        stdin.write_all(&vec![b'\n'; bytes]).unwrap();
        sleep(Duration::from_millis(30));
    }
    assert_eq!(printed(&mut child), "refused 18\n");
    drop(stdin);
    for (bytes, output) in [
        (65_535, ""),
        (65_536, "refused 18\n"),
        (70_000, "refused 18\n"),
    ] {
        let (reader, writer) = nonblocking_socket(&vec![b'\n'; bytes]);
        assert_eq!(answer_on(reader), output, "{bytes} bytes");
        drop(writer);
    }
}

/// A pipe that nobody reads: exit code 0, since the program ignores the system's signal for that.
#[test]
fn reader_gone() {
    let mut child = start(&mut Command::new(program()));
    drop(child.stdout.take());
    put_example(&mut child);
    assert_eq!(end(&mut child).code(), Some(0));
}

/// The same where whoever starts the program has that signal ignored.
#[test]
fn reader_gone_without_signal() {
    let mut child = start(&mut under_shell("trap '' PIPE; exec \"$0\""));
    drop(child.stdout.take());
    put_example(&mut child);
    assert_eq!(end(&mut child).code(), Some(0));
}

/// Outputs that take nothing: exit code 0, and nothing is printed elsewhere.
#[test]
fn other_outputs() {
    let scripts = [
        "exec \"$0\" >&-",
        "exec \"$0\" >/dev/full",
        "exec \"$0\" 1</dev/null",
        "exec \"$0\" >&- 2>&-",
    ];
    for script in scripts {
        let mut child = start(&mut under_shell(script));
        put_example(&mut child);
        assert_eq!(printed(&mut child), "", "{script}");
    }
    let mut neither = start(&mut under_shell("exec \"$0\" <&- >&-"));
    assert_eq!(printed(&mut neither), "");
}

/// Arguments and the environment mean nothing.
#[test]
fn arguments() {
    let mut child = start(
        Command::new(program())
            .args(["-h", "refused", ""])
            .env_clear(),
    );
    put_example(&mut child);
    assert_eq!(printed(&mut child), "7\naa\n1 0 1\n");
}
