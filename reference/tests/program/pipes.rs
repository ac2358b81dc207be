//! Standard input and output that are closed, full, slow, never-ending, or no files at all. The program always ends.
//!
//! Its status is 0 also where its answer was lost, as in a pipe that nobody reads.

use super::{command, words};
use reference::books::{small, Field, File};
use reference::process::{self, apptbook};
use reference::program::output;
use reference::rng::Rng;
use reference::vectors::WHOLE_CASE;
use std::io::{Read, Write};
use std::os::fd::{AsRawFd, OwnedFd};
use std::os::unix::net::UnixStream;
use std::os::unix::process::ExitStatusExt;
use std::process::{Child, ChildStdout, Command, ExitStatus, Stdio};
use std::thread::sleep;
use std::time::{Duration, Instant};

const PAGE: &[u8] = b"1993-03-15 Mon 1\n10:00-11:00 Dep\n";
const A_MOMENT: Duration = Duration::from_millis(1);

/// How it ends, within a minute.
fn end(child: &mut Child) -> ExitStatus {
    let start = Instant::now();
    while start.elapsed() < Duration::from_secs(60) {
        if let Some(status) = child.try_wait().expect("a child") {
            return status;
        }
        sleep(A_MOMENT);
    }
    child.kill().expect("a child");
    panic!("it hangs");
}

/// By a shell, with such redirections; gives status, standard output and standard error.
fn redirected(words: &[&str], how: &str) -> (ExitStatus, Vec<u8>, Vec<u8>) {
    let mut child = Command::new("sh")
        .args(["-c", &format!("exec \"$0\" \"$@\" {how}")])
        .arg(apptbook())
        .args(words)
        .stdin(Stdio::piped())
        .stdout(Stdio::piped())
        .stderr(Stdio::piped())
        .spawn()
        .expect("a shell");
    // Where its standard input is another one, nobody reads this.
    let _ = child.stdin.take().expect("a pipe").write_all(&WHOLE_CASE);
    let status = end(&mut child);
    let (mut stdout, mut stderr) = (vec![], vec![]);
    child.stdout.take().expect("a pipe").read_to_end(&mut stdout).expect("a pipe");
    child.stderr.take().expect("a pipe").read_to_end(&mut stderr).expect("a pipe");
    (status, stdout, stderr)
}

fn said(words: &[&str], how: &str) -> Vec<u8> {
    let (status, stdout, stderr) = redirected(words, how);
    assert!(status.success() && stderr.is_empty(), "{how}: {status}, {}", String::from_utf8_lossy(&stderr));
    stdout
}

const COMMANDS: [&[&str]; 4] = [&["4822", "last"], &["4822", "1", "skip"], &["4822"], &[]];

/// What cannot be written is lost, and nothing says so.
#[test]
fn closed_or_full_output() {
    for words in COMMANDS {
        for how in [">&-", ">/dev/full", "</dev/null >&-", "<&- >&- 2>&-", "</dev/zero >/dev/full"] {
            assert_eq!(said(words, how), b"", "{words:?} {how}");
        }
    }
}

#[test]
fn closed_standard_error() {
    assert_eq!(said(&["4822", "last"], "2>&-"), PAGE);
}

/// Reading fails, or gives nothing: the same as an empty book.
#[test]
fn inputs_that_are_no_files() {
    for words in COMMANDS {
        for how in ["</", "0>/dev/null", "</proc/self/mem"] {
            assert_eq!(said(words, how), b"2 0\n", "{words:?} {how}");
        }
    }
}

/// It reads one byte more than a book may have at most, or not much more, and stops.
#[test]
fn input_without_an_end() {
    for words in COMMANDS {
        assert_eq!(said(words, "</dev/zero"), b"1 0\n", "{words:?}");
    }
    let mut child = command(&words([b"4822", b"last"])).spawn().expect("the program");
    let mut pipe = child.stdin.take().expect("a pipe");
    let piece = vec![b'x'; 65_536];
    // 200 MB, of which it takes few.
    let taken = (0..3_052).take_while(|_| pipe.write_all(&piece).is_ok()).count();
    drop(pipe);
    assert!(end(&mut child).success());
    let mut written = vec![];
    child.stdout.take().expect("a pipe").read_to_end(&mut written).expect("a pipe");
    assert_eq!(written, b"1 0\n");
    assert!(taken < 16, "{taken} times 65,536 bytes");
}

/// Each byte by itself, most of them read before the next is written.
#[test]
fn one_byte_at_a_time() {
    let mut child = command(&words([b"4822", b"last"])).spawn().expect("the program");
    let mut pipe = child.stdin.take().expect("a pipe");
    for byte in WHOLE_CASE {
        pipe.write_all(&[byte]).expect("a reader");
        sleep(A_MOMENT);
    }
    drop(pipe);
    assert!(end(&mut child).success());
    let mut written = vec![];
    child.stdout.take().expect("a pipe").read_to_end(&mut written).expect("a pipe");
    assert_eq!(written, PAGE);
}

/// A non-blocking input with no bytes yet is taken for one that has ended.
#[test]
fn input_that_is_not_there_yet() {
    let (ours, theirs) = UnixStream::pair().expect("sockets");
    theirs.set_nonblocking(true).expect("a socket");
    let mut command = command(&words([b"4822", b"last"]));
    let mut child = command.stdin(OwnedFd::from(theirs)).spawn().expect("the program");
    assert!(end(&mut child).success());
    drop(ours);
    let mut written = vec![];
    child.stdout.take().expect("a pipe").read_to_end(&mut written).expect("a pipe");
    assert_eq!(written, b"2 0\n");
}

/// The reader is gone before anything is written: the answer is lost. A program of this kit starts with SIGPIPE ignored.
#[test]
fn a_reader_that_is_gone() {
    for words in COMMANDS {
        let line: Vec<Vec<u8>> = words.iter().map(|word| word.as_bytes().to_vec()).collect();
        let mut child = command(&line).spawn().expect("the program");
        drop(child.stdout.take());
        child.stdin.take().expect("a pipe").write_all(&WHOLE_CASE).expect("a reader");
        let status = end(&mut child);
        assert_eq!((status.code(), status.signal()), (Some(0), None), "{words:?}");

        let mut child = Command::new("sh")
            .args(["-c", "trap '' PIPE; exec \"$0\" \"$@\""])
            .arg(apptbook())
            .args(words)
            .stdin(Stdio::piped())
            .stdout(Stdio::piped())
            .spawn()
            .expect("a shell");
        drop(child.stdout.take());
        child.stdin.take().expect("a pipe").write_all(&WHOLE_CASE).expect("a reader");
        assert_eq!(end(&mut child).code(), Some(0), "{words:?}");
    }
}

/// 512 kB of stack are enough; with 300 it would crash.
#[test]
fn a_small_stack() {
    for (words, expected) in [(&["4822", "last"][..], PAGE), (&["4822", "367", "last"], b"11 0\n")] {
        let script = "ulimit -s 512 && exec \"$0\" \"$@\" <../examples/case.book";
        let mut command = Command::new("sh");
        command.args(["-c", script]).arg(apptbook()).args(words);
        let output = command.current_dir(env!("CARGO_MANIFEST_DIR")).output().expect("a shell");
        assert_eq!(process::said(&command, output), expected);
    }
}

unsafe extern "C" {
    fn fcntl(fd: i32, command: i32, argument: i32) -> i32;
}

/// A pipe of 4,096 bytes, the least that there is.
fn narrow(pipe: &ChildStdout) {
    const SET_PIPE_SIZE: i32 = 1_031;
    // SAFETY: a number of an open file, and a command that takes a number.
    assert_eq!(unsafe { fcntl(pipe.as_raw_fd(), SET_PIPE_SIZE, 4_096) }, 4_096);
}

/// A page of many times what the pipe holds, read in pieces of 1, 7 and 5,000 bytes, after a while.
#[test]
fn a_slow_reader() {
    let mut rng = Rng::for_test("a_slow_reader");
    let record = || {
        let mut draft = small(1, &mut rng);
        draft.put(Field::Date, [93, 3, 15]);
        draft
    };
    let book = File::full(65_535, record).bytes;
    let line = words([b"4822", b"last"]);
    let expected = output(&line, &book);
    assert!(expected.len() > 50_000);
    for piece in [1, 7, 5_000] {
        let mut child = command(&line).spawn().expect("the program");
        let mut pipe = child.stdout.take().expect("a pipe");
        narrow(&pipe);
        child.stdin.take().expect("a pipe").write_all(&book).expect("a reader");
        sleep(20 * A_MOMENT);
        let mut written: Vec<u8> = vec![];
        let mut buffer = vec![0; piece];
        loop {
            match pipe.read(&mut buffer).expect("a pipe") {
                0 => break,
                count => written.extend(&buffer[..count]),
            }
        }
        assert!(end(&mut child).success());
        assert!(written == expected, "by {piece}");
    }
}
