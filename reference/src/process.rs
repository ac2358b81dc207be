//! The proved programs as processes.

use std::env;
use std::ffi::OsString;
use std::io::Write;
use std::os::unix::ffi::OsStringExt;
use std::path::{Path, PathBuf};
use std::process::{Command, Output, Stdio};
use std::thread;

/// `target/bin/apptbook` at the top of the repository, or the program that APPTBOOK_BIN names. Other programs stand
/// beside it.
pub fn apptbook() -> PathBuf {
    match env::var_os("APPTBOOK_BIN") {
        Some(path) => path.into(),
        None => Path::new(env!("CARGO_MANIFEST_DIR")).join("../target/bin/apptbook"),
    }
}

/// With such words, and a pipe for each of its three files.
pub fn command(program: &Path, words: &[Vec<u8>]) -> Command {
    let mut command = Command::new(program);
    command.args(words.iter().map(|word| OsString::from_vec(word.clone())));
    command.stdin(Stdio::piped()).stdout(Stdio::piped()).stderr(Stdio::piped());
    command
}

/// Runs it to its end, and writes its standard input in such pieces.
pub fn fed<'a>(command: &mut Command, mut pieces: impl Iterator<Item = &'a [u8]> + Send) -> Output {
    let mut child = command.spawn().unwrap_or_else(|e| panic!("{command:?}: {e}"));
    let mut pipe = child.stdin.take().expect("a pipe");
    thread::scope(|scope| {
        // It may have read enough and be gone.
        scope.spawn(move || pieces.try_for_each(|piece| pipe.write_all(piece)));
        child.wait_with_output().expect("an output")
    })
}

/// What it wrote. It is to end by itself and to say nothing but on standard output.
pub fn said(command: &Command, output: Output) -> Vec<u8> {
    let Output { status, stdout, stderr } = output;
    assert!(status.success(), "{command:?}: {status}");
    assert!(stderr.is_empty(), "{command:?}: {}", String::from_utf8_lossy(&stderr));
    stdout
}

/// What a program writes for such words and such an input.
pub fn run(program: &Path, words: &[Vec<u8>], input: &[u8]) -> Vec<u8> {
    let mut command = command(program, words);
    let output = fed(&mut command, [input].into_iter());
    said(&command, output)
}
