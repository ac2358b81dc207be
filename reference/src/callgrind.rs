//! Instructions, counted by callgrind: the program that asks is run again for each number, told by its words what
//! to call.

use std::env;
use std::process::Command;

/// Makes as many calls as it is told.
pub type Run = Box<dyn Fn(usize)>;

/// The only thing that is counted.
#[no_mangle]
#[inline(never)]
pub extern "C" fn measured(run: &Run, calls: usize) {
    run(calls);
}

/// Of one call, where this program makes `calls` of them by `measured` when it gets these numbers as its words, and
/// then how many calls to make. None where there is no valgrind.
pub fn instructions(words: &[usize], calls: usize) -> Option<f64> {
    let output = Command::new("valgrind")
        .args(["--tool=callgrind", "--callgrind-out-file=/dev/null", "--toggle-collect=measured"])
        .arg(env::current_exe().ok()?)
        .args(words.iter().chain([&calls]).map(|number| number.to_string()))
        .output()
        .ok()?;
    let report = String::from_utf8_lossy(&output.stderr);
    let all: f64 = report.lines().find_map(|line| line.split_once("Collected :")?.1.trim().parse().ok())?;
    Some(all / calls as f64)
}
