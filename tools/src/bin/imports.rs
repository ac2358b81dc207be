//! `cargo run --release --offline --bin imports [-- --check]` draws `docs/imports.svg`, the crates with their direct
//! imports, by `crates.txt` and the files of the crates; with the word it only looks whether the picture is current.
//! Either way it fails where `crates.txt` names a crate too much or too little.

use std::process::ExitCode;
use tools::files::{keep, read, top};
use tools::{listing, picture, uses};

fn made() -> Result<String, String> {
    let listing = listing::parse(&read(&top().join("crates.txt"))?)?;
    let faults = uses::faults(&top(), &listing)?;
    if faults.is_empty() {
        Ok(picture::picture(&listing))
    } else {
        Err(faults.join("\n"))
    }
}

fn main() -> ExitCode {
    match keep("docs/imports.svg", made()) {
        Ok(()) => ExitCode::SUCCESS,
        Err(what) => {
            eprintln!("{what}");
            ExitCode::FAILURE
        }
    }
}
