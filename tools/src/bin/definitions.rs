//! `cargo run --release --offline --bin definitions [-- --check]` writes `docs/DEFINITIONS.md`; with the word it only
//! looks whether that is current.

use std::process::ExitCode;
use tools::definitions::document;
use tools::files::{keep, read, top};
use tools::listing::parse;

fn main() -> ExitCode {
    let made = read(&top().join("crates.txt")).and_then(|text| document(&top(), &parse(&text)?));
    match keep("docs/DEFINITIONS.md", made) {
        Ok(()) => ExitCode::SUCCESS,
        Err(what) => {
            eprintln!("{what}");
            ExitCode::FAILURE
        }
    }
}
