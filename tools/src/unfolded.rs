//! Which files unfold a definition: where it is shut (`unfoldable`), no other law or proof can lean on what it says.

use crate::files::{below, read};
use std::path::Path;

/// Whether a text unfolds a definition, by a line `unfolding ..` or by `unfold .. in`, or for a function by its attribute
/// `#[tactic(auto, unfolding(..))]`, with a path. Comments do not count.
pub fn unfolds(text: &str, name: &str) -> bool {
    let of_line = |line: &str| {
        let code = ["--", "//"].iter().fold(line, |code, sign| code.split(sign).next().unwrap_or(""));
        let mut words = code.split(|letter: char| letter.is_whitespace() || "(),:".contains(letter));
        words.any(|word| ["unfold", "unfolding"].contains(&word)) && words.any(|word| word == name)
    };
    text.lines().any(of_line)
}

/// The files below `crates` that do, as they are named there; `out` folders hold copies, which are passed over.
pub fn unfolding(top: &Path, name: &str) -> Result<Vec<String>, String> {
    let crates = top.join("crates");
    let mut files = vec![];
    for file in below(&crates)? {
        let inside = file.strip_prefix(&crates).map_err(|error| error.to_string())?;
        let copy = inside.components().nth(1).is_some_and(|part| part.as_os_str() == "out");
        let source = file.extension().is_some_and(|end| end == "antt" || end == "rt");
        if !copy && source && unfolds(&read(&file)?, name) {
            files.push(inside.display().to_string());
        }
    }
    Ok(files)
}
