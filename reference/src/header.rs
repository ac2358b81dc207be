//! What `include/apptbook.h` declares.

use std::fs;
use std::path::Path;

/// The names of its calls, without `apptbook_`, sorted.
pub fn calls() -> Vec<String> {
    let path = Path::new(env!("CARGO_MANIFEST_DIR")).join("../include/apptbook.h");
    let header = fs::read_to_string(path).expect("the header");
    let code: String = header.split("/*").map(|part| part.split_once("*/").map_or(part, |p| p.1)).collect();
    let mut calls: Vec<String> = code
        .split("apptbook_")
        .skip(1)
        .filter_map(|part| part.split_once('(').map(|(name, _)| name))
        .filter(|name| name.chars().all(|letter| letter.is_ascii_lowercase() || letter == '_'))
        .map(str::to_owned)
        .collect();
    calls.sort();
    calls
}
