//! Files of the repository: found, read, and kept current.

use std::path::{Path, PathBuf};
use std::{env, fs, io};

/// The repository's top.
pub fn top() -> PathBuf {
    Path::new(env!("CARGO_MANIFEST_DIR")).join("..")
}

pub fn read(path: &Path) -> Result<String, String> {
    fs::read_to_string(path).map_err(|error| format!("{}: {error}", path.display()))
}

/// The files below a folder, in the order of their names; none where there is no such folder.
pub fn below(folder: &Path) -> Result<Vec<PathBuf>, String> {
    let told = |error: io::Error| format!("{}: {error}", folder.display());
    let mut files = vec![];
    if !folder.is_dir() {
        return Ok(files);
    }
    let entries: Result<Vec<_>, _> = fs::read_dir(folder).map_err(told)?.collect();
    let mut paths: Vec<PathBuf> = entries.map_err(told)?.iter().map(|entry| entry.path()).collect();
    paths.sort();
    for path in paths {
        if path.is_dir() {
            files.extend(below(&path)?);
        } else {
            files.push(path);
        }
    }
    Ok(files)
}

/// Whether the file has that text.
pub fn current(path: &Path, text: &str) -> bool {
    fs::read(path).is_ok_and(|bytes| bytes == text.as_bytes())
}

/// What both programs do with a file that they make, by their words: write it, or with `--check` only look at it.
pub fn keep(file: &str, made: Result<String, String>) -> Result<(), String> {
    let (path, text) = (top().join(file), made?);
    let words: Vec<String> = env::args().skip(1).collect();
    match words.iter().map(String::as_str).collect::<Vec<_>>()[..] {
        [] => fs::write(&path, text).map_err(|error| format!("{file}: {error}")),
        ["--check"] if current(&path, &text) => Ok(()),
        ["--check"] => Err(format!("{file} is not current: write it again, without --check")),
        _ => Err("the only word is --check".into()),
    }
}
