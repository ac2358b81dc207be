//! Which crates a crate's files name: code by paths as `days::dates::date_of`, definitions, laws and proofs by
//! `Rattle.days`. `rt` wants each of them in the crate's line of `crates.txt`, and nothing else is.

use crate::files::{below, read};
use crate::listing::Listing;
use std::collections::BTreeSet;
use std::path::Path;

fn in_name(letter: char) -> bool {
    letter.is_ascii_alphanumeric() || letter == '_'
}

/// The text without its comments, which begin so and end with their line.
fn without_comments(text: &str, mark: &str) -> String {
    text.lines().map(|line| line.split(mark).next().unwrap_or("")).collect::<Vec<_>>().join("\n")
}

/// What stands behind each `Rattle.`.
fn of_proofs(text: &str) -> impl Iterator<Item = &str> {
    text.split("Rattle.").skip(1).map(|rest| rest.split(|letter| !in_name(letter)).next().unwrap_or(""))
}

/// The first word of each path `a::b::c`.
fn of_paths(text: &str) -> impl Iterator<Item = &str> {
    text.match_indices("::").filter_map(|(at, _)| {
        let before = &text[..at];
        let start = before
            .rfind(|letter| !in_name(letter))
            .map_or(0, |place| place + before[place..].chars().next().map_or(0, char::len_utf8));
        (!before[..start].ends_with("::")).then_some(&before[start..])
    })
}

/// The names in one file, whatever they name.
pub fn names(text: &str, code: bool) -> BTreeSet<String> {
    let text = without_comments(text, if code { "//" } else { "--" });
    let paths = of_paths(&text).filter(|_| code);
    of_proofs(&text).chain(paths).map(str::to_owned).collect()
}

/// The crates and libraries that the files of a crate name.
pub fn of_crate(top: &Path, listing: &Listing, name: &str) -> Result<BTreeSet<String>, String> {
    let mut all = BTreeSet::new();
    for part in ["src", "specs", "proofs"] {
        for file in below(&top.join("crates").join(name).join(part))? {
            let code = file.extension().is_some_and(|end| end == "rt");
            all.extend(names(&read(&file)?, code));
        }
    }
    all.retain(|other| other != name && listing.knows(other));
    Ok(all)
}

/// What `crates.txt` has too much or too little, a line each.
pub fn faults(top: &Path, listing: &Listing) -> Result<Vec<String>, String> {
    let mut faults = vec![];
    for listed in &listing.crates {
        let used = of_crate(top, listing, &listed.name)?;
        let needs: BTreeSet<String> = listed.needs.iter().cloned().collect();
        let told = |other: &String, what| format!("{}: {other} {what}", listed.name);
        faults.extend(
            used.difference(&needs).map(|other| told(other, "is named in its files, not in crates.txt")),
        );
        faults.extend(
            needs.difference(&used).map(|other| told(other, "is named in crates.txt, not in its files")),
        );
    }
    Ok(faults)
}
