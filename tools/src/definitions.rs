//! `docs/DEFINITIONS.md`: for each crate and each file of definitions its first comment and the names that it defines,
//! each with the comment above it. Laws stand in `proofs/Laws` and are not listed.

use crate::files::read;
use crate::listing::Listing;
use crate::wrap::filled;
use std::path::Path;

const DEFINES: [&str; 4] = ["unfoldable pub ", "abbrev pub ", "pub record ", "pub data "];

const TITLE: &str = "\
# The definitions to believe

What the contracts say goes by these, and nothing checks them but a reader: `crates/CRATE/specs/FILE.antt`, crates from
the lowest layer up, files and names in the order of reading. Laws about them are proved and need no belief. Written by
`./do definitions` from the comments that stand above them.
";

pub struct Definition {
    pub name: String,
    pub about: String,
}

/// A file of definitions: what its first comment says, and what it defines.
pub struct Part {
    pub about: String,
    pub defined: Vec<Definition>,
}

/// Comment lines as one text, without a line that says what the file assumes.
fn joined(lines: &[&str]) -> String {
    let text = lines.iter().map(|line| line.trim_start_matches('-').trim());
    text.filter(|line| !line.starts_with("Assumes ")).collect::<Vec<_>>().join(" ")
}

pub fn part(text: &str) -> Part {
    let lines: Vec<&str> = text.lines().collect();
    let ends = lines.iter().position(|line| !line.starts_with("--")).unwrap_or(lines.len());
    let mut comment = lines.len();
    let mut defined = vec![];
    for (at, line) in lines.iter().enumerate() {
        if line.starts_with("--") {
            comment = comment.min(at);
            continue;
        }
        if let Some(rest) = DEFINES.iter().find_map(|word| line.strip_prefix(word)) {
            let name = rest.split_whitespace().next().unwrap_or("").to_owned();
            defined.push(Definition { name, about: joined(&lines[comment.min(at)..at]) });
        }
        comment = lines.len();
    }
    Part { about: joined(&lines[..ends]), defined }
}

/// The modules that a crate's `Lib.antt` declares, in its order.
fn modules(text: &str) -> impl Iterator<Item = &str> {
    text.lines().filter_map(|line| line.strip_prefix("pub mod ")).map(str::trim)
}

/// A crate's files that define something, with their names.
fn parts(top: &Path, name: &str) -> Result<Vec<(String, Part)>, String> {
    let specs = top.join("crates").join(name).join("specs");
    let root = specs.join("Lib.antt");
    if !root.is_file() {
        return Ok(vec![]);
    }
    let mut parts = vec![];
    for module in modules(&read(&root)?) {
        let file = specs.join(format!("{module}.antt"));
        if file.is_file() {
            parts.push((module.to_owned(), part(&read(&file)?)));
        }
    }
    parts.retain(|(_, part)| !part.defined.is_empty());
    Ok(parts)
}

fn written(module: &str, part: &Part) -> String {
    let mut text = format!("\n{}\n", filled("", &format!("**`{module}`** {}", part.about)));
    for one in &part.defined {
        let about = if one.about.is_empty() { String::new() } else { format!(": {}", one.about) };
        text += &filled("- ", &format!("`{}`{about}", one.name));
    }
    text
}

pub fn document(top: &Path, listing: &Listing) -> Result<String, String> {
    let mut text = TITLE.to_owned();
    for listed in &listing.crates {
        let parts = parts(top, &listed.name)?;
        if !parts.is_empty() {
            text += &format!("\n## {}\n", listed.name);
        }
        text.extend(parts.iter().map(|(module, part)| written(module, part)));
    }
    Ok(text)
}
