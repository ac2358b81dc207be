//! The examples of README.md, taken out of its text: each is compiled by the command that stands there, and run.
//!
//! The commands run in a folder that looks like the top of the repository: `include` and `examples` are its own,
//! `bindings` is a copy, which looks for its archive in this folder, `target/staticlib/libcabi.a` is the archive that
//! all tests link, and `run` is the program that they run.

use reference::process::apptbook;
use reference::vectors::calendars::whole_case;
use std::fs;
use std::os::unix::fs::symlink;
use std::path::{Path, PathBuf};
use std::process::Command;

const PAGE: &str = "1993-03-15 Mon 1\n10:00-11:00 Dep\n";

fn top() -> PathBuf {
    Path::new(env!("CARGO_MANIFEST_DIR")).join("..").canonicalize().expect("a folder above")
}

fn readme() -> String {
    fs::read_to_string(top().join("README.md")).expect("README.md")
}

/// The code blocks of a language, which are so many.
fn fenced<const N: usize>(text: &str, language: &str) -> [String; N] {
    let fence = format!("\n```{language}\n");
    let block = |part: &str| part.split_once("\n```\n").expect("the block's end").0.to_owned() + "\n";
    let blocks: Vec<String> = text.split(&fence).skip(1).map(block).collect();
    blocks.try_into().unwrap_or_else(|blocks| panic!("not {N} blocks of {language}: {blocks:?}"))
}

/// Indented blocks, without the indent, outside of fenced ones.
fn indented(text: &str) -> Vec<String> {
    let outside: String = text.split("\n```").step_by(2).collect::<Vec<_>>().join("\n");
    let mut blocks = vec![String::new()];
    for line in outside.lines() {
        match line.strip_prefix("    ") {
            Some(line) => *blocks.last_mut().expect("a block") += &format!("{line}\n"),
            None => blocks.push(String::new()),
        }
    }
    blocks.retain(|block| !block.is_empty());
    blocks
}

/// The place of the only block that begins so.
fn beginning(blocks: &[String], words: &str) -> usize {
    let found: Vec<usize> = (0..blocks.len()).filter(|&at| blocks[at].starts_with(words)).collect();
    assert_eq!(found.len(), 1, "blocks that begin with {words:?}");
    found[0]
}

fn folder(name: &str) -> PathBuf {
    let folder = Path::new(env!("CARGO_TARGET_TMPDIR")).join(format!("readme-{name}"));
    let _ = fs::remove_dir_all(&folder);
    fs::create_dir_all(folder.join("target/staticlib")).expect("a new folder");
    let program = std::path::absolute(apptbook()).expect("a path");
    for (from, to) in [
        (top().join("include"), "include"),
        (top().join("examples"), "examples"),
        (env!("APPTBOOK_ARCHIVE").into(), "target/staticlib/libcabi.a"),
        (program, "run"),
    ] {
        symlink(from, folder.join(to)).expect("a link");
    }
    let copied =
        Command::new("cp").arg("-R").args([top().join("bindings"), folder.join("bindings")]).status();
    assert!(copied.expect("cp").success());
    folder
}

/// Runs a block's lines by the shell; none may fail or complain. Gives what they print.
fn shell(folder: &Path, lines: &str) -> Vec<u8> {
    let mut command = Command::new("sh");
    command
        .args(["-ec", lines])
        .current_dir(folder)
        .env_remove("APPTBOOK_LIB")
        .env("CARGO_NET_OFFLINE", "true");
    let output = command.output().expect("a shell");
    let complaint = String::from_utf8_lossy(&output.stderr);
    assert!(output.status.success() && complaint.is_empty(), "{lines}{}\n{complaint}", output.status);
    output.stdout
}

fn plain(bytes: Vec<u8>) -> String {
    String::from_utf8(bytes).expect("plain text")
}

#[test]
fn the_c_example() {
    let text = readme();
    let [code, ..]: [String; 3] = fenced(&text, "c");
    let folder = folder("example.c");
    fs::write(folder.join("example.c"), code).expect("a file");
    let blocks = indented(&text);
    let at = beginning(&blocks, "cc -Iinclude example.c ");
    assert!(blocks[at].ends_with("\n./example < examples/monthly.book\n"), "{}", blocks[at]);
    assert_eq!(plain(shell(&folder, &blocks[at])), "kind 3: List, next on day 4868\n");
    assert_eq!(blocks[at + 1], "kind 3: List, next on day 4868\n");
    assert_eq!(plain(shell(&folder, "./example < examples/case.book\n")), "kind 1: Dep\n");
    assert_eq!(shell(&folder, "head -c 32 examples/case.book | ./example || true\n"), b"4 30\n");
}

#[test]
fn the_rust_example() {
    let text = readme();
    let ([manifest], [code]) = (fenced(&text, "toml"), fenced(&text, "rust"));
    let folder = folder("example.rs");
    fs::create_dir_all(folder.join("page/src")).expect("a new folder");
    for (file, content) in [("page/Cargo.toml", manifest), ("page/src/main.rs", code)] {
        assert!(text.contains(&format!("`{file}`\n")), "{file}");
        fs::write(folder.join(file), content).expect("a file");
    }
    let blocks = indented(&text);
    let block = &blocks[beginning(&blocks, "cargo run ")];
    assert_eq!(plain(shell(&folder, block)), PAGE);
    let command = block.strip_suffix(" < examples/case.book\n").expect("the book as standard input");
    let refused = shell(&folder, &format!("head -c 32 examples/case.book | {command} 2>&1 || true\n"));
    assert_eq!(plain(refused), "Error: Refusal { number: 4, place: 30 }\n");
}

#[test]
fn the_example_of_reasons() {
    const REASONS: &str = "4867: skip 8, last 8\n4868: skip 7, last 2\n4869: skip 8, last 8\n";
    let text = readme();
    let [_, code, _] = fenced(&text, "c");
    let folder = folder("why.c");
    fs::write(folder.join("why.c"), code).expect("a file");
    let blocks = indented(&text);
    let at = beginning(&blocks, "cc -Iinclude why.c ");
    assert!(blocks[at].ends_with("\n./why < examples/monthly.book\n"), "{}", blocks[at]);
    assert_eq!(plain(shell(&folder, &blocks[at])), REASONS);
    assert_eq!(blocks[at + 1], REASONS);
    let of_case = "4867: skip 5, last 5\n4868: skip 5, last 5\n4869: skip 5, last 5\n";
    assert_eq!(plain(shell(&folder, "./why < examples/case.book\n")), of_case);
}

#[test]
fn the_example_of_day_chains() {
    let text = readme();
    let [_, _, code] = fenced(&text, "c");
    let blocks = indented(&text);
    let at = beginning(&blocks, "cc -Iinclude chains.c ");
    assert!(blocks[at].ends_with("\n./chains\n"), "{}", blocks[at]);
    let folder = folder("chains.c");
    let printed = |code: &str| {
        fs::write(folder.join("chains.c"), code).expect("a file");
        plain(shell(&folder, &blocks[at]))
    };
    assert_eq!(printed(&code), "2 days\n");
    assert_eq!(blocks[at + 1], "2 days\n");
    assert!(text.contains("\nWith the two minutes exchanged it prints `33 0`"));
    assert!(code.contains("{600, 540, 0}"), "{code}");
    assert_eq!(printed(&code.replace("{600, 540, 0}", "{540, 600, 0}")), "33 0\n");
}

#[test]
fn the_page() {
    let blocks = indented(&readme());
    let at = beginning(&blocks, "./run 4822 last <");
    assert_eq!(blocks[at], "./run 4822 last < examples/case.book\n");
    assert_eq!(shell(&folder("page"), &blocks[at]), PAGE.as_bytes());
    assert_eq!(blocks[at + 1], PAGE);
}

/// With either word, and without it.
#[test]
fn the_short_month() {
    const MOVED: &str = "1993-04-30 Fri 1\n10:00-11:00* List\n";
    let text = readme();
    let blocks = indented(&text);
    let at = beginning(&blocks, "./run 4868 ");
    assert_eq!(blocks[at], "./run 4868 last < examples/monthly.book\n");
    let folder = folder("short-month");
    assert_eq!(plain(shell(&folder, &blocks[at])), MOVED);
    assert_eq!(blocks[at + 1], MOVED);
    assert!(text.contains("\nand with `skip` in its place `1993-04-30 Fri 0`. "));
    assert_eq!(plain(shell(&folder, &blocks[at].replace("last", "skip"))), "1993-04-30 Fri 0\n");
    assert!(text.contains(" Without the word the answer is the refusal `11 0`."));
    assert_eq!(plain(shell(&folder, &blocks[at].replace(" last", ""))), "11 0\n");
}

#[test]
fn the_export() {
    let blocks = indented(&readme());
    let at = beginning(&blocks, "./run 4822 1 ");
    assert_eq!(blocks[at], "./run 4822 1 last < examples/case.book > case.cal\n");
    let folder = folder("export");
    assert_eq!(shell(&folder, &blocks[at]), b"");
    let written = fs::read(folder.join("case.cal")).expect("the file written");
    assert_eq!(written, whole_case());
    assert_eq!(written, fs::read(top().join("examples/case.cal")).expect("the example"));
    assert_eq!(written, listed(&blocks[at + 1]));
    assert_eq!(shell(&folder, "od -Ad -tx1 case.cal\n"), blocks[at + 1].as_bytes());
}

/// The bytes of a listing by `od`.
fn listed(listing: &str) -> Vec<u8> {
    let mut bytes = vec![];
    let mut repeated = None;
    for line in listing.lines() {
        if line == "*" {
            repeated = Some(bytes[bytes.len() - 16..].to_vec());
            continue;
        }
        let mut words = line.split(' ');
        let place: usize = words.next().and_then(|word| word.parse().ok()).expect("a place");
        if let Some(again) = repeated.take() {
            while bytes.len() < place {
                bytes.extend(&again);
            }
        }
        assert_eq!(bytes.len(), place);
        bytes.extend(words.map(|word| u8::from_str_radix(word, 16).expect("a byte")));
    }
    bytes
}
