//! `docs/DEFINITIONS.md` is current; and the pieces that it is made by, by hand.

use tools::definitions::{document, part};
use tools::files::{current, read, top};
use tools::listing::parse;
use tools::wrap::filled;

#[test]
fn the_list_is_current() {
    let listing = parse(&read(&top().join("crates.txt")).expect("crates.txt")).expect("crates by layers");
    let text = document(&top(), &listing).expect("definitions");
    assert!(current(&top().join("docs/DEFINITIONS.md"), &text), "write it again: ./do definitions");
}

const FILE: &str = "\
-- What stands here,
-- in two lines.
-- Assumes nothing.
use a.b.{c}

-- the first
abbrev pub one : ℕ
one = 1

unfoldable pub two : ℕ → ℕ
two n = n

-- a law
pub law : one ≡ 1
law = refl

-- in two
-- lines
pub record Three (n : ℕ) : Type 0 where
  pub four : n ≡ 4

-- apart

pub data Five : Type 0 where
  six : Five
";

#[test]
fn a_file_by_hand() {
    let part = part(FILE);
    assert_eq!(part.about, "What stands here, in two lines.");
    let all: Vec<(&str, &str)> = part.defined.iter().map(|one| (&*one.name, &*one.about)).collect();
    assert_eq!(all, [("one", "the first"), ("two", ""), ("Three", "in two lines"), ("Five", "")]);
}

#[test]
fn filled_lines() {
    let long = "seven77 ".repeat(15);
    assert_eq!(filled("", long.trim()), format!("{}\n", long.trim()));
    assert_eq!(filled("- ", &format!("{long}a")), format!("- {}\n  seven77 a\n", long[..14 * 8].trim()));
    assert_eq!(filled("", &format!("{long}`a b`")), format!("{}\n`a b`\n", long.trim()));
    assert_eq!(filled("", &format!("{long}- b")), format!("{}\nseven77 - b\n", long[..14 * 8].trim()));
}
