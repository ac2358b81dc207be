//! `docs/imports.svg` and `crates.txt` are current; and the pieces that they are made by, by hand.

use std::collections::BTreeSet;
use tools::files::{current, read, top};
use tools::graph::{reduced, rows};
use tools::layout::{layout, BOX};
use tools::listing::{parse, Listing};
use tools::picture::picture;
use tools::uses::{faults, names};

fn listing() -> Listing {
    parse(&read(&top().join("crates.txt")).expect("crates.txt")).expect("crates by layers")
}

#[test]
fn crates_txt_names_what_the_files_name() {
    assert_eq!(faults(&top(), &listing()).expect("files"), Vec::<String>::new());
}

#[test]
fn the_picture_is_current() {
    assert!(current(&top().join("docs/imports.svg"), &picture(&listing())), "draw it again: ./do graph");
}

#[test]
fn nothing_lies_on_a_box() {
    let layout = layout(&listing());
    for (at, one) in layout.items.iter().enumerate() {
        for other in &layout.items[at + 1..] {
            let apart = if one.stem && other.stem { 0 } else { BOX / 2 };
            assert!(one.row != other.row || (one.x - other.x).abs() > apart, "{} {}", one.of, other.of);
        }
    }
}

const SMALL: &str = "# a comment\n## low\na:\nb: a\n## high\nc: a b io # another\nd: a\ne: c d a\n";

#[test]
fn a_listing_by_hand() {
    let listing = parse(SMALL).expect("a listing");
    assert_eq!(listing.groups, ["low", "high"]);
    let crates: Vec<(&str, usize)> =
        listing.crates.iter().map(|one| (one.name.as_str(), one.group)).collect();
    assert_eq!(crates, [("a", 0), ("b", 0), ("c", 1), ("d", 1), ("e", 1)]);
    assert_eq!(listing.crates[2].needs, ["a", "b", "io"]);
    assert_eq!(reduced(&listing), [vec![], vec![0], vec![1], vec![0], vec![2, 3]]);
    assert_eq!(rows(&listing), [0, 1, 2, 1, 3]);
}

#[test]
fn listings_that_are_refused() {
    for (text, told) in [
        ("a: b\nb:\n", "line 1: a needs b"),
        ("a: a\n", "line 1: a needs a"),
        ("a:\n\na:\n", "line 3: a stands there already"),
        ("io:\n", "line 1: io stands there already"),
        ("a\n", "line 1: NAME: DEP DEP .."),
    ] {
        let refusal = parse(text).err().unwrap_or_default();
        assert!(refusal.contains(told), "{text:?}: {refusal:?}");
    }
}

#[test]
fn names_by_hand() {
    let set = |names: &[&str]| names.iter().map(|&name| name.to_owned()).collect::<BTreeSet<_>>();
    let code = "use a::b::c; // use d::e;\nghost use Rattle.f.specs.X.{g};\nh::i(j); crate::k::l";
    assert_eq!(names(code, true), set(&["a", "crate", "f", "h"]));
    let proof = "use Rattle.a.specs.B.{c} -- Rattle.d\nx = Rattle.e.proofs.f a::b";
    assert_eq!(names(proof, false), set(&["a", "e"]));
}
