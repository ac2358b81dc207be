//! The graph of crates: which of its lines say something new, and how deep each crate lies.

use crate::listing::Listing;

/// All that a crate reaches.
fn reached(listing: &Listing, from: usize) -> Vec<bool> {
    let mut reached = vec![false; listing.crates.len()];
    let mut left = vec![from];
    while let Some(at) = left.pop() {
        for below in listing.below(at) {
            if !reached[below] {
                reached[below] = true;
                left.push(below);
            }
        }
    }
    reached
}

/// For each crate those that it needs and that none of the others which it needs reaches.
pub fn reduced(listing: &Listing) -> Vec<Vec<usize>> {
    let all: Vec<Vec<bool>> = (0..listing.crates.len()).map(|at| reached(listing, at)).collect();
    let own = |at| {
        let needs = listing.below(at);
        needs.iter().copied().filter(|&need| !needs.iter().any(|&other| all[other][need])).collect()
    };
    (0..listing.crates.len()).map(own).collect()
}

/// One more than the deepest that it needs; 0 where it needs none.
pub fn rows(listing: &Listing) -> Vec<usize> {
    let mut rows: Vec<usize> = vec![];
    for at in 0..listing.crates.len() {
        rows.push(listing.below(at).iter().map(|&below| rows[below] + 1).max().unwrap_or(0));
    }
    rows
}
