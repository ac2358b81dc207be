//! What documents are made of the repository's own files: `docs/imports.svg` by the program `imports`, and
//! `docs/DEFINITIONS.md` by the program `definitions`; and what its tests look for in them. None needs the proved
//! library.

pub mod definitions;
pub mod files;
pub mod graph;
pub mod layout;
pub mod listing;
pub mod picture;
pub mod tracks;
pub mod unfolded;
pub mod uses;
pub mod wrap;
