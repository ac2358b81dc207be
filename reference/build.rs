//! Tells the tests which archive the crate `apptbook` links.

use std::env;

fn main() {
    println!("cargo:rerun-if-changed=build.rs");
    let archive = env::var("DEP_APPTBOOK_ARCHIVE").expect("apptbook's build script names it");
    println!("cargo:rustc-env=APPTBOOK_ARCHIVE={archive}");
}
