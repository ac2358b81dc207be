//! Links the proved library: `target/staticlib/libcabi.a`, or the archive that `APPTBOOK_LIB` names. What depends on
//! this crate gets its path as `DEP_APPTBOOK_ARCHIVE` in its own build script.

use std::path::{Path, PathBuf};
use std::{env, process};

fn main() {
    println!("cargo:rerun-if-env-changed=APPTBOOK_LIB");
    let archive = archive();
    println!("cargo:rerun-if-changed={}", archive.display());
    if !archive.is_file() {
        eprintln!("There is no proved library at {}.", archive.display());
        eprintln!(
            "Run `./do library` at the top of the repository, or name another archive by APPTBOOK_LIB."
        );
        process::exit(1);
    }
    let folder = archive.parent().expect("a file stands in a folder");
    let file = archive.file_name().expect("a file has a name");
    println!("cargo:rustc-link-search=native={}", folder.display());
    println!("cargo:rustc-link-lib=static:+verbatim={}", file.to_string_lossy());
    println!("cargo:archive={}", archive.display());
}

fn archive() -> PathBuf {
    let Some(path) = env::var_os("APPTBOOK_LIB") else {
        return Path::new(env!("CARGO_MANIFEST_DIR")).join("../../target/staticlib/libcabi.a");
    };
    let path = PathBuf::from(path);
    if path.is_relative() {
        eprintln!("APPTBOOK_LIB is {}: it must be a full path, which begins with /.", path.display());
        process::exit(1);
    }
    path
}
