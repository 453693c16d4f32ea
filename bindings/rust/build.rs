//! Finds the archive `libsheet_c.a`: in the folder that `SHEET_LIB_DIR` names, else in
//! `target/staticlib` of the repository, where `tools/build sheet_c` writes it.

use std::path::PathBuf;
use std::{env, process};

/// Relative to this folder.
const DEFAULT_FOLDER: &str = "../../target/staticlib";

const ARCHIVE: &str = "libsheet_c.a";

fn main() {
    println!("cargo::rerun-if-env-changed=SHEET_LIB_DIR");
    let here = PathBuf::from(env::var("CARGO_MANIFEST_DIR").unwrap());
    let named = env::var_os("SHEET_LIB_DIR").map(PathBuf::from);
    let folder = here.join(named.unwrap_or_else(|| DEFAULT_FOLDER.into()));
    let archive = folder.join(ARCHIVE);
    println!("cargo::rerun-if-changed={}", archive.display());
    if !archive.is_file() {
        println!(
            "cargo::error={} is missing. Run `tools/build sheet_c`, or set SHEET_LIB_DIR to \
             the folder that holds {ARCHIVE}",
            archive.display()
        );
        process::exit(1)
    }
    println!("cargo::rustc-link-search=native={}", folder.display());
    println!("cargo::rustc-link-lib=static=sheet_c");
}
