//! Finds the static library: in the directory that `REWIND_LIBRARY` names, or
//! where `rt lib` in crates/exports puts it in this repository.

use std::env;
use std::path::{Path, PathBuf};

const NAMED_BY: &str = "REWIND_LIBRARY";
const FILE: &str = "libexports.a";

fn main() {
    let directory = match env::var_os(NAMED_BY) {
        Some(directory) => PathBuf::from(directory),
        None => in_this_repository(),
    };
    let file = directory.join(FILE);
    if !file.is_file() {
        panic!(
            "there is no {}: run `rt lib` in crates/exports, \
             or name the directory of {FILE} by {NAMED_BY}",
            file.display()
        );
    }
    println!("cargo:rustc-link-search=native={}", directory.display());
    println!("cargo:rustc-link-lib=static=exports");
    println!("cargo:rerun-if-changed={}", file.display());
    println!("cargo:rerun-if-env-changed={NAMED_BY}");
}

fn in_this_repository() -> PathBuf {
    let crate_directory = env::var_os("CARGO_MANIFEST_DIR").unwrap_or_default();
    Path::new(&crate_directory).join("../crates/exports/out")
}
