//! The header with a C compiler: it has no warning, and the C program prints
//! document 01's example.

use std::env;
use std::path::{Path, PathBuf};
use std::process::Command;

fn repository() -> PathBuf {
    Path::new(env!("CARGO_MANIFEST_DIR")).join("..")
}

fn library() -> PathBuf {
    let directory = match env::var_os("REWIND_LIBRARY") {
        Some(directory) => PathBuf::from(directory),
        None => repository().join("crates/exports/out"),
    };
    directory.join("libexports.a")
}

fn compiler() -> Command {
    let mut compiler = Command::new(env::var_os("CC").unwrap_or("cc".into()));
    compiler.args(["-std=c99", "-Wall", "-Wextra", "-pedantic", "-Werror"]);
    compiler
}

#[test]
fn the_printed_example_by_calls_from_c() {
    let include = repository().join("include");
    let program = Path::new(env!("CARGO_TARGET_TMPDIR")).join("printed_example");
    let compiled = compiler()
        .arg("-I")
        .arg(&include)
        .arg(include.join("printed_example.c"))
        .arg(library())
        .arg("-o")
        .arg(&program)
        .status()
        .expect("there is a C compiler");
    assert!(compiled.success());
    let run = Command::new(&program).output().expect("the program runs");
    assert!(run.status.success());
    assert_eq!(
        String::from_utf8_lossy(&run.stdout),
        "0 0 00000000\n0 0 00000000\n12 0 00000000\n0 2 00000001\n"
    );
}
