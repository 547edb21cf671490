//! The command itself.

use std::process::{Command, Output};

fn run(words: &[&str]) -> Output {
    Command::new(env!("CARGO_BIN_EXE_differential"))
        .args(words)
        .output()
        .expect("the command runs")
}

#[test]
fn a_short_run_tells_what_it_asked() {
    let output = run(&["5", "30000"]);
    let text = String::from_utf8_lossy(&output.stdout);
    let last = text.lines().last().unwrap_or("");
    assert!(output.status.success());
    assert!(last.starts_with("seed 5: ") && last.ends_with(" 0 differences"));
}

#[test]
fn the_same_seed_asks_the_same() {
    assert_eq!(run(&["7", "1"]).stdout, run(&["7", "1"]).stdout);
}

#[test]
fn other_words_are_refused() {
    for words in [&[][..], &["x"], &["1", "y"], &["1", "2", "3"], &["--out"]] {
        assert_eq!(run(words).status.code(), Some(2));
    }
}
