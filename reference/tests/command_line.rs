//! The commands themselves, as docs/REFERENCE.md describes them.

use reference::cases::{A, B, PRINTED, T};
use reference::text_read::make;
use std::io::Write;
use std::process::{Command, Output, Stdio};

fn run(arguments: &[&str], input: &[u8]) -> Output {
    let mut child = Command::new(env!("CARGO_BIN_EXE_reference"))
        .args(arguments)
        .stdin(Stdio::piped())
        .stdout(Stdio::piped())
        .stderr(Stdio::piped())
        .spawn()
        .expect("the program starts");
    let mut stdin = child.stdin.take().expect("standard input");
    // A command that reads nothing may be gone already.
    let _ = stdin.write_all(input);
    drop(stdin);
    child.wait_with_output().expect("the program ends")
}

fn prints(arguments: &[&str], input: &[u8]) -> String {
    let output = run(arguments, input);
    assert!(output.status.success(), "{output:?}");
    String::from_utf8(output.stdout).expect("text")
}

fn image(text: &str) -> Vec<u8> {
    make(text).expect("good text")
}

#[test]
fn rewind_prints_the_printed_example() {
    let made = run(&["make"], format!("{T}{A}{PRINTED}").as_bytes()).stdout;
    let expected = "0 0 00000000\n0 0 00000000\n12 0 00000000\n0 2 00000001\n";
    assert_eq!(prints(&["rewind"], &made), expected);
    assert_eq!(prints(&["rewind", "--order", "5"], &made), expected);
}

#[test]
fn what_show_prints_make_reads_back() {
    let stream = image(&format!("{T}{A}{PRINTED}"));
    let text = prints(&["show"], &stream);
    assert_eq!(run(&["make"], text.as_bytes()).stdout, stream);
}

#[test]
fn check_form_is_no_failure_either_way() {
    assert_eq!(prints(&["check-form", "script"], &image(T)), "form\n");
    assert_eq!(
        prints(&["check-form", "net"], &image(T)),
        "no form: Length: a net has 3600 bytes\n"
    );
}

#[test]
fn finder_and_helpers_print_answer_and_name() {
    let images = image(&format!("{T}{B}"));
    assert_eq!(prints(&["find", "1"], &images), "1 0 0\n");
    assert_eq!(prints(&["find", "64"], &images), "64 3 255\n");
    assert_eq!(prints(&["find"], &images).lines().count(), 256);
    assert_eq!(prints(&["free-key"], &images), "0 3\n");
    assert_eq!(prints(&["free-locality"], &images), "0 8\n");
    assert_eq!(prints(&["free-key"], &[]), "1 255\n");
}

#[test]
fn dot_draws_a_script_followed_by_a_net() {
    let text = prints(&["dot"], &image(&format!("{T}{B}")));
    assert!(text.starts_with("digraph net {"), "{text}");
    assert!(!run(&["dot", "--mark", "0"], &image(&format!("{T}{B}")))
        .status
        .success());
}

#[test]
fn gen_and_check_claims_print_their_counts() {
    let counts = prints(&["gen", "1", "300"], &[]);
    assert!(counts.starts_with("seed 1\nstreams "), "{counts}");
    let claims = prints(&["check-claims", "1", "20"], &[]);
    assert!(claims.contains("no claim was refuted"), "{claims}");
}

#[test]
fn answer_trials_prints_a_line_for_each_question() {
    let (script, net) = (image(T), image(A));
    let letters = [&b"S"[..], &script, b"N", &net, b"VP", &[0, 0, 0], b"VB"].concat();
    let request = [&letters[..], b"R", &[0, 0, 255, 64, 3, 255], b"R"].concat();
    let expected = "V 0\nV 2\nR 3 0 00000000 d8189ac5\n";
    assert_eq!(prints(&["answer-trials"], &request), expected);
    assert_eq!(prints(&["answer-trials"], &[]), "");
}

#[test]
fn answer_calls_prints_a_line_for_each_question() {
    let (script, net) = (image(T), image(A));
    let images = [&b"KS\x10\x08"[..], &script, b"N\x10\x0e", &net].concat();
    let call = [
        &images[..],
        b"KLF\x02C\x06",
        &[0, 0, 255, 64, 3, 255],
        b"C\x01",
    ]
    .concat();
    let expected = "K 1 255\nK 0 2\nL 0 8\nF 4 255\nC 3 0 00000000 d8189ac5\n";
    assert_eq!(prints(&["answer-calls"], &call), expected);
    assert_eq!(prints(&["answer-calls"], &[]), "");
}

#[test]
fn a_wrong_command_line_is_a_failure() {
    for arguments in [
        &["what"][..],
        &[],
        &["gen", "1"],
        &["rewind", "--order"],
        &["trials"],
        &["trials", "one"],
        &["calls"],
        &["calls", "one"],
    ] {
        assert!(!run(arguments, &[]).status.success());
    }
}

#[test]
fn against_itself_there_is_no_difference_and_against_another_there_is() {
    let itself = env!("CARGO_BIN_EXE_reference");
    let text = prints(&["against", "1", "2000", itself, "rewind"], &[]);
    assert!(text.contains("no difference"), "{text}");
    let directory = std::env::temp_dir().join(format!("reference-{}", std::process::id()));
    let out = directory.to_str().expect("a name");
    let other = run(
        &["against", "1", "2000", "--out", out, itself, "free-key"],
        &[],
    );
    assert!(!other.status.success());
    let found = std::fs::read_dir(&directory)
        .expect("files were written")
        .count();
    std::fs::remove_dir_all(&directory).expect("they can be removed");
    assert_eq!(found, 10);
}
