//! The proved `rewind` as a process: the same lines as the second program's on
//! generated streams and on input cut anywhere, and what it does when input
//! or output fail it.

use reference::against::against;
use reference::gen::Generator;
use reference::program::rewind;
use reference::random::Random;
use std::fs::{read, File};
use std::io::{BufRead, BufReader, Write};
use std::process::{Child, Command, Output, Stdio};
use std::sync::mpsc::channel;
use std::thread;
use std::time::Duration;

const ROOT: &str = concat!(env!("CARGO_MANIFEST_DIR"), "/..");
const LINES: u64 = 60_000;
const PATIENCE: Duration = Duration::from_secs(20);

/// `rt ci` builds it, and so does `rt run` in crates/rewind.
fn program() -> String {
    format!("{ROOT}/crates/rewind/out/rewind")
}

/// Document 01's printed example, from its script to its last request.
fn printed_example() -> Vec<u8> {
    read(format!("{ROOT}/crates/rewind/stdin")).expect("the stored run")
}

fn spawn(output: Stdio) -> Child {
    Command::new(program())
        .stdin(Stdio::piped())
        .stdout(output)
        .stderr(Stdio::piped())
        .spawn()
        .expect("rewind runs")
}

fn run(input: &[u8], output: Stdio) -> Output {
    let mut child = spawn(output);
    // A run that has ended takes no more input.
    let _ = child.stdin.take().expect("a pipe").write_all(input);
    child.wait_with_output().expect("rewind ends")
}

/// Through a shell, which closes what the redirection names.
fn run_redirected(redirection: &str) -> Output {
    Command::new("sh")
        .args(["-c", &format!("exec \"$0\" {redirection}"), &program()])
        .stdin(File::open(format!("{ROOT}/crates/rewind/stdin")).expect("the stored run"))
        .output()
        .expect("rewind ends")
}

fn assert_quiet(output: &Output) {
    assert!(output.status.success());
    assert!(output.stderr.is_empty());
}

#[test]
fn the_printed_example_prints_its_four_lines() {
    let output = run(&printed_example(), Stdio::piped());
    assert_quiet(&output);
    let lines = "0 0 00000000\n0 0 00000000\n12 0 00000000\n0 2 00000001\n";
    assert_eq!(String::from_utf8_lossy(&output.stdout), lines);
}

#[test]
fn generated_streams_get_the_same_lines() {
    let program = program();
    let mut generator = Generator::new(41);
    let differences = against(&[&program], &mut generator, LINES).expect("rewind runs");
    for difference in &differences {
        println!(
            "stream {} line {}: {} and not {}",
            difference.stream, difference.line, difference.printed, difference.expected
        );
    }
    assert!(differences.is_empty());
    assert!(generator.tally.lines >= LINES);
}

/// "1 to 5 bytes left over count as a request of wrong length"; short images
/// get 1 or 2; two requests more than the example has.
#[test]
fn input_cut_at_every_length_gets_the_same_lines() {
    let mut input = printed_example();
    input.extend([0, 0, 255, 2, 3, 255, 9, 0, 0, 0, 0, 0]);
    assert_eq!(input.len(), 5_700);
    for length in 0..=input.len() {
        let cut = &input[..length];
        let output = run(cut, Stdio::piped());
        assert_quiet(&output);
        let expected = rewind(cut, &mut Random::new(1)).text();
        assert_eq!(
            String::from_utf8_lossy(&output.stdout),
            expected,
            "{length}"
        );
    }
}

/// A request is answered as soon as its last byte is there.
#[test]
fn one_byte_at_a_time_is_answered_in_time() {
    let input = printed_example();
    let (images, requests) = input.split_at(5_664);
    let mut child = spawn(Stdio::piped());
    let mut stdin = child.stdin.take().expect("a pipe");
    let stdout = child.stdout.take().expect("a pipe");
    let (sender, receiver) = channel();
    thread::spawn(move || {
        for line in BufReader::new(stdout).lines() {
            let _ = sender.send(line.expect("text"));
        }
    });
    for byte in images {
        stdin.write_all(&[*byte]).expect("rewind reads");
    }
    let mut lines = Vec::new();
    for request in requests.chunks(6) {
        for byte in request {
            assert!(receiver.try_recv().is_err());
            stdin.write_all(&[*byte]).expect("rewind reads");
        }
        lines.push(receiver.recv_timeout(PATIENCE).expect("a line"));
    }
    stdin.write_all(&[1, 2, 3]).expect("rewind reads");
    drop(stdin);
    lines.push(receiver.recv_timeout(PATIENCE).expect("a line"));
    assert!(child.wait().expect("rewind ends").success());
    let expected = [
        "0 0 00000000",
        "0 0 00000000",
        "12 0 00000000",
        "0 2 00000001",
        "3 0 00000000",
    ];
    assert_eq!(lines, expected);
}

#[test]
fn a_full_disk_ends_it_quietly() {
    let full = File::options()
        .write(true)
        .open("/dev/full")
        .expect("/dev/full");
    assert_quiet(&run(&printed_example(), Stdio::from(full)));
}

#[test]
fn a_closed_output_ends_it_quietly() {
    assert_quiet(&run_redirected(">&-"));
}

#[test]
fn a_closed_input_is_a_short_script() {
    let output = run_redirected("<&-");
    assert_quiet(&output);
    assert_eq!(output.stdout, b"1 0 00000000\n");
}

/// The reader leaves: the system ends the run by its signal, or a write that
/// fails does; nothing is said either way.
#[test]
fn a_reader_that_leaves_ends_it_quietly() {
    let mut child = spawn(Stdio::piped());
    drop(child.stdout.take());
    let mut stdin = child.stdin.take().expect("a pipe");
    let example = printed_example();
    let _ = stdin.write_all(&example);
    for _ in 0..1_000 {
        if stdin.write_all(&example[5_664..]).is_err() {
            break;
        }
    }
    drop(stdin);
    let output = child.wait_with_output().expect("rewind ends");
    assert!(output.stderr.is_empty());
}
