//! Runs another `rewind` on the generated streams and compares what it
//! prints.

use crate::gen::{Generated, Generator};
use crate::net_form::NET_LENGTH;
use crate::request::REQUEST_LENGTH;
use crate::script_form::SCRIPT_LENGTH;
use std::io::{self, Write};
use std::process::{Command, Stdio};

/// A stream on which the other program prints something else.
pub struct Difference {
    pub stream: u64,
    /// The first line that differs, from 0.
    pub line: usize,
    pub expected: String,
    pub printed: String,
    /// The stream, cut after the request of that line.
    pub bytes: Vec<u8>,
}

/// Compares on streams with `count` lines or more; stops after ten
/// differences.
pub fn against(
    program: &[&str],
    generator: &mut Generator,
    count: u64,
) -> io::Result<Vec<Difference>> {
    let mut differences = Vec::new();
    while generator.tally.lines < count && differences.len() < 10 {
        let stream = generator.stream();
        let printed = run(program, &stream.bytes)?;
        if printed != stream.text() {
            differences.push(difference(generator.tally.streams, &stream, &printed));
        }
    }
    Ok(differences)
}

/// What the program prints; bytes that are no text count as a difference.
fn run(program: &[&str], input: &[u8]) -> io::Result<String> {
    let (name, arguments) = program
        .split_first()
        .ok_or(io::Error::other("a program is needed"))?;
    let mut child = Command::new(name)
        .args(arguments)
        .stdin(Stdio::piped())
        .stdout(Stdio::piped())
        .spawn()?;
    if let Some(mut stdin) = child.stdin.take() {
        // A program that has seen enough may close its input.
        let _ = stdin.write_all(input);
    }
    let output = child.wait_with_output()?;
    Ok(String::from_utf8_lossy(&output.stdout).into_owned())
}

fn difference(number: u64, stream: &Generated, printed: &str) -> Difference {
    let expected = stream.text();
    let line = (0..)
        .find(|&n| expected.lines().nth(n) != printed.lines().nth(n) || n > stream.reports.len())
        .unwrap_or(0);
    let nth = |text: &str| text.lines().nth(line).unwrap_or("nothing").to_string();
    let end = SCRIPT_LENGTH + NET_LENGTH + (line + 1) * REQUEST_LENGTH;
    Difference {
        stream: number,
        line,
        expected: nth(&expected),
        printed: nth(printed),
        bytes: stream.bytes[..end.min(stream.bytes.len())].to_vec(),
    }
}
