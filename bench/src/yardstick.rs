//! The yardstick: `yardstick.c`, compiled here and run as a process. Its tests
//! hold it against the second program.

use crate::images::Images;
use std::path::PathBuf;
use std::process::Command;
use std::{env, fs};

const SOURCE: &str = concat!(env!("CARGO_MANIFEST_DIR"), "/yardstick.c");
const FLAGS: [&str; 5] = ["-std=c11", "-O3", "-Wall", "-Wextra", "-pedantic"];

pub struct Yardstick {
    pub program: PathBuf,
    /// The compiler's own first line.
    pub compiler: String,
}

impl Yardstick {
    /// By the compiler that `CC` names, or `cc`; or why there is none.
    pub fn compiled() -> Result<Yardstick, String> {
        let compiler = env::var("CC").unwrap_or("cc".to_string());
        let program = beside("yardstick");
        let run = Command::new(&compiler)
            .args(FLAGS)
            .arg(SOURCE)
            .arg("-o")
            .arg(&program)
            .status();
        match run {
            Ok(status) if status.success() => Ok(Yardstick {
                program,
                compiler: version_of(&compiler),
            }),
            Ok(status) => Err(format!("{compiler}: {status}")),
            Err(error) => Err(format!("{compiler}: {error}")),
        }
    }

    /// Microseconds of a call, of so many that take the unit's requests by
    /// turns.
    pub fn call_time(&self, images: &Images, unit: &[u8], calls: usize) -> f64 {
        let files = [
            file("yardstick.script", &images.script),
            file("yardstick.net", &images.net),
            file("yardstick.requests", unit),
        ];
        let output = Command::new(&self.program)
            .arg("time")
            .args(files)
            .arg(calls.to_string())
            .output()
            .expect("the yardstick runs");
        let text = String::from_utf8_lossy(&output.stdout);
        let nanoseconds: f64 = text.trim().parse().expect("a number");
        nanoseconds / 1e3
    }
}

fn version_of(compiler: &str) -> String {
    let output = Command::new(compiler).arg("--version").output();
    let text = output.map(|output| output.stdout).unwrap_or_default();
    let text = String::from_utf8_lossy(&text);
    text.lines().next().unwrap_or(compiler).to_string()
}

/// A file where cargo has put this program.
fn beside(name: &str) -> PathBuf {
    let this = env::current_exe().expect("this program has a path");
    this.with_file_name(name)
}

/// The bytes as a file there; its path.
pub fn file(name: &str, bytes: &[u8]) -> PathBuf {
    let path = beside(name);
    fs::write(&path, bytes).expect("cargo's directory can be written");
    path
}

#[cfg(test)]
mod tests {
    use super::*;
    use crate::walk::walk;
    use reference::against::against;
    use reference::call_stream::calls;
    use reference::calls::answer_calls;
    use reference::gen::Generator;
    use reference::program::rewind;
    use reference::random::Random;
    use std::fs::File;
    use std::sync::OnceLock;

    const LINES: u64 = 60_000;

    fn program() -> &'static PathBuf {
        static YARDSTICK: OnceLock<Yardstick> = OnceLock::new();
        let compiled = || Yardstick::compiled().expect("there is a C compiler");
        &YARDSTICK.get_or_init(compiled).program
    }

    /// The yardstick has no finder and no helpers: the calls are the lines `C`.
    fn only_calls(text: &str) -> Vec<&str> {
        text.lines().filter(|line| line.starts_with('C')).collect()
    }

    #[test]
    fn every_call_of_a_call_stream_gets_the_second_programs_line() {
        for seed in 1..=5 {
            let stream = calls(seed).bytes;
            let input = file("yardstick.calls", &stream);
            let output = Command::new(program())
                .arg("calls")
                .stdin(File::open(input).expect("the stream"))
                .output()
                .expect("the yardstick runs");
            let printed = String::from_utf8_lossy(&output.stdout);
            let expected = answer_calls(&stream);
            assert!(only_calls(&expected).len() > 10_000);
            assert!(only_calls(&expected) == only_calls(&printed), "seed {seed}");
        }
    }

    #[test]
    fn every_request_of_generated_streams_gets_the_second_programs_line() {
        let program = program().to_string_lossy();
        let mut generator = Generator::new(51);
        let differences = against(&[&program, "rewind"], &mut generator, LINES);
        let differences: Vec<String> = differences
            .expect("the yardstick runs")
            .iter()
            .map(|it| format!("{} and not {}", it.printed, it.expected))
            .collect();
        assert_eq!(differences, Vec::<String>::new());
        assert!(generator.tally.lines >= LINES);
    }

    #[test]
    fn every_request_of_a_walk_gets_the_second_programs_line() {
        for seed in 1..=5 {
            let walked = walk(seed, 10_000);
            let images = [walked.images.script, walked.images.net].concat();
            let stream = [images, walked.requests].concat();
            let input = file("yardstick.walk", &stream);
            let output = Command::new(program())
                .arg("rewind")
                .stdin(File::open(input).expect("the stream"))
                .output()
                .expect("the yardstick runs");
            let printed = String::from_utf8_lossy(&output.stdout);
            let expected = rewind(&stream, &mut Random::new(seed)).text();
            assert!(expected == printed, "seed {seed}");
        }
    }
}
