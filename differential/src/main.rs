//! `differential SEED [COUNT]`: puts questions from a seed to the static
//! library and the second program, COUNT of them or until it is stopped.

use differential::bench::Difference;
use differential::question::Question;
use differential::turns::Turns;
use std::io::{self, Write};
use std::path::Path;
use std::process::ExitCode;
use std::{env, fs};

const USAGE: &str = "\
differential SEED [COUNT] [--out DIR]

Puts COUNT questions or more from the seed, or questions without end, to the
static library and the second program, and prints what differs. The script, the
net and the request of a difference go to files in DIR, or here. Ends after ten
differences; the exit status is 1 where there was one.
";

/// So many questions between two lines that tell how far it is.
const TELL_AFTER: u64 = 1_000_000;

const ENOUGH: usize = 10;

struct Options {
    seed: u64,
    count: Option<u64>,
    directory: String,
}

fn main() -> ExitCode {
    let words: Vec<String> = env::args().skip(1).collect();
    let Some(options) = read_options(&words) else {
        eprint!("{USAGE}");
        return ExitCode::from(2);
    };
    match run(&options) {
        Ok(true) => ExitCode::SUCCESS,
        Ok(false) => ExitCode::FAILURE,
        Err(error) => {
            eprintln!("{error}");
            ExitCode::from(2)
        }
    }
}

fn read_options(words: &[String]) -> Option<Options> {
    let (words, directory) = match words {
        [before @ .., option, directory] if option == "--out" => (before, directory.clone()),
        all => (all, ".".to_string()),
    };
    let (seed, count) = match words {
        [seed] => (seed, None),
        [seed, count] => (seed, Some(count.parse().ok()?)),
        _ => return None,
    };
    Some(Options {
        seed: seed.parse().ok()?,
        count,
        directory,
    })
}

/// Did the two agree on everything?
fn run(options: &Options) -> io::Result<bool> {
    let mut out = io::stdout().lock();
    let mut turns = Turns::new(options.seed);
    let mut written = 0;
    let mut told = 0;
    turns.call_stream(options.seed);
    loop {
        for difference in turns.bench.differences.iter().take(ENOUGH).skip(written) {
            written += 1;
            let name = format!("differs-{}-{written}", options.seed);
            write!(out, "{name}: {difference}")?;
            write_files(Path::new(&options.directory), &name, difference)?;
        }
        let asked = turns.bench.tally.question_count();
        if written == ENOUGH || options.count.is_some_and(|count| asked >= count) {
            break;
        }
        if asked / TELL_AFTER > told {
            told = asked / TELL_AFTER;
            writeln!(out, "{asked} questions, {written} differences")?;
        }
        turns.any();
    }
    write!(out, "{}", turns.bench.tally.text())?;
    let (calls, all) = (
        turns.bench.tally.call_count(),
        turns.bench.tally.question_count(),
    );
    writeln!(
        out,
        "seed {}: {calls} calls, {all} questions in all, {written} differences",
        options.seed
    )?;
    Ok(written == 0)
}

/// A question other than a call has no request; what it is was printed.
fn write_files(directory: &Path, name: &str, difference: &Difference) -> io::Result<()> {
    fs::write(directory.join(format!("{name}.script")), &difference.script)?;
    fs::write(directory.join(format!("{name}.net")), &difference.net)?;
    if let Question::Call(request) = &difference.question {
        fs::write(directory.join(format!("{name}.request")), request)?;
    }
    Ok(())
}
