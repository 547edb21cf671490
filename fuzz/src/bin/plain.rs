//! `plain SEED SECONDS`: the target without libFuzzer, on seeds with bytes
//! changed at random. Each input is written to `found-SEED` before it is
//! tried, so that it is there after a crash or a difference.

use differential::bytes::{any_request, change};
use reference::random::Random;
use rewind_fuzz::seeds::seeds;
use rewind_fuzz::{try_input, Input};
use std::time::{Duration, Instant};
use std::{env, fs, io};

/// So often each seed is changed.
const CHANGES: u64 = 40;

fn main() -> io::Result<()> {
    let words: Vec<String> = env::args().skip(1).collect();
    let [seed, seconds] = &words[..] else {
        return Err(io::Error::other("plain SEED SECONDS"));
    };
    let (seed, seconds) = (number(seed)?, number(seconds)?);
    let file = format!("found-{seed}");
    let end = Instant::now() + Duration::from_secs(seconds);
    let mut random = Random::new(seed);
    let (mut tried, mut asked) = (0u64, 0u64);
    for input in seeds(seed) {
        if Instant::now() >= end {
            break;
        }
        for _ in 0..CHANGES {
            let data = changed(&mut random, &input).write();
            fs::write(&file, &data)?;
            asked += try_input(&data) as u64;
            tried += 1;
        }
    }
    fs::remove_file(&file).or_else(|error| match error.kind() {
        io::ErrorKind::NotFound => Ok(()),
        _ => Err(error),
    })?;
    println!("seed {seed}: {tried} inputs, {asked} questions, nothing found");
    Ok(())
}

/// One of the three with bytes changed, or the request another; sometimes all.
fn changed(random: &mut Random, input: &Input) -> Input {
    let mut input = input.clone();
    let what = random.below(8);
    if what < 2 {
        change(random, &mut input.script);
    }
    if (1..4).contains(&what) {
        change(random, &mut input.net);
    }
    match what {
        4 | 5 => change(random, &mut input.request),
        6 => input.request = any_request(random),
        _ => {}
    }
    input
}

fn number(word: &str) -> io::Result<u64> {
    word.parse()
        .map_err(|_| io::Error::other(format!("{word} is no number")))
}
