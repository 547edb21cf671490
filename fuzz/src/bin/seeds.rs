//! `seeds SEED COUNT DIR`: writes COUNT inputs to start from.

use rewind_fuzz::seeds::seeds;
use std::path::Path;
use std::{env, fs, io};

fn main() -> io::Result<()> {
    let words: Vec<String> = env::args().skip(1).collect();
    let [seed, count, directory] = &words[..] else {
        return Err(io::Error::other("seeds SEED COUNT DIR"));
    };
    let (seed, count) = (number(seed)?, number(count)?);
    fs::create_dir_all(directory)?;
    for (at, input) in seeds(seed).take(count as usize).enumerate() {
        let file = Path::new(directory).join(format!("seed-{seed}-{at:05}"));
        fs::write(file, input.write())?;
    }
    Ok(())
}

fn number(word: &str) -> io::Result<u64> {
    word.parse()
        .map_err(|_| io::Error::other(format!("{word} is no number")))
}
