//! Inputs to start from: what the second program generates.

use crate::Input;
use reference::gen::Generator;
use reference::program::Stream;
use reference::random::Random;
use reference::request::REQUEST_LENGTH;

/// So many requests at most: a long input is slow to try.
const REQUESTS: u64 = 12;

/// Inputs from a seed, without end: script and net of a stream, and some of its
/// requests, of which every other input has one alone.
pub fn seeds(seed: u64) -> impl Iterator<Item = Input> {
    let mut generator = Generator::new(seed);
    let mut random = Random::new(!seed);
    std::iter::repeat_with(move || {
        let stream = generator.stream();
        let stream = Stream::cut(&stream.bytes);
        let count = match random.one_in(2) {
            true => 1,
            false => 1 + random.below(REQUESTS),
        };
        let length = REQUEST_LENGTH * count as usize;
        Input {
            script: stream.script.to_vec(),
            net: stream.net.to_vec(),
            request: stream.requests[..length.min(stream.requests.len())].to_vec(),
        }
    })
}
