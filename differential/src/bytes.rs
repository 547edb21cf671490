//! Byte strings changed at random.

use reference::damage::interesting;
use reference::random::Random;
use reference::request::REQUEST_LENGTH;

/// A few bytes set to others; once in a while the length too.
pub fn change(random: &mut Random, bytes: &mut Vec<u8>) {
    if random.one_in(12) {
        change_length(random, bytes);
    }
    for _ in 0..1 + random.below(3) {
        set_one(random, bytes);
    }
}

/// Mostly by little, at the end.
fn change_length(random: &mut Random, bytes: &mut Vec<u8>) {
    let length = bytes.len();
    let length = match random.below(6) {
        0 => 0,
        1 => random.below(8192) as usize,
        2 => length.saturating_sub(1 + random.below(4) as usize),
        3 => random.below(length as u64 + 1) as usize,
        _ => length + 1 + random.below(4) as usize,
    };
    bytes.resize(length, interesting(random));
}

/// One byte set to another: one at the edge of some range, one that stands
/// elsewhere, or the same with one bit turned.
fn set_one(random: &mut Random, bytes: &mut [u8]) {
    if bytes.is_empty() {
        return;
    }
    let at = random.below(bytes.len() as u64) as usize;
    bytes[at] = match random.below(4) {
        0 => bytes[random.below(bytes.len() as u64) as usize],
        1 => bytes[at] ^ 1 << random.below(8),
        _ => interesting(random),
    };
}

/// A request of bytes at the edges of their ranges, mostly of the right length.
pub fn any_request(random: &mut Random) -> Vec<u8> {
    let length = match random.below(16) {
        0 => random.below(17) as usize,
        _ => REQUEST_LENGTH,
    };
    let mut request: Vec<u8> = (0..length).map(|_| interesting(random)).collect();
    if let Some(code) = request.first_mut().filter(|_| !random.one_in(8)) {
        *code = random.below(4) as u8;
    }
    request
}
