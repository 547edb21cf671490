//! How libFuzzer is to change an input: one of the three byte strings by
//! itself, mostly without a change of length, so that the other two stay what
//! they are; or the net as a call leaves it, so that histories grow.

use crate::Input;
use differential::bytes::{any_request, change};
use reference::machine::answer;
use reference::random::Random;
use reference::request::REQUEST_LENGTH;
use std::slice;

extern "C" {
    /// libFuzzer's own way to change bytes; the length after it.
    fn LLVMFuzzerMutate(data: *mut u8, size: usize, max_size: usize) -> usize;
}

/// What libFuzzer calls for a new input; its length.
///
/// # Safety
///
/// `data` is to `max_size` bytes, of which `size` are the input, and there is
/// room for one at least.
#[no_mangle]
unsafe extern "C" fn LLVMFuzzerCustomMutator(
    data: *mut u8,
    size: usize,
    max_size: usize,
    seed: u32,
) -> usize {
    // SAFETY: the caller's word.
    let room = unsafe { slice::from_raw_parts_mut(data, max_size) };
    let mut random = Random::new(seed.into());
    let changed = mutate(&mut random, &room[..size], max_size);
    let length = changed.len().min(max_size);
    room[..length].copy_from_slice(&changed[..length]);
    length
}

fn mutate(random: &mut Random, data: &[u8], most: usize) -> Vec<u8> {
    let mut input = Input::cut(data);
    match random.below(16) {
        0 => return by_fuzzer(data, most),
        1 => input.script = by_fuzzer_in_place(&input.script),
        2 => change(random, &mut input.script),
        3 | 4 => input.net = by_fuzzer_in_place(&input.net),
        5 | 6 => change(random, &mut input.net),
        7..=9 => input.request = by_fuzzer(&input.request, 2 * REQUEST_LENGTH),
        10 => change(random, &mut input.request),
        11 => input.request.extend(any_request(random)),
        12 => input.request = any_request(random),
        _ => go_on(random, &mut input),
    }
    input.write()
}

fn by_fuzzer(bytes: &[u8], most: usize) -> Vec<u8> {
    let most = most.max(bytes.len()).max(1);
    let mut room = bytes.to_vec();
    room.resize(most, 0);
    // SAFETY: the room has `most` bytes.
    let length = unsafe { LLVMFuzzerMutate(room.as_mut_ptr(), bytes.len(), most) };
    room.truncate(length);
    room
}

/// The same, with the length kept.
fn by_fuzzer_in_place(bytes: &[u8]) -> Vec<u8> {
    let mut changed = by_fuzzer(bytes, bytes.len());
    changed.resize(bytes.len(), 0);
    changed
}

/// The first request is put to the net; what is left is asked next.
fn go_on(random: &mut Random, input: &mut Input) {
    let first = REQUEST_LENGTH.min(input.request.len());
    let request: Vec<u8> = input.request.drain(..first).collect();
    answer(&input.script, &mut input.net, &request, random);
    if input.request.is_empty() {
        input.request = any_request(random);
    }
}
