//! A fuzz target over the three byte strings at once, whatever they are:
//! nothing may crash, and the static library and the second program agree.

#[cfg(fuzzing)]
mod mutator;
pub mod seeds;

use differential::bench::ask_both;
use differential::question::Question;
use reference::random::Random;
use reference::request::REQUEST_LENGTH;

/// The three byte strings as one: the lengths of script and net, 16 bits each
/// (little-endian), then script, net and request. A length that is beyond the
/// end is cut there, so every string of bytes is an input.
#[derive(Clone, PartialEq, Eq, Debug)]
pub struct Input {
    pub script: Vec<u8>,
    pub net: Vec<u8>,
    /// A request, or more of them one after the other.
    pub request: Vec<u8>,
}

impl Input {
    pub fn cut(data: &[u8]) -> Input {
        let (script_length, rest) = take_number(data);
        let (net_length, rest) = take_number(rest);
        let (script, rest) = rest.split_at(script_length.min(rest.len()));
        let (net, request) = rest.split_at(net_length.min(rest.len()));
        Input {
            script: script.to_vec(),
            net: net.to_vec(),
            request: request.to_vec(),
        }
    }

    /// What `cut` takes apart again, where the lengths fit in 16 bits.
    pub fn write(&self) -> Vec<u8> {
        let mut data = Vec::new();
        data.extend((self.script.len() as u16).to_le_bytes());
        data.extend((self.net.len() as u16).to_le_bytes());
        data.extend(&self.script);
        data.extend(&self.net);
        data.extend(&self.request);
        data
    }
}

fn take_number(data: &[u8]) -> (usize, &[u8]) {
    match data {
        [low, high, rest @ ..] => (u16::from_le_bytes([*low, *high]).into(), rest),
        _ => (0, &[]),
    }
}

/// Puts an input to both; how many questions it was. The whole request comes
/// first, of any length; then each six bytes of it, one after the other.
pub fn try_input(data: &[u8]) -> usize {
    let Input {
        script,
        mut net,
        request,
    } = Input::cut(data);
    let key = request.get(1).copied().unwrap_or(0);
    let mut questions = vec![
        Question::FreeKey,
        Question::FreeLocality,
        Question::Find(key),
        Question::Call(request.clone()),
    ];
    if request.len() > REQUEST_LENGTH {
        let parts = request.chunks(REQUEST_LENGTH);
        questions.extend(parts.map(|part| Question::Call(part.to_vec())));
    }
    let mut order = Random::new(data.len() as u64);
    for question in &questions {
        match ask_both(&script, &net, question, &mut order) {
            Ok((_, after)) => net = after,
            Err(difference) => panic!("{difference}"),
        }
    }
    questions.len()
}

/// What libFuzzer calls.
///
/// # Safety
///
/// `data` is to `size` bytes, and not null unless `size` is 0.
#[no_mangle]
pub unsafe extern "C" fn LLVMFuzzerTestOneInput(data: *const u8, size: usize) -> i32 {
    let data = match size {
        0 => &[],
        // SAFETY: the caller's word.
        _ => unsafe { std::slice::from_raw_parts(data, size) },
    };
    try_input(data);
    0
}

#[cfg(test)]
mod tests {
    use super::*;

    #[test]
    fn what_is_written_is_cut_again() {
        let input = Input {
            script: vec![1; 300],
            net: vec![2; 5],
            request: vec![3; 6],
        };
        assert_eq!(Input::cut(&input.write()), input);
    }

    #[test]
    fn any_bytes_are_an_input() {
        for length in 0..16 {
            let input = Input::cut(&vec![255; length]);
            let cut = input.script.len() + input.net.len() + input.request.len();
            assert_eq!(cut, length.saturating_sub(4));
        }
    }
}
