//! Byte strings of any length: each has its answer, and a refusal leaves every
//! byte of the net. What good input gets is held in `differential`.

use rewind::{call, find, free_key, free_locality, Answer, Found, Told};
use rewind::{NET_LENGTH, REQUEST_LENGTH, SCRIPT_LENGTH};
use std::thread;

/// The empty script: 64 nodes that do nothing.
fn script() -> Vec<u8> {
    let mut bytes = vec![0; SCRIPT_LENGTH];
    bytes[..5].copy_from_slice(b"RTS\0\x01");
    for node in bytes[16..].chunks_mut(32) {
        node[5] = rewind::NONE;
    }
    bytes
}

/// The empty net: no locality is present, every slot is free.
fn net() -> Vec<u8> {
    let mut bytes = vec![0; NET_LENGTH];
    bytes[..5].copy_from_slice(b"RTN\0\x01");
    bytes
}

fn refused(answer: Answer) -> Told {
    Told {
        answer,
        undone: 0,
        touched: 0,
    }
}

fn found(answer: Answer, name: Option<u8>) -> Found {
    Found { answer, name }
}

#[test]
fn a_script_of_another_length_is_refused_first() {
    for length in [0, 1, 2063, 2065, 100_000] {
        let mut net = vec![7; 3];
        let script = vec![0; length];
        assert_eq!(call(&script, &mut net, &[]), refused(Answer::BadScript));
        assert_eq!(net, [7; 3]);
        assert_eq!(find(&script, &net, 255), found(Answer::BadScript, None));
        assert_eq!(free_key(&script, &net), found(Answer::BadScript, None));
        assert_eq!(free_locality(&script, &net), found(Answer::BadScript, None));
    }
}

#[test]
fn a_net_of_another_length_is_refused_next() {
    for length in [0, 1, 3599, 3601, 100_000] {
        let mut net = vec![9; length];
        assert_eq!(call(&script(), &mut net, &[]), refused(Answer::BadNet));
        assert_eq!(net, vec![9; length]);
        assert_eq!(find(&script(), &net, 255), found(Answer::BadNet, None));
        assert_eq!(free_key(&script(), &net), found(Answer::BadNet, None));
        assert_eq!(free_locality(&script(), &net), found(Answer::BadNet, None));
    }
}

#[test]
fn a_request_of_another_length_is_refused_then() {
    for length in [0, 1, 5, 7, 100_000] {
        let mut after = net();
        let request = vec![0; length];
        let told = call(&script(), &mut after, &request);
        assert_eq!(told, refused(Answer::BadRequest));
        assert_eq!(after, net());
    }
    let mut after = net();
    let told = call(&script(), &mut after, &[0; REQUEST_LENGTH]);
    assert_eq!(told, refused(Answer::WrongProcess));
    assert_eq!(after, net());
}

#[test]
fn the_questions_on_the_empty_net() {
    let (script, net) = (script(), net());
    assert_eq!(find(&script, &net, 64), found(Answer::BadRequest, None));
    assert_eq!(find(&script, &net, 63), found(Answer::WrongProcess, None));
    assert_eq!(free_key(&script, &net), found(Answer::Done, Some(0)));
    assert_eq!(free_locality(&script, &net), found(Answer::Done, Some(8)));
}

/// Threads that call at once, each on its own net with room for little more
/// than the call on its stack.
#[test]
fn threads_call_at_once_with_small_stacks() {
    const STACK: usize = 256 * 1024;
    let work = || {
        for _ in 0..1000 {
            let mut after = net();
            let told = call(&script(), &mut after, &[2, 5, 255, 255, 255, 255]);
            assert_eq!(told, refused(Answer::WrongProcess));
        }
    };
    let threads: Vec<_> = (0..4)
        .map(|_| thread::Builder::new().stack_size(STACK).spawn(work))
        .collect();
    for started in threads {
        let thread = started.expect("a thread starts");
        thread.join().expect("each call returned");
    }
}

#[test]
fn the_answers_have_their_numbers() {
    let numbers: Vec<u8> = Answer::ALL.iter().map(|answer| answer.number()).collect();
    assert_eq!(numbers, (0..13).collect::<Vec<u8>>());
}
