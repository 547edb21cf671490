//! The static library and the second program agree on more than 200,000 calls,
//! and on the finder and the helpers between them.

use differential::tally::Tally;
use differential::turns::Turns;

/// Turns until there are so many calls.
const CALLS: u64 = 100_000;

/// The answers that the finder can give, and those of the helpers.
const BY_FINDER: [usize; 9] = [0, 1, 2, 3, 4, 5, 7, 8, 9];
const BY_HELPERS: [usize; 3] = [0, 1, 2];

fn assert_no_difference(turns: &Turns) {
    for difference in &turns.bench.differences {
        println!("{difference}");
    }
    println!("{}", turns.bench.tally.text());
    assert!(turns.bench.differences.is_empty());
}

/// Every answer and every situation came up, and most of them often.
fn assert_much_came_up(tally: &Tally, often: u64) {
    assert!(tally.call_answers().iter().all(|&count| count >= often));
    assert!(BY_FINDER
        .iter()
        .all(|&answer| tally.finder[answer] >= often));
    assert!(BY_HELPERS
        .iter()
        .all(|&answer| tally.helpers[answer] >= often));
    assert!(tally.calls[..4]
        .iter()
        .all(|by_answer| by_answer[0] >= often));
    assert!(tally.none_left >= often);
    assert!(tally.most_undone >= 40);
    assert_eq!(tally.touched, u32::MAX);
}

fn agree_on_turns(seed: u64) {
    let mut turns = Turns::new(seed);
    while turns.bench.tally.call_count() < CALLS {
        turns.any();
    }
    assert_no_difference(&turns);
    assert_much_came_up(&turns.bench.tally, 100);
}

#[test]
fn on_generated_turns() {
    agree_on_turns(101);
}

#[test]
fn on_other_generated_turns() {
    agree_on_turns(102);
}

/// Beside the stream that `crates/calls` keeps.
#[test]
fn on_the_call_streams_of_two_seeds() {
    let mut turns = Turns::new(103);
    turns.call_stream(2);
    turns.call_stream(3);
    assert!(turns.bench.tally.call_count() >= 25_000);
    assert_no_difference(&turns);
    assert_much_came_up(&turns.bench.tally, 50);
}
