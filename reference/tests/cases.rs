//! Document 01's cases and printed example, starred or not, to the number.
//! Each is run with several orders of undoing: none may matter.

use reference::answer::Answer;
use reference::cases::{Case, A, B, CASES, PRINTED, T};
use reference::machine::{find, least_absent_locality, least_free_key};
use reference::program::rewind;
use reference::random::Random;
use reference::text_read::make;

fn check(case: &Case) {
    for order in 0..8 {
        let run = case.run(order);
        assert_eq!(run.text(), case.prints, "{}", case.sentence);
        assert!(case.holds(order), "{}: the net at the end", case.sentence);
    }
}

macro_rules! cases {
    ($($name:ident = $number:expr;)*) => {
        $(#[test]
        fn $name() {
            check(&CASES[$number]);
        })*

        #[test]
        fn every_case_has_its_test() {
            assert_eq!(CASES.len(), [$($number),*].len());
        }
    };
}

cases! {
    printed_example_t_a_then_four_requests = 0;
    b_backward_1_gives_12 = 1;
    b_rollback_1_gives_b_undone_2_touched_6 = 2;
    b_rollback_2_gives_undone_1_touched_4_key_1_still_past = 3;
    c_after_both_reads_rollback_1_undoes_1_key_2_stays_past = 4;
    d_rollback_0_gives_d_undone_2_touched_257 = 5;
    d_two_steps_make_locality_8_and_a_process_there = 6;
    d_fresh_locality_7_gives_11 = 7;
    d_fresh_locality_31_is_done = 8;
    d_fresh_locality_32_gives_3 = 9;
    a_out_with_fresh_2_and_2_gives_11 = 10;
    a_out_with_fresh_0_and_3_gives_11 = 11;
    a_out_with_fresh_63_and_62_is_done = 12;
    a_out_with_fresh_64_gives_3 = 13;
    node_8_split_makes_left_and_right = 14;
    node_8_rollback_gives_5_backward_is_done = 15;
    node_9_against_a_value_and_a_locality_is_done = 16;
    node_9_against_two_values_gives_10 = 17;
    leftover_bytes_count_as_a_request_of_wrong_length = 18;
}

fn prints(input: &[u8]) -> String {
    rewind(input, &mut Random::new(0)).text()
}

fn image(text: &str) -> Vec<u8> {
    make(text).expect("good text")
}

#[test]
fn rewind_without_requests_prints_nothing() {
    assert_eq!(prints(&image(&format!("{T}{A}"))), "");
}

#[test]
fn rewind_on_short_input_gives_answer_1_then_answer_2() {
    let stream = image(&format!("{T}{A}{PRINTED}"));
    for length in [0, 1, 16, 2063] {
        assert_eq!(prints(&stream[..length]), "1 0 00000000\n");
    }
    for length in [2064, 2065, 5663] {
        assert_eq!(prints(&stream[..length]), "2 0 00000000\n");
    }
    assert_eq!(prints(&stream[..5664]), "");
}

#[test]
fn rewind_a_bad_script_or_net_prints_one_such_line_and_ends() {
    let good = image(&format!("{T}{A}{PRINTED}"));
    let mut bad_script = good.clone();
    bad_script[0] = b'X';
    assert_eq!(prints(&bad_script), "1 0 00000000\n");
    let mut bad_net = good.clone();
    bad_net[2064] = b'X';
    assert_eq!(prints(&bad_net), "2 0 00000000\n");
    bad_net[0] = b'X';
    assert_eq!(prints(&bad_net), "1 0 00000000\n");
}

#[test]
fn rewind_each_count_of_bytes_left_over_counts_as_a_request() {
    for count in 1..6 {
        let mut stream = image(&format!("{T}{A}"));
        stream.extend(vec![0; count]);
        assert_eq!(prints(&stream), "3 0 00000000\n");
    }
}

#[test]
fn finder_gives_the_least_key_of_a_live_tuple_that_matches() {
    let script = image(T);
    let b = image(B);
    assert_eq!(find(&script, &b, 1), (Answer::Done, 0));
    assert_eq!(find(&script, &b, 2), (Answer::Done, 0));
    assert_eq!(find(&script, &b, 0), (Answer::WrongRecord, 255));
    assert_eq!(find(&script, &b, 64), (Answer::BadRequest, 255));
    assert_eq!(find(&script, &b, 255), (Answer::BadRequest, 255));
    assert_eq!(find(&script, &image(A), 0), (Answer::WrongNode, 255));
    assert_eq!(find(&script[1..], &b, 64), (Answer::BadScript, 255));
    assert_eq!(find(&script, &b[1..], 64), (Answer::NotAccepted, 255));
    let several = image(
        "net\npresent l0 l1\nkey 9 live node 4 at l1\nkey 3 tuple (7) at l1\n\
         key 4 tuple (7, 7) at l0\nkey 5 tuple (l7) at l0\nkey 6 tuple (7) at l0\nkey 7 tuple (7) at l0",
    );
    assert_eq!(find(&script, &several, 9), (Answer::Done, 6));
    let none = image("net\npresent l0 l1\nkey 9 live node 4 at l1\nkey 3 tuple (7) at l1");
    assert_eq!(find(&script, &none, 9), (Answer::NoTuple, 255));
    let absent = image("net\npresent l1\nkey 9 live node 4 at l1\nkey 3 tuple (7) at l1");
    assert_eq!(find(&script, &absent, 9), (Answer::TargetAbsent, 255));
}

#[test]
fn helpers_give_the_least_free_key_and_the_least_absent_locality_from_8() {
    let script = image(T);
    assert_eq!(least_free_key(&script, &image(B)), (Answer::Done, 3));
    assert_eq!(least_absent_locality(&script, &image(B)), (Answer::Done, 8));
    assert_eq!(least_free_key(&script, &[]), (Answer::NotAccepted, 255));
    assert_eq!(least_absent_locality(&[], &[]), (Answer::BadScript, 255));
}
