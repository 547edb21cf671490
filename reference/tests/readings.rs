//! Points that document 01 leaves open, as READINGS decides them. A test is
//! named after the row.

use reference::accept::accept;
use reference::program::rewind;
use reference::random::Random;
use reference::script::Script;
use reference::text_read::make;

/// What `rewind` prints for a script, a net and requests.
fn prints(script: &str, net: &str, requests: &str) -> String {
    let text = format!("script\n{script}\nnet\n{net}\nrequests\n{requests}");
    let input = make(&text).unwrap_or_else(|error| panic!("{error:?} in {text}"));
    rewind(&input, &mut Random::new(0)).text()
}

/// The answer to one request.
fn answer(script: &str, net: &str, request: &str) -> u32 {
    let printed = prints(script, net, &format!("request {request}"));
    let number = printed.split(' ').next().and_then(|word| word.parse().ok());
    number.unwrap_or_else(|| panic!("{printed}"))
}

fn accepted(script: &str, net: &str) -> bool {
    let images = make(&format!("script\n{script}\nnet\n{net}")).expect("good text");
    let script = Script::read(&images[..2064]).expect("a good script");
    accept(&script, &images[2064..]).is_ok()
}

#[test]
fn a_done_backward_step_has_undone_1_and_touches_where_it_frees() {
    let script = "node 1 out(1)@l2 then 0";
    let net = "present l1 l2\nkey 0 live node 1 at l1";
    let printed = prints(script, net, "request 0 0 - 1 2 -\nrequest 1 0 - - - -");
    assert_eq!(printed, "0 0 00000000\n0 1 00000006\n");
}

#[test]
fn after_a_refused_request_it_goes_on_with_the_unchanged_net() {
    let script = "node 1 newloc(x0) then 0";
    let net = "present l0\nkey 0 live node 1 at l0";
    let printed = prints(script, net, "request 9 0 - 1 - 8\nrequest 0 0 - 1 - 8");
    assert_eq!(printed, "3 0 00000000\n0 0 00000000\n");
}

#[test]
fn ranges_of_check_3_hold_for_every_code_before_checks_4_to_6() {
    let net = "present l0\nkey 0 live node 0 at l0";
    for code in 0..4 {
        assert_eq!(answer("", net, &format!("{code} 5 64 - - -")), 3);
        assert_eq!(answer("", net, &format!("{code} 5 - 64 - -")), 3);
        assert_eq!(answer("", net, &format!("{code} 5 - - 254 -")), 3);
        assert_eq!(answer("", net, &format!("{code} 5 - - - 32")), 3);
        assert_eq!(answer("", net, &format!("{code} - - - - -")), 3);
    }
    assert_eq!(answer("", net, "4 0 - - - -"), 3);
    assert_eq!(answer("", net, "0 0 - - -"), 3);
}

#[test]
fn check_5_before_6_a_rollback_at_a_split_with_places_set_gets_5() {
    let script = "node 1 split(0, 0)";
    let net = "present l0\nkey 0 past node 1 at l0 first=1 second=2\n\
               key 1 live node 0 at l0\nkey 2 live node 0 at l0";
    assert_eq!(answer(script, net, "2 0 1 2 3 4"), 5);
    assert_eq!(answer(script, net, "1 0 1 2 3 4"), 6);
    assert_eq!(
        answer("", "present l0\nkey 0 live node 0 at l0", "0 0 1 2 3 4"),
        5
    );
}

#[test]
fn checks_7_and_8_an_unset_field_is_7_where_the_target_is_absent() {
    let net = "present l0\nkey 0 live node 1 at l0\nkey 9 tuple (1) at l0";
    assert_eq!(answer("node 1 out(x0)@l1 then 0", net, "0 0 - 1 2 -"), 7);
    assert_eq!(answer("node 1 in(x0)@l1 then 0", net, "0 0 9 1 - -"), 7);
    assert_eq!(answer("node 1 out(1)@l1 then 0", net, "0 0 - 1 2 -"), 8);
    assert_eq!(answer("node 1 eval(0)@l1 then 0", net, "0 0 - 1 2 -"), 8);
    assert_eq!(answer("node 1 eval(0)@x1 then 0", net, "0 0 - 1 2 -"), 7);
    assert_eq!(answer("node 1 newloc(x1) then 0", net, "0 0 - 1 - 8"), 0);
    let value = "present l0\nkey 0 live node 1 at l0 x1=0";
    assert_eq!(answer("node 1 eval(0)@x1 then 0", value, "0 0 - 1 2 -"), 7);
}

#[test]
fn a_roll_whose_reference_is_255_gets_7() {
    let net = "present l0\nkey 0 live node 1 at l0";
    assert_eq!(answer("node 1 roll(r2)", net, "3 0 - - - -"), 7);
    assert_eq!(answer("node 1 roll(r2)", net, "3 0 1 - - -"), 6);
    assert_eq!(answer("node 1 roll(r2)", net, "0 0 - - - -"), 5);
    assert_eq!(answer("node 1 nil", net, "3 0 - - - -"), 5);
}

#[test]
fn check_9_anything_but_a_live_tuple_at_the_target() {
    let script = "node 1 in(1)@l0 then 0";
    let net = "present l0 l1\nkey 0 live node 1 at l0\nkey 1 tuple (1) at l1\n\
               key 2 consumed (1) at l0\nkey 3 past node 1 at l0 first=4 used=2\n\
               key 4 live node 0 at l0\nkey 5 tuple (1) at l0";
    for tuple in [0, 1, 2, 3, 4, 6, 63] {
        assert_eq!(answer(script, net, &format!("0 0 {tuple} 9 - -")), 9);
    }
    assert_eq!(answer(script, net, "0 0 5 9 - -"), 0);
}

#[test]
fn counts_differ_gives_10() {
    let net = "present l0\nkey 0 live node 1 at l0\nkey 1 tuple (1, 1) at l0";
    assert_eq!(answer("node 1 in(1)@l0 then 0", net, "0 0 1 2 - -"), 10);
    assert_eq!(
        answer("node 1 in(1, 1, 1)@l0 then 0", net, "0 0 1 2 - -"),
        10
    );
    assert_eq!(answer("node 1 in(1, !x0)@l0 then 0", net, "0 0 1 2 - -"), 0);
}

#[test]
fn check_11_a_fresh_key_equal_to_the_process_or_the_tuple_key() {
    let net = "present l0\nkey 0 live node 1 at l0\nkey 1 tuple (1) at l0";
    assert_eq!(answer("node 1 in(1)@l0 then 0", net, "0 0 1 0 - -"), 11);
    assert_eq!(answer("node 1 in(1)@l0 then 0", net, "0 0 1 1 - -"), 11);
    assert_eq!(answer("node 1 in(2)@l0 then 0", net, "0 0 1 1 - -"), 10);
}

#[test]
fn roots_names_only_localities_0_to_7_past_roots_and_tuples_too() {
    assert!(accepted("", "present l0\nkey 0 live node 0 at l0 x0=l7"));
    assert!(!accepted("", "present l0\nkey 0 live node 0 at l0 x0=l8"));
    assert!(!accepted("", "present l0\nkey 0 tuple (l8) at l0"));
    let script = "node 1 split(0, 0)";
    let past = |x: &str| {
        format!(
            "present l0\nkey 0 past node 1 at l0 x0={x} first=1 second=2\n\
             key 1 live node 0 at l0 x0={x}\nkey 2 live node 0 at l0 x0={x}"
        )
    };
    assert!(accepted(script, &past("l7")));
    assert!(!accepted(script, &past("l8")));
}

#[test]
fn a_read_of_a_consumed_tuple_is_accepted_unless_it_makes_a_cycle() {
    let script = "node 1 read(1)@l0 then 0\nnode 2 in(1)@l0 then 1";
    let before = "present l0\nkey 0 consumed (1) at l0\nkey 1 past node 1 at l0 first=2 used=0\n\
                  key 2 live node 0 at l0\nkey 3 past node 2 at l0 first=4 used=0\n\
                  key 4 live node 1 at l0";
    assert!(accepted(script, before));
    let after = "present l0\nkey 0 consumed (1) at l0\nkey 3 past node 2 at l0 first=4 used=0\n\
                 key 4 past node 1 at l0 first=5 used=0\nkey 5 live node 0 at l0";
    assert!(!accepted(script, after));
}

#[test]
fn agreement_what_was_made_may_be_live_or_past_live_or_consumed() {
    let script = "node 1 out(1)@l0 then 2\nnode 2 in(1)@l0 then 0";
    let net = "present l0\nkey 0 past node 1 at l0 first=1 second=2\n\
               key 1 past node 2 at l0 first=3 used=2\nkey 2 consumed (1) at l0\n\
               key 3 live node 0 at l0";
    assert!(accepted(script, net));
}

#[test]
fn template_variables_stand_as_before_binding() {
    let script = "node 1 in(!x0, x0)@l0 then 0";
    let net = "present l0\nkey 0 live node 1 at l0 x0=5\nkey 1 tuple (6, 5) at l0\nkey 2 tuple (6, 6) at l0";
    assert_eq!(answer(script, net, "0 0 1 3 - -"), 0);
    assert_eq!(answer(script, net, "0 0 2 3 - -"), 10);
}

#[test]
fn the_spawned_process_has_the_references_as_before_the_step() {
    let script = "node 1 out(1)@l0 as r0 then 2\nnode 2 eval(3)@l0 as r1 then 4\n\
                  node 3 roll(r1)\nnode 4 roll(r1)\nnode 5 roll(r0)";
    let net = "present l0\nkey 0 live node 1 at l0";
    let steps = "request 0 0 - 1 2 -\nrequest 0 1 - 3 4 -\n";
    let spawned = prints(script, net, &format!("{steps}request 3 4 - - - -"));
    assert_eq!(spawned, "0 0 00000000\n0 0 00000000\n7 0 00000000\n");
    let itself = prints(script, net, &format!("{steps}request 3 3 - - - -"));
    assert_eq!(itself, "0 0 00000000\n0 0 00000000\n0 1 00000001\n");
}

#[test]
fn in_undoing_a_set_freeing_wins() {
    let script = "node 1 out(1)@l0 then 2\nnode 2 in(1)@l0 then 0";
    let net = "present l0\nkey 0 live node 1 at l0";
    let input = format!(
        "script\n{script}\nnet\n{net}\nrequests\nrequest 0 0 - 1 2 -\n\
         request 0 1 2 3 - -\nrequest 2 0 - - - -"
    );
    let run = rewind(&make(&input).expect("good text"), &mut Random::new(0));
    assert_eq!(run.text(), "0 0 00000000\n0 0 00000000\n0 2 00000001\n");
    assert_eq!(run.net, make(&format!("net\n{net}")).expect("good text"));
}
