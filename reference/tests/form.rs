//! The form of scripts and nets: each rule is broken singly somewhere and is
//! named, and the readings of the form.

use reference::cases::{A, B, T};
use reference::damage::{damage_net, damage_script};
use reference::gen::some_history;
use reference::net::Net;
use reference::net_form::{broken_net_rules, NetRule};
use reference::random::Random;
use reference::script::Script;
use reference::script_form::{broken_script_rules, ScriptRule};
use reference::text_read::make;
use reference::text_write::{net_form_verdict, script_form_verdict};

fn image(text: &str) -> Vec<u8> {
    make(text).expect("good text")
}

fn script_rules(bytes: &[u8]) -> Vec<ScriptRule> {
    broken_script_rules(bytes)
        .iter()
        .map(|broken| broken.rule)
        .collect()
}

fn net_rules(bytes: &[u8]) -> Vec<NetRule> {
    broken_net_rules(bytes)
        .iter()
        .map(|broken| broken.rule)
        .collect()
}

#[test]
fn a_script_has_2064_bytes_and_a_net_3600() {
    assert_eq!(image(T).len(), 2064);
    assert_eq!(image(A).len(), 3600);
}

#[test]
fn every_rule_of_the_scripts_form_is_broken_singly() {
    let mut random = Random::new(1);
    for rule in ScriptRule::ALL {
        let damaged = (0..50).find_map(|_| {
            let (script, _) = some_history(&mut random);
            damage_script(&mut random, &script.write(), rule)
        });
        let damaged = damaged.unwrap_or_else(|| panic!("{rule:?} is never broken"));
        assert_eq!(
            Script::read(&damaged).map_err(|broken| broken.rule),
            Err(rule)
        );
        assert!(script_form_verdict(&damaged).contains(rule.sentence()));
    }
}

#[test]
fn every_rule_of_the_nets_form_is_broken_singly() {
    let mut random = Random::new(2);
    for rule in NetRule::ALL {
        let damaged = (0..50).find_map(|_| {
            let (_, net) = some_history(&mut random);
            damage_net(&mut random, &net.write(), rule)
        });
        let damaged = damaged.unwrap_or_else(|| panic!("{rule:?} is never broken"));
        assert_eq!(Net::read(&damaged).map_err(|broken| broken.rule), Err(rule));
        assert!(net_form_verdict(&damaged).contains(rule.sentence()));
    }
}

#[test]
fn reading_32_zero_bytes_are_no_node() {
    let mut script = image(T);
    script[16..48].fill(0);
    assert_eq!(script_rules(&script), [ScriptRule::UnusedReferenceNone]);
}

#[test]
fn reading_a_literal_locality_has_all_four_bytes() {
    let mut script = image("script\nnode 0 out(l7)@l7 then 0");
    assert!(script_rules(&script).is_empty());
    script[16 + 13] = 1;
    assert_eq!(script_rules(&script), [ScriptRule::FieldNumber]);
}

#[test]
fn reading_formals_are_distinct_across_both_tags() {
    let script = image("script\nnode 0 in(!x1, !u1)@l0 then 0");
    assert_eq!(script_rules(&script), [ScriptRule::FormalsDistinct]);
    let script = image("script\nnode 0 in(!x1, x1)@l0 then 0");
    assert!(script_rules(&script).is_empty());
}

#[test]
fn reading_bytes_not_described_are_0() {
    for at in [3, 6, 7, 8, 15, 16 + 7, 16 + 28, 16 + 31] {
        let mut script = image(T);
        script[at] = 1;
        assert_eq!(script_rules(&script).len(), 1, "byte {at}");
    }
    for at in [3, 6, 7, 12, 15, 16 + 7, 16 + 52, 16 + 55] {
        let mut net = image(A);
        net[at] = 1;
        assert_eq!(net_rules(&net).len(), 1, "byte {at}");
    }
}

#[test]
fn the_version_is_little_endian() {
    let mut net = image(A);
    assert_eq!(net[4..6], [1, 0]);
    net[4..6].copy_from_slice(&[0, 1]);
    assert_eq!(net_rules(&net), [NetRule::Version]);
}

#[test]
fn a_field_with_a_formal_tag_is_for_in_and_read_only() {
    let mut script = image("script\nnode 0 out(1)@l0 then 0\nnode 1 in(1)@l0 then 0");
    script[16 + 32 + 8] = 4;
    assert!(script_rules(&script).is_empty());
    script[16 + 8] = 4;
    assert_eq!(script_rules(&script), [ScriptRule::FieldTag]);
}

#[test]
fn form_alone_asks_for_no_script() {
    let not_accepted = image("net\npresent l9\nkey 0 past node 0 at l31 r0=63 first=0");
    assert_eq!(net_form_verdict(&not_accepted), "form");
    assert_eq!(net_form_verdict(&image(B)), "form");
    assert_eq!(script_form_verdict(&image(T)), "form");
    assert_eq!(
        net_form_verdict(&[]),
        "no form: Length: a net has 3600 bytes"
    );
}

#[test]
fn images_written_and_read_again_are_the_same_bytes() {
    let mut random = Random::new(3);
    for _ in 0..200 {
        let (script, net) = some_history(&mut random);
        assert_eq!(Script::read(&script.write()).as_ref(), Ok(&script));
        assert_eq!(Net::read(&net.write()).as_ref(), Ok(&net));
    }
}
