//! `show` prints what `make` reads back to the same bytes, whatever the
//! bytes; `dot` marks what a rollback would undo.

use reference::cases::{A, B, C, CASES, D, PRINTED, T};
use reference::dot::dot;
use reference::gen::Generator;
use reference::names::Key;
use reference::net::Net;
use reference::program::rewind;
use reference::random::Random;
use reference::recipes::RECIPES;
use reference::script::Script;
use reference::text_read::make;
use reference::text_write::show;

fn image(text: &str) -> Vec<u8> {
    make(text).expect("good text")
}

fn reads_back(bytes: &[u8], script: Option<&[u8]>) {
    let text = show(bytes, script);
    match make(&text) {
        Ok(again) => assert!(again == bytes, "{text}"),
        Err(error) => panic!("{error:?} in\n{text}"),
    }
}

#[test]
fn cases_and_their_ends_read_back() {
    let script = image(T);
    for text in [A, B, C, D] {
        reads_back(&image(text), Some(&script));
        reads_back(&image(text), None);
    }
    for case in &CASES {
        reads_back(&case.run(0).net, Some(&script));
    }
    reads_back(&script, None);
    reads_back(&image(&format!("{T}{A}{PRINTED}")), None);
}

#[test]
fn recipes_read_back_and_the_clause_is_named() {
    for recipe in &RECIPES {
        let bytes = image(recipe.text);
        reads_back(&bytes, None);
        assert!(show(&bytes, None).contains(recipe.clause.sentence()));
    }
}

#[test]
fn generated_streams_damaged_or_not_read_back() {
    let mut generator = Generator::new(21);
    for _ in 0..600 {
        reads_back(&generator.stream().bytes, None);
    }
}

#[test]
fn any_bytes_at_all_read_back() {
    let mut random = Random::new(22);
    for length in [
        0, 1, 15, 16, 40, 2063, 2064, 2065, 3599, 3600, 3601, 5664, 5671,
    ] {
        let bytes: Vec<u8> = (0..length).map(|_| random.draw() as u8).collect();
        reads_back(&bytes, None);
        reads_back(&vec![0; length], None);
        let mut marked = bytes.clone();
        marked.splice(..length.min(3), b"RTS"[..length.min(3)].iter().copied());
        reads_back(&marked, None);
    }
}

#[test]
fn damage_to_single_bytes_reads_back() {
    let mut random = Random::new(23);
    let good = CASES[6].run(0).net;
    for _ in 0..2000 {
        let mut bytes = good.clone();
        let at = random.below(16 + 5 * 56) as usize;
        bytes[at] = random.draw() as u8;
        reads_back(&bytes, None);
    }
    let script = image(T);
    for _ in 0..2000 {
        let mut bytes = script.clone();
        let at = random.below(16 + 12 * 32) as usize;
        bytes[at] = random.draw() as u8;
        reads_back(&bytes, None);
    }
}

#[test]
fn show_names_the_first_rule_that_is_broken() {
    let mut net = image(A);
    net[16 + 1] = 32;
    let text = show(&net, Some(&image(T)));
    assert!(
        text.starts_with("net  # breaks the form: a slot's locality is 0..31 (key 0)"),
        "{text}"
    );
    assert!(
        text.contains("# key 0 (kind 1) cannot be taken apart"),
        "{text}"
    );
    assert!(text.contains("key 1 tuple (2) at l0"), "{text}");
}

#[test]
fn show_says_who_depends_on_whom() {
    let text = show(&CASES[1].run(0).net, Some(&image(T)));
    let expected = "\
net  # accepted
present l0 l1 l2
key 0 consumed (7) at l0  # made by nobody
key 1 past node 4 at l1 first=3 used=0  # read(7)@l0 then 0; made by nobody; directly on it depend 2; a rollback undoes 1, 2
key 2 past node 5 at l2 first=4 used=0  # in(7)@l0 then 0; made by nobody; nothing depends on it
key 3 live node 0 at l1  # nil; made by 1
key 4 live node 0 at l2  # nil; made by 2
";
    assert_eq!(text, expected);
}

#[test]
fn dot_marks_the_dependents() {
    let script = Script::read(&image(T)).expect("a good script");
    let net = Net::read(&CASES[6].run(0).net).expect("a good net");
    let expected = r#"digraph net {
    rankdir=LR;
    node [shape=box];
    label="rollback of 0: undone 2, touched l0 l8";
    k0 [label="0: newloc(x0) then 7\nat l0", style=filled, fillcolor=orange];
    k1 [label="1: eval(0)@x0 then 0\nat l0", style=filled, fillcolor=orange];
    k0 -> k1 [label="made"];
}
"#;
    assert_eq!(dot(&script, &net, Key::new(0)), expected);
    assert_eq!(dot(&script, &net, None).matches("filled").count(), 0);
    assert_eq!(dot(&script, &net, Key::new(1)).matches("filled").count(), 1);
}

#[test]
fn make_says_which_line_is_wrong() {
    let line = |text: &str| make(text).map_err(|error| error.line);
    assert_eq!(line("script\nnode 0 out(1)@l0"), Err(2));
    assert_eq!(line("net\n\nkey 64 tuple (1) at l0"), Err(3));
    assert_eq!(line("net\nkey 0 tuple (1) at l32"), Err(2));
    assert_eq!(line("key 0 tuple (1) at l0"), Err(1));
    assert_eq!(line("net\nkey 0 live node 1 at l0 first=2"), Err(2));
    assert_eq!(line("script\nnode 0 roll(r4)"), Err(2));
    assert_eq!(line("script\nnode 0 nil nil"), Err(2));
    assert_eq!(line("net\npresent l0 ?"), Err(2));
}

#[test]
fn the_printed_example_can_be_written_as_text() {
    let input = image(&format!("{T}{A}{PRINTED}"));
    let run = rewind(&input, &mut Random::new(0));
    assert_eq!(
        run.text(),
        "0 0 00000000\n0 0 00000000\n12 0 00000000\n0 2 00000001\n"
    );
}
