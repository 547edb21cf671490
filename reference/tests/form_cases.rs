//! The cases of the form that another program is run on: what they cover, and
//! that the kept files are what `form-cases` makes.

use reference::form_cases::{FormCases, FEWER_VALUES, VALUES};
use reference::net::{Datum, Net, Slot};
use reference::net_form::{broken_net_rules, NetRule};
use reference::script::{Field, Node, Script, Target};
use reference::script_form::{broken_script_rules, Kind, ScriptRule};
use std::collections::{BTreeMap, BTreeSet};
use std::path::{Path, PathBuf};
use std::process::Command;

/// A case as its four bytes and its line have it, read without the code that
/// wrote them.
struct Case {
    letter: char,
    number: usize,
    value: u8,
    form: bool,
    /// The whole image with the change made.
    image: Vec<u8>,
    /// Does the image differ from the base?
    differs: bool,
}

fn cases() -> Vec<Case> {
    let made = FormCases::of_base();
    let input = made.input();
    let output = made.output();
    let (script, rest) = input.split_at(2064);
    let (net, rest) = rest.split_at(3600);
    assert_eq!(rest.len() % 4, 0);
    assert_eq!(rest.len() / 4, output.lines().count());
    assert!(output.ends_with('\n'));
    let cases = rest.chunks(4).zip(output.lines());
    cases
        .map(|(bytes, line)| {
            let letter = char::from(bytes[0]);
            let number = usize::from(bytes[1]) + 256 * usize::from(bytes[2]);
            let value = bytes[3];
            let base = if letter.eq_ignore_ascii_case(&'s') {
                script
            } else {
                net
            };
            let mut image = base.to_vec();
            if letter.is_ascii_uppercase() {
                image[number] = value;
            } else {
                image.push(0);
                image.truncate(number);
            }
            let verdict = line.strip_prefix(&format!("{letter} {number} {value} "));
            let form = match verdict {
                Some("form") => true,
                Some("no form") => false,
                _ => panic!("line {line}"),
            };
            let differs = image != base;
            Case {
                letter,
                number,
                value,
                form,
                image,
                differs,
            }
        })
        .collect()
}

fn is_of_script(case: &Case) -> bool {
    "Ss".contains(case.letter)
}

fn script_rules(case: &Case) -> Vec<ScriptRule> {
    let broken = broken_script_rules(&case.image);
    broken.iter().map(|broken| broken.rule).collect()
}

fn net_rules(case: &Case) -> Vec<NetRule> {
    let broken = broken_net_rules(&case.image);
    broken.iter().map(|broken| broken.rule).collect()
}

#[test]
fn every_rule_of_both_forms_is_broken_alone_by_a_case() {
    let (of_script, of_net): (Vec<Case>, Vec<Case>) = cases().into_iter().partition(is_of_script);
    let script: Vec<_> = of_script.iter().map(script_rules).collect();
    for rule in ScriptRule::ALL {
        assert!(script.contains(&vec![rule]), "{rule:?} is not broken alone");
    }
    let net: Vec<_> = of_net.iter().map(net_rules).collect();
    for rule in NetRule::ALL {
        assert!(net.contains(&vec![rule]), "{rule:?} is not broken alone");
    }
}

#[test]
fn a_line_says_form_exactly_where_no_rule_is_broken() {
    for case in cases() {
        let form = match is_of_script(&case) {
            true => script_rules(&case).is_empty(),
            false => net_rules(&case).is_empty(),
        };
        let Case { letter, number, .. } = case;
        assert_eq!(case.form, form, "{letter} {number} {}", case.value);
    }
}

#[test]
fn some_changed_bytes_still_have_the_form() {
    for letter in ['S', 'N'] {
        let changed = |case: &&Case| case.letter == letter && case.differs && case.form;
        let count = cases().iter().filter(changed).count();
        assert!(count > 500, "{letter}: {count}");
    }
}

#[test]
fn the_lengths_come_first() {
    let cases = cases();
    let first: Vec<_> = cases[..10].iter().map(|c| (c.letter, c.number)).collect();
    let lengths = [
        ('s', 0),
        ('s', 1),
        ('s', 2063),
        ('s', 2064),
        ('s', 2065),
        ('n', 0),
        ('n', 1),
        ('n', 3599),
        ('n', 3600),
        ('n', 3601),
    ];
    assert_eq!(first, lengths);
    assert!(cases[10..].iter().all(|case| "SN".contains(case.letter)));
    assert!(cases.len() < 20_000);
    let exact = |case: &Case| [2064, 3600].contains(&case.number);
    assert!(cases[..10].iter().all(|case| case.form == exact(case)));
}

/// The values that each byte is set to.
fn values_at(letter: char) -> BTreeMap<usize, Vec<u8>> {
    let mut values: BTreeMap<usize, Vec<u8>> = BTreeMap::new();
    for case in cases().iter().filter(|case| case.letter == letter) {
        values.entry(case.number).or_default().push(case.value);
    }
    values
}

/// The head, every part in use and one of kind 0; all values for the head and
/// for one part of each kind.
fn every_byte_is_set(letter: char, image: &[u8], part_length: usize, kinds: u8) {
    let values = values_at(letter);
    let set = |at: usize| values.get(&at).map_or(&[][..], Vec::as_slice);
    assert!((0..16).all(|at| set(at) == VALUES));
    let mut parts_with_all = BTreeSet::new();
    let mut parts_of_kind_0 = 0;
    for start in (16..image.len()).step_by(part_length) {
        let kind = image[start];
        let all_set_to = |values: &[u8]| (start..start + part_length).all(|at| set(at) == values);
        if all_set_to(&VALUES) {
            parts_with_all.insert(kind);
            parts_of_kind_0 += usize::from(kind == 0);
        } else if kind == 0 {
            assert!(all_set_to(&[]));
        } else {
            assert!(all_set_to(&FEWER_VALUES), "{letter} {start}");
        }
    }
    assert!(parts_with_all.into_iter().eq(0..kinds));
    assert_eq!(parts_of_kind_0, 1);
}

#[test]
fn every_byte_of_every_part_in_use_is_set() {
    let made = FormCases::of_base();
    every_byte_is_set('S', &made.script, 32, 8);
    every_byte_is_set('N', &made.net, 56, 5);
}

fn nodes(script: &[u8]) -> Vec<Node> {
    assert!(Script::read(script).is_ok());
    let nodes = script[16..].chunks(32);
    nodes
        .map(|node| Node::decode(node).expect("the form"))
        .collect()
}

#[test]
fn the_script_uses_every_kind_and_every_place() {
    let nodes = nodes(&FormCases::of_base().script);
    let uses = |what: &dyn Fn(&Node) -> bool| nodes.iter().any(what);
    for kind in Kind::ALL {
        assert!(uses(&|n| n.kind == kind), "{kind:?}");
    }
    for kind in [Kind::Out, Kind::In, Kind::Read, Kind::Eval] {
        let literal = |n: &Node| matches!(n.target, Some(Target::Literal(_)));
        assert!(uses(&|n| n.kind == kind && literal(n)), "{kind:?}");
        assert!(uses(&|n| n.kind == kind && !literal(n)), "{kind:?}");
    }
    for kind in [Kind::Out, Kind::In, Kind::Read, Kind::Newloc, Kind::Eval] {
        let holds = |n: &Node| n.reference.is_some();
        assert!(uses(&|n| n.kind == kind && holds(n)), "{kind:?}");
        assert!(uses(&|n| n.kind == kind && !holds(n)), "{kind:?}");
    }
    for kind in [Kind::Out, Kind::In, Kind::Read] {
        for count in [1, 2, 4] {
            let found = uses(&|n| n.kind == kind && n.fields.len() == count);
            assert!(found, "{kind:?} with {count} fields");
        }
    }
    for node in &nodes {
        assert_eq!(node.next.byte() != 0, node.kind.uses().next, "{node:?}");
        assert_eq!(node.other.byte() != 0, node.kind.uses().other, "{node:?}");
    }
}

#[test]
fn the_scripts_fields_have_every_tag() {
    let nodes = nodes(&FormCases::of_base().script);
    let tags_of = |templates: bool| -> BTreeSet<u8> {
        let kinds: &[Kind] = match templates {
            true => &[Kind::In, Kind::Read],
            false => &[Kind::Out],
        };
        let nodes = nodes.iter().filter(|node| kinds.contains(&node.kind));
        let tag = |field: &Field| match field {
            Field::Value(_) => 1,
            Field::Literal(_) => 2,
            Field::Variable(_) => 3,
            Field::FormalValue(_) => 4,
            Field::FormalLocality(_) => 5,
        };
        nodes.flat_map(|node| node.fields.iter().map(tag)).collect()
    };
    assert!(tags_of(false).into_iter().eq(1..=3));
    assert!(tags_of(true).into_iter().eq(1..=5));
}

#[test]
fn the_net_uses_every_kind_and_every_place() {
    let net = Net::read(&FormCases::of_base().net).expect("the form");
    let slots: Vec<&Slot> = net.records().map(|(_, slot)| slot).collect();
    assert!(slots.len() < 64, "some slot is free");
    let uses = |what: &dyn Fn(&Slot) -> bool| slots.iter().any(|slot| what(slot));

    let all_sorts = |data: &[Datum]| {
        let value = |datum: &Datum| matches!(datum, Datum::Value(_));
        let locality = |datum: &Datum| matches!(datum, Datum::Locality(_));
        data.iter().any(value) && data.iter().any(locality)
    };
    let live = |slot: &Slot| match slot {
        Slot::Live(process) => {
            let held = process.references.iter().filter(|r| r.is_some()).count();
            all_sorts(&process.variables)
                && process.variables.contains(&Datum::Unset)
                && (1..4).contains(&held)
        }
        _ => false,
    };
    assert!(uses(&live));

    let held = |slot: &Slot| match slot {
        Slot::Past(_, m) => {
            let keys = [m.first, m.second, m.used];
            keys.iter().flatten().count() + m.locality.iter().count()
        }
        _ => 0,
    };
    assert!(uses(&|slot| held(slot) == 4));
    assert!(uses(&|slot| (1..4).contains(&held(slot))));

    let fields = |slot: &Slot| match slot {
        Slot::Tuple(tuple) => tuple.fields.len(),
        _ => 0,
    };
    assert!(uses(&|slot| fields(slot) == 1));
    let of_four = |slot: &Slot| slot.tuple().is_some_and(|tuple| all_sorts(&tuple.fields));
    assert!(uses(&|slot| fields(slot) == 4 && of_four(slot)));
    assert!(uses(&|slot| matches!(slot, Slot::Consumed(_))));
}

/// What the command writes.
fn command_makes() -> (Vec<u8>, Vec<u8>) {
    let directory = std::env::temp_dir().join(format!("form-cases-{}", std::process::id()));
    std::fs::create_dir_all(&directory).expect("a directory");
    let file = |name: &str| -> PathBuf { directory.join(name) };
    let status = Command::new(env!("CARGO_BIN_EXE_reference"))
        .arg("form-cases")
        .arg("--input")
        .arg(file("input"))
        .arg("--output")
        .arg(file("output"))
        .stdout(std::process::Stdio::null())
        .status()
        .expect("the program starts");
    assert!(status.success());
    let read = |name: &str| std::fs::read(file(name)).expect("it was written");
    let made = (read("input"), read("output"));
    std::fs::remove_dir_all(&directory).expect("they can be removed");
    made
}

/// Never copied from another program's run.
#[test]
fn the_kept_files_are_what_the_command_makes() {
    let (input, output) = command_makes();
    let kept = |name: &str| {
        let folder = Path::new(env!("CARGO_MANIFEST_DIR")).join("../crates/image_forms");
        let path = folder.join(name);
        std::fs::read(&path).unwrap_or_else(|error| panic!("{}: {error}", path.display()))
    };
    assert!(kept("stdin") == input, "stdin is another file");
    assert!(kept("stdout") == output, "stdout is another file");
}

#[test]
fn both_files_must_be_named() {
    for arguments in [&["form-cases"][..], &["form-cases", "--input", "unwritten"]] {
        let output = Command::new(env!("CARGO_BIN_EXE_reference"))
            .args(arguments)
            .output()
            .expect("the program starts");
        assert!(!output.status.success());
    }
}
