//! The language of `show`: images as text that `make` reads back to the same
//! bytes. What it knows beyond the bytes stands in comments.

use crate::accept::{broken_clauses, is_root};
use crate::dependence::Dependence;
use crate::names::{Key, Keys, Localities, NodeName};
use crate::net::{Datum, Memory, Net, Process, Slot, Tuple};
use crate::net_form::{broken_net_rules, slot_byte, PRESENT_AT, SLOTS_AT, SLOT_LENGTH};
use crate::program::Stream;
use crate::request::REQUEST_LENGTH;
use crate::script::{Field, Node, Script, Target};
use crate::script_form::{broken_script_rules, number_at, Kind, NODES_AT, NODE_LENGTH};
use crate::text_read::{sort_of, Sort};

/// A script, a net or a whole stream; the script, if given, explains a net.
pub fn show(bytes: &[u8], script: Option<&[u8]>) -> String {
    match sort_of(bytes) {
        Sort::Script => show_script(bytes),
        Sort::Net => show_net(bytes, script),
        Sort::Stream => show_stream(bytes),
    }
}

fn show_stream(bytes: &[u8]) -> String {
    let stream = Stream::cut(bytes);
    let mut text = show_script(stream.script);
    text += "\n";
    text += &show_net(stream.net, Some(stream.script));
    if !stream.requests.is_empty() {
        text += "\nrequests\n";
    }
    for request in stream.requests() {
        text += &format!(
            "request {}{}\n",
            request_bytes(request),
            request_comment(request)
        );
    }
    text
}

fn request_bytes(request: &[u8]) -> String {
    let byte = |&byte: &u8| {
        if byte == 255 {
            "-".to_string()
        } else {
            byte.to_string()
        }
    };
    request.iter().map(byte).collect::<Vec<_>>().join(" ")
}

fn request_comment(request: &[u8]) -> String {
    if request.len() != REQUEST_LENGTH {
        return "  # wrong length".to_string();
    }
    let words = ["forward", "backward", "rollback", "roll"];
    words
        .get(usize::from(request[0]))
        .map_or(String::new(), |word| format!("  # {word}"))
}

pub fn show_script(bytes: &[u8]) -> String {
    let mut text = "script".to_string();
    match broken_script_rules(bytes).first() {
        Some(broken) => {
            let place = broken
                .node
                .map_or(String::new(), |n| format!(" (node {n})"));
            text += &format!("  # breaks the form: {}{place}", broken.rule.sentence());
        }
        None => text += "  # has the form",
    }
    text += "\n";
    let mut shown = Script::empty();
    for name in NodeName::all() {
        let start = NODES_AT + name.index() * NODE_LENGTH;
        let node = bytes.get(start..start + NODE_LENGTH).and_then(Node::decode);
        if let Some(node) = node.filter(|node| node.kind != Kind::Nil && is_printable(node)) {
            text += &format!("node {name} {}\n", action(&node));
            shown.set(name, node);
        }
    }
    text + &differences(shown.write(), bytes)
}

/// A node of the right shape to be written as an action: bytes that its kind
/// does not use are left to the `bytes` lines.
fn is_printable(node: &Node) -> bool {
    let needs_reference = node.kind == Kind::Roll;
    let binds = node.kind == Kind::Newloc;
    let uses = node.kind.uses();
    let first = NodeName::new(0);
    (!needs_reference || node.reference.is_some())
        && (!binds || matches!(node.target, Some(Target::Variable(_))))
        && (uses.next || Some(node.next) == first)
        && (uses.other || Some(node.other) == first)
}

/// A node in the paper's notation; `as` gives the reference and `then` the
/// node that goes on.
pub fn action(node: &Node) -> String {
    let fields = || node.fields.iter().map(field).collect::<Vec<_>>().join(", ");
    let target = node.target.map_or(String::new(), target_word);
    let head = match node.kind {
        Kind::Nil => return "nil".to_string(),
        Kind::Roll => return format!("roll(r{})", node.reference.map_or(0, |r| r.byte())),
        Kind::Split => return format!("split({}, {})", node.next, node.other),
        Kind::Out | Kind::In | Kind::Read => format!("{}({})@{target}", node.kind.word(), fields()),
        Kind::Newloc => format!("newloc({target})"),
        Kind::Eval => format!("eval({})@{target}", node.other),
    };
    let reference = node
        .reference
        .map_or(String::new(), |r| format!(" as r{r}"));
    format!("{head}{reference} then {}", node.next)
}

fn target_word(target: Target) -> String {
    match target {
        Target::Literal(l) => format!("l{l}"),
        Target::Variable(x) => format!("x{x}"),
    }
}

fn field(field: &Field) -> String {
    match field {
        Field::Value(number) => number.to_string(),
        Field::Literal(l) => format!("l{l}"),
        Field::Variable(x) => format!("x{x}"),
        Field::FormalValue(x) => format!("!x{x}"),
        Field::FormalLocality(x) => format!("!u{x}"),
    }
}

/// The net, with actions and dependence where the script has the form.
pub fn show_net(bytes: &[u8], script: Option<&[u8]>) -> String {
    let script = script.and_then(|script| Script::read(script).ok());
    let shown = as_far_as_it_goes(bytes);
    let mut text = format!("net  # {}\n", verdict(bytes, script.as_ref()));
    text += &present_line(shown.present);
    let dependence = script.as_ref().map(|script| Dependence::of(script, &shown));
    for (key, slot) in shown.records() {
        text += &slot_line(key, slot);
        text += &slot_comment(&shown, key, slot, script.as_ref(), dependence.as_ref());
        text += "\n";
    }
    text += &unshown(bytes);
    text + &differences(shown.write(), bytes)
}

/// Every slot that can be taken apart; the others free.
fn as_far_as_it_goes(bytes: &[u8]) -> Net {
    let mut net = Net::empty();
    if bytes.len() >= SLOTS_AT {
        net.present = Localities(number_at(bytes, PRESENT_AT));
    }
    for key in Key::all() {
        if let Some(slot) = slot_bytes(bytes, key).and_then(Slot::decode) {
            net.set(key, slot);
        }
    }
    net
}

fn slot_bytes(bytes: &[u8], key: Key) -> Option<&[u8]> {
    let start = SLOTS_AT + key.index() * SLOT_LENGTH;
    bytes.get(start..start + SLOT_LENGTH)
}

/// The first rule that the net breaks.
pub fn verdict(bytes: &[u8], script: Option<&Script>) -> String {
    if let Some(broken) = broken_net_rules(bytes).first() {
        let place = broken.slot.map_or(String::new(), |n| format!(" (key {n})"));
        return format!("breaks the form: {}{place}", broken.rule.sentence());
    }
    let (Some(script), Ok(net)) = (script, Net::read(bytes)) else {
        return "has the form; a script of the right form is needed to tell more".to_string();
    };
    match broken_clauses(script, &net).first() {
        Some(broken) => format!(
            "not accepted: {} ({})",
            broken.clause.sentence(),
            broken.finding
        ),
        None => "accepted".to_string(),
    }
}

fn present_line(present: Localities) -> String {
    let names: String = present.iter().map(|l| format!(" l{l}")).collect();
    if names.is_empty() {
        return String::new();
    }
    format!("present{names}\n")
}

fn slot_line(key: Key, slot: &Slot) -> String {
    let record = match slot {
        Slot::Free => "free".to_string(),
        Slot::Live(process) => format!("live {}", process_words(process)),
        Slot::Past(process, memory) => {
            format!("past {}{}", process_words(process), memory_words(memory))
        }
        Slot::Tuple(tuple) => format!("tuple {}", tuple_words(tuple)),
        Slot::Consumed(tuple) => format!("consumed {}", tuple_words(tuple)),
    };
    format!("key {key} {record}")
}

fn process_words(process: &Process) -> String {
    let mut words = format!("node {} at l{}", process.node, process.locality);
    for (i, &variable) in process.variables.iter().enumerate() {
        if variable != Datum::Unset {
            words += &format!(" x{i}={}", datum(variable));
        }
    }
    for (i, reference) in process.references.iter().enumerate() {
        if let Some(key) = reference {
            words += &format!(" r{i}={key}");
        }
    }
    words
}

fn memory_words(memory: &Memory) -> String {
    let key = |name: &str, key: Option<Key>| key.map_or(String::new(), |k| format!(" {name}={k}"));
    let made = memory
        .locality
        .map_or(String::new(), |l| format!(" made=l{l}"));
    key("first", memory.first) + &key("second", memory.second) + &key("used", memory.used) + &made
}

fn tuple_words(tuple: &Tuple) -> String {
    let fields: Vec<String> = tuple.fields.iter().map(|&field| datum(field)).collect();
    format!("({}) at l{}", fields.join(", "), tuple.locality)
}

pub fn datum(datum: Datum) -> String {
    match datum {
        Datum::Unset => "_".to_string(),
        Datum::Value(number) => number.to_string(),
        Datum::Locality(l) => format!("l{l}"),
    }
}

/// The action, who made the record, and what depends on it.
fn slot_comment(
    net: &Net,
    key: Key,
    slot: &Slot,
    script: Option<&Script>,
    dependence: Option<&Dependence>,
) -> String {
    let mut notes = Vec::new();
    if let (Some(process), Some(script)) = (slot.process(), script) {
        notes.push(action(script.node(process.node)));
    }
    notes.push(maker(net, key));
    if let (Slot::Past(..), Some(dependence)) = (slot, dependence) {
        notes.push(dependents(dependence, key));
    }
    format!("  # {}", notes.join("; "))
}

fn maker(net: &Net, key: Key) -> String {
    if is_root(net, key) {
        return "made by nobody".to_string();
    }
    let makers = net.events().filter(|(_, _, memory)| memory.made_key(key));
    let names: Vec<String> = makers.map(|(maker, _, _)| maker.to_string()).collect();
    format!("made by {}", names.join(", "))
}

fn dependents(dependence: &Dependence, key: Key) -> String {
    let directly = dependence.directly_on(key);
    if directly.is_empty() {
        return "nothing depends on it".to_string();
    }
    let all = dependence.dependents(key);
    format!(
        "directly on it depend {}; a rollback undoes {}",
        list(directly),
        list(all)
    )
}

fn list(keys: Keys) -> String {
    keys.iter()
        .map(|key| key.to_string())
        .collect::<Vec<_>>()
        .join(", ")
}

/// The slots that cannot be taken apart.
fn unshown(bytes: &[u8]) -> String {
    let unshown =
        |&key: &Key| slot_bytes(bytes, key).is_some_and(|slot| Slot::decode(slot).is_none());
    let line = |key: Key| {
        let kind = slot_bytes(bytes, key).map_or(0, |slot| slot[slot_byte::KIND]);
        format!("# key {key} (kind {kind}) cannot be taken apart\n")
    };
    Key::all().filter(unshown).map(line).collect()
}

/// The bytes that the lines above do not give, as `length` and `bytes` lines.
fn differences(mut shown: Vec<u8>, bytes: &[u8]) -> String {
    let mut text = String::new();
    if shown.len() != bytes.len() {
        text += &format!("length {}\n", bytes.len());
        shown.resize(bytes.len(), 0);
    }
    let mut at = 0;
    while at < bytes.len() {
        let differing = (at..bytes.len().min(at + 16))
            .take_while(|&i| shown[i] != bytes[i])
            .count();
        if differing > 0 {
            let run: Vec<String> = bytes[at..at + differing]
                .iter()
                .map(u8::to_string)
                .collect();
            text += &format!("bytes {at} {}\n", run.join(" "));
        }
        at += differing.max(1);
    }
    text
}

/// `check-form script`: does it have the form, and if not, which rule first?
pub fn script_form_verdict(bytes: &[u8]) -> String {
    match broken_script_rules(bytes).first() {
        None => "form".to_string(),
        Some(broken) => {
            let place = broken
                .node
                .map_or(String::new(), |n| format!(" (node {n})"));
            format!(
                "no form: {:?}: {}{place}",
                broken.rule,
                broken.rule.sentence()
            )
        }
    }
}

/// `check-form net`: the "Net" paragraph alone, without the clauses.
pub fn net_form_verdict(bytes: &[u8]) -> String {
    match broken_net_rules(bytes).first() {
        None => "form".to_string(),
        Some(broken) => {
            let place = broken.slot.map_or(String::new(), |n| format!(" (key {n})"));
            format!(
                "no form: {:?}: {}{place}",
                broken.rule,
                broken.rule.sentence()
            )
        }
    }
}
