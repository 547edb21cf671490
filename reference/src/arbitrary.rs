//! Random scripts, and random nets with no past process to start from.
//! Numbers are few and small, so that templates match, variables clash and
//! localities are absent often enough.

use crate::cases::T;
use crate::names::{Key, Localities, Locality, NodeName, Reference, Variable};
use crate::net::{Datum, Memory, Net, Process, Slot, Tuple};
use crate::random::Random;
use crate::script::{Field, Node, Script, Target};
use crate::script_form::Kind;
use crate::step::places_needed;
use crate::text_read::make;

/// What a script is rich in: a kind stands in the list as often as it is
/// likely.
const FLAVOURS: [&[Kind]; 9] = [
    &MIXED,
    &MIXED,
    &MIXED,
    &[
        Kind::Out,
        Kind::Out,
        Kind::Eval,
        Kind::Split,
        Kind::Newloc,
        Kind::In,
        Kind::Read,
    ],
    &[Kind::Read, Kind::Read, Kind::Read, Kind::In, Kind::Out],
    &[Kind::Read, Kind::In, Kind::Out, Kind::Out, Kind::Split],
    &[Kind::Newloc, Kind::Newloc, Kind::Eval, Kind::Out, Kind::In],
    &[Kind::Newloc],
    &[Kind::Out, Kind::In, Kind::Read, Kind::Eval, Kind::Roll],
];

const MIXED: [Kind; 12] = [
    Kind::Nil,
    Kind::Out,
    Kind::Out,
    Kind::In,
    Kind::In,
    Kind::Read,
    Kind::Read,
    Kind::Newloc,
    Kind::Eval,
    Kind::Eval,
    Kind::Split,
    Kind::Roll,
];

/// Tuples that the outs, ins and reads of one script have in common.
type Shape = Vec<Datum>;

/// Scripts with a purpose: localities made, lived at and named; tuples read
/// before they are taken; document 01's T.
pub const PURPOSES: [&str; 4] = [
    "script
    node 0 newloc(x0) as r0 then 1
    node 1 eval(4)@x0 then 2
    node 2 out(1, x0)@x0 then 3
    node 3 in(!x1, !u2)@x0 then 6
    node 4 read(!x1, !u2)@x0 as r1 then 5
    node 5 newloc(x3) then 7
    node 6 roll(r0)
    node 7 out(2, x3)@x3 as r2 then 8
    node 8 split(9, 10)
    node 9 read(2, !u4)@x3 then 11
    node 10 in(2, !u4)@x3 then 0
    node 11 eval(0)@x4 as r3 then 6",
    "script
    node 0 read(!x0)@l0 as r0 then 1
    node 1 split(0, 2)
    node 2 in(!x1)@l0 as r1 then 3
    node 3 out(x1)@l0 then 4
    node 4 eval(0)@l0 then 5
    node 5 split(2, 6)
    node 6 roll(r0)",
    "script
    node 0 read(!x0)@l0 as r0 then 1
    node 1 in(!x0)@l0 as r1 then 2
    node 2 roll(r0)
    node 3 out(0)@l0 then 3
    node 4 in(!x0)@l0 as r0 then 4
    node 5 read(!x1)@l0 as r2 then 5",
    T,
];

pub fn script(random: &mut Random) -> Script {
    if random.one_in(3) {
        let text = random.pick(&PURPOSES).expect("there are four");
        let bytes = make(text).expect("the purposes are good text");
        return Script::read(&bytes).expect("the purposes have the form");
    }
    script_without_purpose(random)
}

pub fn script_without_purpose(random: &mut Random) -> Script {
    let used = random.pick(&[1, 3, 6, 12, 64]).unwrap_or(6);
    let kinds = FLAVOURS[random.below(FLAVOURS.len() as u64) as usize];
    let shapes: Vec<Shape> = (0..2).map(|_| shape(random)).collect();
    let mut script = Script::empty();
    for name in NodeName::all().take(used) {
        let kind = random.pick(kinds).unwrap_or(Kind::Nil);
        script.set(name, node(random, kind, used as u64, &shapes));
    }
    script
}

fn shape(random: &mut Random) -> Shape {
    (0..field_count(random))
        .map(|_| field_datum(random))
        .collect()
}

fn node(random: &mut Random, kind: Kind, used: u64, shapes: &[Shape]) -> Node {
    let mut node = Node {
        kind,
        ..Node::nil()
    };
    let uses = kind.uses();
    if uses.next {
        node.next = node_name(random, used);
    }
    if uses.other {
        node.other = node_name(random, used);
    }
    node.reference = reference(random, kind);
    node.target = target(random, kind);
    if matches!(kind, Kind::Out | Kind::In | Kind::Read) {
        let shape = &shapes[random.below(shapes.len() as u64) as usize];
        node.fields = match kind {
            Kind::Out => actual_fields(random, shape),
            _ => template(random, shape),
        };
    }
    node
}

fn node_name(random: &mut Random, used: u64) -> NodeName {
    NodeName::new(random.below(used) as u32).expect("used is at most 64")
}

fn reference(random: &mut Random, kind: Kind) -> Option<Reference> {
    let some = match kind {
        Kind::Nil | Kind::Split => false,
        Kind::Roll => true,
        _ => random.one_in(2),
    };
    some.then(|| {
        let few = if random.one_in(4) { 4 } else { 1 };
        Reference::new(random.below(few) as u32).expect("below 4")
    })
}

fn target(random: &mut Random, kind: Kind) -> Option<Target> {
    match kind {
        Kind::Nil | Kind::Split | Kind::Roll => None,
        Kind::Newloc => Some(Target::Variable(variable(random))),
        _ if random.one_in(4) => Some(Target::Variable(variable(random))),
        _ => Some(Target::Literal(original(random))),
    }
}

fn variable(random: &mut Random) -> Variable {
    let few = if random.one_in(8) { 8 } else { 3 };
    Variable::new(random.below(few) as u32).expect("below 8")
}

/// A locality 0..7, mostly 0 or 1.
fn original(random: &mut Random) -> Locality {
    let few = if random.one_in(6) { 8 } else { 2 };
    Locality::new(random.below(few) as u32).expect("below 8")
}

fn value(random: &mut Random) -> u32 {
    match random.below(20) {
        0 => u32::MAX,
        1 => random.draw() as u32,
        _ => random.below(3) as u32,
    }
}

fn field_count(random: &mut Random) -> usize {
    random.pick(&[1, 1, 1, 2, 2, 3, 4]).unwrap_or(1)
}

/// An out's fields: of the shape mostly, or a variable.
fn actual_fields(random: &mut Random, shape: &Shape) -> Vec<Field> {
    let field = |&datum: &Datum| match random.below(8) {
        0 => Field::Variable(variable(random)),
        1 => literal(field_datum(random)),
        _ => literal(datum),
    };
    shape.iter().map(field).collect()
}

/// A template: literal, variable or formal, mostly one that fits the shape.
fn template(random: &mut Random, shape: &Shape) -> Vec<Field> {
    let mut free: Vec<Variable> = Variable::all().collect();
    let mut field = |&datum: &Datum| match random.below(10) {
        0 => Field::Variable(variable(random)),
        1 => literal(field_datum(random)),
        2 => Field::FormalValue(take_variable(random, &mut free)),
        3 => Field::FormalLocality(take_variable(random, &mut free)),
        4 | 5 => literal(datum),
        _ => formal(datum, take_variable(random, &mut free)),
    };
    let mut fields: Vec<Field> = shape.iter().map(&mut field).collect();
    if random.one_in(4) {
        name_a_formal(random, &mut fields);
    }
    fields
}

fn literal(datum: Datum) -> Field {
    match datum {
        Datum::Locality(locality) => Field::Literal(locality),
        Datum::Value(number) => Field::Value(number),
        Datum::Unset => Field::Value(0),
    }
}

fn formal(datum: Datum, x: Variable) -> Field {
    match datum {
        Datum::Locality(_) => Field::FormalLocality(x),
        Datum::Value(_) | Datum::Unset => Field::FormalValue(x),
    }
}

/// Makes one field a variable that is a formal of the same template.
fn name_a_formal(random: &mut Random, fields: &mut [Field]) {
    let formals: Vec<Variable> = fields
        .iter()
        .filter_map(|field| match *field {
            Field::FormalValue(x) | Field::FormalLocality(x) => Some(x),
            _ => None,
        })
        .collect();
    let at = random.below(fields.len() as u64) as usize;
    if let Some(x) = random.pick(&formals) {
        if !matches!(fields[at], Field::FormalValue(y) | Field::FormalLocality(y) if x == y) {
            fields[at] = Field::Variable(x);
        }
    }
}

/// Formals of one template name distinct variables.
fn take_variable(random: &mut Random, free: &mut Vec<Variable>) -> Variable {
    let among = free.len().min(4) as u64;
    free.remove(random.below(among) as usize)
}

fn datum(random: &mut Random) -> Datum {
    match random.below(6) {
        0 => Datum::Unset,
        1 | 2 => Datum::Value(value(random)),
        _ => Datum::Locality(original(random)),
    }
}

fn field_datum(random: &mut Random) -> Datum {
    match datum(random) {
        Datum::Unset => Datum::Value(value(random)),
        set => set,
    }
}

/// An accepted net with no past process.
pub fn start(random: &mut Random, script: &Script) -> Net {
    let mut net = Net::empty();
    net.present.0 = (random.draw() as u8 | (random.draw() as u8 & 3) | 1).into();
    let keys = if random.one_in(4) { 20 } else { 6 };
    let processes = 1 + random.below(3);
    for _ in 0..processes {
        put(random, &mut net, |random, at| {
            Slot::Live(process(random, script, at))
        });
    }
    for _ in 0..random.below(keys) {
        let present = net.present;
        put(random, &mut net, |random, at| {
            Slot::Tuple(tuple(random, script, present, at))
        });
    }
    net
}

/// An accepted net with no past process, so many records, and these of the
/// localities 0..7. The processes are at any nodes.
pub fn crowd(
    random: &mut Random,
    script: &Script,
    present: u8,
    processes: usize,
    tuples: usize,
) -> Net {
    let nodes: Vec<NodeName> = (0..processes).map(|_| some_node(random, script)).collect();
    crowd_at(random, script, present, &nodes, tuples)
}

/// The same with a process at each of these nodes.
pub fn crowd_at(
    random: &mut Random,
    script: &Script,
    present: u8,
    nodes: &[NodeName],
    tuples: usize,
) -> Net {
    let mut net = Net::empty();
    net.present.0 = present.into();
    for &node in nodes {
        put(random, &mut net, |random, at| {
            let process = process(random, script, at);
            Slot::Live(Process { node, ..process })
        });
    }
    let present = net.present;
    for _ in 0..tuples {
        put(random, &mut net, |random, at| {
            Slot::Tuple(tuple(random, script, present, at))
        });
    }
    net
}

fn put(random: &mut Random, net: &mut Net, slot: impl Fn(&mut Random, Locality) -> Slot) {
    let free: Vec<Key> = Key::all().filter(|&key| net.is_free(key)).collect();
    let present: Vec<Locality> = net.present.iter().collect();
    if let (Some(key), Some(at)) = (
        random.pick(&free),
        random.pick(&present[..present.len().min(3)]),
    ) {
        net.set(key, slot(random, at));
    }
}

fn process(random: &mut Random, script: &Script, at: Locality) -> Process {
    let mut variables = [Datum::Unset; Variable::COUNT];
    if !random.one_in(5) {
        variables
            .iter_mut()
            .for_each(|variable| *variable = datum(random));
    }
    Process {
        locality: at,
        node: some_node(random, script),
        variables,
        references: [None; 4],
    }
}

/// A node that is not nil, where there is one.
fn some_node(random: &mut Random, script: &Script) -> NodeName {
    let nodes: Vec<NodeName> = NodeName::all()
        .filter(|&n| script.node(n).kind != Kind::Nil || n.index() == 0)
        .collect();
    random.pick(&nodes).expect("node 0 is there")
}

/// Mostly one that some in or read of the script would take.
fn tuple(random: &mut Random, script: &Script, present: Localities, at: Locality) -> Tuple {
    let templates: Vec<&Node> = NodeName::all()
        .map(|name| script.node(name))
        .filter(|node| matches!(node.kind, Kind::In | Kind::Read))
        .collect();
    let template = random.pick(&templates).filter(|_| !random.one_in(4));
    let fields = match template {
        Some(node) => node
            .fields
            .iter()
            .map(|&field| fitting(random, field))
            .collect(),
        None => (0..field_count(random))
            .map(|_| field_datum(random))
            .collect(),
    };
    let at = match template.and_then(|node| node.target) {
        Some(Target::Literal(target)) if present.contains(target) => target,
        _ => at,
    };
    Tuple {
        locality: at,
        fields,
    }
}

fn fitting(random: &mut Random, field: Field) -> Datum {
    match field {
        Field::Value(number) => Datum::Value(number),
        Field::Literal(locality) => Datum::Locality(locality),
        Field::Variable(_) => field_datum(random),
        Field::FormalValue(_) => Datum::Value(value(random)),
        Field::FormalLocality(_) => Datum::Locality(original(random)),
    }
}

/// Any net of a few records over a few names, mostly not accepted: the
/// accepted ones were reached by no walk.
pub fn small(random: &mut Random) -> (Script, Net) {
    let mut script = Script::empty();
    for name in NodeName::all().take(3) {
        let kind = random.pick(&MIXED).unwrap_or(Kind::Nil);
        script.set(name, small_node(random, kind));
    }
    let mut net = Net::empty();
    net.present.0 = 1;
    for key in Key::all().take(2 + random.below(4) as usize) {
        net.set(key, small_slot(random, &script));
    }
    let made: Vec<Locality> = net
        .events()
        .filter_map(|(_, _, memory)| memory.locality)
        .collect();
    made.into_iter()
        .for_each(|locality| net.present.insert(locality));
    (script, net)
}

fn small_node(random: &mut Random, kind: Kind) -> Node {
    let shape = vec![Datum::Value(0)];
    let mut node = node(random, kind, 3, &[shape]);
    if node.target.is_some() && kind != Kind::Newloc {
        node.target = Locality::new(0).map(Target::Literal);
    }
    node.reference = node.reference.filter(|_| kind == Kind::Roll);
    node.fields
        .iter_mut()
        .for_each(|field| *field = Field::Value(0));
    node
}

fn small_slot(random: &mut Random, script: &Script) -> Slot {
    let tuple = Tuple {
        locality: few(random, Locality::new, 1),
        fields: vec![Datum::Value(0)],
    };
    let mut variables = [Datum::Unset; Variable::COUNT];
    if random.one_in(4) {
        variables[0] = Datum::Locality(Locality::new(8).expect("below 32"));
    }
    let process = Process {
        locality: few(random, Locality::new, 1),
        node: few(random, NodeName::new, 3),
        variables,
        references: [None; Reference::COUNT],
    };
    match random.below(8) {
        0 => Slot::Tuple(tuple),
        1 => Slot::Consumed(tuple),
        2..=4 => Slot::Live(process),
        _ => small_event(random, script, process),
    }
}

fn few<T>(random: &mut Random, name: fn(u32) -> Option<T>, count: u64) -> T {
    name(random.below(count) as u32).expect("there are so many names")
}

/// An event that holds the places of its kind.
fn small_event(random: &mut Random, script: &Script, process: Process) -> Slot {
    let [used, first, second, locality] = places_needed(script.node(process.node).kind);
    let mut key = |held: bool| held.then(|| few(random, Key::new, 6));
    let memory = Memory {
        first: key(first),
        second: key(second),
        used: key(used),
        locality: if locality { Locality::new(8) } else { None },
    };
    Slot::Past(process, memory)
}
