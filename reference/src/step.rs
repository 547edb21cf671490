//! One step forward or backward over a net that was accepted.

use crate::answer::Answer;
use crate::fault::{seeded, Fault};
use crate::names::{Key, Localities, Locality};
use crate::net::{Memory, Net, Process, Slot};
use crate::request::{Places, Request};
use crate::rule::{
    continuation, evaluate, looks_up_target, matching, newloc_binding, right_side, spawned, target,
    tuple_made, uses_tuple, Binding, Evaluated,
};
use crate::script::{Node, Script};
use crate::script_form::Kind;

/// Code 0: checks 4 to 11, then the rule of the node's kind.
pub fn forward(script: &Script, net: &mut Net, request: &Request) -> Result<(), Answer> {
    let checked = check_forward(script, net, request)?;
    take_step(checked, request, net);
    Ok(())
}

/// A forward step that nothing stands against.
pub struct Checked<'script> {
    process: Process,
    node: &'script Node,
    ready: Ready,
    bindings: Vec<Binding>,
}

/// Checks 4 to 11 in number order.
pub fn check_forward<'script>(
    script: &'script Script,
    net: &Net,
    request: &Request,
) -> Result<Checked<'script>, Answer> {
    let Slot::Live(process) = net.slot(request.key) else {
        return Err(Answer::WrongRecord);
    };
    let node = script.node(process.node);
    check_node_and_places(node, &request.places)?;
    let mut ready = get_ready(node, process, net)?;
    if seeded(Fault::FreshBeforeMatch) {
        check_fresh(net, &request.places)?;
    }
    if seeded(Fault::BindBeforeEvaluating) {
        bind_before_evaluating(node, process, net, &request.places, &mut ready);
    }
    let bindings = bindings(node, &ready, net, &request.places)?;
    check_fresh(net, &request.places)?;
    Ok(Checked {
        process: process.clone(),
        node,
        ready,
        bindings,
    })
}

/// Checks 5 and 6.
fn check_node_and_places(node: &Node, places: &Places) -> Result<(), Answer> {
    let at_action = !matches!(node.kind, Kind::Nil | Kind::Roll);
    let places_first = seeded(Fault::PlacesBeforeNode) && *places != Places::default();
    if !at_action && !places_first {
        return Err(Answer::WrongNode);
    }
    if places.filled() != places_needed(node.kind) {
        return Err(Answer::WrongPlaces);
    }
    Ok(())
}

/// Which of tuple key, first and second fresh key and fresh locality a
/// forward step needs.
pub fn places_needed(kind: Kind) -> [bool; 4] {
    match kind {
        Kind::Out | Kind::Eval | Kind::Split => [false, true, true, false],
        Kind::In | Kind::Read => [true, true, false, false],
        Kind::Newloc => [false, true, false, true],
        Kind::Nil | Kind::Roll => [false; 4],
    }
}

/// An action with target and fields looked up.
pub struct Ready {
    pub target: Option<Locality>,
    pub fields: Vec<Evaluated>,
}

/// Checks 7 and 8: 7 for the fields too, before the target's presence.
pub fn get_ready(node: &Node, process: &Process, net: &Net) -> Result<Ready, Answer> {
    let target = looked_up_target(node, process)?;
    let absent = target.is_some_and(|l| !net.present.contains(l));
    if absent && seeded(Fault::PresenceBeforeFields) {
        return Err(Answer::TargetAbsent);
    }
    let fields = evaluate(&node.fields, &process.variables).ok_or(Answer::Unset)?;
    if absent && !seeded(Fault::AbsentTargetAllowed) {
        return Err(Answer::TargetAbsent);
    }
    Ok(Ready { target, fields })
}

fn looked_up_target(node: &Node, process: &Process) -> Result<Option<Locality>, Answer> {
    if !looks_up_target(node.kind) {
        return Ok(None);
    }
    target(node, &process.variables)
        .map(Some)
        .ok_or(Answer::Unset)
}

/// Checks 9 and 10, and what the step binds.
fn bindings(
    node: &Node,
    ready: &Ready,
    net: &Net,
    places: &Places,
) -> Result<Vec<Binding>, Answer> {
    if uses_tuple(node.kind) {
        return bindings_of_tuple(ready, net, places.tuple);
    }
    match (node.kind, places.locality) {
        (Kind::Newloc, Some(locality)) => Ok(newloc_binding(node, locality)),
        _ => Ok(Vec::new()),
    }
}

fn bindings_of_tuple(ready: &Ready, net: &Net, key: Option<Key>) -> Result<Vec<Binding>, Answer> {
    let Some(Slot::Tuple(tuple)) = key.map(|key| net.slot(key)) else {
        return Err(Answer::NoTuple);
    };
    if Some(tuple.locality) != ready.target {
        return Err(Answer::NoTuple);
    }
    matching(&ready.fields, &tuple.fields).ok_or(Answer::NoMatch)
}

/// Check 11: "a fresh key not free, both equal, or fresh locality below 8 or
/// present".
fn check_fresh(net: &Net, places: &Places) -> Result<(), Answer> {
    let keys_free = [places.first, places.second]
        .iter()
        .flatten()
        .all(|&key| net.is_free(key));
    let both_equal = places.first.is_some() && places.first == places.second;
    let locality_fresh = places
        .locality
        .is_none_or(|l| !l.is_original() && !net.present.contains(l));
    if keys_free && !both_equal && locality_fresh {
        return Ok(());
    }
    Err(Answer::NotFresh)
}

/// "The process becomes past and keeps its contents."
fn take_step(checked: Checked, request: &Request, net: &mut Net) {
    let Checked {
        process,
        node,
        ready,
        bindings,
    } = checked;
    let Request { key, places, .. } = *request;
    if let Some(first) = places.first {
        let continuation = continuation(key, &process, node, &bindings);
        net.set(first, Slot::Live(continuation));
    }
    if let Some(second) = places.second {
        net.set(second, second_made(key, node, &process, &ready));
    }
    if let Some(locality) = places.locality {
        net.present.insert(locality);
    }
    if node.kind == Kind::In || node.kind == Kind::Read && seeded(Fault::ReadConsumes) {
        consume(net, places.tuple);
    }
    let memory = Memory {
        first: places.first,
        second: places.second,
        used: places.tuple,
        locality: places.locality,
    };
    net.set(key, Slot::Past(process, memory));
}

/// Byte 4's record: the tuple of an out, the process of an eval, the right
/// side of a split.
fn second_made(key: Key, node: &Node, process: &Process, ready: &Ready) -> Slot {
    match (node.kind, ready.target) {
        (Kind::Out, Some(target)) => {
            Slot::Tuple(tuple_made(target, &ready.fields).expect("an out has no formals"))
        }
        (Kind::Eval, Some(target)) => Slot::Live(spawned(key, process, node, target)),
        _ => Slot::Live(right_side(process, node)),
    }
}

fn consume(net: &mut Net, tuple: Option<Key>) {
    let Some(key) = tuple else { return };
    if let Slot::Tuple(tuple) = net.take(key) {
        net.set(key, Slot::Consumed(tuple));
    }
}

/// "A past process may be undone when all keys it made are live, a tuple it
/// made is in no past read, and, for a past read, its tuple is live."
pub fn undoable(script: &Script, net: &Net, event: Key) -> bool {
    let Slot::Past(process, memory) = net.slot(event) else {
        return false;
    };
    let made_live = memory.made().all(|key| net.slot(key).is_live());
    let unread = memory.made().all(|key| !is_read(script, net, key));
    let is_read = script.node(process.node).kind == Kind::Read;
    let tuple_live = memory.used.is_some_and(|key| net.slot(key).is_live());
    made_live
        && (unread || seeded(Fault::UndoOutUnderReader))
        && (!is_read || tuple_live || seeded(Fault::LeaveInAfterRead))
}

/// Is the tuple at this key in a past read?
fn is_read(script: &Script, net: &Net, tuple: Key) -> bool {
    net.events().any(|(_, process, memory)| {
        script.node(process.node).kind == Kind::Read && memory.used == Some(tuple)
    })
}

/// Code 1, where it is undoable: "what it made becomes free or absent, a
/// consumed tuple is live again, and it is live as before". Gives the
/// localities at which a slot became free.
pub fn backward(net: &mut Net, event: Key) -> Localities {
    let Slot::Past(mut process, memory) = net.take(event) else {
        return Localities::default();
    };
    if seeded(Fault::RestoreContinuation) {
        restore_continuation(net, &memory, &mut process);
    }
    let mut touched = Localities::default();
    for key in memory.made() {
        free(net, key, &mut touched);
    }
    if let Some(locality) = memory.locality {
        make_absent(net, locality);
    }
    if let Some(key) = memory.used {
        release(net, key);
    }
    net.set(event, Slot::Live(process));
    touched
}

fn free(net: &mut Net, key: Key, touched: &mut Localities) {
    if let Some(locality) = net.take(key).locality() {
        touched.insert(locality);
    }
}

fn make_absent(net: &mut Net, locality: Locality) {
    if !seeded(Fault::KeepMadeLocality) {
        net.present.remove(locality);
    }
}

/// A tuple that an in consumed is live again; one that was read is live
/// already.
fn release(net: &mut Net, key: Key) {
    if let Slot::Consumed(tuple) = net.slot(key).clone() {
        net.set(key, Slot::Tuple(tuple));
    }
}

/// Seeded error only: the variables and references of the continuation.
fn restore_continuation(net: &Net, memory: &Memory, process: &mut Process) {
    if let Some(continuation) = memory.first.and_then(|key| net.slot(key).process()) {
        process.variables = continuation.variables;
        process.references = continuation.references;
    }
}

/// Seeded error only: the template as the variables stand after its formals
/// are bound.
fn bind_before_evaluating(
    node: &Node,
    process: &Process,
    net: &Net,
    places: &Places,
    ready: &mut Ready,
) {
    let mut variables = process.variables;
    let tuple = places.tuple.and_then(|key| net.slot(key).tuple());
    let data = tuple.iter().flat_map(|tuple| &tuple.fields);
    for (&field, &datum) in ready.fields.iter().zip(data) {
        if let Evaluated::FormalValue(x) | Evaluated::FormalLocality(x) = field {
            variables[x.index()] = datum;
        }
    }
    if let Some(fields) = evaluate(&node.fields, &variables) {
        ready.fields = fields;
    }
}
