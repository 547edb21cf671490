//! All that document 01 describes, on bytes: the request, the finder and the
//! two helpers. Any byte strings may come in.

use crate::accept::accept;
use crate::answer::{Answer, Report};
use crate::fault::{seeded, Fault};
use crate::names::{Key, Localities, Locality, NONE};
use crate::net::{Net, Slot, Tuple};
use crate::net_form::NET_LENGTH;
use crate::random::Random;
use crate::request::{Code, Places, Request};
use crate::rollback::{rollback, Undoing};
use crate::rule::{matching, uses_tuple};
use crate::script::Script;
use crate::script_form::Kind;
use crate::step::{backward, forward, get_ready, undoable};

/// Checks 1 and 2: script and net taken apart.
pub fn open(script: &[u8], net: &[u8]) -> Result<(Script, Net), Answer> {
    let script = Script::read(script).map_err(|_| Answer::BadScript)?;
    let net = accept(&script, net).map_err(|_| Answer::NotAccepted)?;
    Ok((script, net))
}

/// One request. The net's bytes change only where the answer is 0. `order`
/// chooses in which order a rollback takes its steps.
pub fn answer(script: &[u8], net: &mut Vec<u8>, request: &[u8], order: &mut Random) -> Report {
    match try_answer(script, net, request, order) {
        Ok((after, undoing)) => {
            *net = after;
            Report {
                answer: Answer::Done,
                undone: undoing.undone,
                touched: undoing.touched,
            }
        }
        Err(answer) => {
            if answer == Answer::NotAccepted && seeded(Fault::RefusedNetResized) {
                net.resize(NET_LENGTH, 0);
            }
            Report::refused(answer)
        }
    }
}

fn try_answer(
    script: &[u8],
    net: &[u8],
    request: &[u8],
    order: &mut Random,
) -> Result<(Vec<u8>, Undoing), Answer> {
    let (script, mut net) = open(script, net)?;
    let request = Request::read(request).ok_or(Answer::BadRequest)?;
    let undoing = take(&script, &mut net, &request, order)?;
    Ok((net.write(), undoing))
}

/// Checks 4 to 12 and the change itself, over a net that was accepted.
pub fn take(
    script: &Script,
    net: &mut Net,
    request: &Request,
    order: &mut Random,
) -> Result<Undoing, Answer> {
    match request.code {
        Code::Forward => take_forward(script, net, request),
        Code::Backward => take_backward(script, net, request),
        Code::Rollback => take_rollback(script, net, request, order),
        Code::Roll => take_roll(script, net, request, order),
    }
}

fn take_forward(script: &Script, net: &mut Net, request: &Request) -> Result<Undoing, Answer> {
    forward(script, net, request)?;
    Ok(Undoing {
        undone: 0,
        touched: Localities::default(),
    })
}

fn take_backward(script: &Script, net: &mut Net, request: &Request) -> Result<Undoing, Answer> {
    past_kind(script, net, request.key)?;
    check_no_places(&request.places)?;
    if !undoable(script, net, request.key) {
        return Err(Answer::NotUndoable);
    }
    Ok(Undoing {
        undone: 1,
        touched: backward(net, request.key),
    })
}

fn take_rollback(
    script: &Script,
    net: &mut Net,
    request: &Request,
    order: &mut Random,
) -> Result<Undoing, Answer> {
    let kind = past_kind(script, net, request.key)?;
    if kind == Kind::Split && !seeded(Fault::SplitRolledBack) {
        return Err(Answer::WrongNode);
    }
    check_no_places(&request.places)?;
    Ok(undo_all(script, net, request.key, order))
}

fn take_roll(
    script: &Script,
    net: &mut Net,
    request: &Request,
    order: &mut Random,
) -> Result<Undoing, Answer> {
    let Slot::Live(process) = net.slot(request.key) else {
        return Err(Answer::WrongRecord);
    };
    let node = script.node(process.node);
    let (Kind::Roll, Some(reference)) = (node.kind, node.reference) else {
        return Err(Answer::WrongNode);
    };
    check_no_places(&request.places)?;
    let mut held = process.references[reference.index()];
    if seeded(Fault::RollByReferenceZero) {
        held = process.references[0];
    }
    let event = held.ok_or(Answer::Unset)?;
    Ok(undo_all(script, net, event, order))
}

/// Check 4 for codes 1 and 2, and the kind of the event's node.
fn past_kind(script: &Script, net: &Net, key: Key) -> Result<Kind, Answer> {
    match net.slot(key) {
        Slot::Past(process, _) => Ok(script.node(process.node).kind),
        _ => Err(Answer::WrongRecord),
    }
}

/// Check 6: "codes 1 to 3 none of these".
fn check_no_places(places: &Places) -> Result<(), Answer> {
    if *places != Places::default() {
        return Err(Answer::WrongPlaces);
    }
    Ok(())
}

fn undo_all(script: &Script, net: &mut Net, event: Key, order: &mut Random) -> Undoing {
    rollback(script, net, event, order).expect("demand 3: undoing the dependents never sticks")
}

/// The finder: "the least key of a live tuple at the target that matches an
/// in or read". "A refusal returns key 255."
pub fn find(script: &[u8], net: &[u8], key: u8) -> (Answer, u8) {
    match try_find(script, net, key) {
        Ok(tuple) => (Answer::Done, tuple.byte()),
        Err(answer) => (answer, NONE),
    }
}

fn try_find(script: &[u8], net: &[u8], key: u8) -> Result<Key, Answer> {
    let name = Key::new(u32::from(key)).ok_or(Answer::BadRequest);
    if seeded(Fault::FinderKeyFirst) {
        name?;
    }
    let (script, net) = open(script, net)?;
    let key = name?;
    find_tuple(&script, &net, key)
}

/// The finder over a net that was accepted.
pub fn find_tuple(script: &Script, net: &Net, key: Key) -> Result<Key, Answer> {
    let Slot::Live(process) = net.slot(key) else {
        return Err(Answer::WrongRecord);
    };
    let node = script.node(process.node);
    if !uses_tuple(node.kind) {
        return Err(Answer::WrongNode);
    }
    let ready = get_ready(node, process, net)?;
    let matches = |tuple: &Tuple| {
        let there = Some(tuple.locality) == ready.target || seeded(Fault::FinderLooksEverywhere);
        there && matching(&ready.fields, &tuple.fields).is_some()
    };
    let fits = |&key: &Key| match net.slot(key) {
        Slot::Tuple(tuple) => matches(tuple),
        Slot::Consumed(tuple) => seeded(Fault::FinderTakesConsumed) && matches(tuple),
        _ => false,
    };
    let found = match seeded(Fault::FinderGivesGreatest) {
        false => Key::all().find(fits),
        true => Key::all().rev().find(fits),
    };
    found.ok_or(Answer::NoTuple)
}

/// Helper: "the least free key", 255 where none is left.
pub fn least_free_key(script: &[u8], net: &[u8]) -> (Answer, u8) {
    match open(script, net) {
        Ok((_, net)) => (Answer::Done, Key::byte_or_none(free_key(&net))),
        Err(answer) => (answer, NONE),
    }
}

pub fn free_key(net: &Net) -> Option<Key> {
    let forgotten = |key: Key| key.byte() == 63 && seeded(Fault::LastKeyForgotten);
    Key::all().find(|&key| net.is_free(key) && !forgotten(key))
}

/// Helper: "least absent locality from 8", 255 where none is left.
pub fn least_absent_locality(script: &[u8], net: &[u8]) -> (Answer, u8) {
    match open(script, net) {
        Ok((_, net)) => (Answer::Done, Locality::byte_or_none(absent_locality(&net))),
        Err(answer) => (answer, NONE),
    }
}

pub fn absent_locality(net: &Net) -> Option<Locality> {
    let from_8 = |l: Locality| !l.is_original() || seeded(Fault::LocalityBelow8);
    let forgotten = |l: Locality| l.byte() == 31 && seeded(Fault::LastLocalityForgotten);
    Locality::all().find(|&l| from_8(l) && !net.present.contains(l) && !forgotten(l))
}
