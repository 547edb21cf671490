//! Document 01, "Forward rules": evaluation, matching, and what an action
//! makes. Used by the forward step to make it, and by acceptance to compare.

use crate::fault::{seeded, Fault};
use crate::names::{Key, Locality, NodeName, Variable};
use crate::net::{Datum, Process, Tuple};
use crate::script::{Field, Node, Target};
use crate::script_form::Kind;

/// A field after evaluation.
#[derive(Clone, Copy, PartialEq, Eq, Debug)]
pub enum Evaluated {
    Actual(Datum),
    FormalValue(Variable),
    FormalLocality(Variable),
}

/// A variable and what it is bound to.
pub type Binding = (Variable, Datum);

type Variables = [Datum; Variable::COUNT];

/// "Fields are evaluated with the variables as they stand": `None` where an
/// actual variable is unset.
pub fn evaluate(fields: &[Field], variables: &Variables) -> Option<Vec<Evaluated>> {
    fields
        .iter()
        .map(|&field| evaluate_field(field, variables))
        .collect()
}

fn evaluate_field(field: Field, variables: &Variables) -> Option<Evaluated> {
    match field {
        Field::Value(number) => Some(Evaluated::Actual(Datum::Value(number))),
        Field::Literal(locality) => Some(Evaluated::Actual(Datum::Locality(locality))),
        Field::Variable(x) => match variables[x.index()] {
            Datum::Unset => None,
            datum => Some(Evaluated::Actual(datum)),
        },
        Field::FormalValue(x) => Some(Evaluated::FormalValue(x)),
        Field::FormalLocality(x) => Some(Evaluated::FormalLocality(x)),
    }
}

/// The target, looked up: `None` where the variable is unset or no locality,
/// and where the kind has no target to look up.
pub fn target(node: &Node, variables: &Variables) -> Option<Locality> {
    match node.target? {
        Target::Literal(locality) => Some(locality),
        Target::Variable(x) => match variables[x.index()] {
            Datum::Locality(locality) => Some(locality),
            Datum::Unset | Datum::Value(_) => None,
        },
    }
}

/// Does the kind look its target up? "newloc's target is not read."
pub fn looks_up_target(kind: Kind) -> bool {
    matches!(kind, Kind::Out | Kind::In | Kind::Read | Kind::Eval)
}

pub fn uses_tuple(kind: Kind) -> bool {
    matches!(kind, Kind::In | Kind::Read)
}

/// Table III: the bindings where the tuple matches the template.
pub fn matching(template: &[Evaluated], fields: &[Datum]) -> Option<Vec<Binding>> {
    let same_count =
        template.len() == fields.len() || seeded(Fault::LaxCount) && template.len() < fields.len();
    if !same_count {
        return None;
    }
    let mut bindings = Vec::new();
    for (&pattern, &datum) in template.iter().zip(fields) {
        match pattern {
            Evaluated::Actual(actual) => match_actual(actual, datum)?,
            Evaluated::FormalValue(x) => bindings.push((x, formal_value(datum)?)),
            Evaluated::FormalLocality(x) => bindings.push((x, formal_locality(datum)?)),
        }
    }
    Some(bindings)
}

/// "Actual fields match the same kind and number."
fn match_actual(actual: Datum, datum: Datum) -> Option<()> {
    if seeded(Fault::LaxActual) {
        return (number(actual) == number(datum)).then_some(());
    }
    (actual == datum).then_some(())
}

fn number(datum: Datum) -> u32 {
    match datum {
        Datum::Unset => 0,
        Datum::Value(number) => number,
        Datum::Locality(locality) => u32::from(locality.byte()),
    }
}

/// "A formal for a value only a value."
fn formal_value(datum: Datum) -> Option<Datum> {
    let fits = matches!(datum, Datum::Value(_)) || seeded(Fault::LaxFormal);
    fits.then_some(datum)
}

/// "For a locality only a locality."
fn formal_locality(datum: Datum) -> Option<Datum> {
    let fits = matches!(datum, Datum::Locality(_)) || seeded(Fault::LaxFormal);
    fits.then_some(datum)
}

/// What newloc binds: its variable to the new locality.
pub fn newloc_binding(node: &Node, made: Locality) -> Vec<Binding> {
    match node.target {
        Some(Target::Variable(x)) => vec![(x, Datum::Locality(made))],
        _ => Vec::new(),
    }
}

/// "Its continuation is a new live process at the same locality, node next,
/// same variables and references", with the bindings made, and "the node's
/// reference, if any, takes the old key". The left side of a split is this
/// without bindings: a split has no reference.
pub fn continuation(key: Key, process: &Process, node: &Node, bindings: &[Binding]) -> Process {
    let mut continuation = process.clone();
    continuation.node = left_or_next(node);
    for &(x, datum) in bindings {
        continuation.variables[x.index()] = datum;
    }
    if let Some(reference) = node.reference {
        if !(node.kind == Kind::In && seeded(Fault::InDropsReference)) {
            continuation.references[reference.index()] = Some(key);
        }
    }
    continuation
}

fn left_or_next(node: &Node) -> NodeName {
    if node.kind == Kind::Split && seeded(Fault::SwappedSplit) {
        return node.other;
    }
    node.next
}

/// The right side of a split: "both unchanged otherwise".
pub fn right_side(process: &Process, node: &Node) -> Process {
    let mut right = process.clone();
    right.node = if seeded(Fault::SwappedSplit) {
        node.next
    } else {
        node.other
    };
    right
}

/// What an eval spawns: "a process at the target, node other, variables and
/// references as before the step, without the new reference".
pub fn spawned(key: Key, process: &Process, node: &Node, target: Locality) -> Process {
    let mut spawned = process.clone();
    spawned.locality = target;
    spawned.node = node.other;
    if let (Some(reference), true) = (node.reference, seeded(Fault::SpawnGetsReference)) {
        spawned.references[reference.index()] = Some(key);
    }
    spawned
}

/// The tuple of an out: its evaluated fields at the target. `None` where a
/// field is a formal, which the script's form excludes.
pub fn tuple_made(target: Locality, fields: &[Evaluated]) -> Option<Tuple> {
    let fields = fields
        .iter()
        .map(|&field| match field {
            Evaluated::Actual(datum) => Some(datum),
            Evaluated::FormalValue(_) | Evaluated::FormalLocality(_) => None,
        })
        .collect::<Option<_>>()?;
    Some(Tuple {
        locality: target,
        fields,
    })
}
