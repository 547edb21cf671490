//! Rollback, by single backward steps alone: it repeats an allowed one over
//! the dependents, in an order that a seed chooses. That every order gives
//! the same (demand 3) is so tried at every rollback, not assumed.

use crate::dependence::Dependence;
use crate::fault::{seeded, Fault};
use crate::names::{Key, Keys, Localities};
use crate::net::{Net, Slot};
use crate::random::Random;
use crate::script::Script;
use crate::script_form::Kind;
use crate::step::{backward, undoable};

/// "*Undone* is their number"; "*Touched* ... the localities at which a slot
/// became free in the call".
#[derive(Clone, Copy, PartialEq, Eq, Debug)]
pub struct Undoing {
    pub undone: u32,
    pub touched: Localities,
}

/// None of the dependents left may be undone: demand 3 says this is never.
#[derive(Clone, Copy, PartialEq, Eq, Debug)]
pub struct Stuck {
    pub event: Key,
}

/// "Rollback undoes all dependents."
pub fn rollback(
    script: &Script,
    net: &mut Net,
    event: Key,
    order: &mut Random,
) -> Result<Undoing, Stuck> {
    let mut left = Dependence::of(script, net).dependents(event);
    let before = net.clone();
    if seeded(Fault::UndoDescendantsOnly) {
        left = descendants(net, event);
    }
    let mut undoing = Undoing {
        undone: 0,
        touched: Localities::default(),
    };
    while !left.is_empty() {
        let may = |&e: &Key| undoable(script, net, e) || forced(net, e, left);
        let allowed: Vec<Key> = left.iter().filter(may).collect();
        let chosen = order.pick(&allowed).ok_or(Stuck { event })?;
        undoing.touched = undoing.touched.union(backward(net, chosen));
        undoing.undone += 1;
        left.remove(chosen);
    }
    spoil(script, &before, net, event, &mut undoing);
    Ok(undoing)
}

/// Seeded errors only: another net, or other numbers, than the right ones.
fn spoil(script: &Script, before: &Net, net: &mut Net, event: Key, undoing: &mut Undoing) {
    if seeded(Fault::TouchedForgetsAbsent) {
        undoing.touched.0 &= net.present.0;
    }
    if seeded(Fault::TouchedOfTargetOnly) {
        undoing.touched = backward(&mut before.clone(), event);
    }
    if seeded(Fault::UndoneOneLess) && undoing.undone > 1 {
        undoing.undone -= 1;
    }
    if seeded(Fault::SplitsNotCounted) {
        undoing.undone -= splits_undone(script, before, net);
    }
    if seeded(Fault::UndoTargetOnly) {
        *net = before.clone();
        backward(net, event);
    }
    if seeded(Fault::RestoringWins) {
        restore_freed(before, net);
    }
}

/// Seeded error only: the events that grew out of this one by keys alone.
fn descendants(net: &Net, event: Key) -> Keys {
    let mut reached = Keys::default();
    let mut next = vec![event];
    while let Some(key) = next.pop() {
        if let Some(memory) = net.memory(key) {
            reached.insert(key);
            next.extend(memory.made());
        }
    }
    reached
}

/// Seeded error only: undone although something that stays depends on it.
fn forced(net: &Net, event: Key, left: Keys) -> bool {
    let memory = net
        .memory(event)
        .filter(|_| seeded(Fault::UndoDescendantsOnly));
    memory.is_some_and(|memory| memory.made().all(|key| !left.contains(key)))
}

fn splits_undone(script: &Script, before: &Net, net: &Net) -> u32 {
    let undone = before.events().filter(|&(key, process, _)| {
        script.node(process.node).kind == Kind::Split && net.memory(key).is_none()
    });
    undone.count() as u32
}

fn restore_freed(before: &Net, net: &mut Net) {
    for (key, slot) in before.records() {
        let restored = match slot {
            Slot::Past(process, _) => Slot::Live(process.clone()),
            Slot::Consumed(tuple) => Slot::Tuple(tuple.clone()),
            _ => continue,
        };
        if net.is_free(key) {
            net.set(key, restored);
        }
    }
}
