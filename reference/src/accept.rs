//! Document 01, "Which nets are accepted": one function a clause. A clause
//! speaks only of what its own sentence says and leaves the rest to the
//! others, so a net can break one of them alone, and each is seen to be
//! needed.

use crate::dependence::Dependence;
use crate::fault::{seeded, Fault};
use crate::names::{Key, Locality};
use crate::net::{Datum, Memory, Net, Process, Slot, Tuple};
use crate::net_form::BrokenNet;
use crate::rule::{
    continuation, evaluate, looks_up_target, matching, newloc_binding, right_side, spawned, target,
    tuple_made, uses_tuple, Binding,
};
use crate::script::{Node, Script};
use crate::script_form::Kind;

/// The clauses, in the order in which they are looked at.
#[derive(Clone, Copy, PartialEq, Eq, PartialOrd, Ord, Hash, Debug)]
pub enum Clause {
    EventAtAction,
    PlacesHeld,
    TargetIsLocality,
    FieldsSet,
    TargetPresent,
    ContinuationAgrees,
    TupleMadeAgrees,
    SpawnedAgrees,
    RightSideAgrees,
    UsedIsTuple,
    UsedAtTarget,
    UsedMatches,
    KeyMadeOnce,
    LocalityMadeOnce,
    LocalityMadeFrom8,
    ConsumedByAnIn,
    ConsumedByOneIn,
    LiveByNoIn,
    MadeIsPresent,
    PresentIsMade,
    RootAtPresent,
    RootBelow8,
    RootNamesBelow8,
    RootHoldsNoReference,
    NoCycle,
}

/// The first key (or locality) that breaks a clause, in words.
pub type Finding = String;

type ClauseFunction = fn(&Script, &Net) -> Option<Finding>;

impl Clause {
    pub const ALL: [Clause; 25] = [
        Clause::EventAtAction,
        Clause::PlacesHeld,
        Clause::TargetIsLocality,
        Clause::FieldsSet,
        Clause::TargetPresent,
        Clause::ContinuationAgrees,
        Clause::TupleMadeAgrees,
        Clause::SpawnedAgrees,
        Clause::RightSideAgrees,
        Clause::UsedIsTuple,
        Clause::UsedAtTarget,
        Clause::UsedMatches,
        Clause::KeyMadeOnce,
        Clause::LocalityMadeOnce,
        Clause::LocalityMadeFrom8,
        Clause::ConsumedByAnIn,
        Clause::ConsumedByOneIn,
        Clause::LiveByNoIn,
        Clause::MadeIsPresent,
        Clause::PresentIsMade,
        Clause::RootAtPresent,
        Clause::RootBelow8,
        Clause::RootNamesBelow8,
        Clause::RootHoldsNoReference,
        Clause::NoCycle,
    ];

    /// The clause as a sentence.
    pub fn sentence(self) -> &'static str {
        match self {
            Clause::EventAtAction => "a past process is at kinds 1..6",
            Clause::PlacesHeld => "an event holds exactly its kind's places among bytes 3..6",
            Clause::TargetIsLocality => "an event's target is a locality",
            Clause::FieldsSet => "an event's actual fields are set",
            Clause::TargetPresent => "targets are present",
            Clause::ContinuationAgrees => "a continuation agrees with the rule",
            Clause::TupleMadeAgrees => "the tuple of an out agrees with the rule",
            Clause::SpawnedAgrees => "the process of an eval agrees with the rule",
            Clause::RightSideAgrees => "the right side of a split agrees with the rule",
            Clause::UsedIsTuple => "a past in or read uses a live or consumed tuple",
            Clause::UsedAtTarget => "the tuple used is at the target",
            Clause::UsedMatches => "the tuple used matches",
            Clause::KeyMadeOnce => "a key is made at most once",
            Clause::LocalityMadeOnce => "a locality is made at most once",
            Clause::LocalityMadeFrom8 => "only localities 8..31 are made",
            Clause::ConsumedByAnIn => "a consumed tuple is used by a past in",
            Clause::ConsumedByOneIn => "a consumed tuple is used by no two past ins",
            Clause::LiveByNoIn => "a live tuple is used by no past in",
            Clause::MadeIsPresent => "a made locality is present",
            Clause::PresentIsMade => "a present locality 8..31 was made",
            Clause::RootAtPresent => "a record nobody made lives at a present locality",
            Clause::RootBelow8 => "a record nobody made lives at a locality 0..7",
            Clause::RootNamesBelow8 => "a record nobody made names only localities 0..7",
            Clause::RootHoldsNoReference => "a record nobody made holds no reference",
            Clause::NoCycle => "dependence has no cycle",
        }
    }

    fn function(self) -> ClauseFunction {
        match self {
            Clause::EventAtAction => event_at_action,
            Clause::PlacesHeld => places_held,
            Clause::TargetIsLocality => target_is_locality,
            Clause::FieldsSet => fields_set,
            Clause::TargetPresent => target_present,
            Clause::ContinuationAgrees => continuation_agrees,
            Clause::TupleMadeAgrees => tuple_made_agrees,
            Clause::SpawnedAgrees => spawned_agrees,
            Clause::RightSideAgrees => right_side_agrees,
            Clause::UsedIsTuple => used_is_tuple,
            Clause::UsedAtTarget => used_at_target,
            Clause::UsedMatches => used_matches,
            Clause::KeyMadeOnce => key_made_once,
            Clause::LocalityMadeOnce => locality_made_once,
            Clause::LocalityMadeFrom8 => locality_made_from_8,
            Clause::ConsumedByAnIn => consumed_by_an_in,
            Clause::ConsumedByOneIn => consumed_by_one_in,
            Clause::LiveByNoIn => live_by_no_in,
            Clause::MadeIsPresent => made_is_present,
            Clause::PresentIsMade => present_is_made,
            Clause::RootAtPresent => root_at_present,
            Clause::RootBelow8 => root_below_8,
            Clause::RootNamesBelow8 => root_names_below_8,
            Clause::RootHoldsNoReference => root_holds_no_reference,
            Clause::NoCycle => no_cycle,
        }
    }

    /// Does a net of the right form break this clause?
    pub fn is_broken(self, script: &Script, net: &Net) -> bool {
        self.broken(script, net).is_some()
    }

    fn broken(self, script: &Script, net: &Net) -> Option<BrokenClause> {
        if seeded(Fault::ClauseLeftOut(self)) {
            return None;
        }
        (self.function())(script, net).map(|finding| BrokenClause {
            clause: self,
            finding,
        })
    }
}

/// A broken clause, and where.
#[derive(Clone, PartialEq, Eq, Debug)]
pub struct BrokenClause {
    pub clause: Clause,
    pub finding: Finding,
}

/// Why a net is not accepted.
#[derive(Clone, PartialEq, Eq, Debug)]
pub enum Refusal {
    Form(BrokenNet),
    Clause(BrokenClause),
}

/// Check 2: the net, taken apart, if it is accepted.
pub fn accept(script: &Script, bytes: &[u8]) -> Result<Net, Refusal> {
    let net = Net::read(bytes).map_err(Refusal::Form)?;
    match first_broken_clause(script, &net) {
        Some(broken) => Err(Refusal::Clause(broken)),
        None => Ok(net),
    }
}

/// The first clause that a net of the right form breaks.
pub fn first_broken_clause(script: &Script, net: &Net) -> Option<BrokenClause> {
    Clause::ALL
        .into_iter()
        .find_map(|clause| clause.broken(script, net))
}

/// Every clause that a net of the right form breaks.
pub fn broken_clauses(script: &Script, net: &Net) -> Vec<BrokenClause> {
    Clause::ALL
        .into_iter()
        .filter_map(|clause| clause.broken(script, net))
        .collect()
}

/// An event with its node at hand.
struct Event<'a> {
    key: Key,
    process: &'a Process,
    memory: &'a Memory,
    node: &'a Node,
}

impl Event<'_> {
    fn kind(&self) -> Kind {
        self.node.kind
    }

    fn target(&self) -> Option<Locality> {
        target(self.node, &self.process.variables)
    }

    /// The tuple that an in or read used, where byte 5 names one.
    fn tuple_used<'net>(&self, net: &'net Net) -> Option<&'net Tuple> {
        if !uses_tuple(self.kind()) {
            return None;
        }
        net.slot(self.memory.used?).tuple()
    }

    /// What the step bound; `None` where other clauses are broken already.
    fn bindings(&self, net: &Net) -> Option<Vec<Binding>> {
        match self.kind() {
            Kind::In | Kind::Read => {
                let template = evaluate(&self.node.fields, &self.process.variables)?;
                matching(&template, &self.tuple_used(net)?.fields)
            }
            Kind::Newloc => Some(newloc_binding(self.node, self.memory.locality?)),
            _ => Some(Vec::new()),
        }
    }
}

fn events<'a>(script: &'a Script, net: &'a Net) -> impl Iterator<Item = Event<'a>> {
    net.events().map(|(key, process, memory)| {
        let node = script.node(process.node);
        Event {
            key,
            process,
            memory,
            node,
        }
    })
}

/// The first event for which the clause does not hold.
fn every_event(script: &Script, net: &Net, holds: impl Fn(&Event) -> bool) -> Option<Finding> {
    let broken = events(script, net).find(|event| !holds(event))?;
    Some(format!("key {}", broken.key))
}

/// "A past process is at kinds 1..6."
fn event_at_action(script: &Script, net: &Net) -> Option<Finding> {
    every_event(script, net, |event| {
        !matches!(event.kind(), Kind::Nil | Kind::Roll)
    })
}

/// Bytes 3..6 "are 255 where nothing is held"; an event holds exactly what
/// its kind's rule lists.
fn places_held(script: &Script, net: &Net) -> Option<Finding> {
    every_event(script, net, |event| {
        let held = event.memory;
        let held = [
            held.first.is_some(),
            held.second.is_some(),
            held.used.is_some(),
            held.locality.is_some(),
        ];
        held == places_of(event.kind())
    })
}

/// Which of bytes 3, 4, 5 and 6 the rule of a kind fills.
fn places_of(kind: Kind) -> [bool; 4] {
    match kind {
        Kind::Out | Kind::Eval | Kind::Split => [true, true, false, false],
        Kind::In | Kind::Read => [true, false, true, false],
        Kind::Newloc => [true, false, false, true],
        Kind::Nil | Kind::Roll => [false; 4],
    }
}

/// The rule needs the target to be a locality.
fn target_is_locality(script: &Script, net: &Net) -> Option<Finding> {
    every_event(script, net, |event| {
        !looks_up_target(event.kind()) || event.target().is_some()
    })
}

/// The rule needs every actual field to be set.
fn fields_set(script: &Script, net: &Net) -> Option<Finding> {
    every_event(script, net, |event| {
        evaluate(&event.node.fields, &event.process.variables).is_some()
    })
}

/// "Targets present."
fn target_present(script: &Script, net: &Net) -> Option<Finding> {
    every_event(script, net, |event| {
        !looks_up_target(event.kind()) || event.target().is_none_or(|l| net.present.contains(l))
    })
}

/// Byte 3's record is a process, live or past, as the rule makes it.
fn continuation_agrees(script: &Script, net: &Net) -> Option<Finding> {
    every_event(script, net, |event| {
        if !places_of(event.kind())[0] {
            return true;
        }
        let (Some(key), Some(bindings)) = (event.memory.first, event.bindings(net)) else {
            return true;
        };
        let expected = continuation(event.key, event.process, event.node, &bindings);
        net.slot(key).process() == Some(&expected)
    })
}

/// Byte 4 of an out is a tuple, live or consumed, as the rule makes it.
fn tuple_made_agrees(script: &Script, net: &Net) -> Option<Finding> {
    every_event(script, net, |event| {
        let (Kind::Out, Some(key), Some(target)) =
            (event.kind(), event.memory.second, event.target())
        else {
            return true;
        };
        let Some(fields) = evaluate(&event.node.fields, &event.process.variables) else {
            return true;
        };
        net.slot(key).tuple() == tuple_made(target, &fields).as_ref()
    })
}

/// Byte 4 of an eval is a process, live or past, as the rule makes it.
fn spawned_agrees(script: &Script, net: &Net) -> Option<Finding> {
    every_event(script, net, |event| {
        let (Kind::Eval, Some(key), Some(target)) =
            (event.kind(), event.memory.second, event.target())
        else {
            return true;
        };
        let expected = spawned(event.key, event.process, event.node, target);
        net.slot(key).process() == Some(&expected)
    })
}

/// Byte 4 of a split is a process, live or past, as the rule makes it.
fn right_side_agrees(script: &Script, net: &Net) -> Option<Finding> {
    every_event(script, net, |event| {
        let (Kind::Split, Some(key)) = (event.kind(), event.memory.second) else {
            return true;
        };
        net.slot(key).process() == Some(&right_side(event.process, event.node))
    })
}

/// "A past read uses a live or consumed tuple"; a past in too.
fn used_is_tuple(script: &Script, net: &Net) -> Option<Finding> {
    every_event(script, net, |event| {
        !uses_tuple(event.kind())
            || event
                .memory
                .used
                .is_none_or(|key| net.slot(key).tuple().is_some())
    })
}

/// The rule takes a tuple at the target.
fn used_at_target(script: &Script, net: &Net) -> Option<Finding> {
    every_event(script, net, |event| {
        let (Some(tuple), Some(target)) = (event.tuple_used(net), event.target()) else {
            return true;
        };
        tuple.locality == target
    })
}

/// The rule takes a tuple that matches.
fn used_matches(script: &Script, net: &Net) -> Option<Finding> {
    every_event(script, net, |event| {
        let Some(tuple) = event.tuple_used(net) else {
            return true;
        };
        let Some(template) = evaluate(&event.node.fields, &event.process.variables) else {
            return true;
        };
        matching(&template, &tuple.fields).is_some()
    })
}

/// "A key is made at most once": places are counted, not events.
fn key_made_once(_: &Script, net: &Net) -> Option<Finding> {
    let times = |key: Key| {
        if seeded(Fault::MadeCountedByEvent) {
            return net
                .events()
                .filter(|(_, _, memory)| memory.made_key(key))
                .count();
        }
        net.events()
            .flat_map(|(_, _, memory)| memory.made())
            .filter(|&made| made == key)
            .count()
    };
    let twice = Key::all().find(|&key| times(key) > 1)?;
    Some(format!("key {twice}"))
}

fn localities_made(net: &Net) -> impl Iterator<Item = Locality> + '_ {
    net.events().filter_map(|(_, _, memory)| memory.locality)
}

/// "A locality 8..31 is made at most once."
fn locality_made_once(_: &Script, net: &Net) -> Option<Finding> {
    let times = |l: Locality| localities_made(net).filter(|&made| made == l).count();
    let twice = Locality::all().find(|&l| !l.is_original() && times(l) > 1)?;
    Some(format!("locality {twice}"))
}

/// "No other locality is made."
fn locality_made_from_8(_: &Script, net: &Net) -> Option<Finding> {
    let other = localities_made(net).find(|l| l.is_original())?;
    Some(format!("locality {other}"))
}

/// How many past ins use the tuple at this key?
fn ins_of(script: &Script, net: &Net, tuple: Key) -> usize {
    events(script, net)
        .filter(|event| event.kind() == Kind::In && event.memory.used == Some(tuple))
        .count()
}

fn every_record(net: &Net, holds: impl Fn(Key, &Slot) -> bool) -> Option<Finding> {
    let (key, _) = net.records().find(|&(key, slot)| !holds(key, slot))?;
    Some(format!("key {key}"))
}

/// "A consumed tuple is used by exactly one past in": by one at least.
fn consumed_by_an_in(script: &Script, net: &Net) -> Option<Finding> {
    every_record(net, |key, slot| {
        !matches!(slot, Slot::Consumed(_)) || ins_of(script, net, key) >= 1
    })
}

/// "A consumed tuple is used by exactly one past in": by one at most.
fn consumed_by_one_in(script: &Script, net: &Net) -> Option<Finding> {
    every_record(net, |key, slot| {
        !matches!(slot, Slot::Consumed(_)) || ins_of(script, net, key) <= 1
    })
}

/// "A live one by none."
fn live_by_no_in(script: &Script, net: &Net) -> Option<Finding> {
    every_record(net, |key, slot| {
        !matches!(slot, Slot::Tuple(_)) || ins_of(script, net, key) == 0
    })
}

/// "Localities 8..31 are present exactly when made": when made.
fn made_is_present(_: &Script, net: &Net) -> Option<Finding> {
    let absent = localities_made(net).find(|&l| !l.is_original() && !net.present.contains(l))?;
    Some(format!("locality {absent}"))
}

/// "Localities 8..31 are present exactly when made": only when made.
fn present_is_made(_: &Script, net: &Net) -> Option<Finding> {
    let is_made = |l: Locality| localities_made(net).any(|made| made == l);
    let unmade = net
        .present
        .iter()
        .find(|&l| !l.is_original() && !is_made(l))?;
    Some(format!("locality {unmade}"))
}

/// Nobody made it: no event holds the key in byte 3 or 4.
pub fn is_root(net: &Net, key: Key) -> bool {
    net.events().all(|(_, _, memory)| !memory.made_key(key))
}

fn every_root(net: &Net, holds: impl Fn(&Slot) -> bool) -> Option<Finding> {
    every_record(net, |key, slot| holds(slot) || !is_root(net, key))
}

/// "A record nobody made lives at a present locality."
fn root_at_present(_: &Script, net: &Net) -> Option<Finding> {
    every_root(net, |slot| {
        slot.locality().is_some_and(|l| net.present.contains(l))
    })
}

/// "A record nobody made lives at a ... locality 0..7."
fn root_below_8(_: &Script, net: &Net) -> Option<Finding> {
    every_root(net, |slot| {
        slot.locality().is_some_and(Locality::is_original)
    })
}

/// "Names only localities 0..7 (present or not)."
fn root_names_below_8(_: &Script, net: &Net) -> Option<Finding> {
    every_root(net, |slot| {
        data(slot).iter().all(|&datum| names_below_8(datum))
    })
}

/// A process's variables, a tuple's fields.
pub fn data(slot: &Slot) -> &[Datum] {
    match slot {
        Slot::Free => &[],
        Slot::Live(process) | Slot::Past(process, _) => &process.variables,
        Slot::Tuple(tuple) | Slot::Consumed(tuple) => &tuple.fields,
    }
}

fn names_below_8(datum: Datum) -> bool {
    match datum {
        Datum::Locality(l) => l.is_original(),
        Datum::Unset | Datum::Value(_) => true,
    }
}

/// "And holds no reference."
fn root_holds_no_reference(_: &Script, net: &Net) -> Option<Finding> {
    every_root(net, |slot| {
        slot.process()
            .is_none_or(|process| process.references.iter().all(Option::is_none))
    })
}

/// "Dependence (below) has no cycle."
fn no_cycle(script: &Script, net: &Net) -> Option<Finding> {
    let event = Dependence::of(script, net).cycle()?;
    Some(format!("key {event}"))
}
