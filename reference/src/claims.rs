//! Document 01's claims (and the facts of READINGS), tried on generated nets.
//! Each is a function that looks for a counterexample; a refuted claim is a
//! finding.

use crate::accept::{accept, data, first_broken_clause};
use crate::answer::Answer;
use crate::arbitrary;
use crate::damage::change;
use crate::dependence::Dependence;
use crate::gen::some_history;
use crate::machine::{answer, find_tuple, take};
use crate::names::{Key, Keys, Localities, Locality};
use crate::net::{Datum, Memory, Net, Slot};
use crate::random::Random;
use crate::request::{Code, Places, Request};
use crate::rollback::{rollback, Undoing};
use crate::rule::target;
use crate::script::Script;
use crate::script_form::Kind;
use crate::step::{backward, undoable};
use crate::walk::{freed_at, Mood, Walk};
use std::collections::BTreeSet;

/// The claims, in the order in which they are tried.
#[derive(Clone, Copy, PartialEq, Eq, PartialOrd, Ord, Debug)]
pub enum Claim {
    /// Demand 2: a step and its backward step restore every byte.
    ForwardThenBackward,
    /// Demand 2: a backward step and the same request forward do too.
    BackwardThenForward,
    /// "Proved: the accepted nets are exactly those that forward steps
    /// reach": a step keeps acceptance.
    StepKeepsAcceptance,
    /// Demand 1: a refusal leaves every byte, undone 0 and touched 0.
    RefusalLeavesTheNet,
    /// READINGS: undoable exactly when nothing depends on it directly.
    UndoableWhenNothingDepends,
    /// Demand 3: every order of undoing never sticks and gives the same bytes
    /// and count.
    EveryOrderGivesTheSame,
    /// Demand 3: one rollback gives and reports the same.
    RollbackGivesTheSame,
    /// Demand 3: no list of backward steps that undoes the event leaves out
    /// a dependent.
    NoListLeavesOutADependent,
    /// READINGS: in undoing a set, freeing wins.
    FreeingWins,
    /// *Touched*: the localities at which a slot became free in the call.
    TouchedIsWhereSlotsBecameFree,
    /// *Undone*: the number of the dependents, at most 63.
    UndoneIsTheNumberOfDependents,
    /// READINGS: what lives at or names a made locality was made by a
    /// dependent of its newloc; events that live at, name or target it are
    /// dependents.
    MadeLocalityBelongsToItsNewloc,
    /// "That a made locality is empty when its newloc may be undone."
    MadeLocalityIsEmptyWhenUndone,
    /// READINGS: a reference is 255 or an event at kinds 1 to 5, and its
    /// holder was made by a dependent of it.
    ReferenceHoldsAnEvent,
    /// READINGS: a roll always frees its own process.
    RollFreesItself,
    /// Undoing all that can be undone ends in an accepted net with no past
    /// process, and doing it all again gives the same bytes.
    FullUndoingAndReplaying,
    /// The finder's key is the least that a forward step would take.
    FinderAgreesWithForward,
    /// The net written and read again is the same.
    BytesReadBack,
}

impl Claim {
    pub const ALL: [Claim; 18] = [
        Claim::ForwardThenBackward,
        Claim::BackwardThenForward,
        Claim::StepKeepsAcceptance,
        Claim::RefusalLeavesTheNet,
        Claim::UndoableWhenNothingDepends,
        Claim::EveryOrderGivesTheSame,
        Claim::RollbackGivesTheSame,
        Claim::NoListLeavesOutADependent,
        Claim::FreeingWins,
        Claim::TouchedIsWhereSlotsBecameFree,
        Claim::UndoneIsTheNumberOfDependents,
        Claim::MadeLocalityBelongsToItsNewloc,
        Claim::MadeLocalityIsEmptyWhenUndone,
        Claim::ReferenceHoldsAnEvent,
        Claim::RollFreesItself,
        Claim::FullUndoingAndReplaying,
        Claim::FinderAgreesWithForward,
        Claim::BytesReadBack,
    ];
}

/// A counterexample.
#[derive(Clone, Debug)]
pub struct Refuted {
    pub claim: Claim,
    pub why: String,
    /// Script and net, as `show` and `rewind` take them.
    pub images: Vec<u8>,
}

/// Tries the claims and counts how often each was tried.
pub struct Claims {
    random: Random,
    pub tried: [u64; Claim::ALL.len()],
    pub nets: u64,
    /// Nets changed at random and accepted still.
    pub changed: u64,
    /// Small nets of no walk, accepted, with a past process.
    pub small: u64,
    pub refuted: Vec<Refuted>,
}

/// Dependents few enough to try every order.
const FEW: u32 = 6;
/// Events few enough to look at every list of backward steps.
const FEW_EVENTS: u32 = 9;

impl Claims {
    pub fn new(seed: u64) -> Claims {
        let tried = [0; Claim::ALL.len()];
        Claims {
            random: Random::new(seed),
            tried,
            nets: 0,
            changed: 0,
            small: 0,
            refuted: Vec::new(),
        }
    }

    /// Tries every claim on one more generated net.
    pub fn try_one(&mut self) {
        let (script, net) = some_history(&mut self.random);
        self.try_net(&script, &net);
        self.try_changed(&script, net);
        for _ in 0..200 {
            self.try_small();
        }
    }

    /// A small net that no walk made, where it is accepted and has a past.
    fn try_small(&mut self) {
        let (script, net) = arbitrary::small(&mut self.random);
        let accepted = first_broken_clause(&script, &net).is_none();
        if accepted && !net.event_keys().is_empty() {
            self.small += 1;
            self.try_net(&script, &net);
        }
    }

    /// "A damaged net that is accepted has the same properties."
    fn try_changed(&mut self, script: &Script, net: Net) {
        let mut accepted = net.clone();
        for _ in 0..6 {
            let mut changed = accepted.clone();
            change(&mut self.random, &mut changed);
            if first_broken_clause(script, &changed).is_none() {
                accepted = changed;
            }
        }
        if accepted != net {
            self.changed += 1;
            self.try_net(script, &accepted);
        }
    }

    pub fn try_net(&mut self, script: &Script, net: &Net) {
        self.nets += 1;
        let trial = Trial {
            script,
            net,
            dependence: Dependence::of(script, net),
        };
        for claim in Claim::ALL {
            let outcome = trial.try_claim(claim, &mut self.random);
            self.note(&trial, claim, outcome);
        }
    }

    fn note(&mut self, trial: &Trial, claim: Claim, outcome: Outcome) {
        match outcome {
            Ok(times) => self.tried[claim as usize] += times,
            Err(why) => {
                let images = trial.images();
                self.refuted.push(Refuted { claim, why, images });
            }
        }
    }

    pub fn text(&self) -> String {
        let mut text = format!(
            "nets {}\nof these changed at random and accepted still {}\nof these small and made by no walk {}\n\ntried, refuted\n",
            self.nets, self.changed, self.small
        );
        for claim in Claim::ALL {
            let refuted = self
                .refuted
                .iter()
                .filter(|refuted| refuted.claim == claim)
                .count();
            let name = format!("{claim:?}");
            text += &format!("{name:32}{:10}{refuted:6}\n", self.tried[claim as usize]);
        }
        text
    }

    /// What was never tried.
    pub fn untried(&self) -> Vec<Claim> {
        Claim::ALL
            .into_iter()
            .filter(|&claim| self.tried[claim as usize] == 0)
            .collect()
    }
}

/// How often a claim was tried on a net, or why it is refuted.
type Outcome = Result<u64, String>;

struct Trial<'a> {
    script: &'a Script,
    net: &'a Net,
    dependence: Dependence,
}

impl Trial<'_> {
    fn images(&self) -> Vec<u8> {
        let mut images = self.script.write();
        images.extend(self.net.write());
        images
    }

    fn try_claim(&self, claim: Claim, random: &mut Random) -> Outcome {
        match claim {
            Claim::ForwardThenBackward => self.forward_then_backward(random),
            Claim::BackwardThenForward => self.backward_then_forward(),
            Claim::StepKeepsAcceptance => self.step_keeps_acceptance(random),
            Claim::RefusalLeavesTheNet => self.refusal_leaves_the_net(random),
            Claim::UndoableWhenNothingDepends => self.undoable_when_nothing_depends(),
            Claim::EveryOrderGivesTheSame => self.every_order_gives_the_same(random),
            Claim::RollbackGivesTheSame => self.rollback_gives_the_same(),
            Claim::NoListLeavesOutADependent => self.no_list_leaves_out(random),
            Claim::FreeingWins => self.freeing_wins(),
            Claim::TouchedIsWhereSlotsBecameFree => self.touched_is_where_freed(),
            Claim::UndoneIsTheNumberOfDependents => self.undone_is_the_number(),
            Claim::MadeLocalityBelongsToItsNewloc => self.made_locality_belongs(),
            Claim::MadeLocalityIsEmptyWhenUndone => self.made_locality_is_empty(),
            Claim::ReferenceHoldsAnEvent => self.reference_holds_an_event(),
            Claim::RollFreesItself => self.roll_frees_itself(),
            Claim::FullUndoingAndReplaying => self.undo_all_and_replay(random),
            Claim::FinderAgreesWithForward => self.finder_agrees(),
            Claim::BytesReadBack => self.bytes_read_back(),
        }
    }

    fn kind(&self, event: Key) -> Option<Kind> {
        let process = self.net.slot(event).process()?;
        Some(self.script.node(process.node).kind)
    }

    fn undoable_events(&self) -> Vec<Key> {
        let events = self.net.event_keys();
        events
            .iter()
            .filter(|&e| undoable(self.script, self.net, e))
            .collect()
    }

    /// A walk that starts here.
    fn walk(&self, mood: Mood) -> Walk<'_> {
        Walk {
            script: self.script,
            net: self.net.clone(),
            mood,
        }
    }

    fn bytes_read_back(&self) -> Outcome {
        let bytes = self.net.write();
        match Net::read(&bytes) {
            Ok(net) if net == *self.net && net.write() == bytes => Ok(1),
            _ => Err("the bytes read back differ".to_string()),
        }
    }

    fn forward_then_backward(&self, random: &mut Random) -> Outcome {
        let mut tried = 0;
        for _ in 0..8 {
            let mut walk = self.walk(Mood::Filling);
            let taken = walk.step(random);
            let Some(request) = Request::read(&taken.bytes) else {
                continue;
            };
            if request.code != Code::Forward || taken.report.answer != Answer::Done {
                continue;
            }
            let back = Request::bare(Code::Backward, request.key);
            let done = take(self.script, &mut walk.net, &back, random);
            if done.is_err() || walk.net.write() != self.net.write() {
                return Err(format!(
                    "{:?} forward, then backward: {done:?}",
                    taken.bytes
                ));
            }
            tried += 1;
        }
        Ok(tried)
    }

    fn backward_then_forward(&self) -> Outcome {
        let events = self.undoable_events();
        for &event in &events {
            let again = self.repeating(event).ok_or("an event without a memory")?;
            let mut net = self.net.clone();
            backward(&mut net, event);
            let done = take(self.script, &mut net, &again, &mut Random::new(0));
            if done.is_err() || net.write() != self.net.write() {
                return Err(format!("event {event} undone, then {again:?}: {done:?}"));
            }
        }
        Ok(events.len() as u64)
    }

    /// READINGS: "The request that repeats an event".
    fn repeating(&self, event: Key) -> Option<Request> {
        let &Memory {
            first,
            second,
            used,
            locality,
        } = self.net.memory(event)?;
        let places = Places {
            tuple: used,
            first,
            second,
            locality,
        };
        Some(Request {
            code: Code::Forward,
            key: event,
            places,
        })
    }

    fn step_keeps_acceptance(&self, random: &mut Random) -> Outcome {
        let mut walk = self.walk(Mood::Mixed);
        let mut tried = 0;
        for _ in 0..6 {
            let taken = walk.step(random);
            if taken.report.answer == Answer::Done {
                tried += 1;
            }
            if let Some(broken) = first_broken_clause(self.script, &walk.net) {
                return Err(format!("{:?} breaks {:?}", taken.bytes, broken));
            }
        }
        Ok(tried)
    }

    fn refusal_leaves_the_net(&self, random: &mut Random) -> Outcome {
        let script = self.script.write();
        let mut tried = 0;
        for _ in 0..6 {
            let taken = self.walk(Mood::Mixed).step(random);
            let mut net = self.net.write();
            let report = answer(&script, &mut net, &taken.bytes, random);
            if report != taken.report {
                return Err(format!("{:?} is answered in two ways", taken.bytes));
            }
            if report.answer == Answer::Done {
                continue;
            }
            tried += 1;
            let nothing = report.undone == 0 && report.touched == Localities::default();
            if net != self.net.write() || !nothing {
                return Err(format!(
                    "{:?} is refused and changes something",
                    taken.bytes
                ));
            }
        }
        Ok(tried)
    }

    fn undoable_when_nothing_depends(&self) -> Outcome {
        let events = self.net.event_keys();
        for event in events.iter() {
            let alone = self.dependence.directly_on(event).is_empty();
            if alone != undoable(self.script, self.net, event) {
                return Err(format!("event {event}: nothing depends on it: {alone}"));
            }
        }
        Ok(u64::from(events.len()))
    }

    fn every_order_gives_the_same(&self, random: &mut Random) -> Outcome {
        let mut tried = 0;
        for event in self.net.event_keys().iter() {
            let left = self.dependence.dependents(event);
            let mut ends = Ends::default();
            if left.len() <= FEW {
                self.all_orders(self.net.clone(), left, 0, &mut ends)?;
            } else {
                for _ in 0..4 {
                    self.some_order(left, random, &mut ends)?;
                }
            }
            tried += ends.orders;
            if ends.different.len() != 1 {
                return Err(format!(
                    "event {event}: {} different ends",
                    ends.different.len()
                ));
            }
        }
        Ok(tried)
    }

    /// Every order of allowed backward steps within `left`.
    fn all_orders(&self, net: Net, left: Keys, count: u32, ends: &mut Ends) -> Result<(), String> {
        if left.is_empty() {
            ends.note(&net, count);
            return Ok(());
        }
        let mut stuck = true;
        for event in left
            .iter()
            .filter(|&event| undoable(self.script, &net, event))
        {
            stuck = false;
            let mut after = net.clone();
            backward(&mut after, event);
            let mut left = left;
            left.remove(event);
            self.all_orders(after, left, count + 1, ends)?;
        }
        if stuck {
            return Err(format!("stuck with {left:?}"));
        }
        Ok(())
    }

    fn some_order(
        &self,
        mut left: Keys,
        random: &mut Random,
        ends: &mut Ends,
    ) -> Result<(), String> {
        let mut net = self.net.clone();
        let mut count = 0;
        while !left.is_empty() {
            let allowed: Vec<Key> = left
                .iter()
                .filter(|&event| undoable(self.script, &net, event))
                .collect();
            let event = random
                .pick(&allowed)
                .ok_or(format!("stuck with {left:?}"))?;
            backward(&mut net, event);
            left.remove(event);
            count += 1;
        }
        ends.note(&net, count);
        Ok(())
    }

    fn rolled_back(&self, event: Key, order: u64) -> Result<(Net, Undoing), String> {
        let mut net = self.net.clone();
        let undoing = rollback(self.script, &mut net, event, &mut Random::new(order))
            .map_err(|stuck| format!("rollback of {} sticks", stuck.event))?;
        Ok((net, undoing))
    }

    /// The request itself, on bytes, against the same with another order.
    fn rollback_gives_the_same(&self) -> Outcome {
        let script = self.script.write();
        let mut tried = 0;
        for event in self.net.event_keys().iter() {
            if self.kind(event) == Some(Kind::Split) || tried >= 8 {
                continue;
            }
            let (expected, undoing) = self.rolled_back(event, 1)?;
            let request = Request::bare(Code::Rollback, event).write();
            let mut net = self.net.write();
            let report = answer(&script, &mut net, &request, &mut Random::new(2));
            let same = report.answer == Answer::Done
                && (report.undone, report.touched) == (undoing.undone, undoing.touched)
                && net == expected.write();
            if !same {
                return Err(format!("rollback of {event}: {report:?} and {undoing:?}"));
            }
            tried += 1;
        }
        Ok(tried)
    }

    fn no_list_leaves_out(&self, random: &mut Random) -> Outcome {
        let events = self.net.event_keys();
        if events.len() <= FEW_EVENTS {
            let mut seen = BTreeSet::new();
            self.look_at_lists(self.net.clone(), Keys::default(), &mut seen)?;
            return Ok(seen.len() as u64);
        }
        for _ in 0..2 {
            let mut net = self.net.clone();
            let mut undone = Keys::default();
            while let Some(event) = random.pick(&undoable_in(self.script, &net)) {
                backward(&mut net, event);
                undone.insert(event);
                self.leaves_out_none(event, undone)?;
            }
        }
        Ok(2)
    }

    /// Every list of backward steps, by the set of events it undid.
    fn look_at_lists(
        &self,
        net: Net,
        undone: Keys,
        seen: &mut BTreeSet<u64>,
    ) -> Result<(), String> {
        if !seen.insert(undone.0) {
            return Ok(());
        }
        for event in undoable_in(self.script, &net) {
            let mut after = net.clone();
            backward(&mut after, event);
            let mut undone = undone;
            undone.insert(event);
            self.leaves_out_none(event, undone)?;
            self.look_at_lists(after, undone, seen)?;
        }
        Ok(())
    }

    fn leaves_out_none(&self, event: Key, undone: Keys) -> Result<(), String> {
        let dependents = self.dependence.dependents(event);
        if dependents.0 & !undone.0 != 0 {
            return Err(format!(
                "{undone:?} undoes {event} and leaves out of {dependents:?}"
            ));
        }
        Ok(())
    }

    /// What undoing a set gives, told in one sentence a record.
    fn freeing_wins(&self) -> Outcome {
        let events = self.net.event_keys();
        for event in events.iter() {
            let (net, _) = self.rolled_back(event, 3)?;
            if net != self.all_at_once(self.dependence.dependents(event)) {
                return Err(format!(
                    "rollback of {event} is not the undoing of its dependents at once"
                ));
            }
        }
        Ok(u64::from(events.len()))
    }

    fn all_at_once(&self, members: Keys) -> Net {
        let mut net = self.net.clone();
        for (key, process, memory) in self
            .net
            .events()
            .filter(|&(key, _, _)| members.contains(key))
        {
            net.set(key, Slot::Live(process.clone()));
            if let Some(locality) = memory.locality {
                net.present.remove(locality);
            }
            if let Some(Slot::Consumed(tuple)) = memory.used.map(|used| self.net.slot(used)) {
                net.set(memory.used.unwrap_or(key), Slot::Tuple(tuple.clone()));
            }
        }
        for (key, _, memory) in self.net.events() {
            if members.contains(key) {
                memory.made().for_each(|made| net.set(made, Slot::Free));
            }
        }
        net
    }

    fn touched_is_where_freed(&self) -> Outcome {
        let events = self.net.event_keys();
        for event in events.iter() {
            let (net, undoing) = self.rolled_back(event, 4)?;
            if undoing.touched != freed_at(self.net, &net) {
                return Err(format!(
                    "rollback of {event}: touched {:?}",
                    undoing.touched
                ));
            }
        }
        Ok(u64::from(events.len()))
    }

    fn undone_is_the_number(&self) -> Outcome {
        let events = self.net.event_keys();
        for event in events.iter() {
            let (_, undoing) = self.rolled_back(event, 5)?;
            let dependents = self.dependence.dependents(event).len();
            if undoing.undone != dependents || undoing.undone > 63 {
                return Err(format!("rollback of {event}: undone {}", undoing.undone));
            }
        }
        Ok(u64::from(events.len()))
    }

    /// The newlocs: each with the locality it made.
    fn newlocs(&self) -> impl Iterator<Item = (Key, Locality, &Memory)> {
        self.net
            .events()
            .filter_map(|(key, _, memory)| Some((key, memory.locality?, memory)))
    }

    fn made_locality_belongs(&self) -> Outcome {
        let mut tried = 0;
        for (newloc, locality, _) in self.newlocs() {
            let dependents = self.dependence.dependents(newloc);
            for (key, slot) in self.net.records() {
                let concerned = slot.locality() == Some(locality) || names(slot, locality);
                if concerned && !self.made_by(dependents, key) {
                    return Err(format!("key {key} is at or names locality {locality}"));
                }
                let event = matches!(slot, Slot::Past(..));
                let targets = event && self.target_of(key) == Some(locality);
                if event && (concerned || targets) && !dependents.contains(key) {
                    return Err(format!(
                        "event {key} is at, names or targets locality {locality}"
                    ));
                }
            }
            tried += 1;
        }
        Ok(tried)
    }

    fn target_of(&self, key: Key) -> Option<Locality> {
        let process = self.net.slot(key).process()?;
        let node = self.script.node(process.node);
        if node.kind == Kind::Newloc {
            return None;
        }
        target(node, &process.variables)
    }

    fn made_by(&self, events: Keys, key: Key) -> bool {
        self.net
            .events()
            .any(|(event, _, memory)| events.contains(event) && memory.made_key(key))
    }

    fn made_locality_is_empty(&self) -> Outcome {
        let mut tried = 0;
        for (newloc, locality, memory) in self.newlocs() {
            if !undoable(self.script, self.net, newloc) {
                continue;
            }
            tried += 1;
            for (key, slot) in self.net.records() {
                let goes = memory.first == Some(key);
                if slot.locality() == Some(locality) || names(slot, locality) && !goes {
                    return Err(format!(
                        "newloc {newloc} may be undone, key {key} knows its locality"
                    ));
                }
            }
        }
        Ok(tried)
    }

    fn reference_holds_an_event(&self) -> Outcome {
        let mut tried = 0;
        for (holder, slot) in self.net.records() {
            let Some(process) = slot.process() else {
                continue;
            };
            for &event in process.references.iter().flatten() {
                tried += 1;
                let action = self.net.memory(event).is_some()
                    && self
                        .kind(event)
                        .is_some_and(|kind| (1..=5).contains(&(kind as u8)));
                if !action || !self.made_by(self.dependence.dependents(event), holder) {
                    return Err(format!("key {holder} holds a reference to {event}"));
                }
            }
        }
        Ok(tried)
    }

    fn roll_frees_itself(&self) -> Outcome {
        let mut tried = 0;
        for (key, slot) in self.net.records() {
            let is_roll = matches!(slot, Slot::Live(_)) && self.kind(key) == Some(Kind::Roll);
            if !is_roll {
                continue;
            }
            let mut net = self.net.clone();
            let request = Request::bare(Code::Roll, key);
            if take(self.script, &mut net, &request, &mut Random::new(6)).is_ok() {
                tried += 1;
                if !net.is_free(key) {
                    return Err(format!("roll by {key} leaves {key}"));
                }
            }
        }
        Ok(tried)
    }

    fn undo_all_and_replay(&self, random: &mut Random) -> Outcome {
        let mut net = self.net.clone();
        let mut requests = Vec::new();
        while let Some(event) = random.pick(&undoable_in(self.script, &net)) {
            requests.push(self.repeating(event).ok_or("an event that was not there")?);
            backward(&mut net, event);
        }
        if !net.event_keys().is_empty() {
            return Err("some past process cannot be undone".to_string());
        }
        if accept(self.script, &net.write()).is_err() {
            return Err("all undone, the net is not accepted".to_string());
        }
        for request in requests.iter().rev() {
            if let Err(answer) = take(self.script, &mut net, request, random) {
                return Err(format!("replaying {request:?}: {answer:?}"));
            }
        }
        if net.write() != self.net.write() {
            return Err("replaying gives other bytes".to_string());
        }
        Ok(1)
    }

    /// The least key whose forward step is not refused for the tuple.
    fn finder_agrees(&self) -> Outcome {
        let mut tried = 0;
        for (key, slot) in self.net.records() {
            let waits = matches!(self.kind(key), Some(Kind::In | Kind::Read));
            if !matches!(slot, Slot::Live(_)) || !waits {
                continue;
            }
            tried += 1;
            let found = find_tuple(self.script, self.net, key);
            let first = Key::new(0);
            let tuple_taken = |tuple: Key| {
                let places = Places {
                    tuple: Some(tuple),
                    first,
                    ..Places::default()
                };
                let request = Request {
                    code: Code::Forward,
                    key,
                    places,
                };
                take(
                    self.script,
                    &mut self.net.clone(),
                    &request,
                    &mut Random::new(0),
                )
            };
            let taken = |tuple: &Key| matches!(tuple_taken(*tuple), Ok(_) | Err(Answer::NotFresh));
            let least = Key::all().find(taken);
            if found.ok() != least {
                return Err(format!(
                    "finder for {key}: {found:?}, a step takes {least:?}"
                ));
            }
        }
        Ok(tried)
    }
}

fn undoable_in(script: &Script, net: &Net) -> Vec<Key> {
    net.event_keys()
        .iter()
        .filter(|&event| undoable(script, net, event))
        .collect()
}

fn names(slot: &Slot, locality: Locality) -> bool {
    data(slot).contains(&Datum::Locality(locality))
}

/// The different ends of the orders tried: bytes and count.
#[derive(Default)]
struct Ends {
    orders: u64,
    different: Vec<(Vec<u8>, u32)>,
}

impl Ends {
    fn note(&mut self, net: &Net, count: u32) {
        self.orders += 1;
        let end = (net.write(), count);
        if !self.different.contains(&end) {
            self.different.push(end);
        }
    }
}
