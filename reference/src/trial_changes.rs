//! Named changes of an accepted net, a few bytes each: every clause of "Which
//! nets are accepted" broken singly, wherever in the net it can be broken, and
//! changes that leave a net accepted.

use crate::accept::Clause;
use crate::names::Locality;
use crate::net::{Datum, Net, Slot};
use crate::random::Random;
use crate::script::Script;
use crate::script_form::Kind;
use crate::trial_edits::*;
use crate::trial_site::{few, other_number, other_tag, Site};

/// What a change is to bring about. Nets where it does not are passed over.
#[derive(Clone, Copy, PartialEq, Eq, Debug)]
pub enum Outcome {
    /// These clauses are broken and no other.
    Breaks(&'static [Clause]),
    /// Some clause is broken.
    Refused,
    /// None is.
    Accepted,
}

impl Outcome {
    pub fn holds(self, script: &Script, net: &Net) -> bool {
        let broken = |clause: Clause| clause.is_broken(script, net);
        let mut clauses = Clause::ALL.into_iter();
        match self {
            Outcome::Breaks(listed) => clauses.all(|c| broken(c) == listed.contains(&c)),
            Outcome::Refused => clauses.any(broken),
            Outcome::Accepted => !clauses.any(broken),
        }
    }
}

/// `None` where the net has nothing to edit so.
type Edit = fn(&mut Site) -> Option<()>;

/// A change with its name.
pub struct Change {
    pub name: &'static str,
    pub outcome: Outcome,
    /// How often one net is to be changed so: what few nets allow is done
    /// oftener to those that do.
    pub times: usize,
    edit: Edit,
}

/// Tries before a change is given up for this net.
const TRIES: usize = 40;

impl Change {
    /// The net, changed so that the outcome comes about.
    pub fn of(&self, random: &mut Random, script: &Script, net: &Net) -> Option<Net> {
        (0..TRIES).find_map(|_| {
            let mut site = Site {
                script,
                net: net.clone(),
                random,
            };
            (self.edit)(&mut site)?;
            let changed = site.net;
            (changed != *net && self.outcome.holds(script, &changed)).then_some(changed)
        })
    }
}

/// Every named change, in the order of the sentences of document 01.
pub fn all_changes() -> impl Iterator<Item = &'static Change> {
    CONTINUATIONS
        .iter()
        .chain(&TUPLES_MADE)
        .chain(&SPAWNED_PROCESSES)
        .chain(&RIGHT_SIDES)
        .chain(&PAST_RECORDS)
        .chain(&TUPLES_USED)
        .chain(&MADE_AT_MOST_ONCE)
        .chain(&CONSUMED_AND_LIVE)
        .chain(&PRESENT_WHEN_MADE)
        .chain(&NOBODY_MADE)
        .chain(&CYCLES)
        .chain(&ACCEPTED)
}

const fn breaks(name: &'static str, clauses: &'static [Clause], edit: Edit) -> Change {
    change(name, Outcome::Breaks(clauses), edit)
}

const fn refused(name: &'static str, edit: Edit) -> Change {
    change(name, Outcome::Refused, edit)
}

const fn accepted(name: &'static str, edit: Edit) -> Change {
    change(name, Outcome::Accepted, edit)
}

const fn change(name: &'static str, outcome: Outcome, edit: Edit) -> Change {
    Change {
        name,
        outcome,
        times: 1,
        edit,
    }
}

const fn oftener(change: Change) -> Change {
    Change { times: 5, ..change }
}

const AGREES: &[Clause] = &[Clause::ContinuationAgrees];

/// "Each past record and what it made agree with the rule above": byte 3.
const CONTINUATIONS: [Change; 12] = [
    breaks("continuation's node", AGREES, |site| {
        let key = continuation(site)?;
        other_node(site, key)
    }),
    breaks("continuation's locality", AGREES, |site| {
        let key = continuation(site)?;
        other_locality(site, key)
    }),
    breaks("continuation's variable, tag", AGREES, |site| {
        let key = continuation(site)?;
        other_variable(site, key, other_tag)
    }),
    breaks("continuation's variable, number", AGREES, |site| {
        let key = continuation(site)?;
        other_variable(site, key, other_number)
    }),
    breaks("continuation's reference", AGREES, |site| {
        let key = continuation(site)?;
        other_reference(site, key)
    }),
    breaks("continuation without the new reference", AGREES, |site| {
        new_reference_missing(site)
    }),
    breaks("continuation without its binding", AGREES, |site| {
        variable_not_bound(site)
    }),
    breaks("continuation free", AGREES, |site| {
        let key = continuation(site)?;
        becomes_free(site, key)
    }),
    breaks("continuation a tuple", AGREES, |site| {
        let key = continuation(site)?;
        becomes_tuple(site, key)
    }),
    breaks("continuation another record", AGREES, |site| {
        let event = site.event(|_| true)?;
        let other = site.record();
        site.edit_memory(event.key, |memory| memory.first = other)
    }),
    breaks("branch of a continuation, variable", AGREES, |site| {
        let key = continuation(site)?;
        branch_variable(site, key)
    }),
    breaks("branch of a continuation, reference", AGREES, |site| {
        let key = continuation(site)?;
        branch_reference(site, key)
    }),
];

const TUPLE_AGREES: &[Clause] = &[Clause::TupleMadeAgrees];

/// The same of the tuple that an out made.
const TUPLES_MADE: [Change; 7] = [
    breaks("tuple's field, tag", TUPLE_AGREES, |site| {
        let key = tuple_made(site)?;
        other_field(site, key, other_tag)
    }),
    breaks("tuple's field, number", TUPLE_AGREES, |site| {
        let key = tuple_made(site)?;
        other_field(site, key, other_number)
    }),
    breaks("tuple's count", TUPLE_AGREES, |site| {
        let key = tuple_made(site)?;
        other_count(site, key)
    }),
    breaks("tuple's locality", TUPLE_AGREES, |site| {
        let key = tuple_made(site)?;
        other_locality(site, key)
    }),
    breaks("tuple free", TUPLE_AGREES, |site| {
        let key = tuple_made(site)?;
        becomes_free(site, key)
    }),
    breaks("tuple a process", TUPLE_AGREES, |site| {
        let key = tuple_made(site)?;
        becomes_process(site, key)
    }),
    breaks(
        "continuation and tuple swapped",
        &[Clause::ContinuationAgrees, Clause::TupleMadeAgrees],
        |site| swapped(site, Kind::Out),
    ),
];

const SPAWNED_AGREES: &[Clause] = &[Clause::SpawnedAgrees];

/// The same of the process that an eval made.
const SPAWNED_PROCESSES: [Change; 9] = [
    breaks("spawned process's node", SPAWNED_AGREES, |site| {
        let key = spawned(site)?;
        other_node(site, key)
    }),
    breaks("spawned process's locality", SPAWNED_AGREES, |site| {
        let key = spawned(site)?;
        other_locality(site, key)
    }),
    breaks("spawned process's variable, tag", SPAWNED_AGREES, |site| {
        let key = spawned(site)?;
        other_variable(site, key, other_tag)
    }),
    breaks(
        "spawned process's variable, number",
        SPAWNED_AGREES,
        |site| {
            let key = spawned(site)?;
            other_variable(site, key, other_number)
        },
    ),
    breaks("spawned process's reference", SPAWNED_AGREES, |site| {
        let key = spawned(site)?;
        other_reference(site, key)
    }),
    oftener(breaks(
        "spawned process with the new reference",
        SPAWNED_AGREES,
        new_reference_spawned,
    )),
    breaks("spawned process a tuple", SPAWNED_AGREES, |site| {
        let key = spawned(site)?;
        becomes_tuple(site, key)
    }),
    breaks("branch of a spawned process", SPAWNED_AGREES, |site| {
        let key = spawned(site)?;
        branch_variable(site, key)
    }),
    breaks(
        "continuation and spawned process swapped",
        &[Clause::ContinuationAgrees, Clause::SpawnedAgrees],
        |site| swapped(site, Kind::Eval),
    ),
];

const RIGHT_AGREES: &[Clause] = &[Clause::RightSideAgrees];

/// The same of the right side of a split.
const RIGHT_SIDES: [Change; 8] = [
    breaks("right side's node", RIGHT_AGREES, |site| {
        let key = right_side(site)?;
        other_node(site, key)
    }),
    breaks("right side's locality", RIGHT_AGREES, |site| {
        let key = right_side(site)?;
        other_locality(site, key)
    }),
    breaks("right side's variable, tag", RIGHT_AGREES, |site| {
        let key = right_side(site)?;
        other_variable(site, key, other_tag)
    }),
    breaks("right side's variable, number", RIGHT_AGREES, |site| {
        let key = right_side(site)?;
        other_variable(site, key, other_number)
    }),
    breaks("right side's reference", RIGHT_AGREES, |site| {
        let key = right_side(site)?;
        other_reference(site, key)
    }),
    breaks("right side free", RIGHT_AGREES, |site| {
        let key = right_side(site)?;
        becomes_free(site, key)
    }),
    breaks("branch of a right side", RIGHT_AGREES, |site| {
        let key = right_side(site)?;
        branch_variable(site, key)
    }),
    breaks(
        "sides of a split swapped",
        &[Clause::ContinuationAgrees, Clause::RightSideAgrees],
        |site| swapped(site, Kind::Split),
    ),
];

const PLACES: &[Clause] = &[Clause::PlacesHeld];
const IS_LOCALITY: &[Clause] = &[Clause::TargetIsLocality];
const TARGET_PRESENT: &[Clause] = &[Clause::TargetPresent];

/// "Targets present; a past process is at kinds 1..6"; and what the rule
/// needs of the past record itself.
const PAST_RECORDS: [Change; 12] = [
    breaks("place missing", PLACES, place_missing),
    breaks("place too many", PLACES, place_too_many),
    breaks("past process that made nothing", PLACES, |site| {
        live_becomes_past(site, |kind| !is_still(kind))
    }),
    breaks(
        "past process at nil or roll",
        &[Clause::EventAtAction],
        |site| live_becomes_past(site, is_still),
    ),
    breaks(
        "event at nil or roll",
        &[Clause::EventAtAction, Clause::PlacesHeld],
        |site| event_at(site, |_, other| is_still(other)),
    ),
    refused("event at a kind with the same places", |site| {
        event_at(site, holds_alike)
    }),
    refused("event at another kind", |site| {
        event_at(site, |kind, other| kind != other)
    }),
    oftener(breaks("target unset", IS_LOCALITY, |site| {
        target_becomes(site, Datum::Unset)
    })),
    oftener(breaks("target a value", IS_LOCALITY, |site| {
        target_becomes(site, Datum::Value(0))
    })),
    oftener(breaks(
        "actual field unset",
        &[Clause::FieldsSet],
        actual_field_unset,
    )),
    oftener(breaks("literal target absent", TARGET_PRESENT, |site| {
        let locality = site.locality(false, true)?;
        site.net.present.remove(locality);
        Some(())
    })),
    oftener(breaks(
        "variable target absent",
        TARGET_PRESENT,
        variable_target_absent,
    )),
];

const USED_MATCHES: &[Clause] = &[Clause::UsedMatches];

/// What the rules of in and read need of the tuple.
const TUPLES_USED: [Change; 6] = [
    breaks("used key no tuple", &[Clause::UsedIsTuple], used_no_tuple),
    breaks("used tuple elsewhere", &[Clause::UsedAtTarget], |site| {
        let key = used_root(site)?;
        other_locality(site, key)
    }),
    breaks("used tuple's field, tag", USED_MATCHES, |site| {
        let key = used_root(site)?;
        other_field(site, key, other_tag)
    }),
    breaks("used tuple's field, number", USED_MATCHES, |site| {
        let key = used_root(site)?;
        other_field(site, key, other_number)
    }),
    breaks("used tuple's count", USED_MATCHES, |site| {
        let key = used_root(site)?;
        other_count(site, key)
    }),
    breaks("used tuple's field, bound otherwise", AGREES, |site| {
        let key = used_root(site)?;
        other_field(site, key, other_number)
    }),
];

const MADE_ONCE: &[Clause] = &[Clause::KeyMadeOnce];

/// "A key, or a locality 8..31, is made at most once, and no other locality
/// is made."
const MADE_AT_MOST_ONCE: [Change; 5] = [
    breaks("keys made by two events", MADE_ONCE, event_twice),
    oftener(breaks(
        "key of another event",
        MADE_ONCE,
        product_of_another,
    )),
    oftener(breaks(
        "both keys of one event equal",
        MADE_ONCE,
        both_keys_equal,
    )),
    breaks("locality made twice", &[Clause::LocalityMadeOnce], |site| {
        event_and_continuation_twice(site, Kind::Newloc)
    }),
    oftener(breaks(
        "locality below 8 made",
        &[Clause::LocalityMadeFrom8],
        made_below_8,
    )),
];

const BY_ONE_IN: &[Clause] = &[Clause::ConsumedByOneIn];
const BY_NO_IN: &[Clause] = &[Clause::LiveByNoIn];

/// "A consumed tuple is used by exactly one past in, a live one by none."
const CONSUMED_AND_LIVE: [Change; 5] = [
    breaks(
        "consumed tuple used by no in",
        &[Clause::ConsumedByAnIn],
        |site| {
            let key = site.key(|_, slot| matches!(slot, Slot::Tuple(_)))?;
            site.set_consumed(key, true)
        },
    ),
    breaks("consumed tuple used by two ins", BY_ONE_IN, |site| {
        event_and_continuation_twice(site, Kind::In)
    }),
    breaks("in of the tuple of another in", BY_ONE_IN, |site| {
        in_of_another(site, true)
    }),
    breaks("live tuple used by its in", BY_NO_IN, |site| {
        let key = site.key(|_, slot| matches!(slot, Slot::Consumed(_)))?;
        site.set_consumed(key, false)
    }),
    breaks("live tuple used by another in", BY_NO_IN, |site| {
        in_of_another(site, false)
    }),
];

/// "Localities 8..31 are present exactly when made."
const PRESENT_WHEN_MADE: [Change; 2] = [
    breaks(
        "locality 8..31 without maker",
        &[Clause::PresentIsMade],
        |site| {
            let locality = site.locality(true, false)?;
            site.net.present.insert(locality);
            Some(())
        },
    ),
    oftener(breaks(
        "made locality absent",
        &[Clause::MadeIsPresent],
        |site| {
            let locality = site.locality(true, true)?;
            site.net.present.remove(locality);
            Some(())
        },
    )),
];

const NAMES: &[Clause] = &[Clause::RootNamesBelow8];
const AT_PRESENT: &[Clause] = &[Clause::RootAtPresent];
const HOLDS_NONE: &[Clause] = &[Clause::RootHoldsNoReference];

/// "A record nobody made lives at a present locality 0..7, names only
/// localities 0..7 (present or not) and holds no reference."
const NOBODY_MADE: [Change; 8] = [
    breaks("live root's variable names 8..31", NAMES, |site| {
        let key = site.root(|slot| matches!(slot, Slot::Live(_)))?;
        root_names_from_8(site, key)
    }),
    breaks("past root's variable names 8..31", NAMES, |site| {
        let key = site.root(|slot| matches!(slot, Slot::Past(..)))?;
        root_names_from_8(site, key)
    }),
    breaks("root tuple's field names 8..31", NAMES, |site| {
        let key = site.root(|slot| slot.tuple().is_some())?;
        other_field(site, key, from_8)
    }),
    breaks("root at an absent locality", AT_PRESENT, |site| {
        let key = site.root(Slot::is_live)?;
        let absent = site.locality(false, false)?;
        move_to(site, key, absent)
    }),
    breaks("locality of a root absent", AT_PRESENT, |site| {
        let key = site.root(|_| true)?;
        let locality = site.net.slot(key).locality()?;
        site.net.present.remove(locality);
        Some(())
    }),
    breaks("root at a made locality", &[Clause::RootBelow8], |site| {
        let key = site.root(Slot::is_live)?;
        let made = site.locality(true, true)?;
        move_to(site, key, made)
    }),
    breaks("live root holds a reference", HOLDS_NONE, |site| {
        let key = site.root(|slot| matches!(slot, Slot::Live(_)))?;
        root_holds(site, key)
    }),
    breaks("past root holds a reference", HOLDS_NONE, |site| {
        let key = site.root(|slot| matches!(slot, Slot::Past(..)))?;
        root_holds(site, key)
    }),
];

const NO_CYCLE: &[Clause] = &[Clause::NoCycle];

/// "Dependence (below) has no cycle."
const CYCLES: [Change; 6] = [
    oftener(breaks("cycle: made itself", NO_CYCLE, made_itself)),
    oftener(breaks(
        "cycle: made one before it",
        NO_CYCLE,
        made_an_ancestor,
    )),
    oftener(breaks("cycle: read after its own in", NO_CYCLE, |site| {
        read_of_another(site, taken_before)
    })),
    oftener(breaks("cycle: read of what came of it", NO_CYCLE, |site| {
        read_of_another(site, made_afterwards)
    })),
    oftener(breaks("cycle: in of what came of it", NO_CYCLE, |site| {
        in_of_another_live(site, made_afterwards)
    })),
    oftener(breaks("cycle: two ins crossed by reads", NO_CYCLE, crossed)),
];

/// What no clause speaks against.
const ACCEPTED: [Change; 13] = [
    accepted("live root at another node", |site| {
        let key = site.root(|slot| matches!(slot, Slot::Live(_)))?;
        other_node(site, key)
    }),
    accepted("root's variable, in all its family", |site| {
        let key = site.root(|slot| slot.process().is_some())?;
        let variable = site.any_variable();
        let original = few(site.random, Locality::new, 8);
        let datum = match site.random.below(3) {
            0 => Datum::Unset,
            1 => Datum::Value(site.random.draw() as u32),
            _ => Datum::Locality(original),
        };
        site.set_in_family(key, variable, datum)
    }),
    accepted("root tuple's field", |site| {
        let key = site.root(|slot| slot.tuple().is_some())?;
        other_field(site, key, other_number)
    }),
    accepted("idle root elsewhere", |site| {
        let key = site.idle_root()?;
        let locality = site.locality(false, true)?;
        move_to(site, key, locality)
    }),
    accepted("idle root gone", |site| {
        let key = site.idle_root()?;
        becomes_free(site, key)
    }),
    accepted("new root", new_root),
    accepted("locality 0..7 present", |site| {
        let locality = site.locality(false, false)?;
        site.net.present.insert(locality);
        Some(())
    }),
    accepted("locality 0..7 absent that nobody needs", |site| {
        let locality = site.locality(false, true)?;
        site.net.present.remove(locality);
        Some(())
    }),
    accepted("read of an equal tuple", |site| {
        read_of_another(site, |_, _, _| true)
    }),
    oftener(accepted("read of a consumed tuple", |site| {
        read_of_another(site, is_consumed)
    })),
    oftener(accepted("in of an equal tuple", |site| {
        in_of_another_live(site, |_, _, _| true)
    })),
    accepted("two keys renamed", keys_renamed),
    accepted("two made localities renamed", localities_renamed),
];
