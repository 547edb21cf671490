//! What the named changes do to a net: small edits, most of them of one byte
//! or two. Each picks at random what it edits; whether the net that comes of
//! it breaks what it should is looked at afterwards.

use crate::damage::renamed_by;
use crate::dependence::Dependence;
use crate::names::{Key, Locality, NodeName};
use crate::net::{Datum, Memory, Net, Process, Slot, Tuple};
use crate::random::Random;
use crate::rule::{looks_up_target, uses_tuple};
use crate::script_form::Kind;
use crate::step::places_needed;
use crate::trial_site::{few, other_number, other_tag, Event, Site};

/// How a datum becomes another.
pub type OtherDatum = fn(&mut Random, Datum) -> Option<Datum>;

pub fn continuation(site: &mut Site) -> Option<Key> {
    site.event(|_| true)?.memory.first
}

pub fn tuple_made(site: &mut Site) -> Option<Key> {
    site.event(|kind| kind == Kind::Out)?.memory.second
}

pub fn spawned(site: &mut Site) -> Option<Key> {
    site.event(|kind| kind == Kind::Eval)?.memory.second
}

pub fn right_side(site: &mut Site) -> Option<Key> {
    site.event(|kind| kind == Kind::Split)?.memory.second
}

/// A tuple that nobody made and some event used.
pub fn used_root(site: &mut Site) -> Option<Key> {
    let events = site.events(uses_tuple);
    let used: Vec<Key> = events
        .iter()
        .filter_map(|event| event.memory.used)
        .collect();
    let root = |key: &&Key| site.ancestor(**key) == **key;
    let roots: Vec<Key> = used.iter().filter(root).copied().collect();
    site.random.pick(&roots)
}

pub fn other_node(site: &mut Site, key: Key) -> Option<()> {
    let node = site.any_node();
    site.edit_process(key, |process| process.node = node)
}

/// Another locality, mostly a present one.
pub fn other_locality(site: &mut Site, key: Key) -> Option<()> {
    let any = site.any_locality();
    let locality = match site.random.below(3) {
        0 => any,
        1 => site.locality(true, true).unwrap_or(any),
        _ => site.locality(false, true)?,
    };
    move_to(site, key, locality)
}

pub fn move_to(site: &mut Site, key: Key, locality: Locality) -> Option<()> {
    site.edit_process(key, |process| process.locality = locality)
        .or_else(|| site.edit_tuple(key, |tuple| tuple.locality = locality))
}

pub fn other_variable(site: &mut Site, key: Key, other: OtherDatum) -> Option<()> {
    let variable = site.any_variable();
    let old = site.net.slot(key).process()?.variables[variable];
    let datum = other(site.random, old)?;
    site.edit_process(key, |process| process.variables[variable] = datum)
}

pub fn other_field(site: &mut Site, key: Key, other: OtherDatum) -> Option<()> {
    let fields = site.net.slot(key).tuple()?.fields.clone();
    let field = site.random.below(fields.len() as u64) as usize;
    let datum = other(site.random, fields[field]).filter(|&datum| datum != Datum::Unset)?;
    site.edit_tuple(key, |tuple| tuple.fields[field] = datum)
}

/// One field more, where there are not four, or one less.
pub fn other_count(site: &mut Site, key: Key) -> Option<()> {
    let more = site.random.one_in(2);
    let count = site.net.slot(key).tuple()?.fields.len();
    match (more, count) {
        (true, 1..=3) => site.edit_tuple(key, |tuple| tuple.fields.push(Datum::Value(0))),
        (false, 2..=4) => site.edit_tuple(key, |tuple| {
            tuple.fields.pop();
        }),
        _ => None,
    }
}

pub fn other_reference(site: &mut Site, key: Key) -> Option<()> {
    let reference = site.any_reference();
    let held = site.record().filter(|_| !site.random.one_in(3));
    site.edit_process(key, |process| process.references[reference] = held)
}

pub fn becomes_free(site: &mut Site, key: Key) -> Option<()> {
    site.net.set(key, Slot::Free);
    Some(())
}

pub fn becomes_tuple(site: &mut Site, key: Key) -> Option<()> {
    let locality = site.net.slot(key).locality()?;
    let fields = vec![Datum::Value(1)];
    let tuple = Tuple { locality, fields };
    site.net.set(key, Slot::Tuple(tuple));
    Some(())
}

pub fn becomes_process(site: &mut Site, key: Key) -> Option<()> {
    let locality = site.net.slot(key).locality()?;
    let process = fresh_process(locality, few(site.random, NodeName::new, 1));
    site.net.set(key, Slot::Live(process));
    Some(())
}

fn fresh_process(locality: Locality, node: NodeName) -> Process {
    Process {
        locality,
        node,
        variables: [Datum::Unset; 8],
        references: [None; 4],
    }
}

/// The node's reference is as it was before the step.
pub fn new_reference_missing(site: &mut Site) -> Option<()> {
    let event = site.event(|_| true)?;
    let reference = site.node(&event.process).reference?.index();
    let old = event.process.references[reference];
    site.edit_process(event.memory.first?, |process| {
        process.references[reference] = old;
    })
}

/// "Giving the spawned process the new reference."
pub fn new_reference_spawned(site: &mut Site) -> Option<()> {
    let event = site.event(|kind| kind == Kind::Eval)?;
    let reference = site.node(&event.process).reference?.index();
    site.edit_process(event.memory.second?, |process| {
        process.references[reference] = Some(event.key);
    })
}

/// The variables are as they were before the step.
pub fn variable_not_bound(site: &mut Site) -> Option<()> {
    let event = site.event(|kind| uses_tuple(kind) || kind == Kind::Newloc)?;
    site.edit_process(event.memory.first?, |process| {
        process.variables = event.process.variables;
    })
}

/// All that came of a process agrees, only its maker does not: one pair in a
/// whole history.
pub fn branch_variable(site: &mut Site, key: Key) -> Option<()> {
    let variable = site.any_variable();
    let old = site.net.slot(key).process()?.variables[variable];
    let other = if site.random.one_in(2) {
        other_tag(site.random, old)
    } else {
        other_number(site.random, old)
    };
    site.set_in_family(key, variable, other?)
}

pub fn branch_reference(site: &mut Site, key: Key) -> Option<()> {
    let reference = site.any_reference();
    let held = site.record()?;
    site.hold_in_family(key, reference, held)
}

/// Bytes 3 and 4 change places.
pub fn swapped(site: &mut Site, wanted: Kind) -> Option<()> {
    let event = site.event(|kind| kind == wanted)?;
    site.edit_memory(event.key, |memory| {
        std::mem::swap(&mut memory.first, &mut memory.second);
    })
}

pub fn place_missing(site: &mut Site) -> Option<()> {
    let event = site.event(|_| true)?;
    let place = site.random.below(4);
    site.edit_memory(event.key, |memory| match place {
        0 => memory.first = None,
        1 => memory.second = None,
        2 => memory.used = None,
        _ => memory.locality = None,
    })
}

/// A place that the event's kind does not hold; a locality is then present.
pub fn place_too_many(site: &mut Site) -> Option<()> {
    let event = site.event(|_| true)?;
    let place = site.random.below(3);
    let key = site.record();
    let locality = site.locality(true, false).filter(|_| place == 2);
    site.net.present.0 |= locality.map_or(0, |l| 1 << l.byte());
    site.edit_memory(event.key, |memory| match place {
        0 => memory.second = memory.second.or(key),
        1 => memory.used = memory.used.or(key),
        _ => memory.locality = memory.locality.or(locality),
    })
}

/// Nil and roll take no forward step.
pub fn is_still(kind: Kind) -> bool {
    matches!(kind, Kind::Nil | Kind::Roll)
}

/// Another kind that holds the same places.
pub fn holds_alike(kind: Kind, other: Kind) -> bool {
    kind != other && places_needed(kind) == places_needed(other)
}

pub fn live_becomes_past(site: &mut Site, wanted: fn(Kind) -> bool) -> Option<()> {
    let script = site.script;
    let key = site.key(|_, slot| match slot {
        Slot::Live(process) => wanted(script.node(process.node).kind),
        _ => false,
    })?;
    let process = site.net.slot(key).process()?.clone();
    site.net.set(key, Slot::Past(process, Memory::default()));
    Some(())
}

/// The event's node is one whose kind stands so to the kind it had.
pub fn event_at(site: &mut Site, wanted: fn(Kind, Kind) -> bool) -> Option<()> {
    let event = site.event(|_| true)?;
    let nodes: Vec<NodeName> = NodeName::all()
        .filter(|&node| wanted(event.kind, site.script.node(node).kind))
        .collect();
    let node = site.random.pick(&nodes)?;
    site.edit_process(event.key, |process| process.node = node)
}

/// A variable that is some event's target, in all of that event's family.
pub fn target_becomes(site: &mut Site, datum: Datum) -> Option<()> {
    let event = site.event(looks_up_target)?;
    let variable = site.target_variable(&event)?;
    let root = site.ancestor(event.key);
    site.set_in_family(root, variable, datum)
}

pub fn actual_field_unset(site: &mut Site) -> Option<()> {
    let event = site.event(|kind| kind == Kind::Out || uses_tuple(kind))?;
    let variable = site.field_variable(&event)?;
    let root = site.ancestor(event.key);
    site.set_in_family(root, variable, Datum::Unset)
}

/// The family's variable names an absent locality, and what was put there
/// lives there.
pub fn variable_target_absent(site: &mut Site) -> Option<()> {
    let mut events = site.events(|kind| matches!(kind, Kind::Out | Kind::Eval));
    events.retain(|event| site.target_variable(event).is_some());
    let event = site.one_of(&events)?;
    let variable = site.target_variable(&event)?;
    let absent = absent_original(site)?;
    let root = site.ancestor(event.key);
    site.set_in_family(root, variable, Datum::Locality(absent))?;
    move_to(site, event.memory.second?, absent)
}

/// An absent locality 0..7; where there is none, one is taken away at which
/// nothing lives.
fn absent_original(site: &mut Site) -> Option<Locality> {
    if let Some(absent) = site.locality(false, false) {
        return Some(absent);
    }
    let lived_at: Vec<Option<Locality>> = site
        .net
        .records()
        .map(|(_, slot)| slot.locality())
        .collect();
    let empty: Vec<Locality> = Locality::all()
        .filter(|&l| l.is_original() && !lived_at.contains(&Some(l)))
        .collect();
    let empty = site.random.pick(&empty)?;
    site.net.present.remove(empty);
    Some(empty)
}

/// A read of a process or of a free key.
pub fn used_no_tuple(site: &mut Site) -> Option<()> {
    let event = site.event(|kind| kind == Kind::Read)?;
    let no_tuple = site.key(|_, slot| slot.tuple().is_none())?;
    site.edit_memory(event.key, |memory| memory.used = Some(no_tuple))
}

/// A copy of an event in a free slot: both made the same keys.
pub fn event_twice(site: &mut Site) -> Option<()> {
    let event = site.event(|kind| kind != Kind::Newloc && kind != Kind::In)?;
    let copy = site.free_key()?;
    site.net.set(copy, Slot::Past(event.process, event.memory));
    Some(())
}

/// An event is said to have made what another made, which is like its own.
pub fn product_of_another(site: &mut Site) -> Option<()> {
    let events = site.events(|_| true);
    let event = site.one_of(&events)?;
    let made: Vec<Key> = event.memory.made().collect();
    let own = site.random.pick(&made)?;
    let alike = |key: &Key| {
        let (slot, own) = (site.net.slot(*key), site.net.slot(own));
        slot.process() == own.process() && slot.tuple() == own.tuple()
    };
    let others: Vec<Key> = events
        .iter()
        .filter(|other| other.key != event.key)
        .flat_map(|other| other.memory.made())
        .filter(alike)
        .collect();
    let other = site.random.pick(&others);
    site.edit_memory(event.key, |memory| match memory.first == Some(own) {
        true => memory.first = other.or(memory.first),
        false => memory.second = other.or(memory.second),
    })
}

/// Of an eval or split that made two processes alike, so that only the count
/// of places speaks against it.
pub fn both_keys_equal(site: &mut Site) -> Option<()> {
    let mut events = site.events(|kind| matches!(kind, Kind::Eval | Kind::Split));
    let process = |key: Option<Key>| key.and_then(|key| site.net.slot(key).process());
    events.retain(|event| process(event.memory.first) == process(event.memory.second));
    let event = site.one_of(&events)?;
    site.edit_memory(event.key, |memory| memory.second = memory.first)
}

/// A copy of a newloc or in, with a continuation of its own.
pub fn event_and_continuation_twice(site: &mut Site, wanted: Kind) -> Option<()> {
    let event = site.event(|kind| kind == wanted)?;
    let mut continuation = site.net.slot(event.memory.first?).process()?.clone();
    let copy = site.free_key()?;
    if let Some(reference) = site.node(&event.process).reference {
        continuation.references[reference.index()] = Some(copy);
    }
    let mut memory = event.memory;
    memory.first = site.key(|key, slot| *slot == Slot::Free && key != copy);
    site.net.set(copy, Slot::Past(event.process, memory));
    site.net.set(memory.first?, Slot::Live(continuation));
    Some(())
}

/// A newloc made a locality 0..7, and its continuation names that.
pub fn made_below_8(site: &mut Site) -> Option<()> {
    let event = site.event(|kind| kind == Kind::Newloc)?;
    let old = event.memory.locality?;
    let original = few(site.random, Locality::new, 8);
    let continuation = event.memory.first?;
    for member in site.family(continuation) {
        site.edit_process(member, |process| {
            rename_locality(&mut process.variables, old, original);
        })?;
    }
    site.net.present.remove(old);
    site.edit_memory(event.key, |memory| memory.locality = Some(original))
}

fn rename_locality(data: &mut [Datum], old: Locality, new: Locality) {
    for datum in data {
        if *datum == Datum::Locality(old) {
            *datum = Datum::Locality(new);
        }
    }
}

/// An in that used an equal tuple; the one it used before is live.
pub fn in_of_another(site: &mut Site, consumed: bool) -> Option<()> {
    let event = site.event(|kind| kind == Kind::In)?;
    let old = event.memory.used?;
    let is = |slot: &Slot| matches!(slot, Slot::Consumed(_)) == consumed;
    let mut others = site.equal_tuples(old);
    others.retain(|&key| is(site.net.slot(key)));
    let other = site.random.pick(&others)?;
    site.set_consumed(old, false)?;
    site.edit_memory(event.key, |memory| memory.used = Some(other))
}

/// A locality 8..31, made or not.
pub fn from_8(random: &mut Random, _: Datum) -> Option<Datum> {
    Locality::new(8 + random.below(24) as u32).map(Datum::Locality)
}

/// One that was made already, so that only the root may not know it.
fn made_or_from_8(site: &mut Site) -> Option<Datum> {
    let made = site.locality(true, true).map(Datum::Locality);
    let any = from_8(site.random, Datum::Unset);
    made.filter(|_| !site.random.one_in(3)).or(any)
}

pub fn root_names_from_8(site: &mut Site, key: Key) -> Option<()> {
    let variable = site.any_variable();
    let named = made_or_from_8(site)?;
    site.set_in_family(key, variable, named)
}

/// An event, another record, or a key that is free.
pub fn root_holds(site: &mut Site, key: Key) -> Option<()> {
    let reference = site.any_reference();
    let held = match site.random.below(4) {
        0 => Some(few(site.random, Key::new, 64)),
        1 => site.record(),
        _ => site.key(|_, slot| matches!(slot, Slot::Past(..))),
    };
    site.hold_in_family(key, reference, held?)
}

pub fn made_itself(site: &mut Site) -> Option<()> {
    let event = site.event(|_| true)?;
    site.edit_memory(event.key, |memory| memory.first = Some(event.key))
}

/// Byte 3 names an event on which this one depends and which is like its
/// continuation: a ring of two or more.
pub fn made_an_ancestor(site: &mut Site) -> Option<()> {
    let mut rings = Vec::new();
    for ancestor in site.events(|_| true) {
        for key in site.dependents(ancestor.key) {
            let continuation = site.net.memory(key)?.first?;
            if site.net.slot(continuation).process() == Some(&ancestor.process) {
                rings.push((key, ancestor.key));
            }
        }
    }
    let (key, ancestor) = site.random.pick(&rings)?;
    site.edit_memory(key, |memory| memory.first = Some(ancestor))
}

/// A read used an equal tuple that stands so to it.
pub fn read_of_another(site: &mut Site, wanted: fn(&Site, Key, Key) -> bool) -> Option<()> {
    let event = site.event(|kind| kind == Kind::Read)?;
    let mut others = site.equal_tuples(event.memory.used?);
    others.retain(|&tuple| wanted(site, event.key, tuple));
    let other = site.random.pick(&others)?;
    site.edit_memory(event.key, |memory| memory.used = Some(other))
}

pub fn is_consumed(site: &Site, _: Key, tuple: Key) -> bool {
    matches!(site.net.slot(tuple), Slot::Consumed(_))
}

/// The event depends on the in that took the tuple.
pub fn taken_before(site: &Site, event: Key, tuple: Key) -> bool {
    site.taker(tuple)
        .is_some_and(|taker| site.dependents(taker).contains(&event))
}

/// A dependent of the event made the tuple.
pub fn made_afterwards(site: &Site, event: Key, tuple: Key) -> bool {
    let mut events = site.net.events();
    let maker = events.find(|(_, _, memory)| memory.made_key(tuple));
    maker.is_some_and(|(maker, _, _)| site.dependents(event).contains(&maker))
}

/// An in used an equal tuple that was live and stands so to it: that one is
/// consumed and the one it used before is live.
pub fn in_of_another_live(site: &mut Site, wanted: fn(&Site, Key, Key) -> bool) -> Option<()> {
    let event = site.event(|kind| kind == Kind::In)?;
    let old = event.memory.used?;
    let mut others = site.equal_tuples(old);
    others.retain(|&tuple| !is_consumed(site, event.key, tuple) && wanted(site, event.key, tuple));
    let other = site.random.pick(&others)?;
    site.set_consumed(old, false)?;
    site.set_consumed(other, true)?;
    site.edit_memory(event.key, |memory| memory.used = Some(other))
}

/// READINGS: "A in t1 then read t2, B in t2 then read t1". Neither read alone
/// makes a cycle.
pub fn crossed(site: &mut Site) -> Option<()> {
    let one = site.event(|kind| kind == Kind::In)?;
    let two = site.event(|kind| kind == Kind::In)?;
    let first = (read_after(site, &one, &two)?, two.memory.used);
    let second = (read_after(site, &two, &one)?, one.memory.used);
    let cyclic = |net: &Net| Dependence::of(site.script, net).cycle().is_some();
    if cyclic(&reading(&site.net, &[first])) || cyclic(&reading(&site.net, &[second])) {
        return None;
    }
    site.net = reading(&site.net, &[first, second]);
    Some(())
}

/// The net in which these reads used these tuples.
fn reading(net: &Net, reads: &[(Key, Option<Key>)]) -> Net {
    let mut net = net.clone();
    for &(read, used) in reads {
        if let Slot::Past(process, mut memory) = net.take(read) {
            memory.used = used;
            net.set(read, Slot::Past(process, memory));
        }
    }
    net
}

/// A read that depends on one in and could have used the tuple of the other.
fn read_after(site: &mut Site, one: &Event, other: &Event) -> Option<Key> {
    let dependents = site.dependents(one.key);
    let alike = site.equal_tuples(other.memory.used?);
    let mut reads = site.events(|kind| kind == Kind::Read);
    reads.retain(|read| {
        let could_use = read.memory.used.is_some_and(|used| alike.contains(&used));
        could_use && dependents.contains(&read.key)
    });
    site.one_of(&reads).map(|read| read.key)
}

/// A live process or tuple of its own, where nothing was.
pub fn new_root(site: &mut Site) -> Option<()> {
    let key = site.free_key()?;
    let locality = site.locality(false, true)?;
    let node = site.any_node();
    site.net.set(key, Slot::Live(fresh_process(locality, node)));
    if site.random.one_in(2) {
        becomes_tuple(site, key)?;
    }
    Some(())
}

/// Two keys change their names, wherever they stand.
pub fn keys_renamed(site: &mut Site) -> Option<()> {
    let one = site.record()?;
    let two = few(site.random, Key::new, 64);
    let swap = |key: Key| match key {
        _ if key == one => two,
        _ if key == two => one,
        _ => key,
    };
    site.net = renamed_by(&site.net, swap);
    Some(())
}

/// A made locality has the name of another, or of one not made.
pub fn localities_renamed(site: &mut Site) -> Option<()> {
    let one = site.locality(true, true)?;
    let two = Locality::new(8 + site.random.below(24) as u32)?;
    let swap = |locality: Locality| match locality {
        _ if locality == one => two,
        _ if locality == two => one,
        _ => locality,
    };
    site.net = with_localities(&site.net, swap);
    Some(())
}

fn with_localities(net: &Net, other: impl Fn(Locality) -> Locality) -> Net {
    let other_datum = |datum: Datum| match datum {
        Datum::Locality(locality) => Datum::Locality(other(locality)),
        datum => datum,
    };
    let mut renamed = Net::empty();
    net.present
        .iter()
        .for_each(|locality| renamed.present.insert(other(locality)));
    for (key, slot) in net.records() {
        let mut slot = slot.clone();
        match &mut slot {
            Slot::Free => {}
            Slot::Live(process) | Slot::Past(process, _) => {
                process.locality = other(process.locality);
                process.variables = process.variables.map(other_datum);
            }
            Slot::Tuple(tuple) | Slot::Consumed(tuple) => {
                tuple.locality = other(tuple.locality);
                tuple.fields.iter_mut().for_each(|f| *f = other_datum(*f));
            }
        }
        if let Slot::Past(_, memory) = &mut slot {
            memory.locality = memory.locality.map(&other);
        }
        renamed.set(key, slot);
    }
    renamed
}
