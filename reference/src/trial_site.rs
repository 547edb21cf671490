//! An accepted net that is about to be changed: how a change finds its
//! records, and how it edits them.

use crate::accept::is_root;
use crate::dependence::Dependence;
use crate::names::{Key, Locality, NodeName, Reference, Variable};
use crate::net::{Datum, Memory, Net, Process, Slot, Tuple};
use crate::random::Random;
use crate::script::{Field, Node, Script, Target};
use crate::script_form::Kind;

/// A past process.
#[derive(Clone, Debug)]
pub struct Event {
    pub key: Key,
    pub process: Process,
    pub memory: Memory,
    pub kind: Kind,
}

pub struct Site<'a> {
    pub script: &'a Script,
    pub net: Net,
    pub random: &'a mut Random,
}

impl Site<'_> {
    pub fn node(&self, process: &Process) -> &Node {
        self.script.node(process.node)
    }

    /// Every event of a kind that is wanted.
    pub fn events(&self, wanted: impl Fn(Kind) -> bool) -> Vec<Event> {
        let event = |(key, process, memory): (Key, &Process, &Memory)| Event {
            key,
            process: process.clone(),
            memory: *memory,
            kind: self.node(process).kind,
        };
        let events = self.net.events().map(event);
        events.filter(|event| wanted(event.kind)).collect()
    }

    pub fn event(&mut self, wanted: impl Fn(Kind) -> bool) -> Option<Event> {
        let events = self.events(wanted);
        self.one_of(&events)
    }

    /// One of the items, if there is one.
    pub fn one_of<T: Clone>(&mut self, items: &[T]) -> Option<T> {
        let places: Vec<usize> = (0..items.len()).collect();
        self.random.pick(&places).map(|at| items[at].clone())
    }

    /// A key whose slot is wanted.
    pub fn key(&mut self, wanted: impl Fn(Key, &Slot) -> bool) -> Option<Key> {
        let keys: Vec<Key> = Key::all()
            .filter(|&key| wanted(key, self.net.slot(key)))
            .collect();
        self.random.pick(&keys)
    }

    /// A record that nobody made.
    pub fn root(&mut self, wanted: impl Fn(&Slot) -> bool) -> Option<Key> {
        let net = self.net.clone();
        self.key(|key, slot| *slot != Slot::Free && wanted(slot) && is_root(&net, key))
    }

    /// A live process or a tuple in use by nobody: nothing stands on it.
    pub fn idle_root(&mut self) -> Option<Key> {
        let used: Vec<Key> = self
            .net
            .events()
            .filter_map(|(_, _, memory)| memory.used)
            .collect();
        let net = self.net.clone();
        self.key(|key, slot| slot.is_live() && is_root(&net, key) && !used.contains(&key))
    }

    pub fn free_key(&mut self) -> Option<Key> {
        self.key(|_, slot| *slot == Slot::Free)
    }

    pub fn record(&mut self) -> Option<Key> {
        self.key(|_, slot| *slot != Slot::Free)
    }

    /// A locality 8..31 or 0..7, present or absent.
    pub fn locality(&mut self, made: bool, present: bool) -> Option<Locality> {
        let wanted: Vec<Locality> = Locality::all()
            .filter(|&l| l.is_original() != made && self.net.present.contains(l) == present)
            .collect();
        self.random.pick(&wanted)
    }

    pub fn any_locality(&mut self) -> Locality {
        few(self.random, Locality::new, 32)
    }

    pub fn any_variable(&mut self) -> usize {
        self.random.below(Variable::COUNT as u64) as usize
    }

    pub fn any_reference(&mut self) -> usize {
        self.random.below(Reference::COUNT as u64) as usize
    }

    /// Any node, mostly one of the first, which are in use.
    pub fn any_node(&mut self) -> NodeName {
        let count = if self.random.one_in(3) { 64 } else { 12 };
        few(self.random, NodeName::new, count)
    }

    pub fn edit_process(&mut self, key: Key, edit: impl FnOnce(&mut Process)) -> Option<()> {
        let mut slot = self.net.slot(key).clone();
        let (Slot::Live(process) | Slot::Past(process, _)) = &mut slot else {
            return None;
        };
        edit(process);
        self.net.set(key, slot);
        Some(())
    }

    pub fn edit_memory(&mut self, key: Key, edit: impl FnOnce(&mut Memory)) -> Option<()> {
        let mut slot = self.net.slot(key).clone();
        let Slot::Past(_, memory) = &mut slot else {
            return None;
        };
        edit(memory);
        self.net.set(key, slot);
        Some(())
    }

    pub fn edit_tuple(&mut self, key: Key, edit: impl FnOnce(&mut Tuple)) -> Option<()> {
        let mut slot = self.net.slot(key).clone();
        let (Slot::Tuple(tuple) | Slot::Consumed(tuple)) = &mut slot else {
            return None;
        };
        edit(tuple);
        self.net.set(key, slot);
        Some(())
    }

    /// A tuple becomes consumed, or live again.
    pub fn set_consumed(&mut self, key: Key, consumed: bool) -> Option<()> {
        let tuple = self.net.slot(key).tuple()?.clone();
        let slot = if consumed {
            Slot::Consumed(tuple)
        } else {
            Slot::Tuple(tuple)
        };
        self.net.set(key, slot);
        Some(())
    }

    /// The processes that a process made, directly or not, itself included.
    pub fn family(&self, key: Key) -> Vec<Key> {
        let mut family = vec![key];
        let mut at = 0;
        while at < family.len() {
            if let Some(memory) = self.net.memory(family[at]) {
                let made = memory.made().filter(|&key| !family.contains(&key));
                let processes: Vec<Key> = made
                    .filter(|&key| self.net.slot(key).process().is_some())
                    .collect();
                family.extend(processes);
            }
            at += 1;
        }
        family
    }

    /// The record that nobody made from which this one came.
    pub fn ancestor(&self, key: Key) -> Key {
        let mut ancestor = key;
        for _ in 0..Key::COUNT {
            let maker = self
                .net
                .events()
                .find(|(_, _, memory)| memory.made_key(ancestor));
            match maker {
                Some((maker, _, _)) => ancestor = maker,
                None => break,
            }
        }
        ancestor
    }

    /// Changes a variable in a process and in all it made that have it still.
    pub fn set_in_family(&mut self, key: Key, variable: usize, datum: Datum) -> Option<()> {
        let old = self.net.slot(key).process()?.variables[variable];
        for member in self.family(key) {
            self.edit_process(member, |process| {
                if process.variables[variable] == old {
                    process.variables[variable] = datum;
                }
            })?;
        }
        (old != datum).then_some(())
    }

    /// Changes a reference in a process and in all it made that have it still.
    pub fn hold_in_family(&mut self, key: Key, reference: usize, held: Key) -> Option<()> {
        let old = self.net.slot(key).process()?.references[reference];
        for member in self.family(key) {
            self.edit_process(member, |process| {
                if process.references[reference] == old {
                    process.references[reference] = Some(held);
                }
            })?;
        }
        (old != Some(held)).then_some(())
    }

    /// The events that depend on this one, itself left out.
    pub fn dependents(&self, event: Key) -> Vec<Key> {
        let dependents = Dependence::of(self.script, &self.net).dependents(event);
        dependents.iter().filter(|&other| other != event).collect()
    }

    /// Other tuples with the same fields at the same locality.
    pub fn equal_tuples(&self, tuple: Key) -> Vec<Key> {
        let wanted = self.net.slot(tuple).tuple();
        Key::all()
            .filter(|&key| key != tuple && wanted.is_some() && self.net.slot(key).tuple() == wanted)
            .collect()
    }

    /// The event that took a tuple.
    pub fn taker(&self, tuple: Key) -> Option<Key> {
        let mut ins = self.events(|kind| kind == Kind::In).into_iter();
        let taker = ins.find(|event| event.memory.used == Some(tuple))?;
        Some(taker.key)
    }

    /// The variable that an event looked its target up in.
    pub fn target_variable(&self, event: &Event) -> Option<usize> {
        match self.node(&event.process).target? {
            Target::Variable(x) if event.kind != Kind::Newloc => Some(x.index()),
            _ => None,
        }
    }

    /// A variable that is an actual field of the event.
    pub fn field_variable(&mut self, event: &Event) -> Option<usize> {
        let named: Vec<usize> = self
            .node(&event.process)
            .fields
            .iter()
            .filter_map(|field| match field {
                Field::Variable(x) => Some(x.index()),
                _ => None,
            })
            .collect();
        self.random.pick(&named)
    }
}

pub fn few<T>(random: &mut Random, name: fn(u32) -> Option<T>, count: u64) -> T {
    name(random.below(count) as u32).expect("there are so many names")
}

/// The same number under another tag; unset has number 0.
pub fn other_tag(random: &mut Random, datum: Datum) -> Option<Datum> {
    let number = match datum {
        Datum::Unset => 0,
        Datum::Value(number) => number,
        Datum::Locality(locality) => u32::from(locality.byte()),
    };
    let unset = Some(Datum::Unset).filter(|_| number == 0);
    let all = [
        unset,
        Some(Datum::Value(number)),
        Locality::new(number).map(Datum::Locality),
    ];
    let others: Vec<Datum> = all
        .into_iter()
        .flatten()
        .filter(|&other| other != datum)
        .collect();
    random.pick(&others)
}

/// Another number under the same tag: one bit of the value, another locality.
pub fn other_number(random: &mut Random, datum: Datum) -> Option<Datum> {
    match datum {
        Datum::Unset => None,
        Datum::Value(number) => Some(Datum::Value(number ^ (1 << random.below(32)))),
        Datum::Locality(locality) => {
            let number = u32::from(locality.byte()) ^ (1 << random.below(5));
            Locality::new(number).map(Datum::Locality)
        }
    }
}
