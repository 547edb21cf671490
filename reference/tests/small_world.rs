//! "The accepted nets are exactly those that forward steps reach from
//! accepted nets with no past process": for a few small scripts, every net
//! over three or four keys is looked at, and the accepted ones are compared
//! with the reached ones.

use reference::accept::first_broken_clause;
use reference::machine::take;
use reference::names::{Key, Localities, Locality, NodeName};
use reference::net::{Datum, Memory, Net, Process, Slot, Tuple};
use reference::random::Random;
use reference::request::{Code, Places, Request};
use reference::script::Script;
use reference::script_form::Kind;
use reference::text_read::make;
use std::collections::BTreeSet;

/// What a slot may hold in a small world.
struct World {
    script: Script,
    keys: Vec<Key>,
    nodes: Vec<NodeName>,
    localities: Vec<Locality>,
    data: Vec<Datum>,
    held: Vec<Option<Key>>,
}

impl World {
    /// A script of so many nodes over so many keys. `newloc`: there is
    /// locality 8, and variable 0 may name it. `references`: reference 0 may
    /// hold a key.
    fn new(text: &str, nodes: u32, keys: u32, newloc: bool, references: bool) -> World {
        let bytes = make(&format!("script\n{text}")).expect("good text");
        let keys: Vec<Key> = (0..keys).filter_map(Key::new).collect();
        let second = Locality::new(8).filter(|_| newloc);
        World {
            script: Script::read(&bytes).expect("a good script"),
            nodes: (0..nodes).filter_map(NodeName::new).collect(),
            localities: Locality::new(0).into_iter().chain(second).collect(),
            data: [Datum::Unset]
                .into_iter()
                .chain(second.map(Datum::Locality))
                .collect(),
            held: match references {
                true => [None]
                    .into_iter()
                    .chain(keys.iter().copied().map(Some))
                    .collect(),
                false => vec![None],
            },
            keys,
        }
    }

    fn processes(&self) -> Vec<Process> {
        let mut processes = Vec::new();
        for &locality in &self.localities {
            for &node in &self.nodes {
                for &datum in &self.data {
                    for &held in &self.held {
                        let mut variables = [Datum::Unset; 8];
                        variables[0] = datum;
                        let references = [held, None, None, None];
                        processes.push(Process {
                            locality,
                            node,
                            variables,
                            references,
                        });
                    }
                }
            }
        }
        processes
    }

    /// Memories that hold the places of the kind.
    fn memories(&self, kind: Kind) -> Vec<Memory> {
        let mut memories = Vec::new();
        for &key in &self.keys {
            let first = Memory {
                first: Some(key),
                ..Memory::default()
            };
            if kind == Kind::Newloc {
                let made = |&locality: &Locality| Memory {
                    locality: Some(locality),
                    ..first
                };
                memories.extend(self.localities.iter().map(made));
                continue;
            }
            let uses = matches!(kind, Kind::In | Kind::Read);
            let more = |&other: &Key| Memory {
                second: Some(other).filter(|_| !uses),
                used: Some(other).filter(|_| uses),
                ..first
            };
            memories.extend(self.keys.iter().map(more));
        }
        memories
    }

    fn slots(&self) -> Vec<Slot> {
        let mut slots = vec![Slot::Free];
        for &locality in &self.localities {
            let tuple = Tuple {
                locality,
                fields: vec![Datum::Value(1)],
            };
            slots.extend([Slot::Tuple(tuple.clone()), Slot::Consumed(tuple)]);
        }
        for process in self.processes() {
            let kind = self.script.node(process.node).kind;
            for memory in self.memories(kind) {
                slots.push(Slot::Past(process.clone(), memory));
            }
            slots.push(Slot::Live(process));
        }
        slots
    }

    /// Every net of this world, one after the other.
    fn every_net(&self, mut look: impl FnMut(&Net)) {
        let slots = self.slots();
        for present in 0..1 << self.localities.len() {
            let mut net = Net::empty();
            net.present = self.present(present);
            self.fill(&slots, 0, &mut net, &mut look);
        }
    }

    fn present(&self, bits: u32) -> Localities {
        let mut present = Localities::default();
        for (i, &locality) in self.localities.iter().enumerate() {
            if bits & (1 << i) != 0 {
                present.insert(locality);
            }
        }
        present
    }

    fn fill(&self, slots: &[Slot], at: usize, net: &mut Net, look: &mut impl FnMut(&Net)) {
        if at == self.keys.len() {
            look(net);
            return;
        }
        for slot in slots {
            net.set(self.keys[at], slot.clone());
            self.fill(slots, at + 1, net, look);
        }
    }

    fn accepted(&self) -> BTreeSet<Vec<u8>> {
        let mut accepted = BTreeSet::new();
        self.every_net(|net| {
            if first_broken_clause(&self.script, net).is_none() {
                accepted.insert(net.write());
            }
        });
        accepted
    }

    /// All that forward steps reach from the accepted nets with no past.
    fn reached(&self, accepted: &BTreeSet<Vec<u8>>) -> BTreeSet<Vec<u8>> {
        let read = |bytes: &Vec<u8>| Net::read(bytes).expect("a net of the form");
        let mut reached: BTreeSet<Vec<u8>> = accepted
            .iter()
            .filter(|bytes| read(bytes).event_keys().is_empty())
            .cloned()
            .collect();
        let mut new: Vec<Vec<u8>> = reached.iter().cloned().collect();
        while let Some(bytes) = new.pop() {
            for after in self.steps(&read(&bytes)) {
                if reached.insert(after.clone()) {
                    new.push(after);
                }
            }
        }
        reached
    }

    /// What every forward request within this world gives.
    fn steps(&self, net: &Net) -> Vec<Vec<u8>> {
        let keys = || {
            [None]
                .into_iter()
                .chain(self.keys.iter().copied().map(Some))
        };
        let localities = || {
            [None]
                .into_iter()
                .chain(self.localities.iter().copied().map(Some))
        };
        let mut nets = Vec::new();
        for &key in &self.keys {
            for first in keys() {
                for (tuple, second) in keys().map(|k| (k, None)).chain(keys().map(|k| (None, k))) {
                    for locality in localities() {
                        let places = Places {
                            tuple,
                            first,
                            second,
                            locality,
                        };
                        let request = Request {
                            code: Code::Forward,
                            key,
                            places,
                        };
                        let mut after = net.clone();
                        if take(&self.script, &mut after, &request, &mut Random::new(0)).is_ok() {
                            nets.push(after.write());
                        }
                    }
                }
            }
        }
        nets
    }

    /// Compares, and gives how many nets are accepted.
    fn check(&self) -> usize {
        let accepted = self.accepted();
        let reached = self.reached(&accepted);
        assert_eq!(
            reached.difference(&accepted).count(),
            0,
            "reached and not accepted"
        );
        assert_eq!(
            accepted.difference(&reached).count(),
            0,
            "accepted and not reached"
        );
        accepted.len()
    }
}

#[test]
fn accepted_is_reached_out_and_in() {
    let world = World::new(
        "node 0 out(1)@l0 then 1\nnode 1 in(1)@l0 then 1",
        2,
        4,
        false,
        false,
    );
    assert!(world.check() > 100);
}

#[test]
fn accepted_is_reached_read_and_in() {
    let world = World::new(
        "node 0 read(1)@l0 then 1\nnode 1 in(1)@l0 then 0",
        2,
        4,
        false,
        false,
    );
    assert!(world.check() > 100);
}

#[test]
fn accepted_is_reached_split_and_eval() {
    let text = "node 0 split(1, 0)\nnode 1 eval(0)@l0 then 1";
    assert!(World::new(text, 2, 4, false, false).check() > 10);
}

#[test]
fn accepted_is_reached_newloc_and_eval_there() {
    let text = "node 0 newloc(x0) then 1\nnode 1 eval(1)@x0 then 0";
    assert!(World::new(text, 2, 3, true, false).check() > 10);
}

#[test]
fn accepted_is_reached_newloc_and_out_there() {
    let text = "node 0 newloc(x0) then 1\nnode 1 out(1)@x0 then 0";
    assert!(World::new(text, 2, 3, true, false).check() > 10);
}

#[test]
fn accepted_is_reached_references() {
    let text = "node 0 eval(1)@l0 as r0 then 1\nnode 1 out(1)@l0 then 0";
    assert!(World::new(text, 2, 3, false, true).check() > 10);
}

#[test]
fn accepted_is_reached_references_of_reads_and_ins() {
    let text = "node 0 read(1)@l0 as r0 then 1\nnode 1 in(1)@l0 as r0 then 0";
    assert!(World::new(text, 2, 3, false, true).check() > 10);
}
