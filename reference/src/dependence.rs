//! Document 01, "Backward steps and dependence": who depends on whom.

use crate::fault::{seeded, Fault};
use crate::names::{Key, Keys};
use crate::net::{Memory, Net, Process};
use crate::script::Script;
use crate::script_form::Kind;

/// Direct dependence, for every pair of events.
pub struct Dependence {
    /// At e: the events that depend directly on e.
    on: Vec<Keys>,
    events: Keys,
}

impl Dependence {
    pub fn of(script: &Script, net: &Net) -> Dependence {
        let mut on = vec![Keys::default(); Key::COUNT];
        let events: Vec<Event> = net
            .events()
            .map(|event| Event::new(script, event))
            .collect();
        for e in &events {
            for f in &events {
                if f.depends_directly_on(e) {
                    on[e.key.index()].insert(f.key);
                }
            }
        }
        Dependence {
            on,
            events: net.event_keys(),
        }
    }

    /// The events that depend directly on `event`.
    pub fn directly_on(&self, event: Key) -> Keys {
        self.on[event.index()]
    }

    /// "Dependents of e: all reached in any number of direct steps, e
    /// included."
    pub fn dependents(&self, event: Key) -> Keys {
        let mut reached = Keys::default();
        reached.insert(event);
        loop {
            let mut wider = reached;
            for e in reached.iter() {
                wider.0 |= self.directly_on(e).0;
            }
            if wider == reached {
                return reached;
            }
            reached = wider;
        }
    }

    /// An event that is on a cycle, or that everything left depends on in a
    /// cycle: found by taking away, as long as there is one, an event on which
    /// no event left depends.
    pub fn cycle(&self) -> Option<Key> {
        let mut left = self.events;
        while !left.is_empty() {
            let last = left.iter().find(|&e| !self.holds_up(e, left));
            match last {
                Some(event) => left.remove(event),
                None => return left.iter().next(),
            }
        }
        None
    }

    fn holds_up(&self, e: Key, left: Keys) -> bool {
        let mut on_e = Keys(self.directly_on(e).0 & left.0);
        if seeded(Fault::SelfLoopIsNoCycle) {
            on_e.remove(e);
        }
        !on_e.is_empty()
    }
}

/// Why f depends directly on e: each clause that holds, in words.
pub fn reasons(script: &Script, net: &Net, f: Key, e: Key) -> Vec<String> {
    let event = |key: Key| {
        let found = net.events().find(|&(event, _, _)| event == key)?;
        Some(Event::new(script, found))
    };
    let (Some(f), Some(e)) = (event(f), event(e)) else {
        return Vec::new();
    };
    let tuple = f.memory.used.map_or(String::new(), |key| key.to_string());
    let mut reasons = Vec::new();
    if e.made_key_of(&f) {
        reasons.push("made".to_string());
    }
    if e.made_tuple_of(&f) {
        reasons.push(format!("made tuple {tuple}"));
    }
    if e.read_before(&f) {
        reasons.push(format!("read tuple {tuple}"));
    }
    reasons
}

/// An event with what its dependence needs.
struct Event<'net> {
    key: Key,
    kind: Kind,
    memory: &'net Memory,
}

impl<'net> Event<'net> {
    fn new(script: &Script, (key, process, memory): (Key, &Process, &'net Memory)) -> Event<'net> {
        Event {
            key,
            kind: script.node(process.node).kind,
            memory,
        }
    }

    /// "Event f depends directly on event e when e made f's key; or e made
    /// the tuple that f used; or f is an in of the tuple that the past read e
    /// used."
    fn depends_directly_on(&self, e: &Event) -> bool {
        e.made_key_of(self) || e.made_tuple_of(self) || e.read_before(self)
    }

    fn made_key_of(&self, f: &Event) -> bool {
        self.memory.made_key(f.key)
    }

    fn made_tuple_of(&self, f: &Event) -> bool {
        !seeded(Fault::DependenceWithoutTuples)
            && f.memory
                .used
                .is_some_and(|tuple| self.memory.made_key(tuple))
    }

    fn read_before(&self, f: &Event) -> bool {
        !seeded(Fault::LeaveInAfterRead)
            && self.kind == Kind::Read
            && f.kind == Kind::In
            && f.memory.used.is_some()
            && self.memory.used == f.memory.used
    }
}
