//! A random walk over a net: requests that make sense, and spoiled ones.

use crate::answer::{Answer, Report};
use crate::machine::take;
use crate::names::{Key, Localities, Locality, NONE};
use crate::net::{Net, Process, Slot};
use crate::random::Random;
use crate::request::{Code, Places, Request};
use crate::rule::{matching, uses_tuple};
use crate::script::{Node, Script};
use crate::script_form::Kind;
use crate::step::{check_forward, get_ready, places_needed};

/// What a walk is inclined to do.
#[derive(Clone, Copy, PartialEq, Eq, Debug)]
pub enum Mood {
    /// Everything.
    Mixed,
    /// Forward, until no key is free.
    Filling,
    /// Mostly back.
    Undoing,
}

/// One request of the walk and what the machine made of it.
pub struct Taken {
    pub bytes: Vec<u8>,
    pub report: Report,
    /// The kind of the node where the key names a process, live or past.
    pub kind: Option<Kind>,
    /// The net before and after.
    pub before: Net,
}

pub struct Walk<'a> {
    pub script: &'a Script,
    pub net: Net,
    pub mood: Mood,
}

impl Walk<'_> {
    /// Chooses a request and takes it.
    pub fn step(&mut self, random: &mut Random) -> Taken {
        let bytes = self.choose(random);
        let before = self.net.clone();
        let kind = kind_at(self.script, &before, bytes[1]);
        let report = self.take(&bytes, random);
        Taken {
            bytes,
            report,
            kind,
            before,
        }
    }

    fn take(&mut self, bytes: &[u8], random: &mut Random) -> Report {
        let Some(request) = Request::read(bytes) else {
            return Report::refused(Answer::BadRequest);
        };
        match take(self.script, &mut self.net, &request, random) {
            Ok(undoing) => Report {
                answer: Answer::Done,
                undone: undoing.undone,
                touched: undoing.touched,
            },
            Err(answer) => Report::refused(answer),
        }
    }

    /// A request that makes sense, or a spoiled one; it is not taken.
    pub fn choose(&self, random: &mut Random) -> Vec<u8> {
        let sensible = self.sensible(random).write().to_vec();
        let spoils = if self.mood == Mood::Filling { 25 } else { 3 };
        if random.one_in(spoils) {
            return self.spoil(sensible, random);
        }
        sensible
    }

    fn sensible(&self, random: &mut Random) -> Request {
        let forward = match self.mood {
            Mood::Mixed => 70,
            Mood::Filling => 98,
            Mood::Undoing => 25,
        };
        if random.below(100) < forward {
            return self.sensible_forward(random);
        }
        match random.below(5) {
            0 | 1 => self.bare(Code::Backward, random),
            2 => self.bare(Code::Rollback, random),
            _ => self.sensible_roll(random),
        }
    }

    /// A live process that can go on, where there is one; sometimes any.
    pub fn sensible_forward(&self, random: &mut Random) -> Request {
        let live = self.keys(|slot| matches!(slot, Slot::Live(_)));
        let requests: Vec<Request> = live
            .iter()
            .filter_map(|&key| self.forward_of(key, random))
            .collect();
        let may_go: Vec<Request> = requests
            .iter()
            .copied()
            .filter(|request| check_forward(self.script, &self.net, request).is_ok())
            .collect();
        let any = random
            .pick(&requests)
            .unwrap_or(Request::bare(Code::Forward, any_key(random)));
        if random.one_in(8) {
            return any;
        }
        random.pick(&may_go).unwrap_or(any)
    }

    /// A forward request of this process, live or past, with the places that
    /// its kind needs.
    pub fn forward_of(&self, key: Key, random: &mut Random) -> Option<Request> {
        let process = self.net.slot(key).process()?;
        let node = self.script.node(process.node);
        Some(Request {
            code: Code::Forward,
            key,
            places: self.places(node, process, random),
        })
    }

    /// Is there nothing left to do but undo?
    pub fn is_stuck(&self, random: &mut Random) -> bool {
        let request = self.sensible_forward(random);
        check_forward(self.script, &self.net, &request).is_err()
    }

    /// The places the kind needs: a tuple that matches, keys and locality
    /// that are fresh, as far as there are any.
    fn places(&self, node: &Node, process: &Process, random: &mut Random) -> Places {
        let [_, first, second, locality] = places_needed(node.kind);
        let mut fresh = self.keys(|slot| *slot == Slot::Free);
        let mut take_fresh = |needed: bool, random: &mut Random| {
            if !needed || fresh.is_empty() {
                return None;
            }
            let at = if random.one_in(2) {
                0
            } else {
                random.below(fresh.len() as u64) as usize
            };
            Some(fresh.remove(at))
        };
        let absent: Vec<Locality> = Locality::all()
            .filter(|&l| !l.is_original() && !self.net.present.contains(l))
            .collect();
        Places {
            tuple: self.matching_tuple(node, process, random),
            first: take_fresh(first, random),
            second: take_fresh(second, random),
            locality: if locality { random.pick(&absent) } else { None },
        }
    }

    fn matching_tuple(&self, node: &Node, process: &Process, random: &mut Random) -> Option<Key> {
        if !uses_tuple(node.kind) {
            return None;
        }
        let tuples = self.keys(|slot| matches!(slot, Slot::Tuple(_)));
        let Ok(ready) = get_ready(node, process, &self.net) else {
            return random.pick(&tuples);
        };
        let fits = |&key: &Key| {
            self.net.slot(key).tuple().is_some_and(|tuple| {
                Some(tuple.locality) == ready.target
                    && matching(&ready.fields, &tuple.fields).is_some()
            })
        };
        let fitting: Vec<Key> = tuples.iter().copied().filter(fits).collect();
        let near = |&key: &Key| self.net.slot(key).locality() == ready.target;
        let at_target: Vec<Key> = tuples.iter().copied().filter(near).collect();
        random
            .pick(&fitting)
            .or(random.pick(&at_target))
            .or(random.pick(&tuples))
    }

    fn bare(&self, code: Code, random: &mut Random) -> Request {
        let events = self.keys(|slot| matches!(slot, Slot::Past(..)));
        match random.pick(&events) {
            Some(event) => Request::bare(code, event),
            None if random.one_in(8) => Request::bare(code, any_key(random)),
            None => self.sensible_forward(random),
        }
    }

    fn sensible_roll(&self, random: &mut Random) -> Request {
        let rolls = self.keys(|slot| match slot {
            Slot::Live(process) => self.script.node(process.node).kind == Kind::Roll,
            _ => false,
        });
        match random.pick(&rolls) {
            Some(key) => Request::bare(Code::Roll, key),
            None if random.one_in(8) => Request::bare(Code::Roll, any_key(random)),
            None => self.bare(Code::Rollback, random),
        }
    }

    fn keys(&self, wanted: impl Fn(&Slot) -> bool) -> Vec<Key> {
        Key::all()
            .filter(|&key| wanted(self.net.slot(key)))
            .collect()
    }

    /// A sensible request with something wrong in one place.
    fn spoil(&self, mut bytes: Vec<u8>, random: &mut Random) -> Vec<u8> {
        let place = random.below(6) as usize;
        match random.below(9) {
            0 => bytes[place] = NONE,
            1 => bytes[place] = random.draw() as u8,
            2 => bytes[place] = random.below(64) as u8,
            3 => bytes[place] = 32 + random.below(40) as u8,
            4 => bytes[0] = random.below(5) as u8,
            5 => bytes[4] = bytes[3],
            6 => bytes[2 + random.below(3) as usize] = self.some_key(random),
            7 => bytes[5] = self.some_locality(random),
            _ => bytes[1] = self.some_key(random),
        }
        bytes
    }

    fn some_key(&self, random: &mut Random) -> u8 {
        let used = self.keys(|slot| *slot != Slot::Free);
        random.pick(&used).map_or(0, Key::byte)
    }

    fn some_locality(&self, random: &mut Random) -> u8 {
        let present: Vec<Locality> = self.net.present.iter().collect();
        random.pick(&present).map_or(7, Locality::byte)
    }
}

fn any_key(random: &mut Random) -> Key {
    Key::new(random.below(64) as u32).expect("below 64")
}

/// The kind of the node where the key names a process, live or past.
pub fn kind_at(script: &Script, net: &Net, key: u8) -> Option<Kind> {
    let key = Key::new(u32::from(key))?;
    let process = net.slot(key).process()?;
    Some(script.node(process.node).kind)
}

/// The localities at which a slot is free that was not: *touched*, told from
/// the two nets alone.
pub fn freed_at(before: &Net, after: &Net) -> Localities {
    let mut freed = Localities::default();
    for (key, slot) in before.records() {
        if let (true, Some(locality)) = (after.is_free(key), slot.locality()) {
            freed.insert(locality);
        }
    }
    freed
}
