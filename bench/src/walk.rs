//! A walk over a net: forward steps of every kind, backward steps, rollbacks
//! and rolls by turns, from a nearly empty net to a full one and back, again
//! and again. Nearly every request is one that the second program does; some
//! are tried without a look at the net.

use crate::images::Images;
use reference::answer::Answer;
use reference::dependence::Dependence;
use reference::machine::take;
use reference::names::Key;
use reference::net::{Net, Slot};
use reference::random::Random;
use reference::request::{Code, Request, REQUEST_LENGTH};
use reference::script::Script;
use reference::script_form::{Kind, SCRIPT_LENGTH};
use reference::step::undoable;
use reference::text_read::make;
use reference::walk::{kind_at, Mood, Walk};
use std::collections::BTreeMap;
use std::fmt;
use Wish::{Attempt, Backward, Forward, Roll, Rollback};

/// A script without an end, and a net of two processes and a tuple. Tuples are
/// read and then taken, by their maker and by others; localities are made,
/// lived at and named; rolls go back to a newloc or to an out.
const START: &str = "script
    node 0 out(1, l0, 5, l2)@l0 as r0 then 1
    node 1 read(1, !u1, !x0, l2)@l0 then 2
    node 2 newloc(x2) as r1 then 3
    node 3 eval(8)@x2 then 4
    node 4 out(x0, x2)@x1 then 5
    node 5 split(6, 7)
    node 6 in(5, !u3)@l0 as r2 then 0
    node 7 split(14, 12)
    node 8 out(2)@x2 as r3 then 9
    node 9 read(!x4)@x2 then 10
    node 10 in(x4)@x2 then 11
    node 11 split(13, 8)
    node 12 roll(r1)
    node 13 roll(r3)
    node 14 in(1, l0, !x5, !u6)@l0 then 0
    net
    present l0 l1 l2
    key 0 live node 0 at l0
    key 1 live node 0 at l1
    key 2 tuple (1, l0, 5, l2) at l0";

/// A net is full from so many records on, and nearly empty up to so many.
const FULL: usize = 60;
const NEARLY_EMPTY: usize = 6;

/// What is wished for next.
#[derive(Clone, Copy)]
enum Wish {
    Forward,
    Backward,
    Rollback,
    Roll,
    /// A step of any process with the key of any record, or back from any
    /// event, whatever stands in its way.
    Attempt,
}

/// Where the walk is going. A wish stands in the list as often as it is
/// likely; rollbacks and rolls that undo more are left alone.
struct Way {
    wishes: [Wish; 16],
    most_undone: u32,
}

const UP: Way = Way {
    wishes: [
        Forward, Forward, Forward, Forward, Forward, Forward, Forward, Forward, Forward, Forward,
        Forward, Backward, Backward, Rollback, Roll, Attempt,
    ],
    most_undone: 6,
};

const DOWN: Way = Way {
    wishes: [
        Forward, Forward, Forward, Forward, Backward, Backward, Backward, Backward, Backward,
        Backward, Rollback, Rollback, Rollback, Roll, Roll, Attempt,
    ],
    most_undone: 16,
};

/// The words for what is done: forward by the kind of the node, and back.
const DONE: [&str; 9] = [
    "out", "in", "read", "newloc", "eval", "split", "backward", "rollback", "roll",
];

/// A walk that ends in the net that it began with.
pub struct Walked {
    pub images: Images,
    pub requests: Vec<u8>,
    pub made_up: MadeUp,
}

/// What a walk is made up of.
#[derive(Default)]
pub struct MadeUp {
    pub requests: u64,
    /// Of the nets before each request.
    records: u64,
    /// How often the net became full.
    pub times_full: u64,
    /// How many requests were done, by its word.
    pub done: BTreeMap<&'static str, u64>,
    /// How many events these undid, by its word.
    undone: BTreeMap<&'static str, u64>,
    /// How many were refused, by the answer's number.
    pub refused: BTreeMap<u8, u64>,
}

impl MadeUp {
    fn count(&mut self, records: usize, word: &'static str, answer: Result<u32, Answer>) {
        self.requests += 1;
        self.records += records as u64;
        match answer {
            Ok(undone) => {
                *self.done.entry(word).or_default() += 1;
                *self.undone.entry(word).or_default() += u64::from(undone);
            }
            Err(answer) => *self.refused.entry(answer.number()).or_default() += 1,
        }
    }
}

impl fmt::Display for MadeUp {
    fn fmt(&self, f: &mut fmt::Formatter) -> fmt::Result {
        let mean = self.records as f64 / self.requests as f64;
        let done = DONE.map(|word| {
            let of = |counts: &BTreeMap<_, _>| counts.get(word).copied().unwrap_or(0);
            match (of(&self.done), of(&self.undone)) {
                (count, 0) => format!("{count} {word}"),
                (count, undone) if count == undone => format!("{count} {word}"),
                (count, undone) => format!("{count} {word} (of {undone})"),
            }
        });
        let refused = self.refused.iter();
        let refused = refused.map(|(number, count)| format!("{count} with {number}"));
        write!(
            f,
            "{} requests, {mean:.0} records on average, {} times up to {FULL} or more and down to \
             {NEARLY_EMPTY} or fewer;\ndone: {};\nrefused: {}",
            self.requests,
            self.times_full,
            done.join(", "),
            refused.collect::<Vec<String>>().join(", ")
        )
    }
}

/// So many requests, and those that then undo all that is left.
pub fn walk(seed: u64, requests: usize) -> Walked {
    let bytes = make(START).expect("the start is good text");
    let (script, net) = bytes.split_at(SCRIPT_LENGTH);
    let images = Images {
        script: script.to_vec(),
        net: net.to_vec(),
    };
    let script = Script::read(script).expect("the start's script has the form");
    let mut walker = Walker {
        walk: Walk {
            script: &script,
            net: Net::read(net).expect("the start's net has the form"),
            mood: Mood::Mixed,
        },
        random: Random::new(seed),
        requests: Vec::new(),
        made_up: MadeUp::default(),
    };
    let mut up = true;
    while walker.requests.len() < requests * REQUEST_LENGTH {
        if up && walker.records() >= FULL {
            walker.made_up.times_full += 1;
            up = false;
        } else if walker.records() <= NEARLY_EMPTY {
            up = true;
        }
        walker.go(if up { &UP } else { &DOWN });
    }
    walker.go_home();
    Walked {
        images,
        requests: walker.requests,
        made_up: walker.made_up,
    }
}

struct Walker<'a> {
    walk: Walk<'a>,
    random: Random,
    requests: Vec<u8>,
    made_up: MadeUp,
}

impl Walker<'_> {
    fn records(&self) -> usize {
        self.walk.net.records().count()
    }

    /// The next request, chosen and put to the net: as wished, or forward
    /// where that cannot be.
    fn go(&mut self, way: &Way) {
        let wish = self.random.pick(&way.wishes).expect("there are sixteen");
        let wished = match wish {
            Forward => None,
            Backward => self.backward(),
            Rollback => self.rollback(way.most_undone),
            Roll => self.roll(way.most_undone),
            Attempt => self.attempt(),
        };
        let forward = self.walk.sensible_forward(&mut self.random);
        self.ask(&wished.unwrap_or(forward));
    }

    /// Undoes what is left, event by event.
    fn go_home(&mut self) {
        while let Some(request) = self.backward() {
            self.ask(&request);
        }
    }

    fn ask(&mut self, request: &Request) {
        let Walk { script, net, .. } = &mut self.walk;
        let bytes = request.write();
        let records = net.records().count();
        let word = match (request.code, kind_at(script, net, bytes[1])) {
            (Code::Forward, kind) => kind.map_or("forward", Kind::word),
            (Code::Backward, _) => "backward",
            (Code::Rollback, _) => "rollback",
            (Code::Roll, _) => "roll",
        };
        let answer = take(script, net, request, &mut self.random);
        let answer = answer.map(|undoing| undoing.undone);
        self.made_up.count(records, word, answer);
        self.requests.extend(bytes);
    }

    fn keys(&self, wanted: impl Fn(Key, &Slot) -> bool) -> Vec<Key> {
        let records = self.walk.net.records();
        let wanted = records.filter(|(key, slot)| wanted(*key, slot));
        wanted.map(|(key, _)| key).collect()
    }

    fn backward(&mut self) -> Option<Request> {
        let Walk {
            script, ref net, ..
        } = self.walk;
        let events = self.keys(|key, _| undoable(script, net, key));
        let event = self.random.pick(&events)?;
        Some(Request::bare(Code::Backward, event))
    }

    fn rollback(&mut self, most_undone: u32) -> Option<Request> {
        let Walk {
            script, ref net, ..
        } = self.walk;
        let dependence = Dependence::of(script, net);
        let events = self.keys(|key, slot| match slot {
            Slot::Past(process, _) => {
                script.node(process.node).kind != Kind::Split
                    && dependence.dependents(key).len() <= most_undone
            }
            _ => false,
        });
        let event = self.random.pick(&events)?;
        Some(Request::bare(Code::Rollback, event))
    }

    fn roll(&mut self, most_undone: u32) -> Option<Request> {
        let Walk {
            script, ref net, ..
        } = self.walk;
        let dependence = Dependence::of(script, net);
        let rolls = self.keys(|_, slot| match slot {
            Slot::Live(process) => {
                let node = script.node(process.node);
                let held = node.reference.and_then(|r| process.references[r.index()]);
                node.kind == Kind::Roll
                    && held.is_some_and(|event| dependence.dependents(event).len() <= most_undone)
            }
            _ => false,
        });
        let roll = self.random.pick(&rolls)?;
        Some(Request::bare(Code::Roll, roll))
    }

    fn attempt(&mut self) -> Option<Request> {
        let processes = self.keys(|_, slot| slot.process().is_some());
        let key = self.random.pick(&processes)?;
        if !self.walk.net.slot(key).is_live() {
            return Some(Request::bare(Code::Backward, key));
        }
        let mut request = self.walk.forward_of(key, &mut self.random)?;
        let places = &mut request.places;
        let of_a_record = match places.tuple {
            Some(_) => &mut places.tuple,
            None => &mut places.first,
        };
        if of_a_record.is_some() {
            let records: Vec<Key> = self.walk.net.records().map(|(key, _)| key).collect();
            *of_a_record = self.random.pick(&records);
        }
        Some(request)
    }
}

#[cfg(test)]
mod tests {
    use super::*;
    use rewind::call;

    #[test]
    fn a_walk_has_every_kind_and_every_code_from_nearly_empty_to_full_and_back() {
        let made_up = walk(5, 20_000).made_up;
        assert_eq!(made_up.done.len(), DONE.len());
        assert!(DONE.iter().all(|word| made_up.done[word] > 200));
        assert!(made_up.times_full > 50);
        let refused: u64 = made_up.refused.values().sum();
        assert!((1..made_up.requests / 8).contains(&refused));
    }

    #[test]
    fn a_walk_ends_where_it_began() {
        let walked = walk(6, 5_000);
        let mut net = walked.images.net.clone();
        let mut left = false;
        for request in walked.requests.chunks(REQUEST_LENGTH) {
            call(&walked.images.script, &mut net, request);
            left |= net != walked.images.net;
        }
        assert!(left && net == walked.images.net);
    }
}
