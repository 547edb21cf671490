//! The scripts and nets of a trial stream: nets with a history, small, half
//! full and full, under document 01's T and scripts with every kind of node;
//! and small nets made by hand.

use crate::accept::Clause;
use crate::arbitrary::{crowd, crowd_at, script_without_purpose, PURPOSES};
use crate::cases::T;
use crate::damage::rename;
use crate::names::{Key, NodeName};
use crate::net::{Datum, Net, Slot};
use crate::random::Random;
use crate::recipes::RECIPES;
use crate::script::{Node, Script};
use crate::script_form::{Kind, SCRIPT_LENGTH};
use crate::text_read::make;
use crate::walk::{Mood, Walk};
use std::collections::BTreeSet;

/// Every kind of node, with and without reference; and nodes that come back
/// to themselves, whose continuations are like them to the byte: there, one
/// changed key is enough for a cycle.
pub const LOOPS: &str = "script
    node 1 out(1)@l0 then 1
    node 2 in(1)@l0 then 2
    node 3 read(1)@l0 then 3
    node 4 newloc(x1) then 4
    node 5 eval(5)@l0 then 5
    node 6 split(6, 6)
    node 7 split(1, 2)
    node 8 split(3, 2)
    node 9 out(2)@l5 as r0 then 10
    node 10 eval(17)@l6 as r1 then 11
    node 11 newloc(x2) as r2 then 12
    node 12 eval(9)@x2 as r3 then 13
    node 13 out(x3, x2)@x2 as r0 then 14
    node 14 read(!x4, !u5)@x2 as r1 then 15
    node 15 in(x4, !u6)@x2 as r2 then 16
    node 16 roll(r0)
    node 17 read(!x3)@l0 as r0 then 18
    node 18 out(x3)@l0 as r0 then 19
    node 19 in(!x0)@l0 as r3 then 20
    node 20 split(17, 21)
    node 21 in(2)@l5 then 22
    node 22 out(1, 2, 3, x4)@l0 as r2 then 23
    node 23 in(!x0, 2, !x1, x4)@l0 then 24
    node 24 eval(3)@x7 then 25
    node 25 out(x7)@x6 then 0
    node 26 in(1)@l0 then 3
    node 27 read(1)@l0 then 1
    node 28 in(1)@l0 then 1
    node 29 read(!x0, x0)@l1 then 22";

/// Tuples that are all alike, put out, read and taken by turns, so that an
/// event could as well have used the tuple of another.
pub const ALIKE: &str = "script
    node 0 in(1)@l0 then 1
    node 1 read(1)@l0 then 2
    node 2 out(1)@l0 then 0
    node 3 split(0, 1)
    node 4 read(1)@l0 as r0 then 0
    node 5 eval(3)@l7 then 5
    node 6 eval(1)@l0 as r1 then 1
    node 7 split(1, 1)
    node 8 eval(0)@l0 then 0
    node 9 out(x0)@x1 then 10
    node 10 in(x0)@x1 then 11
    node 11 eval(9)@x1 as r2 then 9
    node 12 out(1)@l6 then 5
    node 13 newloc(x1) as r3 then 9
    node 14 roll(r1)";

/// A script, a net and requests by hand, for each reason of each check.
pub const REQUESTS: &str = include_str!("../examples/trial_requests.txt");

/// The scripts of a stream: T, the loops, the tuples that are alike, those
/// with a purpose, and others from the seed, with every kind of node, under
/// which nets grow full.
pub fn scripts(random: &mut Random) -> Vec<Script> {
    let with_purpose = PURPOSES.iter().filter(|&&text| text != T);
    let texts = [T, LOOPS, ALIKE].into_iter().chain(with_purpose.copied());
    let mut scripts: Vec<Script> = texts.map(written).collect();
    scripts.extend((0..5).map(|_| lively_script(random)));
    scripts
}

fn written(text: &str) -> Script {
    let bytes = make(text).expect("the scripts are good text");
    Script::read(&bytes).expect("the scripts have the form")
}

fn lively_script(random: &mut Random) -> Script {
    loop {
        let script = script_without_purpose(random);
        if has_every_kind(&script) && grows_full(random, &script) {
            return script;
        }
    }
}

fn has_every_kind(script: &Script) -> bool {
    let has = |kind: Kind| NodeName::all().any(|name| script.node(name).kind == kind);
    Kind::ALL.into_iter().all(has)
}

/// A full net with events of most kinds.
fn grows_full(random: &mut Random, script: &Script) -> bool {
    let net = history(random, script, Key::COUNT);
    let kinds: BTreeSet<Kind> = net
        .events()
        .map(|(_, process, _)| script.node(process.node).kind)
        .collect();
    net.records().count() >= 60 && kinds.len() >= 5
}

/// Nets of this script with a history: small, half full and full, out of one
/// root or several; and one that starts with a process at every node.
pub fn histories(random: &mut Random, script: &Script) -> Vec<Net> {
    let mut nets: Vec<Net> = [12, 24, 40, Key::COUNT]
        .into_iter()
        .map(|aim| history(random, script, aim))
        .collect();
    nets.push(from_every_node(random, script));
    nets
}

/// A net with about so many records that a walk came to, its keys renamed. A
/// script whose processes soon end needs more of them to start from.
fn history(random: &mut Random, script: &Script, aim: usize) -> Net {
    let least = random.below(aim as u64 / 6 + 1) as usize;
    let mut best = Net::empty();
    for roots in [1, 2, 4, 8, 12, 16, 20] {
        if roots < least {
            continue;
        }
        let present = some_localities(random);
        let start = crowd(random, script, present, roots, roots);
        let net = filled(random, script, start, aim);
        if records_and_events(&net, aim) > records_and_events(&best, aim) {
            best = net;
        }
        if best.records().count() >= aim && 4 * best.events().count() >= aim {
            break;
        }
    }
    rename(random, &best)
}

/// How far a net has grown: records as far as they are wanted, and events.
fn records_and_events(net: &Net, aim: usize) -> usize {
    net.records().count().min(aim) + 2 * net.events().count()
}

fn from_every_node(random: &mut Random, script: &Script) -> Net {
    let mut nodes: Vec<NodeName> = NodeName::all()
        .filter(|&name| script.node(name).kind != Kind::Nil)
        .collect();
    while nodes.len() > 28 {
        nodes.swap_remove(random.below(nodes.len() as u64) as usize);
    }
    let start = crowd_at(random, script, u8::MAX, &nodes, 12);
    let net = filled(random, script, start, Key::COUNT);
    rename(random, &net)
}

/// All of the localities 0..7, or a few with 0 among them.
pub fn some_localities(random: &mut Random) -> u8 {
    let few = (random.draw() & random.draw()) as u8 | 1;
    random.pick(&[few, u8::MAX]).unwrap_or(few)
}

/// The net in which every other live process has no variable set.
pub fn unset_in_half(random: &mut Random, net: &Net) -> Net {
    let mut changed = net.clone();
    for (key, slot) in net.records() {
        if let (Slot::Live(process), true) = (slot, random.one_in(2)) {
            let mut process = process.clone();
            process.variables.fill(Datum::Unset);
            changed.set(key, Slot::Live(process));
        }
    }
    changed
}

fn filled(random: &mut Random, script: &Script, net: Net, aim: usize) -> Net {
    let mut walk = Walk {
        script,
        net,
        mood: Mood::Filling,
    };
    for _ in 0..2 * aim {
        if walk.net.records().count() >= aim {
            break;
        }
        walk.step(random);
    }
    walk.net
}

/// A small net made by hand, and the one clause that it breaks; none where it
/// is accepted.
pub struct HandMade {
    pub broken: Option<Clause>,
    pub text: &'static str,
}

/// Nets made by hand that stand under one script.
pub struct Collection {
    pub script: Script,
    pub nets: Vec<(Option<Clause>, Net)>,
    /// How many nodes of the script are in use.
    used: usize,
}

impl Collection {
    fn empty() -> Collection {
        Collection {
            script: Script::empty(),
            nets: Vec::new(),
            used: 1,
        }
    }

    /// Takes the nodes of a hand-made net into the common script, under other
    /// names, as long as there are names. Node 0 stays nil.
    fn take(&mut self, broken: Option<Clause>, text: &str) -> bool {
        let (script, mut net) = images(text);
        let named = nodes_named(&script, &net);
        if self.used + named.len() > NodeName::COUNT {
            return false;
        }
        let first = self.used;
        let other = |name: NodeName| match named.iter().position(|&n| n == name) {
            Some(at) => NodeName::new((first + at) as u32).expect("there is room"),
            None => name,
        };
        for &name in &named {
            let node = script.node(name).clone();
            let renamed = Node {
                next: other(node.next),
                other: other(node.other),
                ..node
            };
            self.script.set(other(name), renamed);
        }
        rename_nodes(&mut net, other);
        self.used += named.len();
        self.nets.push((broken, net));
        true
    }
}

fn images(text: &str) -> (Script, Net) {
    let bytes = make(text).expect("the nets are good text");
    let (script, net) = bytes.split_at(SCRIPT_LENGTH);
    let script = Script::read(script).expect("the scripts have the form");
    (script, Net::read(net).expect("the nets have the form"))
}

/// Every node but 0 that the script or the net has any use for.
fn nodes_named(script: &Script, net: &Net) -> Vec<NodeName> {
    let mut named = BTreeSet::new();
    for name in NodeName::all() {
        let node = script.node(name);
        if node.kind != Kind::Nil {
            named.extend([name, node.next, node.other]);
        }
    }
    let processes = net.records().filter_map(|(_, slot)| slot.process());
    named.extend(processes.map(|process| process.node));
    named.into_iter().filter(|name| name.index() != 0).collect()
}

fn rename_nodes(net: &mut Net, other: impl Fn(NodeName) -> NodeName) {
    for key in Key::all() {
        let mut slot = net.take(key);
        if let Slot::Live(process) | Slot::Past(process, _) = &mut slot {
            process.node = other(process.node);
        }
        net.set(key, slot);
    }
}

/// The recipes of every clause and the nets below, under as few scripts as
/// will do.
pub fn hand_made() -> Vec<Collection> {
    let recipes = RECIPES
        .iter()
        .map(|recipe| (Some(recipe.clause), recipe.text));
    let others = HAND_MADE.iter().map(|net| (net.broken, net.text));
    let mut collections = vec![Collection::empty()];
    for (broken, text) in recipes.chain(others) {
        let last = collections.last_mut().expect("there is one");
        if !last.take(broken, text) {
            let mut next = Collection::empty();
            assert!(next.take(broken, text), "one net has few nodes");
            collections.push(next);
        }
    }
    collections
}

const fn cycle(text: &'static str) -> HandMade {
    HandMade {
        broken: Some(Clause::NoCycle),
        text,
    }
}

const fn accepted(text: &'static str) -> HandMade {
    HandMade { broken: None, text }
}

/// More cycles, by each clause of dependence; and beside each refused net one
/// that looks like it and is accepted.
pub const HAND_MADE: [HandMade; 21] = [
    cycle(
        "
        script
        node 1 split(2, 0)
        node 2 split(1, 0)
        net   # two events that made each other: nobody is a root
        present l0
        key 0 past node 1 at l0 first=1 second=2
        key 1 past node 2 at l0 first=0 second=3
        key 2 live node 0 at l0
        key 3 live node 0 at l0",
    ),
    cycle(
        "
        script
        node 1 read(1)@l0 then 2
        node 2 read(1)@l0 then 3
        node 3 read(1)@l0 then 1
        net   # three
        present l0
        key 0 past node 1 at l0 first=1 used=3
        key 1 past node 2 at l0 first=2 used=3
        key 2 past node 3 at l0 first=0 used=3
        key 3 tuple (1) at l0",
    ),
    cycle(
        "
        script
        node 1 eval(1)@l0 then 0
        net   # it spawned itself
        present l0
        key 0 past node 1 at l0 first=1 second=0
        key 1 live node 0 at l0",
    ),
    cycle(
        "
        script
        node 1 split(0, 1)
        net   # it is its own right side
        present l0
        key 0 past node 1 at l0 first=1 second=0
        key 1 live node 0 at l0",
    ),
    cycle(
        "
        script
        node 1 in(1)@l0 then 2
        node 2 out(1)@l0 then 0
        net   # an in took what its continuation put out
        present l0
        key 0 past node 1 at l0 first=1 used=3
        key 1 past node 2 at l0 first=2 second=3
        key 2 live node 0 at l0
        key 3 consumed (1) at l0",
    ),
    cycle(
        "
        script
        node 1 read(1)@l0 then 2
        node 2 out(1)@l0 then 0
        net   # a read of what its continuation put out
        present l0
        key 0 past node 1 at l0 first=1 used=3
        key 1 past node 2 at l0 first=2 second=3
        key 2 live node 0 at l0
        key 3 tuple (1) at l0",
    ),
    cycle(
        "
        script
        node 1 in(1)@l0 then 2
        node 2 out(2)@l0 then 0
        node 3 in(2)@l0 then 4
        node 4 out(1)@l0 then 0
        net   # two ins, each of what the other's continuation put out
        present l0
        key 0 past node 1 at l0 first=1 used=8
        key 1 past node 2 at l0 first=2 second=9
        key 2 live node 0 at l0
        key 3 past node 3 at l0 first=4 used=9
        key 4 past node 4 at l0 first=5 second=8
        key 5 live node 0 at l0
        key 8 consumed (1) at l0
        key 9 consumed (2) at l0",
    ),
    cycle(
        "
        script
        node 1 in(1)@l0 then 2
        node 2 split(0, 3)
        node 3 read(1)@l0 then 0
        net   # the read comes two steps after the in
        present l0
        key 0 past node 1 at l0 first=1 used=6
        key 1 past node 2 at l0 first=2 second=3
        key 2 live node 0 at l0
        key 3 past node 3 at l0 first=4 used=6
        key 4 live node 0 at l0
        key 6 consumed (1) at l0",
    ),
    accepted(
        "
        script
        node 1 in(1)@l0 then 0
        node 2 read(1)@l0 then 0
        net   # a read of a consumed tuple
        present l0
        key 0 past node 1 at l0 first=1 used=4
        key 1 live node 0 at l0
        key 2 past node 2 at l0 first=3 used=4
        key 3 live node 0 at l0
        key 4 consumed (1) at l0",
    ),
    accepted(
        "
        script
        node 1 read(1)@l0 then 2
        node 2 in(1)@l0 then 0
        net   # an in whose maker read its tuple
        present l0
        key 0 past node 1 at l0 first=2 used=1
        key 1 consumed (1) at l0
        key 2 past node 2 at l0 first=3 used=1
        key 3 live node 0 at l0",
    ),
    accepted(
        "
        script
        node 1 in(1)@l0 then 2
        node 2 read(1)@l0 then 0
        net   # an in whose continuation read a tuple like the one it took
        present l0
        key 0 past node 1 at l0 first=2 used=1
        key 1 consumed (1) at l0
        key 2 past node 2 at l0 first=3 used=4
        key 3 live node 0 at l0
        key 4 tuple (1) at l0",
    ),
    accepted(
        "
        script
        node 1 in(1)@l0 then 2
        node 2 read(2)@l0 then 0
        node 3 in(2)@l0 then 0
        net   # half of the crossed one
        present l0
        key 0 past node 1 at l0 first=2 used=8
        key 2 past node 2 at l0 first=4 used=9
        key 4 live node 0 at l0
        key 1 past node 3 at l0 first=3 used=9
        key 3 live node 0 at l0
        key 8 consumed (1) at l0
        key 9 consumed (2) at l0",
    ),
    accepted(
        "
        script
        node 1 out(1)@l0 then 2
        node 2 read(1)@l0 then 3
        node 3 in(1)@l0 then 1
        net   # put out, read and taken by one process
        present l0
        key 0 past node 1 at l0 first=1 second=9
        key 1 past node 2 at l0 first=2 used=9
        key 2 past node 3 at l0 first=3 used=9
        key 3 live node 1 at l0
        key 9 consumed (1) at l0",
    ),
    accepted(
        "
        script
        node 1 eval(0)@l0 then 0
        net   # two keys that are alike in all but the key
        present l0
        key 0 past node 1 at l0 first=1 second=2
        key 1 live node 0 at l0
        key 2 live node 0 at l0",
    ),
    accepted(
        "
        script
        node 1 out(1)@l5 then 0
        net   # the target is present
        present l0 l5
        key 0 past node 1 at l0 first=1 second=2
        key 1 live node 0 at l0
        key 2 tuple (1) at l5",
    ),
    accepted(
        "
        script
        node 1 newloc(x0) as r3 then 1
        net   # its variable held a value, then the locality made before
        present l0 l8 l31
        key 0 past node 1 at l0 x0=5 first=1 made=l31
        key 1 past node 1 at l0 x0=l31 r3=0 first=2 made=l8
        key 2 live node 1 at l0 x0=l8 r3=1",
    ),
    accepted(
        "
        script
        net   # roots that name localities 0..7 which are absent
        present l0
        key 0 live node 0 at l0 x0=l7 x7=l1
        key 63 tuple (l7, 4294967295, l0, 0) at l0",
    ),
    accepted(
        "
        script
        node 1 eval(2)@x0 as r0 then 0
        node 2 eval(0)@x0 as r0 then 0
        net   # the spawned process has the references as before the step
        present l0 l1
        key 0 past node 1 at l0 x0=l1 first=1 second=2
        key 1 live node 0 at l0 x0=l1 r0=0
        key 2 past node 2 at l1 x0=l1 first=3 second=4
        key 3 live node 0 at l1 x0=l1 r0=2
        key 4 live node 0 at l1 x0=l1",
    ),
    accepted(
        "
        script
        node 1 in(!x0, x0)@l0 then 0
        net   # the template's variable stands as before the binding
        present l0
        key 0 past node 1 at l0 x0=5 first=1 used=2
        key 1 live node 0 at l0 x0=6
        key 2 consumed (6, 5) at l0",
    ),
    accepted(
        "
        script
        node 1 newloc(x0) then 2
        node 2 out(x0)@x0 then 3
        node 3 in(!u1)@x0 then 0
        net   # all at the locality made, and it is named in a tuple
        present l0 l20
        key 5 past node 1 at l0 first=6 made=l20
        key 6 past node 2 at l0 x0=l20 first=7 second=8
        key 7 past node 3 at l0 x0=l20 first=9 used=8
        key 8 consumed (l20) at l20
        key 9 live node 0 at l0 x0=l20 x1=l20",
    ),
    accepted(
        "
        script
        net   # nothing is present and nothing is there",
    ),
];
