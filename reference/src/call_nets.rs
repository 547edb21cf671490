//! Nets grown for the sake of rollback: each has one shape of dependence in
//! plenty. They come by forward steps from a net with no past process, so they
//! are accepted; then their keys are renamed, so that nothing may lean on the
//! order in which keys were given out.

use crate::damage::{rename, renamed_by};
use crate::machine::{absent_locality, find_tuple};
use crate::names::{Key, Locality};
use crate::net::{Net, Slot};
use crate::random::Random;
use crate::request::{Code, Places, Request};
use crate::rule::uses_tuple;
use crate::script::Script;
use crate::script_form::SCRIPT_LENGTH;
use crate::step::{forward, places_needed};
use crate::text_read::make;

/// The script that all of them stand under.
pub const PURPOSES: &str = include_str!("../examples/call_purposes.txt");

/// Every made locality, each by a process of its own.
pub const SIDE_BY_SIDE: &str = "24 newlocs side by side";

/// Which process goes on, of those that can.
#[derive(Clone, Copy, PartialEq, Eq, Debug)]
enum Turn {
    /// The one with the least key: all go on side by side.
    Oldest,
    /// The one with the greatest key: one goes on as far as it can.
    Newest,
}

/// A net with one shape of dependence in plenty.
pub struct Purpose {
    pub name: &'static str,
    /// The records it starts from.
    start: String,
    turn: Turn,
}

/// The shapes of dependence, each by its name.
pub fn purposes() -> Vec<Purpose> {
    use Turn::{Newest, Oldest};
    let purpose = |name, turn, start: String| Purpose { name, start, turn };
    vec![
        purpose("a chain of 62 reads", Oldest, one_reader(1)),
        purpose("a roll at each turn of a chain", Newest, one_reader(2)),
        purpose("a chain of 24 newlocs", Newest, one_at(5)),
        purpose(SIDE_BY_SIDE, Oldest, many_at(38, 0..24)),
        purpose("newlocs at made localities", Newest, one_at(6)),
        purpose("records at made localities", Oldest, one_at(8)),
        purpose("a tuple that many read", Oldest, fan(21)),
        purpose("a tuple that many read and one took", Oldest, fan(17)),
        purpose("tuples read, then taken", Oldest, shared()),
        purpose("a tree of splits", Oldest, one_reader(26)),
        purpose("a row of splits", Newest, one_reader(26)),
        purpose("put out, read and taken by turns", Oldest, one_at(28)),
        purpose("events on which nothing depends", Oldest, alone()),
        purpose("a roll for each reference", Oldest, all_references()),
        purpose("from one to the next by tuples", Oldest, relay(15, 0)),
        purpose("the same with readers", Oldest, relay(10, 10)),
    ]
}

impl Purpose {
    /// The net, grown from its start with the least free keys.
    pub fn net(&self, script: &Script) -> Net {
        let text = format!("net\npresent l0 l1 l2 l3 l4 l5 l6 l7\n{}", self.start);
        let bytes = make(&text).expect("the starts are good text");
        let mut net = Net::read(&bytes).expect("the starts have the form");
        while self.go_on(script, &mut net) {}
        net
    }

    /// The net with its keys in order, in the opposite order (so dependents
    /// have lower keys than what they depend on), and in another.
    pub fn in_three_orders(&self, script: &Script, random: &mut Random) -> [Net; 3] {
        let net = self.net(script);
        let opposite = |key: Key| Key::all().nth_back(key.index()).expect("as many back");
        let backwards = renamed_by(&net, opposite);
        let shuffled = rename(random, &net);
        [net, backwards, shuffled]
    }

    /// One forward step, where there is one to take.
    fn go_on(&self, script: &Script, net: &mut Net) -> bool {
        let step = |key: Key| {
            let mut request = step_of(script, net, key)?;
            if self.turn == Turn::Newest {
                request.places.locality = request.places.locality.and(last_absent(net));
            }
            let mut after = net.clone();
            forward(script, &mut after, &request).ok()?;
            Some(after)
        };
        let after = match self.turn {
            Turn::Oldest => Key::all().find_map(step),
            Turn::Newest => Key::all().rev().find_map(step),
        };
        match after {
            Some(after) => *net = after,
            None => return false,
        }
        true
    }
}

/// The greatest absent locality: so that the great ones are made as well.
fn last_absent(net: &Net) -> Option<Locality> {
    Locality::all().rev().find(|&l| !net.present.contains(l))
}

/// The forward step of a live process with what finder and helpers give.
pub fn step_of(script: &Script, net: &Net, key: Key) -> Option<Request> {
    let Slot::Live(process) = net.slot(key) else {
        return None;
    };
    let kind = script.node(process.node).kind;
    let [_, first, second, locality] = places_needed(kind);
    let mut free = Key::all().filter(|&key| net.is_free(key));
    let places = Places {
        tuple: uses_tuple(kind)
            .then(|| find_tuple(script, net, key).ok())
            .flatten(),
        first: first.then(|| free.next()).flatten(),
        second: second.then(|| free.next()).flatten(),
        locality: locality.then(|| absent_locality(net)).flatten(),
    };
    Some(Request {
        code: Code::Forward,
        key,
        places,
    })
}

/// The script, taken apart.
pub fn purposes_script() -> Script {
    let bytes = make(PURPOSES).expect("good text");
    assert_eq!(bytes.len(), SCRIPT_LENGTH);
    Script::read(&bytes).expect("the script has the form")
}

/// A process with a tuple at hand.
fn one_reader(node: u8) -> String {
    format!("key 0 tuple (1) at l0\nkey 1 live node {node} at l0")
}

fn one_at(node: u8) -> String {
    format!("key 0 live node {node} at l0")
}

/// Processes at one node, all over the localities 0..7.
fn many_at(node: u8, keys: impl Iterator<Item = u8>) -> String {
    keys.map(|key| format!("key {key} live node {node} at l{}\n", key % 8))
        .collect()
}

/// One that puts a tuple out, and many readers.
fn fan(maker: u8) -> String {
    format!("{}\n{}", one_at(maker), many_at(19, 1..31))
}

/// For each tuple three readers and a taker. The readers have lower keys, so
/// they go first.
fn shared() -> String {
    let mut lines = Vec::new();
    for tuple in 0..5 {
        for reader in 0..3 {
            let key = 3 * tuple + reader;
            lines.push(format!("key {key} live node 22 at l{reader} x0={tuple}"));
        }
        lines.push(format!(
            "key {} live node 23 at l{tuple} x0={tuple}",
            15 + tuple
        ));
        lines.push(format!("key {} tuple ({tuple}) at l1", 20 + tuple));
    }
    lines.join("\n")
}

/// Every kind of step once or more, each by a process of its own.
fn alone() -> String {
    [
        many_at(33, 0..5),
        many_at(34, 5..12),
        many_at(35, 12..16),
        many_at(36, 16..22),
        many_at(37, 22..25),
        "key 25 tuple (1) at l0\n".to_string(),
        (26..29)
            .map(|key| format!("key {key} tuple (8) at l0\n"))
            .collect(),
    ]
    .concat()
}

/// Four that take every reference, and processes that nobody made at the
/// rolls: "a record nobody made ... holds no reference".
fn all_references() -> String {
    let unset = [45, 47, 49, 50].into_iter().zip(4..);
    let unset: String = unset
        .map(|(node, key)| many_at(node, key..key + 1))
        .collect();
    many_at(40, 0..4) + &unset
}

/// One takes a tuple and puts out the next one's; so many of them are read
/// before they are taken.
fn relay(takers: u8, readers: u8) -> String {
    let reader = |n: u8| format!("key {n} live node 53 at l{} x0={n}\n", n % 8);
    let taker = |n: u8| {
        let key = readers + n;
        format!("key {key} live node 51 at l{} x0={n} x1={}\n", n % 3, n + 1)
    };
    let readers: String = (0..readers).map(reader).collect();
    let takers: String = (0..takers).map(taker).collect();
    format!("{readers}{takers}key 63 tuple (0) at l5")
}
