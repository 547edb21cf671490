//! Damaged images: each rule of the form and each clause of acceptance
//! broken singly, and nets changed at random that may be accepted still.

use crate::accept::{broken_clauses, Clause};
use crate::names::{Key, Locality, NodeName};
use crate::net::{Datum, Net, Slot};
use crate::net_form::{broken_net_rules, NetRule, NET_LENGTH, SLOTS_AT, SLOT_COUNT, SLOT_LENGTH};
use crate::random::Random;
use crate::script::Script;
use crate::script_form::{
    broken_script_rules, ScriptRule, NODES_AT, NODE_COUNT, NODE_LENGTH, SCRIPT_LENGTH,
};
use crate::text_read::make;

/// Tries before a rule is given up for this image.
const TRIES: usize = 400;

/// The script's bytes, changed so that this rule alone is broken.
pub fn damage_script(random: &mut Random, script: &[u8], rule: ScriptRule) -> Option<Vec<u8>> {
    (0..TRIES).find_map(|_| {
        let mut bytes = script.to_vec();
        spoil_script(random, &mut bytes, rule);
        let broken = broken_script_rules(&bytes);
        (broken.len() == 1 && broken[0].rule == rule).then_some(bytes)
    })
}

fn spoil_script(random: &mut Random, bytes: &mut Vec<u8>, rule: ScriptRule) {
    let node = NODES_AT + random.below(NODE_COUNT as u64) as usize * NODE_LENGTH;
    let mut spoil = |from: usize, to: usize| {
        let at = from + random.below((to - from) as u64) as usize;
        bytes[at] = interesting(random);
    };
    match rule {
        ScriptRule::Length => change_length(random, bytes, SCRIPT_LENGTH),
        ScriptRule::Mark => spoil(0, 3),
        ScriptRule::Version => spoil(4, 6),
        ScriptRule::HeaderZero => spoil(3, 16),
        ScriptRule::NodeKind => spoil(node, node + 1),
        ScriptRule::NodeZero => spoil(node + 7, node + NODE_LENGTH),
        ScriptRule::Next => spoil(node + 1, node + 2),
        ScriptRule::Other => spoil(node + 2, node + 3),
        ScriptRule::TargetTag => spoil(node + 3, node + 4),
        ScriptRule::Target => spoil(node + 4, node + 5),
        ScriptRule::Reference | ScriptRule::UnusedReferenceNone => spoil(node + 5, node + 6),
        ScriptRule::UnusedPlaceZero => spoil(node + 1, node + 28),
        ScriptRule::FieldCount => spoil(node + 6, node + 7),
        ScriptRule::FieldTag => spoil(node + 8, node + 12),
        ScriptRule::FieldNumber => spoil(node + 12, node + 28),
        ScriptRule::FormalsDistinct => spoil(node + 8, node + 28),
        ScriptRule::FieldsPastCountZero => spoil(node + 6, node + 28),
    }
}

/// The net's bytes, changed so that this rule of the form alone is broken.
pub fn damage_net(random: &mut Random, net: &[u8], rule: NetRule) -> Option<Vec<u8>> {
    (0..TRIES).find_map(|_| {
        let mut bytes = net.to_vec();
        spoil_net(random, &mut bytes, rule);
        let broken = broken_net_rules(&bytes);
        (broken.len() == 1 && broken[0].rule == rule).then_some(bytes)
    })
}

fn spoil_net(random: &mut Random, bytes: &mut Vec<u8>, rule: NetRule) {
    let slot = SLOTS_AT + random.below(SLOT_COUNT as u64) as usize * SLOT_LENGTH;
    let mut spoil = |from: usize, to: usize| {
        let at = from + random.below((to - from) as u64) as usize;
        bytes[at] = interesting(random);
    };
    match rule {
        NetRule::Length => change_length(random, bytes, NET_LENGTH),
        NetRule::Mark => spoil(0, 3),
        NetRule::Version => spoil(4, 6),
        NetRule::HeaderZero => spoil(3, 16),
        NetRule::SlotKind => spoil(slot, slot + 1),
        NetRule::FreeSlotZero => spoil(slot + 1, slot + SLOT_LENGTH),
        NetRule::SlotZero => spoil(slot + 7, slot + SLOT_LENGTH),
        NetRule::Locality => spoil(slot + 1, slot + 2),
        NetRule::Node | NetRule::FieldCount => spoil(slot + 2, slot + 3),
        NetRule::KeysHeld => spoil(slot + 3, slot + 6),
        NetRule::LocalityHeld => spoil(slot + 6, slot + 7),
        NetRule::References => spoil(slot + 48, slot + 52),
        NetRule::LiveHoldsNothing => spoil(slot + 3, slot + 7),
        NetRule::TupleHoldsNothing => spoil(slot + 3, slot + 52),
        NetRule::Tag | NetRule::FieldSet => spoil(slot + 8, slot + 16),
        NetRule::UnsetNumber => spoil(slot + 16, slot + 48),
        NetRule::LocalityNumber => spoil(slot + 16, slot + 48),
        NetRule::FieldsPastCountZero => spoil(slot + 8, slot + 48),
    }
}

fn change_length(random: &mut Random, bytes: &mut Vec<u8>, length: usize) {
    let length = match random.below(4) {
        0 => length - 1,
        1 => length + 1,
        _ => random.below(length as u64) as usize,
    };
    bytes.resize(length, 0);
}

/// Bytes at the edges of some range.
pub fn interesting(random: &mut Random) -> u8 {
    const EDGES: [u8; 21] = [
        0, 1, 2, 3, 4, 5, 6, 7, 8, 9, 16, 31, 32, 33, 62, 63, 64, 65, 128, 254, 255,
    ];
    if random.one_in(4) {
        return random.draw() as u8;
    }
    random.pick(&EDGES).unwrap_or(0)
}

/// A net that one clause alone refuses, with the script it goes with.
pub struct Recipe {
    pub clause: Clause,
    pub text: &'static str,
}

impl Recipe {
    /// Script and net.
    pub fn images(&self) -> (Script, Net) {
        let bytes = make(self.text).expect("the recipes are good text");
        let (script, net) = bytes.split_at(SCRIPT_LENGTH);
        let script = Script::read(script).expect("the recipes' scripts have the form");
        (
            script,
            Net::read(net).expect("the recipes' nets have the form"),
        )
    }

    /// The same with keys named otherwise.
    pub fn renamed(&self, random: &mut Random) -> (Script, Net) {
        let (script, net) = self.images();
        (script, rename(random, &net))
    }
}

/// The net with its keys named otherwise: every claim holds of both alike.
pub fn rename(random: &mut Random, net: &Net) -> Net {
    let mut names: Vec<Key> = Key::all().collect();
    for i in (1..names.len()).rev() {
        names.swap(i, random.below(i as u64 + 1) as usize);
    }
    renamed_by(net, |key| names[key.index()])
}

/// The net with each key named as `other` has it.
pub fn renamed_by(net: &Net, other: impl Fn(Key) -> Key) -> Net {
    let mut renamed = Net::empty();
    renamed.present = net.present;
    for (key, slot) in net.records() {
        let mut slot = slot.clone();
        if let Slot::Live(process) | Slot::Past(process, _) = &mut slot {
            process.references = process.references.map(|held| held.map(&other));
        }
        if let Slot::Past(_, memory) = &mut slot {
            memory.first = memory.first.map(&other);
            memory.second = memory.second.map(&other);
            memory.used = memory.used.map(&other);
        }
        renamed.set(other(key), slot);
    }
    renamed
}

/// One change at random to a net of the right form: it keeps the form.
pub fn change(random: &mut Random, net: &mut Net) {
    let keys: Vec<Key> = net.records().map(|(key, _)| key).collect();
    let Some(key) = random.pick(&keys) else {
        return;
    };
    match random.below(8) {
        0 => net.present.0 ^= 1 << random.below(32),
        1 => change_kind(net, key),
        2 => move_record(random, net, key),
        3 => change_datum(random, net, key),
        4 | 5 => change_memory(random, net, key),
        6 => change_process(random, net, key),
        _ => copy_or_free(random, net, key),
    }
}

fn change_kind(net: &mut Net, key: Key) {
    let slot = match net.take(key) {
        Slot::Live(process) => Slot::Past(process, Default::default()),
        Slot::Past(process, _) => Slot::Live(process),
        Slot::Tuple(tuple) => Slot::Consumed(tuple),
        Slot::Consumed(tuple) => Slot::Tuple(tuple),
        Slot::Free => Slot::Free,
    };
    net.set(key, slot);
}

fn locality(random: &mut Random) -> Locality {
    let few = if random.one_in(4) { 32 } else { 10 };
    Locality::new(random.below(few) as u32).expect("below 32")
}

fn move_record(random: &mut Random, net: &mut Net, key: Key) {
    let mut slot = net.take(key);
    match &mut slot {
        Slot::Live(process) | Slot::Past(process, _) => process.locality = locality(random),
        Slot::Tuple(tuple) | Slot::Consumed(tuple) => tuple.locality = locality(random),
        Slot::Free => {}
    }
    net.set(key, slot);
}

fn change_datum(random: &mut Random, net: &mut Net, key: Key) {
    let mut slot = net.take(key);
    let number = random.below(3) as u32;
    let datum = if random.one_in(2) {
        Datum::Value(number)
    } else {
        Datum::Locality(locality(random))
    };
    match &mut slot {
        Slot::Live(process) | Slot::Past(process, _) => {
            let unset = random.one_in(4);
            let variable = random.below(8) as usize;
            process.variables[variable] = if unset { Datum::Unset } else { datum };
        }
        Slot::Tuple(tuple) | Slot::Consumed(tuple) => {
            let field = random.below(tuple.fields.len() as u64) as usize;
            tuple.fields[field] = datum;
        }
        Slot::Free => {}
    }
    net.set(key, slot);
}

fn change_memory(random: &mut Random, net: &mut Net, key: Key) {
    let keys: Vec<Key> = net.records().map(|(key, _)| key).collect();
    let held = random.pick(&keys).filter(|_| !random.one_in(5));
    let made = Some(locality(random)).filter(|_| !random.one_in(5));
    let mut slot = net.take(key);
    if let Slot::Past(_, memory) = &mut slot {
        match random.below(4) {
            0 => memory.first = held,
            1 => memory.second = held,
            2 => memory.used = held,
            _ => memory.locality = made,
        }
    }
    net.set(key, slot);
}

fn change_process(random: &mut Random, net: &mut Net, key: Key) {
    let held = Key::new(random.below(64) as u32).filter(|_| !random.one_in(3));
    let node = NodeName::new(random.below(12) as u32);
    let mut slot = net.take(key);
    if let Slot::Live(process) | Slot::Past(process, _) = &mut slot {
        if random.one_in(2) {
            process.references[random.below(4) as usize] = held;
        } else if let Some(node) = node {
            process.node = node;
        }
    }
    net.set(key, slot);
}

fn copy_or_free(random: &mut Random, net: &mut Net, key: Key) {
    let other = Key::new(random.below(64) as u32).expect("below 64");
    let slot = if random.one_in(2) {
        net.slot(key).clone()
    } else {
        Slot::Free
    };
    net.set(other, slot);
}

/// The clauses that the net breaks, where it has the form.
pub fn clauses_broken_by(script: &Script, net: &Net) -> Vec<Clause> {
    broken_clauses(script, net)
        .into_iter()
        .map(|broken| broken.clause)
        .collect()
}
