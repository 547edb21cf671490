//! The requests of a trial stream: forward and backward steps that may be
//! taken, and for each check what it refuses. Codes 2 and 3 are left out.

use crate::names::{Key, Locality, NONE};
use crate::net::{Memory, Net, Slot};
use crate::random::Random;
use crate::request::{Code, Places, Request, REQUEST_LENGTH};
use crate::rule::target;
use crate::script::{Node, Script};
use crate::script_form::Kind;
use crate::step::places_needed;
use crate::walk::{Mood, Walk};

pub type Bytes = [u8; REQUEST_LENGTH];

/// Where the places stand in a request.
const CODE: usize = 0;
const KEY: usize = 1;
const TUPLE: usize = 2;
const FIRST: usize = 3;
const SECOND: usize = 4;
const LOCALITY: usize = 5;

/// How many live processes and events of a net are asked plainly, and how
/// many spoiled requests each kind of node gets.
const LIVE: usize = 12;
const EVENTS: usize = 24;
const SPOILED: usize = 11;

/// Requests about the records of one net.
pub struct Asking<'a> {
    walk: Walk<'a>,
    random: &'a mut Random,
}

impl<'a> Asking<'a> {
    pub fn about(script: &'a Script, net: &Net, random: &'a mut Random) -> Asking<'a> {
        let walk = Walk {
            script,
            net: net.clone(),
            mood: Mood::Filling,
        };
        Asking { walk, random }
    }

    /// Some of everything that can be asked.
    pub fn all(&mut self) -> Vec<Bytes> {
        let live = self.keys(|slot| matches!(slot, Slot::Live(_)));
        let events = self.keys(|slot| matches!(slot, Slot::Past(..)));
        let mut requests = Vec::new();
        for key in self.some_of(&live, LIVE) {
            requests.extend(self.forward(key));
        }
        for key in self.some_of(&events, EVENTS) {
            requests.push(Request::bare(Code::Backward, key).write());
        }
        for kind in Kind::ALL {
            requests.extend(self.spoiled_at(kind, &live));
        }
        requests.extend(self.wrong_records());
        requests.extend(self.spoiled_backward(&events));
        requests
    }

    /// A step that can be taken, where there is one.
    pub fn sensible(&mut self) -> Bytes {
        self.walk.sensible_forward(self.random).write()
    }

    /// Every live process, once with places chosen for it and once with some
    /// live tuple at its target.
    pub fn each_live(&mut self) -> Vec<Bytes> {
        let mut requests = Vec::new();
        for key in self.keys(|slot| matches!(slot, Slot::Live(_))) {
            if let Some(forward) = self.forward(key) {
                requests.push(forward);
                requests.extend(tuple_at_target(self, forward));
            }
        }
        requests
    }

    /// One request, sensible or spoiled.
    pub fn one(&mut self) -> Bytes {
        let sensible = self.sensible();
        let spoil = self.random.below(2 * SPOILS.len() as u64) as usize;
        let spoiled = SPOILS.get(spoil).and_then(|spoil| spoil(self, sensible));
        spoiled.unwrap_or(sensible)
    }

    /// The forward step of a live process, with places chosen for it.
    fn forward(&mut self, key: Key) -> Option<Bytes> {
        let request = self.walk.forward_of(key, self.random)?;
        Some(request.write())
    }

    /// Spoiled forward steps of a process at this kind.
    fn spoiled_at(&mut self, kind: Kind, live: &[Key]) -> Vec<Bytes> {
        let at: Vec<Key> = live
            .iter()
            .copied()
            .filter(|&key| self.kind(key) == Some(kind))
            .collect();
        let Some(key) = self.random.pick(&at) else {
            return Vec::new();
        };
        let mut requests = Vec::new();
        for spoil in self.some_of(&SPOILS, SPOILS.len()) {
            if let Some(good) = self.forward(key) {
                requests.extend(spoil(self, good));
            }
        }
        requests.truncate(SPOILED);
        requests
    }

    /// Codes 0 and 1 where the key names no process that they can take.
    fn wrong_records(&mut self) -> Vec<Bytes> {
        let free = self.keys(|slot| *slot == Slot::Free);
        let tuples = self.keys(|slot| slot.tuple().is_some());
        let live = self.keys(|slot| matches!(slot, Slot::Live(_)));
        let past = self.keys(|slot| matches!(slot, Slot::Past(..)));
        let mut requests = Vec::new();
        for (code, keys) in [(0, &past), (1, &live)] {
            for key in self.some_of(keys, 3) {
                requests.push([code, key.byte(), NONE, NONE, NONE, NONE]);
            }
            for keys in [&free, &tuples] {
                let first = self.random.pick(&[NONE, 1, 40]).unwrap_or(NONE);
                let key = self.random.pick(keys);
                requests.extend(key.map(|key| [code, key.byte(), NONE, first, NONE, NONE]));
            }
        }
        requests
    }

    /// A backward step with a place filled, or out of range.
    fn spoiled_backward(&mut self, events: &[Key]) -> Vec<Bytes> {
        let mut requests = Vec::new();
        for event in self.some_of(events, 3) {
            let mut bytes = Request::bare(Code::Backward, event).write();
            let place = TUPLE + self.random.below(4) as usize;
            bytes[place] = match self.random.below(4) {
                0 => 64 + self.random.below(190) as u8,
                _ => self.random.below(32) as u8,
            };
            requests.push(bytes);
        }
        requests
    }

    fn keys(&self, wanted: impl Fn(&Slot) -> bool) -> Vec<Key> {
        Key::all()
            .filter(|&key| wanted(self.walk.net.slot(key)))
            .collect()
    }

    fn some(&mut self, wanted: impl Fn(&Slot) -> bool) -> Option<Key> {
        let keys = self.keys(wanted);
        self.random.pick(&keys)
    }

    /// So many of the items at most, in another order.
    fn some_of<T: Copy>(&mut self, items: &[T], most: usize) -> Vec<T> {
        let mut left = items.to_vec();
        let mut chosen = Vec::new();
        while !left.is_empty() && chosen.len() < most {
            let at = self.random.below(left.len() as u64) as usize;
            chosen.push(left.swap_remove(at));
        }
        chosen
    }

    fn node(&self, key: u8) -> Option<&Node> {
        let key = Key::new(u32::from(key))?;
        let process = self.walk.net.slot(key).process()?;
        Some(self.walk.script.node(process.node))
    }

    fn kind(&self, key: Key) -> Option<Kind> {
        self.node(key.byte()).map(|node| node.kind)
    }

    /// Which of the four places the request's process needs.
    fn needed(&self, bytes: Bytes) -> [bool; 4] {
        self.node(bytes[KEY])
            .map_or([false; 4], |node| places_needed(node.kind))
    }

    fn needs(&self, bytes: Bytes, place: usize) -> bool {
        self.needed(bytes)[place - TUPLE]
    }
}

/// A good request with something wrong in it; `None` where its kind has no
/// such place, or the net nothing to put there.
type Spoil = fn(&mut Asking, Bytes) -> Option<Bytes>;

const SPOILS: [Spoil; 26] = [
    fresh_keys_equal,
    |asking, bytes| own_key(asking, bytes, FIRST),
    |asking, bytes| own_key(asking, bytes, SECOND),
    fresh_key_is_the_tuples,
    |asking, bytes| key_in_use(asking, bytes, FIRST),
    |asking, bytes| key_in_use(asking, bytes, SECOND),
    |asking, bytes| fresh_locality(asking, bytes, 7),
    |asking, bytes| fresh_locality(asking, bytes, 8),
    |asking, bytes| fresh_locality(asking, bytes, 31),
    |asking, bytes| fresh_locality(asking, bytes, 32),
    |asking, bytes| present_locality(asking, bytes, false),
    |asking, bytes| present_locality(asking, bytes, true),
    |asking, bytes| tuple_is(asking, bytes, |slot| *slot == Slot::Free),
    |asking, bytes| tuple_is(asking, bytes, |slot| slot.process().is_some()),
    |asking, bytes| tuple_is(asking, bytes, |slot| matches!(slot, Slot::Consumed(_))),
    |asking, bytes| tuple_is(asking, bytes, |slot| matches!(slot, Slot::Tuple(_))),
    tuple_at_target,
    tuple_at_target,
    tuple_of_another_count,
    tuple_and_fresh_key_wrong,
    place_missing,
    place_unneeded,
    code_above_3,
    key_above_63,
    place_out_of_range,
    backward_of_a_live_process,
];

fn fresh_keys_equal(asking: &mut Asking, mut bytes: Bytes) -> Option<Bytes> {
    bytes[SECOND] = bytes[FIRST];
    asking.needs(bytes, SECOND).then_some(bytes)
}

fn own_key(asking: &mut Asking, mut bytes: Bytes, place: usize) -> Option<Bytes> {
    bytes[place] = bytes[KEY];
    asking.needs(bytes, place).then_some(bytes)
}

fn fresh_key_is_the_tuples(asking: &mut Asking, mut bytes: Bytes) -> Option<Bytes> {
    bytes[FIRST] = bytes[TUPLE];
    asking.needs(bytes, TUPLE).then_some(bytes)
}

fn key_in_use(asking: &mut Asking, mut bytes: Bytes, place: usize) -> Option<Bytes> {
    bytes[place] = asking.some(|slot| *slot != Slot::Free)?.byte();
    asking.needs(bytes, place).then_some(bytes)
}

fn fresh_locality(asking: &mut Asking, mut bytes: Bytes, locality: u8) -> Option<Bytes> {
    bytes[LOCALITY] = locality;
    asking.needs(bytes, LOCALITY).then_some(bytes)
}

fn present_locality(asking: &mut Asking, mut bytes: Bytes, made: bool) -> Option<Bytes> {
    let present = asking.walk.net.present.iter();
    let present: Vec<Locality> = present.filter(|l| l.is_original() != made).collect();
    bytes[LOCALITY] = asking.random.pick(&present)?.byte();
    asking.needs(bytes, LOCALITY).then_some(bytes)
}

fn tuple_is(asking: &mut Asking, mut bytes: Bytes, wanted: fn(&Slot) -> bool) -> Option<Bytes> {
    bytes[TUPLE] = asking.some(wanted)?.byte();
    asking.needs(bytes, TUPLE).then_some(bytes)
}

/// Any live tuple there: it may match or not.
fn tuple_at_target(asking: &mut Asking, mut bytes: Bytes) -> Option<Bytes> {
    let key = Key::new(u32::from(bytes[KEY]))?;
    let process = asking.walk.net.slot(key).process()?;
    let target = target(asking.node(bytes[KEY])?, &process.variables)?;
    let there = asking.some(|slot| match slot {
        Slot::Tuple(tuple) => tuple.locality == target,
        _ => false,
    })?;
    bytes[TUPLE] = there.byte();
    asking.needs(bytes, TUPLE).then_some(bytes)
}

fn tuple_of_another_count(asking: &mut Asking, mut bytes: Bytes) -> Option<Bytes> {
    let count = asking.node(bytes[KEY])?.fields.len();
    let other = asking.some(|slot| match slot {
        Slot::Tuple(tuple) => tuple.fields.len() != count,
        _ => false,
    })?;
    bytes[TUPLE] = other.byte();
    asking.needs(bytes, TUPLE).then_some(bytes)
}

/// Check 9 or 10 comes before check 11.
fn tuple_and_fresh_key_wrong(asking: &mut Asking, bytes: Bytes) -> Option<Bytes> {
    let bytes = tuple_is(asking, bytes, |slot| matches!(slot, Slot::Tuple(_)))?;
    key_in_use(asking, bytes, FIRST)
}

fn place_missing(asking: &mut Asking, mut bytes: Bytes) -> Option<Bytes> {
    let places: Vec<usize> = (TUPLE..=LOCALITY)
        .filter(|&place| asking.needs(bytes, place))
        .collect();
    bytes[asking.random.pick(&places)?] = NONE;
    Some(bytes)
}

fn place_unneeded(asking: &mut Asking, mut bytes: Bytes) -> Option<Bytes> {
    let places: Vec<usize> = (TUPLE..=LOCALITY)
        .filter(|&place| !asking.needs(bytes, place))
        .collect();
    bytes[asking.random.pick(&places)?] = asking.random.below(32) as u8;
    Some(bytes)
}

fn code_above_3(asking: &mut Asking, mut bytes: Bytes) -> Option<Bytes> {
    bytes[CODE] = asking.random.pick(&[4, 5, 128, 254, 255])?;
    Some(bytes)
}

fn key_above_63(asking: &mut Asking, mut bytes: Bytes) -> Option<Bytes> {
    bytes[KEY] = asking.random.pick(&[64, 65, 128, 254, 255])?;
    Some(bytes)
}

fn place_out_of_range(asking: &mut Asking, mut bytes: Bytes) -> Option<Bytes> {
    let place = TUPLE + asking.random.below(4) as usize;
    let first_out = if place == LOCALITY { 32 } else { 64 };
    bytes[place] = asking.random.pick(&[first_out, first_out + 1, 128, 254])?;
    Some(bytes)
}

fn backward_of_a_live_process(_: &mut Asking, mut bytes: Bytes) -> Option<Bytes> {
    bytes[CODE] = Code::Backward as u8;
    Some(bytes)
}

/// What takes a done request back: the step undone, or the event repeated.
/// `before` is the net that the request was put to.
pub fn taken_back(request: Bytes, before: &Net) -> Option<Bytes> {
    let key = Key::new(u32::from(request[KEY]))?;
    if request[CODE] == Code::Forward as u8 {
        return Some(Request::bare(Code::Backward, key).write());
    }
    let &Memory {
        first,
        second,
        used,
        locality,
    } = before.memory(key)?;
    let places = Places {
        tuple: used,
        first,
        second,
        locality,
    };
    let repeated = Request {
        code: Code::Forward,
        key,
        places,
    };
    Some(repeated.write())
}
