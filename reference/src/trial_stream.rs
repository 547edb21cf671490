//! The trial stream of a seed: nets of several scripts, each asked about as it
//! is, after named changes and after changed bytes, and given requests; nets
//! made by hand; walks to a full net and back; scripts without their form.

use crate::answer::{Answer, Report};
use crate::arbitrary::crowd;
use crate::damage::{change, damage_net, damage_script, interesting};
use crate::names::{Key, NONE};
use crate::net::{Net, Slot};
use crate::net_form::{NetRule, NET_LENGTH, SLOTS_AT, SLOT_LENGTH};
use crate::program::Stream;
use crate::random::Random;
use crate::request::{Code, Request};
use crate::script::Script;
use crate::script_form::ScriptRule;
use crate::step::undoable;
use crate::text_read::make;
use crate::trial_changes::all_changes;
use crate::trial_nets::{
    hand_made, histories, scripts, some_localities, unset_in_half, Collection, LOOPS, REQUESTS,
};
use crate::trial_requests::{taken_back, Asking, Bytes};
use crate::trials::{Bench, Item, Said};

/// Why a question stands in the stream.
#[derive(Clone, Copy, PartialEq, Eq, Debug)]
pub enum Note {
    /// A net as a walk left it, or one with no past process.
    Reached,
    /// A named change, by its place among all.
    Named(usize),
    /// One byte of an accepted net set to another value.
    OneByte,
    /// Changes at random that keep the form.
    AnyChange,
    /// A rule of the net's form broken alone.
    NetForm(NetRule),
    /// A rule of the script's form broken alone.
    ScriptForm(ScriptRule),
    /// A net made by hand.
    HandMade,
    /// Requests by hand.
    ByHand,
    /// A request about an accepted net, or whether the net is accepted after.
    Asked,
    /// A request that takes back the one before.
    TakenBack,
    /// A step of a walk.
    Walked,
}

/// The stream, and a note for each of its questions.
pub struct Trials {
    pub bytes: Vec<u8>,
    pub notes: Vec<Note>,
}

/// The same seed gives the same stream.
pub fn trials(seed: u64) -> Trials {
    let scripts = scripts(&mut Random::new(seed));
    let mut writing = Writing::new(seed);
    for collection in hand_made() {
        writing.hand_made(&collection);
    }
    for rule in ScriptRule::ALL {
        writing.without_form(&scripts, rule);
    }
    writing.requests_by_hand();
    writing.chain();
    for script in &scripts {
        writing.nets_of(script);
    }
    Trials {
        bytes: writing.bytes,
        notes: writing.notes,
    }
}

/// Changes that are refused are followed by a request once in so many; every
/// net gets so many changed bytes, random changes and broken rules of the form.
const REQUEST_ONCE_IN: u64 = 6;
const CHANGED_BYTES: usize = 20;
const RANDOM_CHANGES: usize = 6;
const BROKEN_FORMS: usize = 4;

/// Of which of its nets whole slots are gone through, byte by byte.
const SWEPT: usize = 1;

/// Localities of which most scripts speak seldom: without 0 and 1, most
/// targets are absent.
const FAR: u8 = 0b0101_0100;

struct Writing {
    bytes: Vec<u8>,
    notes: Vec<Note>,
    /// What stands between the items; it also answers.
    bench: Bench,
    random: Random,
    /// Which rule of the net's form is broken next.
    turn: usize,
}

impl Writing {
    fn new(seed: u64) -> Writing {
        Writing {
            bytes: Vec::new(),
            notes: Vec::new(),
            bench: Bench::bare(),
            random: Random::new(!seed),
            turn: 0,
        }
    }

    fn put(&mut self, item: Item) -> Option<Said> {
        item.write(&mut self.bytes);
        self.bench.take(item)
    }

    fn ask(&mut self, note: Note) -> Option<Answer> {
        self.notes.push(note);
        self.put(Item::Verdict).map(|said| said.answer())
    }

    fn request(&mut self, request: Bytes, note: Note) -> Option<Report> {
        self.notes.push(note);
        match self.put(Item::Request(&request)) {
            Some(Said::Report(report, _)) => Some(report),
            _ => None,
        }
    }

    /// A net, which is the base from here on.
    fn net(&mut self, net: &Net) {
        self.put(Item::Net(&net.write()));
    }

    /// Patches the net to these bytes.
    fn patch_to(&mut self, bytes: &[u8]) {
        for (at, &byte) in bytes.iter().enumerate() {
            if self.bench.net[at] != byte {
                self.put(Item::Patch(at as u16, byte));
            }
        }
    }

    fn base(&mut self) {
        self.put(Item::Base);
    }

    /// Nets made by hand, each patched onto the empty net: that is shorter.
    fn hand_made(&mut self, collection: &Collection) {
        self.put(Item::Script(&collection.script.write()));
        self.net(&Net::empty());
        for (_, net) in &collection.nets {
            self.patch_to(&net.write());
            if self.ask(Note::HandMade) == Some(Answer::Done) {
                self.asked(&collection.script, net);
            } else {
                let request = self.asking(&collection.script, net).one();
                self.request(request, Note::HandMade);
            }
            self.base();
        }
    }

    fn asking<'a>(&'a mut self, script: &'a Script, net: &Net) -> Asking<'a> {
        Asking::about(script, net, &mut self.random)
    }

    /// One net and requests by hand.
    fn requests_by_hand(&mut self) {
        let input = make(REQUESTS).expect("good text");
        let stream = Stream::cut(&input);
        self.put(Item::Script(stream.script));
        self.put(Item::Net(stream.net));
        self.ask(Note::ByHand);
        for request in stream.requests() {
            let request = request.try_into().expect("six bytes each");
            self.request(request, Note::ByHand);
        }
        self.ask(Note::ByHand);
    }

    /// The deepest chain there is: one tuple and one process that reads it
    /// until no key is free, and all of it undone again.
    fn chain(&mut self) {
        let text =
            format!("{LOOPS}\nnet\npresent l0\nkey 0 tuple (1) at l0\nkey 1 live node 3 at l0");
        let images = make(&text).expect("good text");
        let (script, net) = images.split_at(images.len() - NET_LENGTH);
        self.put(Item::Script(script));
        self.put(Item::Net(net));
        for key in 1..63 {
            self.request([0, key, 0, key + 1, NONE, NONE], Note::Walked);
        }
        self.ask(Note::Walked);
        for first in [NONE, 0, 1, 63] {
            self.request([0, 63, 0, first, NONE, NONE], Note::Walked);
        }
        for key in (1..63).rev() {
            self.request([1, key / 2, NONE, NONE, NONE, NONE], Note::Walked);
            self.request([1, key, NONE, NONE, NONE, NONE], Note::Walked);
        }
        self.ask(Note::Walked);
    }

    fn nets_of(&mut self, script: &Script) {
        self.put(Item::Script(&script.write()));
        for (place, net) in histories(&mut self.random, script).iter().enumerate() {
            self.net(net);
            self.ask(Note::Reached);
            self.named_changes(script, net);
            self.changed_bytes(net);
            if place == SWEPT {
                self.sweep(net);
            }
            self.random_changes(script, net);
            self.broken_forms(script, net);
            self.asked(script, net);
        }
        self.crowds(script);
        self.walks(script);
    }

    /// Every named change that this net allows.
    fn named_changes(&mut self, script: &Script, net: &Net) {
        for (place, named) in all_changes().enumerate() {
            for _ in 0..named.times {
                let Some(changed) = named.of(&mut self.random, script, net) else {
                    break;
                };
                self.changed(script, &changed, Note::Named(place));
            }
        }
    }

    fn changed(&mut self, script: &Script, changed: &Net, note: Note) {
        self.patch_to(&changed.write());
        let accepted = self.ask(note) == Some(Answer::Done);
        if accepted || self.random.one_in(REQUEST_ONCE_IN) {
            let request = self.asking(script, changed).one();
            self.request(request, note);
        }
        self.base();
    }

    /// Single bytes, mostly of records.
    fn changed_bytes(&mut self, net: &Net) {
        let records: Vec<Key> = net.records().map(|(key, _)| key).collect();
        for _ in 0..CHANGED_BYTES {
            let record = self.random.pick(&records);
            let at = match (self.random.below(12), record) {
                (0, _) | (_, None) => self.random.below(NET_LENGTH as u64) as usize,
                (1, _) => self.random.below(SLOTS_AT as u64) as usize,
                (_, Some(key)) => slot_at(key) + self.random.below(SLOT_LENGTH as u64) as usize,
            };
            self.changed_byte(at);
        }
    }

    fn changed_byte(&mut self, at: usize) {
        let old = self.bench.net[at];
        let value = match self.random.below(4) {
            0 => old.wrapping_add(1),
            1 => old ^ (1 << self.random.below(8)),
            _ => interesting(&mut self.random),
        };
        if value == old {
            return;
        }
        self.put(Item::Patch(at as u16, value));
        self.ask(Note::OneByte);
        self.base();
    }

    /// Every byte of one slot of each sort; it stays where the new value would
    /// be the old one.
    fn sweep(&mut self, net: &Net) {
        let sorts: [fn(&Slot) -> bool; 5] = [
            |slot| *slot == Slot::Free,
            |slot| matches!(slot, Slot::Live(_)),
            |slot| matches!(slot, Slot::Past(..)),
            |slot| matches!(slot, Slot::Tuple(_)),
            |slot| matches!(slot, Slot::Consumed(_)),
        ];
        for sort in sorts {
            let keys: Vec<Key> = Key::all().filter(|&key| sort(net.slot(key))).collect();
            if let Some(key) = self.random.pick(&keys) {
                (0..SLOT_LENGTH).for_each(|byte| self.changed_byte(slot_at(key) + byte));
            }
        }
    }

    /// One or two changes at random; either verdict may come.
    fn random_changes(&mut self, script: &Script, net: &Net) {
        for _ in 0..RANDOM_CHANGES {
            let mut changed = net.clone();
            for _ in 0..1 + self.random.below(2) {
                change(&mut self.random, &mut changed);
            }
            if changed != *net {
                self.changed(script, &changed, Note::AnyChange);
            }
        }
    }

    /// Rules of the net's form, each in its turn; the length stands.
    fn broken_forms(&mut self, script: &Script, net: &Net) {
        for _ in 0..BROKEN_FORMS {
            let rule = NetRule::ALL[self.turn % NetRule::ALL.len()];
            self.turn += 1;
            if rule == NetRule::Length {
                continue;
            }
            if let Some(damaged) = damage_net(&mut self.random, &net.write(), rule) {
                self.patch_to(&damaged);
                self.ask(Note::NetForm(rule));
                let request = self.asking(script, net).one();
                self.request(request, Note::NetForm(rule));
                self.base();
            }
        }
    }

    /// Requests about the net. One that is done is taken back by another, or
    /// by the base and what was patched.
    fn asked(&mut self, script: &Script, net: &Net) {
        for request in self.asking(script, net).all() {
            let report = self.request(request, Note::Asked);
            if report.is_none_or(|report| report.answer != Answer::Done) {
                continue;
            }
            if self.random.one_in(6) {
                self.ask(Note::Asked);
            }
            match taken_back(request, net) {
                Some(back) if !self.random.one_in(4) => {
                    self.request(back, Note::TakenBack);
                }
                _ => {
                    self.base();
                    self.patch_to(&net.write());
                }
            }
        }
    }

    /// Many processes that nobody made, with whatever in their variables; and
    /// many far from their targets, of which half have no variable set.
    fn crowds(&mut self, script: &Script) {
        let present = some_localities(&mut self.random);
        let near = crowd(&mut self.random, script, present, 26, 24);
        self.each_live(script, &near);
        self.asked(script, &near);
        let far = crowd(&mut self.random, script, FAR, 26, 8);
        let far = unset_in_half(&mut self.random, &far);
        self.each_live(script, &far);
    }

    /// Every process of a new base is asked; most are refused.
    fn each_live(&mut self, script: &Script, net: &Net) {
        self.net(net);
        self.ask(Note::Reached);
        for request in self.asking(script, net).each_live() {
            if let Some(Answer::Done) = self.request(request, Note::Asked).map(|r| r.answer) {
                self.base();
            }
        }
    }

    /// From a few records as far as it goes, some of the way back, on again,
    /// and all the way back.
    fn walks(&mut self, script: &Script) {
        let start = crowd(&mut self.random, script, u8::MAX, 3, 6);
        self.net(&start);
        self.walk_on(script, 40);
        self.walk_back(script, 15);
        self.walk_on(script, 60);
        self.ask(Note::Walked);
        self.walk_back(script, 110);
        self.ask(Note::Walked);
    }

    fn walk_on(&mut self, script: &Script, steps: usize) {
        let mut refusals = 0;
        for _ in 0..steps {
            let net = self.current();
            let sensible = self.asking(script, &net).sensible();
            let report = self.request(sensible, Note::Walked);
            refusals += usize::from(report.is_none_or(|report| report.answer != Answer::Done));
            if refusals > 6 {
                break;
            }
        }
    }

    fn walk_back(&mut self, script: &Script, steps: usize) {
        for _ in 0..steps {
            let net = self.current();
            let events: Vec<Key> = net.event_keys().iter().collect();
            let last: Vec<Key> = events
                .iter()
                .copied()
                .filter(|&event| undoable(script, &net, event))
                .collect();
            let any = self.random.pick(&events).filter(|_| self.random.one_in(4));
            let Some(event) = any.or(self.random.pick(&last)) else {
                break;
            };
            self.request(Request::bare(Code::Backward, event).write(), Note::Walked);
        }
    }

    fn current(&self) -> Net {
        Net::read(&self.bench.net).expect("a walk's net has the form")
    }

    /// A script that breaks this rule alone, with a net that is accepted under
    /// the script it came from, one that is not, and requests of all sorts.
    fn without_form(&mut self, scripts: &[Script], rule: ScriptRule) {
        let damaged = |script: &Script| {
            let damaged = damage_script(&mut self.random, &script.write(), rule)?;
            Some((script.clone(), damaged))
        };
        let found = match rule {
            ScriptRule::Length => None,
            ScriptRule::FormalsDistinct => Some(equal_formals()),
            _ => scripts.iter().find_map(damaged),
        };
        let Some((script, damaged)) = found else {
            return;
        };
        let note = Note::ScriptForm(rule);
        let net = crowd(&mut self.random, &script, 1, 3, 3);
        self.put(Item::Script(&damaged));
        self.patch_to(&net.write());
        self.ask(note);
        for _ in 0..10 {
            let request = self.asking(&script, &net).one();
            self.request(request, note);
        }
        self.put(Item::Patch(0, 0));
        self.ask(note);
        self.request([NONE; 6], note);
        self.base();
    }
}

/// The loops with a template that names one variable twice, and without.
fn equal_formals() -> (Script, Vec<u8>) {
    let good = make(LOOPS).expect("good text");
    let damaged = make(&LOOPS.replace("!u5", "!u4")).expect("good text");
    (Script::read(&good).expect("the form"), damaged)
}

fn slot_at(key: Key) -> usize {
    SLOTS_AT + key.index() * SLOT_LENGTH
}
