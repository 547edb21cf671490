//! Scripts, nets and questions from a seed. A turn is a script, one or more
//! nets and the questions put to them; which sort comes next is drawn.

use crate::bench::Bench;
use crate::bytes::{any_request, change};
use crate::question::Question;
use reference::answer::Answer;
use reference::arbitrary;
use reference::call_nets::{purposes, purposes_script};
use reference::call_stream::calls;
use reference::calls::{Item, Items};
use reference::damage;
use reference::gen::{some_history, Generator};
use reference::machine::open;
use reference::names::{Key, NONE};
use reference::net::Net;
use reference::net_form::{slot_byte, slot_kind, SLOTS_AT, SLOT_LENGTH};
use reference::program::Stream;
use reference::random::Random;
use reference::request::Code;
use reference::walk::{Mood, Walk};

/// Makes turns and puts them to the bench.
pub struct Turns {
    pub bench: Bench,
    random: Random,
    generator: Generator,
}

impl Turns {
    /// The same seed gives the same turns.
    pub fn new(seed: u64) -> Turns {
        Turns {
            bench: Bench::new(seed),
            random: Random::new(!seed),
            generator: Generator::new(seed),
        }
    }

    /// A turn of any sort.
    pub fn any(&mut self) {
        match self.random.below(16) {
            0..=5 => self.stream(),
            6..=9 => self.events(),
            10 => self.changed_bytes(),
            11 => self.changed_net(),
            12 => self.small_nets(),
            13 => self.purpose(),
            _ => self.walk(),
        }
    }

    /// A stream of the second program's `gen`: walks from fresh nets and from
    /// nets with a history, damaged images, short input. After a bad image
    /// each call is asked all the same.
    pub fn stream(&mut self) {
        let generated = self.generator.stream();
        let stream = Stream::cut(&generated.bytes);
        self.images(stream.script, stream.net);
        self.questions();
        for request in stream.requests() {
            self.bench.ask(&Question::Call(request.to_vec()));
            if self.random.one_in(8) {
                self.questions();
            }
        }
    }

    /// A walk until no process can go on, and back.
    pub fn walk(&mut self) {
        let script = arbitrary::script(&mut self.random);
        let net = arbitrary::start(&mut self.random, &script);
        self.images(&script.write(), &net.write());
        for (mood, steps) in [(Mood::Filling, 80), (Mood::Mixed, 40), (Mood::Undoing, 80)] {
            let net = Net::read(&self.bench.net).expect("a walk keeps the form");
            let mut walk = Walk {
                script: &script,
                net,
                mood,
            };
            for _ in 0..steps {
                let taken = walk.step(&mut self.random);
                self.bench.ask(&Question::Call(taken.bytes));
            }
            self.questions();
        }
    }

    /// A net with a history: each key undone, rolled back and rolled, and the
    /// finder for each key, all on the same net.
    pub fn events(&mut self) {
        let (script, net) = some_history(&mut self.random);
        self.images(&script.write(), &net.write());
        self.every_key();
    }

    /// The same on a net grown for the sake of rollback.
    pub fn purpose(&mut self) {
        let script = purposes_script();
        let all = purposes();
        let purpose = &all[self.random.below(all.len() as u64) as usize];
        let net = damage::rename(&mut self.random, &purpose.net(&script));
        self.images(&script.write(), &net.write());
        self.every_key();
    }

    /// Each key with the codes and the question that are meant for it, and
    /// some with others.
    fn every_key(&mut self) {
        for key in Key::all().map(Key::byte) {
            let kind = self.slot_kind(key);
            let others = self.random.one_in(8);
            for code in [Code::Backward, Code::Rollback] {
                if kind == slot_kind::PAST || others {
                    self.bare_call(code, key);
                }
            }
            if kind == slot_kind::LIVE || others {
                self.bare_call(Code::Roll, key);
                self.bench.ask(&Question::Find(key));
            }
        }
        self.bench.helpers();
        for _ in 0..16 {
            let request = any_request(&mut self.random);
            self.bench.ask_and_restore(&Question::Call(request));
        }
    }

    fn bare_call(&mut self, code: Code, key: u8) {
        let request = vec![code as u8, key, NONE, NONE, NONE, NONE];
        self.bench.ask_and_restore(&Question::Call(request));
    }

    /// What stands at this key, where the net has so many bytes; else 0.
    fn slot_kind(&self, key: u8) -> u8 {
        let at = SLOTS_AT + usize::from(key) * SLOT_LENGTH + slot_byte::KIND;
        self.bench.net.get(at).copied().unwrap_or(slot_kind::FREE)
    }

    /// Images of a history with bytes changed, the script, the net or both,
    /// again and again from the same.
    pub fn changed_bytes(&mut self) {
        let (script, net) = some_history(&mut self.random);
        let (script, net) = (script.write(), net.write());
        for _ in 0..24 {
            self.images(&script, &net);
            let what = self.random.below(4);
            if what != 0 {
                change(&mut self.random, &mut self.bench.net);
            }
            if what < 2 {
                change(&mut self.random, &mut self.bench.script);
            }
            self.few_calls();
        }
    }

    /// Nets of a history, changed so that they keep the form.
    pub fn changed_net(&mut self) {
        let (script, net) = some_history(&mut self.random);
        for _ in 0..24 {
            let mut net = net.clone();
            for _ in 0..1 + self.random.below(2) {
                damage::change(&mut self.random, &mut net);
            }
            self.images(&script.write(), &net.write());
            self.few_calls();
        }
    }

    /// Small nets made by no walk, of which few are accepted.
    pub fn small_nets(&mut self) {
        for _ in 0..24 {
            let (script, net) = arbitrary::small(&mut self.random);
            self.images(&script.write(), &net.write());
            self.few_calls();
        }
    }

    /// The whole call stream of a seed, as `reference calls` writes it.
    pub fn call_stream(&mut self, seed: u64) {
        let stream = calls(seed);
        let mut base = Vec::new();
        self.images(&[], &[]);
        for item in Items::of(&stream.bytes) {
            match item {
                Item::Script(bytes) => self.bench.script = bytes.to_vec(),
                Item::Net(bytes) => {
                    base = bytes.to_vec();
                    self.bench.net.clone_from(&base);
                }
                Item::Patch(at, byte) => {
                    if let Some(place) = self.bench.net.get_mut(usize::from(at)) {
                        *place = byte;
                    }
                }
                Item::Base => self.bench.net.clone_from(&base),
                Item::Call(request) => {
                    self.bench.ask(&Question::Call(request.to_vec()));
                }
                Item::Find(key) => {
                    self.bench.ask(&Question::Find(key));
                }
                Item::FreeKey => {
                    self.bench.ask(&Question::FreeKey);
                }
                Item::FreeLocality => {
                    self.bench.ask(&Question::FreeLocality);
                }
            }
        }
    }

    fn images(&mut self, script: &[u8], net: &[u8]) {
        self.bench.script = script.to_vec();
        self.bench.net = net.to_vec();
    }

    /// A few calls and questions one after the other: sensible ones where the
    /// images are good, and any.
    fn few_calls(&mut self) {
        self.questions();
        for _ in 0..6 {
            let request = match self.sensible() {
                Some(request) if !self.random.one_in(3) => request,
                _ => any_request(&mut self.random),
            };
            let said = self.bench.ask(&Question::Call(request));
            if said.answer == Answer::Done.number() && self.random.one_in(4) {
                self.questions();
            }
        }
    }

    fn sensible(&mut self) -> Option<Vec<u8>> {
        let (script, net) = open(&self.bench.script, &self.bench.net).ok()?;
        let walk = Walk {
            script: &script,
            net,
            mood: Mood::Mixed,
        };
        Some(walk.choose(&mut self.random))
    }

    /// The helpers, and the finder for some keys, mostly of live processes.
    fn questions(&mut self) {
        self.bench.helpers();
        let keys = Key::all().map(Key::byte);
        let live: Vec<u8> = keys
            .filter(|&key| self.slot_kind(key) == slot_kind::LIVE)
            .collect();
        for _ in 0..3 {
            let any = self.random.below(80) as u8;
            let key = match self.random.one_in(6) {
                true => any,
                false => self.random.pick(&live).unwrap_or(any),
            };
            self.bench.ask(&Question::Find(key));
        }
    }
}
