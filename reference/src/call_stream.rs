//! The call stream of a seed: document 01's cases; images and requests of
//! wrong length, damaged or not accepted, alone and together; every code with
//! every sort of record; nets grown for the sake of rollback and nets that
//! walks came to, where every event is rolled back; walks with every code.

use crate::answer::{Answer, Report};
use crate::arbitrary::crowd;
use crate::call_nets::{purposes, purposes_script, step_of, SIDE_BY_SIDE};
use crate::calls::{Bench, Item, Said};
use crate::cases::{B, CASES, T};
use crate::damage::{damage_net, damage_script, rename};
use crate::names::{Key, NONE};
use crate::net::{Datum, Net, Slot};
use crate::net_form::{slot_byte, NetRule, NET_LENGTH, SLOTS_AT, SLOT_LENGTH};
use crate::random::Random;
use crate::request::{Code, Request};
use crate::rule::uses_tuple;
use crate::script::Script;
use crate::script_form::{Kind, ScriptRule, SCRIPT_LENGTH};
use crate::step::check_forward;
use crate::text_read::make;
use crate::trial_nets::{
    hand_made, histories, scripts, unset_in_half, Collection, LOOPS, REQUESTS as STEPS,
};
use crate::trial_requests::{Asking, Bytes};
use crate::walk::{Mood, Walk};

/// A script, a net and requests by hand, mostly of codes 1 to 3.
pub const REQUESTS: &str = include_str!("../examples/call_requests.txt");

/// A script for the finder.
const FINDER: &str = include_str!("../examples/call_finder.txt");

/// Why a question stands in the stream.
#[derive(Clone, Copy, PartialEq, Eq, Debug)]
pub enum Note {
    /// Before the first script and net.
    Bare,
    /// A case of document 01, by its place among all.
    Case(usize),
    /// Script, net or request bad, alone or two or three at once.
    Together,
    /// A script or a net of some wrong length.
    Length,
    /// One rule of the form or one clause broken, or a net made by hand.
    Refused,
    /// Forward and backward steps by hand, one after the other.
    StepsByHand,
    /// Requests by hand of the other codes, each on the same net.
    ByHand,
    /// Every code with every key of the net by hand, and places of all sorts.
    Crossed,
    /// The finder, where many wait for one of many tuples.
    Finder,
    /// The helpers with one key, or one locality, left or none.
    LastNames,
    /// A net grown for a purpose, by its place among all.
    Purpose(usize),
    /// A net that a walk came to.
    History,
    /// Processes far from their targets.
    Far,
    /// A step of a walk with every code.
    Walked,
}

/// The stream, and a note for each of its questions.
pub struct Calls {
    pub bytes: Vec<u8>,
    pub notes: Vec<Note>,
}

/// The same seed gives the same stream.
pub fn calls(seed: u64) -> Calls {
    let scripts = scripts(&mut Random::new(seed));
    let mut writing = Writing::new(seed);
    writing.bare();
    writing.cases();
    writing.together();
    writing.lengths();
    writing.by_hand();
    writing.broken_scripts(&scripts);
    for collection in hand_made() {
        writing.collection(&collection);
    }
    writing.finders();
    writing.last_names();
    writing.all_purposes();
    for script in &scripts {
        writing.nets_of(script);
    }
    Calls {
        bytes: writing.bytes,
        notes: writing.notes,
    }
}

/// Lengths of requests that are not 6.
pub const WRONG_REQUESTS: [usize; 11] = [0, 1, 2, 3, 4, 5, 7, 8, 11, 12, 16];

/// Which of a script's nets with a history stand in the stream: half full,
/// full, and out of a process at every node.
const HALF_FULL: usize = 1;
const FULL: usize = 3;
const EVERY_NODE: usize = 4;

/// Once in so many, a done call is followed by the helpers, by the finder or
/// by the step taken again; and a key that a question is not meant for is
/// asked about all the same.
const HELPERS_ONCE_IN: u64 = 4;
const FINDER_ONCE_IN: u64 = 8;
const AGAIN_ONCE_IN: u64 = 8;
const OTHERS_ONCE_IN: u64 = 8;

/// How often each rule of the net's form is broken.
const BROKEN_FORMS: usize = 8;

/// How many tuples are taken between the questions to the finder.
const TAKEN: usize = 12;

/// Localities of which most scripts speak seldom: without 0 and 1, most
/// targets are absent.
const FAR: u8 = 0b0101_0100;

struct Writing {
    bytes: Vec<u8>,
    notes: Vec<Note>,
    /// The note of the questions from here on.
    note: Note,
    /// What stands between the items; it also answers.
    bench: Bench,
    random: Random,
}

impl Writing {
    fn new(seed: u64) -> Writing {
        Writing {
            bytes: Vec::new(),
            notes: Vec::new(),
            note: Note::Bare,
            bench: Bench::default(),
            random: Random::new(!seed),
        }
    }

    fn put(&mut self, item: Item) -> Option<Said> {
        item.write(&mut self.bytes);
        if item.is_question() {
            self.notes.push(self.note);
        }
        self.bench.take(item)
    }

    fn script(&mut self, bytes: &[u8]) {
        self.put(Item::Script(bytes));
    }

    /// A net, which is the base from here on.
    fn base_net(&mut self, bytes: &[u8]) {
        self.put(Item::Net(bytes));
    }

    /// A net by the shorter way: patched onto the base, or a new base.
    fn net(&mut self, bytes: &[u8]) {
        let base = &self.bench.base;
        let differing = base.iter().zip(bytes).filter(|(old, new)| old != new);
        if base.len() == bytes.len() && 4 * differing.count() < bytes.len() {
            self.restore(bytes);
        } else {
            self.base_net(bytes);
        }
    }

    /// The base, patched to these bytes.
    fn restore(&mut self, bytes: &[u8]) {
        self.put(Item::Base);
        for (at, &byte) in bytes.iter().enumerate() {
            if self.bench.net[at] != byte {
                self.put(Item::Patch(at as u16, byte));
            }
        }
    }

    fn call(&mut self, request: &[u8]) -> Report {
        match self.put(Item::Call(request)) {
            Some(Said::Call(report, _)) => report,
            _ => Report::refused(Answer::BadRequest),
        }
    }

    /// A call after which the net is the same again; was it done?
    fn call_and_restore(&mut self, request: &[u8]) -> bool {
        let before = self.bench.net.clone();
        let done = self.call(request).answer == Answer::Done;
        if done {
            self.restore(&before);
        }
        done
    }

    fn find(&mut self, key: u8) {
        self.put(Item::Find(key));
    }

    fn helpers(&mut self) {
        self.put(Item::FreeKey);
        self.put(Item::FreeLocality);
    }

    /// The net as it stands, taken apart.
    fn current(&self) -> Net {
        Net::read(&self.bench.net).expect("the net has the form")
    }

    /// Before the first script and net both have no bytes; then no script.
    fn bare(&mut self) {
        self.note = Note::Bare;
        self.questions_of_all_sorts();
        self.put(Item::Base);
        self.put(Item::Patch(0, b'R'));
        self.questions_of_all_sorts();
        self.base_net(&image(B));
        self.questions_of_all_sorts();
        self.script(&image(T));
        self.base_net(&[]);
        self.questions_of_all_sorts();
    }

    /// Good questions, for script T and case B after its two steps, and bad
    /// ones of every sort. The net is the same after them.
    fn questions_of_all_sorts(&mut self) {
        for request in requests_of_all_sorts() {
            self.call_and_restore(&request);
        }
        for key in [0, 1, 3, 63, 64, 255] {
            self.find(key);
        }
        self.helpers();
    }

    /// Each case's net, patched onto the empty one, and its requests in turn.
    fn cases(&mut self) {
        self.script(&image(T));
        self.base_net(&Net::empty().write());
        for (place, case) in CASES.iter().enumerate() {
            self.note = Note::Case(place);
            self.net(&image(case.net));
            for request in requests_of(case.requests) {
                self.call(&request);
            }
            (0..5).for_each(|key| self.find(key));
            self.helpers();
        }
    }

    /// Every sort of bad script with every sort of bad net, and each question
    /// to each pair; so two and three bad ones at once.
    fn together(&mut self) {
        self.note = Note::Together;
        for net in good_and_bad_nets() {
            self.net(&net);
            for script in good_and_bad_scripts() {
                self.script(&script);
                self.questions_of_all_sorts();
            }
        }
    }

    /// More lengths, one at a time; and script and net the wrong way round.
    /// A byte past the net's end cannot be changed, one of a longer net can.
    fn lengths(&mut self) {
        self.note = Note::Length;
        let (script, net) = (image(T), after_two_steps());
        self.script(&script);
        for length in [2, 15, 16, 17, 72, 2064, NET_LENGTH + 2, 4096] {
            self.base_net(&cut_or_filled(&net, length));
            self.put(Item::Patch(length as u16, 1));
            self.put(Item::Patch(u16::MAX, 1));
            self.some_questions();
            self.put(Item::Patch(length as u16 - 1, 7));
            self.some_questions();
        }
        self.base_net(&script);
        self.some_questions();
        self.base_net(&net);
        for length in [2, 15, 16, 17, 48, SCRIPT_LENGTH + 2, 3600, 4096] {
            self.script(&cut_or_filled(&script, length));
            self.some_questions();
        }
        self.script(&net);
        self.some_questions();
    }

    /// One question of each sort; where all is good a rollback is done.
    fn some_questions(&mut self) {
        for request in [bare(Code::Rollback, 1), bare(Code::Backward, 2)] {
            self.call_and_restore(&request);
        }
        self.call(&[2, 1, NONE, NONE]);
        self.find(3);
        self.helpers();
    }

    /// The nets and the requests of two texts; the finder for every byte.
    fn by_hand(&mut self) {
        self.images_of(STEPS);
        self.note = Note::StepsByHand;
        for request in requests_of(STEPS) {
            self.call(&request);
        }
        (0..=u8::MAX).for_each(|key| self.find(key));
        self.images_of(REQUESTS);
        self.note = Note::ByHand;
        for request in requests_of(REQUESTS) {
            self.call_and_restore(&request);
        }
        self.broken_nets();
        self.note = Note::Crossed;
        (0..=u8::MAX).for_each(|key| self.find(key));
        self.helpers();
        for key in 0..65 {
            self.crossed(key);
        }
    }

    /// The base with each rule of the net's form broken alone, some times; the
    /// length has its own place.
    fn broken_nets(&mut self) {
        self.note = Note::Refused;
        let script = Script::read(&self.bench.script).expect("the form");
        let net = self.current();
        for rule in NetRule::ALL
            .into_iter()
            .filter(|&rule| rule != NetRule::Length)
        {
            for _ in 0..BROKEN_FORMS {
                if let Some(damaged) = self.damaged(&net, rule) {
                    self.restore(&damaged);
                    self.calls_of_each_code(&script, &net);
                }
            }
        }
        self.put(Item::Base);
    }

    /// A field that is unset breaks that rule alone where its number is 0,
    /// which chance seldom finds.
    fn damaged(&mut self, net: &Net, rule: NetRule) -> Option<Vec<u8>> {
        let mut bytes = net.write();
        if rule != NetRule::FieldSet {
            return damage_net(&mut self.random, &bytes, rule);
        }
        let zero = |slot: &Slot| {
            let first = slot.tuple().and_then(|tuple| tuple.fields.first());
            first == Some(&Datum::Value(0))
        };
        let key = Key::all().find(|&key| zero(net.slot(key)))?;
        bytes[SLOTS_AT + key.index() * SLOT_LENGTH + slot_byte::TAGS] = 0;
        Some(bytes)
    }

    /// Script and net of a text in which requests follow.
    fn images_of(&mut self, text: &str) {
        let (images, _) = text.split_once("\nrequests\n").expect("requests follow");
        let images = image(images);
        let (script, net) = images.split_at(SCRIPT_LENGTH);
        self.script(script);
        self.base_net(net);
    }

    /// Every code with this key: with no place, with those that some kind
    /// needs, with one too many, with one out of range.
    fn crossed(&mut self, key: u8) {
        let tuple = self.random.pick(&[3, 9, 53, 55, 57]).unwrap_or(3);
        for [tuple, first, second, locality] in [
            [NONE; 4],
            [NONE, 62, 63, NONE],
            [tuple, 62, NONE, NONE],
            [NONE, 62, NONE, 10],
        ] {
            self.call_and_restore(&[0, key, tuple, first, second, locality]);
        }
        for code in 1..5 {
            self.call_and_restore(&[code, key, NONE, NONE, NONE, NONE]);
            let place = self.random.below(4) as usize;
            for value in [20, 64] {
                let mut request = [code, key, NONE, NONE, NONE, NONE];
                request[2 + place] = value;
                self.call_and_restore(&request);
            }
        }
    }

    /// Many that wait for one of many tuples; each question again after some
    /// tuple was taken.
    fn finders(&mut self) {
        self.note = Note::Finder;
        let script = Script::read(&image(FINDER)).expect("the form");
        let net = waiting_and_tuples(&mut self.random);
        self.script(&script.write());
        self.base_net(&net.write());
        for _ in 0..TAKEN {
            let net = self.current();
            for (key, slot) in net.records() {
                if waits(&script, slot) {
                    self.find(key.byte());
                }
            }
            let steps: Vec<Request> = Key::all()
                .filter_map(|key| step_of(&script, &net, key))
                .filter(|step| check_forward(&script, &net, step).is_ok())
                .collect();
            if let Some(step) = self.random.pick(&steps) {
                self.call(&step.write());
            }
        }
    }

    /// No key left, and each key as the only one left; no locality left, and
    /// each as the only one left, by undoing the newloc that made it.
    fn last_names(&mut self) {
        self.note = Note::LastNames;
        let script = purposes_script();
        self.script(&script.write());
        let newlocs = all_localities_made(&script);
        self.base_net(&newlocs.write());
        self.helpers();
        for (key, _, _) in newlocs.events() {
            self.call(&Request::bare(Code::Rollback, key).write());
            self.helpers();
            self.put(Item::Base);
        }
        let full = full_of_tuples();
        self.base_net(&full.write());
        self.helpers();
        for key in Key::all() {
            let mut one_left = full.clone();
            one_left.set(key, Slot::Free);
            self.net(&one_left.write());
            self.helpers();
        }
    }

    fn all_purposes(&mut self) {
        let script = purposes_script();
        self.script(&script.write());
        for (place, purpose) in purposes().iter().enumerate() {
            let mut random = Random::new(self.random.draw());
            let nets = purpose.in_three_orders(&script, &mut random);
            self.note = Note::Purpose(place);
            for (order, net) in nets.iter().enumerate() {
                self.about(&script, net, order == 2);
            }
        }
    }

    /// All there is to ask about a net: the helpers, the finder for every
    /// live process, and every event undone by each code that undoes. Of the
    /// other keys some are asked; where `every_key` is set, all of them.
    fn about(&mut self, script: &Script, net: &Net, every_key: bool) {
        self.base_net(&net.write());
        self.helpers();
        for key in Key::all() {
            let live = matches!(net.slot(key), Slot::Live(_));
            if live || every_key || self.random.one_in(OTHERS_ONCE_IN) {
                self.find(key.byte());
            }
        }
        for code in [Code::Backward, Code::Rollback, Code::Roll] {
            for key in Key::all() {
                let every_key = every_key && code != Code::Roll;
                let meant = meant_for(script, net, code, key);
                if meant || every_key || self.random.one_in(OTHERS_ONCE_IN) {
                    self.undo(script, Request::bare(code, key));
                }
            }
        }
    }

    /// A call that undoes, what is seen after it, and the base again.
    fn undo(&mut self, script: &Script, request: Request) {
        if self.call(&request.write()).answer != Answer::Done {
            return;
        }
        if self.random.one_in(HELPERS_ONCE_IN) {
            self.helpers();
        }
        if self.random.one_in(FINDER_ONCE_IN) {
            self.find(request.key.byte());
        }
        if self.random.one_in(AGAIN_ONCE_IN) {
            self.again(script, request.key);
        }
        self.put(Item::Base);
    }

    /// The step of what is live again, with names from the helpers: "a key
    /// freed by undoing is free".
    fn again(&mut self, script: &Script, key: Key) {
        if let Some(step) = step_of(script, &self.current(), key) {
            self.call(&step.write());
            self.helpers();
        }
    }

    /// For each rule of the script's form a script that breaks it alone, with
    /// a net that is accepted under the script it came from.
    fn broken_scripts(&mut self, scripts: &[Script]) {
        self.note = Note::Refused;
        self.base_net(&Net::empty().write());
        for rule in ScriptRule::ALL {
            let found = match rule {
                ScriptRule::Length => None,
                ScriptRule::FormalsDistinct => Some(equal_formals()),
                _ => scripts.iter().find_map(|script| {
                    let damaged = damage_script(&mut self.random, &script.write(), rule)?;
                    Some((script.clone(), damaged))
                }),
            };
            if let Some((script, damaged)) = found {
                let net = crowd(&mut self.random, &script, 1, 3, 3);
                self.script(&damaged);
                self.net(&net.write());
                self.refused(&script, &net);
            }
        }
    }

    /// Nets made by hand: each breaks one clause alone or is accepted.
    fn collection(&mut self, collection: &Collection) {
        self.note = Note::Refused;
        self.script(&collection.script.write());
        self.base_net(&Net::empty().write());
        for (_, net) in &collection.nets {
            self.net(&net.write());
            self.refused(&collection.script, net);
        }
    }

    /// Questions that would mean something if the images were good.
    fn refused(&mut self, script: &Script, net: &Net) {
        for (key, slot) in net.records() {
            let codes: &[Code] = match slot {
                Slot::Past(..) => &[Code::Backward, Code::Rollback],
                Slot::Live(_) if is_roll(script, slot) => &[Code::Roll],
                _ => &[],
            };
            for &code in codes {
                self.call_and_restore(&Request::bare(code, key).write());
            }
        }
        let sensible = Asking::about(script, net, &mut self.random).sensible();
        self.call_and_restore(&sensible);
        let waiting = net.records().find(|(_, slot)| waits(script, slot));
        self.find(waiting.map_or(0, |(key, _)| key.byte()));
        self.helpers();
    }

    fn nets_of(&mut self, script: &Script) {
        self.script(&script.write());
        let nets = histories(&mut self.random, script);
        for net in [&nets[FULL], &nets[EVERY_NODE], &nets[HALF_FULL]] {
            self.note = Note::History;
            self.about(script, net, net == &nets[FULL]);
        }
        self.walks(script);
        self.far(script);
    }

    /// Processes far from their targets, half of them with no variable set:
    /// the finder and the step of each are mostly refused.
    fn far(&mut self, script: &Script) {
        self.note = Note::Far;
        let net = crowd(&mut self.random, script, FAR, 22, 8);
        let net = unset_in_half(&mut self.random, &net);
        self.base_net(&net.write());
        for key in Key::all().filter(|&key| net.slot(key).process().is_some()) {
            self.find(key.byte());
        }
        for request in Asking::about(script, &net, &mut self.random).each_live() {
            self.call_and_restore(&request);
        }
    }

    /// One call of each code that a good net might take, and the others.
    fn calls_of_each_code(&mut self, script: &Script, net: &Net) {
        let sensible = Asking::about(script, net, &mut self.random).sensible();
        self.call(&sensible);
        let events: Vec<Key> = net.event_keys().iter().collect();
        if let Some(event) = self.random.pick(&events) {
            self.call(&bare(Code::Backward, event.byte()));
            self.call(&bare(Code::Rollback, event.byte()));
        }
        let roll = self.one_of(net, |slot| is_roll(script, slot));
        self.call(&bare(Code::Roll, roll));
        let waiting = self.one_of(net, |slot| waits(script, slot));
        self.find(waiting);
        self.helpers();
    }

    /// A key whose slot is wanted, or 0.
    fn one_of(&mut self, net: &Net, wanted: impl Fn(&Slot) -> bool) -> u8 {
        let keys: Vec<Key> = Key::all().filter(|&key| wanted(net.slot(key))).collect();
        self.random.pick(&keys).map_or(0, Key::byte)
    }

    /// From the base on, with every code, on and back and on again.
    fn walks(&mut self, script: &Script) {
        self.note = Note::Walked;
        for (mood, steps) in [
            (Mood::Filling, 30),
            (Mood::Mixed, 30),
            (Mood::Undoing, 20),
            (Mood::Filling, 30),
            (Mood::Undoing, 40),
        ] {
            self.walk(script, mood, steps);
        }
    }

    fn walk(&mut self, script: &Script, mood: Mood, steps: usize) {
        for _ in 0..steps {
            let mut walk = Walk {
                script,
                net: self.current(),
                mood,
            };
            let request = walk.step(&mut self.random).bytes;
            self.call(&request);
            match self.random.below(12) {
                0 => self.helpers(),
                1 | 2 => self.find(request[1]),
                3 => self.wrong_length(&request),
                _ => {}
            }
        }
    }

    /// The request cut short or made longer.
    fn wrong_length(&mut self, request: &[u8]) {
        let length = self.random.pick(&WRONG_REQUESTS).unwrap_or(0);
        self.call(&cut_or_filled(request, length));
    }
}

/// Is the key one that this code is meant for?
fn meant_for(script: &Script, net: &Net, code: Code, key: Key) -> bool {
    match code {
        Code::Roll => is_roll(script, net.slot(key)),
        _ => net.memory(key).is_some(),
    }
}

fn is_roll(script: &Script, slot: &Slot) -> bool {
    matches!(slot, Slot::Live(process) if script.node(process.node).kind == Kind::Roll)
}

/// A live process at an in or read.
fn waits(script: &Script, slot: &Slot) -> bool {
    matches!(slot, Slot::Live(process) if uses_tuple(script.node(process.node).kind))
}

fn image(text: &str) -> Vec<u8> {
    make(text).expect("good text")
}

/// The requests of a text, each by itself: so they may have any length.
pub fn requests_of(text: &str) -> Vec<Vec<u8>> {
    let lines = text.lines().filter(|line| line.starts_with("request"));
    let lines = lines.filter(|line| *line != "requests");
    lines
        .map(|line| image(&format!("requests\n{line}")))
        .collect()
}

fn bare(code: Code, key: u8) -> Bytes {
    [code as u8, key, NONE, NONE, NONE, NONE]
}

/// Case B after its two steps, and another process for each code to take.
fn after_two_steps() -> Vec<u8> {
    image(
        "net\npresent l0 l1 l2\nkey 0 consumed (7) at l0\n\
         key 1 past node 4 at l1 first=3 used=0\nkey 2 past node 5 at l2 first=4 used=0\n\
         key 3 live node 0 at l1\nkey 4 live node 0 at l2\n\
         key 5 past node 1 at l0 first=6 second=7\nkey 6 past node 2 at l0 r0=5 first=8 used=9\n\
         key 7 tuple (1) at l0\nkey 8 live node 3 at l0 r0=5\nkey 9 consumed (2) at l0\n\
         key 10 tuple (7) at l0\nkey 11 live node 4 at l1",
    )
}

/// For that net: a good request of each code, requests of wrong length, and
/// requests with one thing wrong.
fn requests_of_all_sorts() -> Vec<Vec<u8>> {
    let good = [
        [0, 11, 10, 12, NONE, NONE],
        bare(Code::Backward, 2),
        bare(Code::Rollback, 1),
        bare(Code::Roll, 8),
    ];
    let bad = [
        [4, 1, NONE, NONE, NONE, NONE],
        bare(Code::Rollback, 64),
        [2, 1, NONE, NONE, NONE, 32],
        bare(Code::Rollback, 3),
    ];
    let cut = WRONG_REQUESTS
        .iter()
        .map(|&length| cut_or_filled(&good[2], length));
    let whole = good.iter().chain(&bad).map(|request| request.to_vec());
    whole.chain(cut).collect()
}

/// The bytes cut short, or with others after them: 255, as in an empty place.
fn cut_or_filled(bytes: &[u8], length: usize) -> Vec<u8> {
    let mut other = bytes.to_vec();
    other.resize(length, NONE);
    other
}

/// The net of `after_two_steps`, and with something wrong: the form, the
/// acceptance, the length.
fn good_and_bad_nets() -> Vec<Vec<u8>> {
    let good = after_two_steps();
    let with = |at: usize, byte: u8| {
        let mut changed = good.clone();
        changed[at] = byte;
        changed
    };
    let longer = [&good[..], &[0]].concat();
    vec![
        good.clone(),
        with(0, b'r'),
        with(8, 3),
        good[..NET_LENGTH - 1].to_vec(),
        longer,
        Vec::new(),
        good[..1].to_vec(),
    ]
}

/// Script T, and with something wrong: the form, the length.
fn good_and_bad_scripts() -> Vec<Vec<u8>> {
    let good = image(T);
    let mut another_form = good.clone();
    another_form[16] = 8;
    let longer = [&good[..], &[0]].concat();
    vec![
        good.clone(),
        another_form,
        good[..SCRIPT_LENGTH - 1].to_vec(),
        longer,
        Vec::new(),
        good[..1].to_vec(),
    ]
}

/// The net of the purpose with every locality made, each by a process of its
/// own.
fn all_localities_made(script: &Script) -> Net {
    let nets = purposes();
    let purpose = nets.iter().find(|purpose| purpose.name == SIDE_BY_SIDE);
    purpose.expect("it is there").net(script)
}

/// Two processes at each node of the finder's script, and tuples of which many
/// are alike, all under keys in no order.
fn waiting_and_tuples(random: &mut Random) -> Net {
    const TUPLES: [&str; 8] = ["0", "1", "2", "l0", "l1", "0, 1", "1, l0", "3, 2"];
    let mut lines = String::new();
    for key in 0..22 {
        let (node, target) = (1 + key / 2, random.below(4));
        lines += &format!("key {key} live node {node} at l1 x3=2 x4=l{target}\n");
    }
    for key in 22..50 {
        let fields = TUPLES[random.below(8) as usize];
        let at = random.pick(&[0, 0, 0, 1, 1, 2]).unwrap_or(0);
        lines += &format!("key {key} tuple ({fields}) at l{at}\n");
    }
    let net = Net::read(&image(&format!("net\npresent l0 l1 l2\n{lines}"))).expect("the form");
    rename(random, &net)
}

/// Sixty-four tuples.
fn full_of_tuples() -> Net {
    let tuples = Key::all().map(|key| format!("key {key} tuple (1) at l{}\n", key.byte() % 8));
    let text = format!(
        "net\npresent l0 l1 l2 l3 l4 l5 l6 l7\n{}",
        tuples.collect::<String>()
    );
    Net::read(&image(&text)).expect("the form")
}

/// The loops with a template that names one variable twice, and without.
fn equal_formals() -> (Script, Vec<u8>) {
    let good = Script::read(&image(LOOPS)).expect("the form");
    (good, image(&LOOPS.replace("!u5", "!u4")))
}
