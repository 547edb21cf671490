//! The call stream of seed 1: which answers each code, the finder and the
//! helpers give in it, and which situations of dependence are rolled back.

use reference::answer::Answer;
use reference::call_nets::{purposes, purposes_script};
use reference::call_stream::{calls, Calls, Note, REQUESTS, WRONG_REQUESTS};
use reference::calls::{answer_calls, Bench, Item, Items, Said, LONGEST_IMAGE, LONGEST_REQUEST};
use reference::cases::{A, CASES, T};
use reference::crc32::crc32;
use reference::dependence::Dependence;
use reference::machine::{find, open};
use reference::names::{Key, Keys, Locality};
use reference::net::{Net, Slot, Tuple};
use reference::net_form::NET_LENGTH;
use reference::random::Random;
use reference::request::Request;
use reference::rule::{evaluate, matching, target};
use reference::script::Script;
use reference::script_form::{Kind, SCRIPT_LENGTH};
use reference::text_read::make;
use reference::trial_nets::{scripts, REQUESTS as STEPS};
use std::collections::{BTreeMap, BTreeSet};
use std::io::Write;
use std::path::Path;
use std::process::{Command, Stdio};
use std::sync::OnceLock;

fn stream() -> &'static Calls {
    static STREAM: OnceLock<Calls> = OnceLock::new();
    STREAM.get_or_init(|| calls(1))
}

/// A question of the stream, with what there is to know about it.
struct Question {
    note: Note,
    said: Said,
    /// The request of a call, the key byte of the finder.
    asked: Vec<u8>,
    /// What is wrong with the script, the net and the request, if anything.
    script: &'static str,
    net: &'static str,
    request: &'static str,
    /// What is to be seen in the net before and after.
    seen: Vec<&'static str>,
    crc_before: u32,
    length_before: usize,
    length_after: usize,
    /// Where a rollback or roll was done: who was undone.
    undone: Keys,
}

impl Question {
    fn answer(&self) -> u8 {
        self.said.answer().number()
    }

    fn is_call(&self) -> bool {
        matches!(self.said, Said::Call(..))
    }

    fn is_find(&self) -> bool {
        matches!(self.said, Said::Find(..))
    }

    /// The code of a call, where it has one of the four.
    fn code(&self) -> Option<u8> {
        let code = self.asked.first().copied().filter(|_| self.is_call());
        code.filter(|&code| code < 4)
    }

    fn undone_and_touched(&self) -> (u32, u32) {
        match self.said {
            Said::Call(report, _) => (report.undone, report.touched.0),
            _ => (0, 0),
        }
    }

    /// Was something undone by code 2 or 3?
    fn rolled_back(&self) -> bool {
        self.answer() == 0 && matches!(self.code(), Some(2 | 3))
    }

    fn sees(&self, what: &str) -> bool {
        self.seen.contains(&what)
    }
}

fn questions() -> &'static [Question] {
    static QUESTIONS: OnceLock<Vec<Question>> = OnceLock::new();
    QUESTIONS.get_or_init(|| {
        let mut bench = Bench::default();
        let mut notes = stream().notes.iter();
        let mut questions = Vec::new();
        let mut after_undoing = false;
        for item in Items::of(&stream().bytes) {
            if !item.is_question() {
                assert_eq!(bench.take(item), None);
                after_undoing = false;
                continue;
            }
            let before = bench.clone();
            let said = bench.take(item).expect("a question is answered");
            let note = *notes.next().expect("a note for each question");
            let mut question = question(note, said, item, &before, &bench);
            if after_undoing {
                question.seen.push("after an undoing");
            }
            after_undoing |= matches!(said, Said::Call(report, _) if report.undone > 0);
            questions.push(question);
        }
        assert!(notes.next().is_none());
        questions
    })
}

fn question(note: Note, said: Said, item: Item, before: &Bench, after: &Bench) -> Question {
    let asked = match item {
        Item::Call(request) => request.to_vec(),
        Item::Find(key) => vec![key],
        _ => Vec::new(),
    };
    let opened = open(&before.script, &before.net);
    let bad = opened.as_ref().err().copied();
    let script_good = bad != Some(Answer::BadScript);
    let mut question = Question {
        note,
        said,
        script: what_is_wrong(&before.script, SCRIPT_LENGTH, script_good),
        net: wrong_net(&before.net, bad),
        request: wrong_request(item),
        asked,
        seen: Vec::new(),
        crc_before: crc32(&before.net),
        length_before: before.net.len(),
        length_after: after.net.len(),
        undone: Keys::default(),
    };
    if let Ok((script, net)) = opened {
        let after = Net::read(&after.net).expect("the form");
        question.seen = match item {
            Item::Find(key) => seen_by_finder(&script, &net, key),
            Item::FreeKey => seen_by_free_key(&net),
            Item::FreeLocality => seen_by_free_locality(&net),
            _ => Vec::new(),
        };
        if question.rolled_back() {
            question.undone = undone_between(&net, &after);
            question.seen = seen_in_rollback(&script, &net, &after, question.undone);
        }
    }
    question
}

fn what_is_wrong(bytes: &[u8], length: usize, good: bool) -> &'static str {
    match bytes.len() {
        _ if good => "",
        0 => "empty",
        1 => "one byte",
        l if l == length => "form",
        l if l + 1 == length => "one short",
        l if l == length + 1 => "one long",
        _ => "another length",
    }
}

/// Where the script is bad, the net is held against script T.
fn wrong_net(net: &[u8], bad: Option<Answer>) -> &'static str {
    let good = match bad {
        None => true,
        Some(Answer::BadScript) => open(&make(T).expect("good text"), net).is_ok(),
        Some(_) => false,
    };
    let wrong = what_is_wrong(net, NET_LENGTH, good);
    if wrong == "form" && Net::read(net).is_ok() {
        return "not accepted";
    }
    wrong
}

fn wrong_request(item: Item) -> &'static str {
    match item {
        Item::Call(request) if request.len() != 6 => "length",
        Item::Call(request) if Request::read(request).is_none() => "range",
        Item::Find(key) if key > 63 => "range",
        _ => "",
    }
}

/// The events of the one net that are none in the other, or no longer there.
fn undone_between(before: &Net, after: &Net) -> Keys {
    Keys(before.event_keys().0 & !after.event_keys().0)
}

/// The names of those that hold.
fn holding(all: &[(bool, &'static str)]) -> Vec<&'static str> {
    let holding = all.iter().filter(|(holds, _)| *holds);
    holding.map(|&(_, name)| name).collect()
}

/// The situations in which a rollback took place.
fn seen_in_rollback(script: &Script, net: &Net, after: &Net, undone: Keys) -> Vec<&'static str> {
    let dependence = Dependence::of(script, net);
    let kind = |key: Key| {
        let process = net.slot(key).process().expect("an event");
        script.node(process.node).kind
    };
    let among = |wanted: &dyn Fn(Key) -> bool| undone.iter().any(wanted);
    let on = |e: Key| dependence.directly_on(e).iter();
    let lower = undone.iter().flat_map(|e| on(e).map(move |f| f < e));
    let lower: Vec<bool> = lower.collect();
    let made_tuple = |key: Key| {
        let made = net.events().find(|(_, _, memory)| memory.made_key(key));
        made.is_some_and(|(maker, _, _)| undone.contains(maker))
    };
    let used = |kind_wanted: Kind| {
        among(&|key| {
            let used = net.memory(key).and_then(|memory| memory.used);
            kind(key) == kind_wanted && used.is_some_and(made_tuple)
        })
    };
    let lives_at = |key: Key| net.slot(key).locality();
    let newloc = |wanted: &dyn Fn(Locality) -> bool| {
        among(&|key| {
            let made = net.memory(key).and_then(|memory| memory.locality);
            made.is_some_and(wanted)
        })
    };
    let at = |wanted: fn(&Slot) -> bool| {
        newloc(&|l: Locality| {
            let mut there = net.records().filter(|(_, slot)| slot.locality() == Some(l));
            there.any(|(_, slot)| wanted(slot))
        })
    };
    let reader_stays = |key: Key| {
        let used = net.memory(key).and_then(|memory| memory.used);
        let stays = |(e, _, memory): (Key, _, &reference::net::Memory)| {
            e != key && memory.used == used && kind(e) == Kind::Read && !undone.contains(e)
        };
        kind(key) == Kind::Read && after.events().any(stays)
    };
    let taken_after = |key: Key| kind(key) == Kind::Read && on(key).any(|f| kind(f) == Kind::In);
    let freed_made = net.records().any(|(key, slot)| {
        let made = slot.locality().is_some_and(|l| !l.is_original());
        made && after.is_free(key)
    });
    holding(&[
        (undone.len() == 1, "nothing else depends"),
        (undone.len() >= 60, "60 and more"),
        (undone.len() >= 30, "30 and more"),
        (among(&|e| on(e).count() >= 10), "ten and more directly"),
        (among(&|e| on(e).count() >= 2), "two and more directly"),
        (among(&|e| kind(e) == Kind::Split), "a split"),
        (among(&taken_after), "an in after a read"),
        (
            among(&|e| taken_after(e) && reader_stays(e)),
            "an in after a read, another reader stays",
        ),
        (used(Kind::Read), "a made tuple that was read"),
        (used(Kind::In), "a made tuple that was taken"),
        (newloc(&|_| true), "a made locality"),
        (at(Slot::is_live), "a made locality with live records"),
        (
            at(|slot| matches!(slot, Slot::Past(..) | Slot::Consumed(_))),
            "a made locality with past records",
        ),
        (
            among(&|e| {
                let made = lives_at(e).is_some_and(|l| !l.is_original());
                made && kind(e) == Kind::Newloc
            }),
            "a newloc at a made locality",
        ),
        (freed_made, "freed at a made locality"),
        (net.records().count() == 64, "a full net"),
        (
            lower.len() >= 3 && lower.iter().all(|&l| l),
            "all lower keys",
        ),
        (
            lower.len() >= 3 && lower.iter().all(|&l| !l),
            "all higher keys",
        ),
        (
            lower.len() >= 3 && lower.contains(&true) && lower.contains(&false),
            "lower and higher keys",
        ),
    ])
}

/// The situations in which the finder looked for a tuple.
fn seen_by_finder(script: &Script, net: &Net, key: u8) -> Vec<&'static str> {
    let Some(Slot::Live(process)) = Key::new(u32::from(key)).map(|key| net.slot(key)) else {
        return Vec::new();
    };
    let node = script.node(process.node);
    let (Some(fields), Some(target)) = (
        evaluate(&node.fields, &process.variables),
        target(node, &process.variables),
    ) else {
        return Vec::new();
    };
    if !matches!(node.kind, Kind::In | Kind::Read) || !net.present.contains(target) {
        return Vec::new();
    }
    let matches = |tuple: &Tuple| matching(&fields, &tuple.fields).is_some();
    let keys = |wanted: &dyn Fn(&Slot) -> bool| {
        let wanted = net.records().filter(|(_, slot)| wanted(slot));
        wanted.map(|(key, _)| key).collect::<Vec<Key>>()
    };
    let fitting = keys(&|slot| match slot {
        Slot::Tuple(tuple) => tuple.locality == target && matches(tuple),
        _ => false,
    });
    let consumed = keys(&|slot| match slot {
        Slot::Consumed(tuple) => tuple.locality == target && matches(tuple),
        _ => false,
    });
    let elsewhere = keys(&|slot| match slot {
        Slot::Tuple(tuple) => tuple.locality != target && matches(tuple),
        _ => false,
    });
    let there = keys(&|slot| match slot {
        Slot::Tuple(tuple) => tuple.locality == target,
        _ => false,
    });
    let tuples = keys(&|slot| matches!(slot, Slot::Tuple(_)));
    let found = fitting.first();
    let before = |others: &[Key]| found.is_some_and(|found| others.iter().any(|o| o < found));
    holding(&[
        (fitting.len() >= 2, "several match"),
        (
            before(&tuples),
            "the least that matches is not the first tuple",
        ),
        (before(&there), "nor the first at the target"),
        (before(&consumed), "a consumed one comes before it"),
        (before(&elsewhere), "one elsewhere comes before it"),
        (
            found.is_none() && !consumed.is_empty() && elsewhere.is_empty(),
            "only a consumed one would match",
        ),
        (
            found.is_none() && consumed.is_empty() && !elsewhere.is_empty(),
            "only one elsewhere would match",
        ),
        (
            found.is_none() && consumed.is_empty() && elsewhere.is_empty() && !there.is_empty(),
            "those there do not match",
        ),
        (there.is_empty(), "none is there"),
    ])
}

fn seen_by_free_key(net: &Net) -> Vec<&'static str> {
    let free: Vec<Key> = Key::all().filter(|&key| net.is_free(key)).collect();
    let highest_used = net.records().last().map(|(key, _)| key);
    holding(&[
        (free.is_empty(), "none left"),
        (free.len() == 1, "one left"),
        (
            matches!((free.first(), highest_used), (Some(free), Some(used)) if *free < used),
            "a gap",
        ),
    ])
}

fn seen_by_free_locality(net: &Net) -> Vec<&'static str> {
    let made = (8..32).filter_map(Locality::new);
    let (present, absent): (Vec<_>, Vec<_>) = made.partition(|&l| net.present.contains(l));
    holding(&[
        (absent.is_empty(), "none left"),
        (absent.len() == 1, "one left"),
        (
            matches!((absent.first(), present.last()), (Some(free), Some(used)) if free < used),
            "a gap",
        ),
    ])
}

/// How many questions there are of a sort.
fn count(wanted: impl Fn(&Question) -> bool) -> usize {
    questions()
        .iter()
        .filter(|question| wanted(question))
        .count()
}

/// What the program prints, given this input.
fn printed(arguments: &[&str], input: &[u8]) -> Vec<u8> {
    let mut child = Command::new(env!("CARGO_BIN_EXE_reference"))
        .args(arguments)
        .stdin(Stdio::piped())
        .stdout(Stdio::piped())
        .spawn()
        .expect("the program starts");
    let mut stdin = child.stdin.take().expect("standard input");
    let output = std::thread::scope(|scope| {
        scope.spawn(move || stdin.write_all(input));
        child.wait_with_output().expect("the program ends")
    });
    assert!(output.status.success());
    output.stdout
}

#[test]
fn stream_and_answers_are_the_same_when_made_twice_and_keep_their_size() {
    let bytes = printed(&["calls", "1"], &[]);
    assert!(bytes == stream().bytes);
    assert!(bytes.len() <= 700_000, "{}", bytes.len());
    let answers = String::from_utf8(printed(&["answer-calls"], &bytes)).expect("text");
    let lines = questions().iter().map(|question| question.said.line());
    assert!(answers.lines().eq(lines));
    assert!(questions().len() >= 15_000, "{}", questions().len());
    assert!(answers.len() < 500_000);
}

#[test]
fn another_seed_gives_other_scripts_and_another_stream() {
    assert_ne!(scripts(&mut Random::new(1)), scripts(&mut Random::new(2)));
    assert!(calls(2).bytes != stream().bytes);
}

/// Answers 4 to 12 that a code can get. 1 to 3 all can.
fn possible(code: u8) -> &'static [u8] {
    match code {
        0 => &[0, 4, 5, 6, 7, 8, 9, 10, 11],
        1 => &[0, 4, 6, 12],
        2 => &[0, 4, 5, 6],
        _ => &[0, 4, 5, 6, 7],
    }
}

#[test]
fn every_code_gets_every_answer_that_it_can_get_and_no_other() {
    for code in 0..4 {
        for answer in 0..13 {
            let given = count(|q| q.code() == Some(code) && q.answer() == answer);
            let can = answer < 4 && answer > 0 || possible(code).contains(&answer);
            assert!(!can || given >= 15, "code {code}, answer {answer}: {given}");
            assert!(can || given == 0, "code {code}, answer {answer}: {given}");
        }
    }
    for (code, least) in [(0, 400), (1, 500), (2, 1500), (3, 200)] {
        let done = count(|q| q.code() == Some(code) && q.answer() == 0);
        assert!(done >= least, "code {code}: {done}");
    }
    let no_code = count(|q| q.is_call() && q.asked.first().is_some_and(|&code| code > 3));
    assert!(no_code >= 50, "{no_code}");
}

#[test]
fn the_finder_gives_every_answer_that_it_can_give_and_no_other() {
    let least = [
        (0, 200),
        (1, 100),
        (2, 100),
        (3, 300),
        (4, 500),
        (5, 500),
        (7, 50),
        (8, 50),
        (9, 80),
    ];
    for (answer, least) in least {
        let given = count(|q| q.is_find() && q.answer() == answer);
        assert!(given >= least, "answer {answer}: {given}");
    }
    for question in questions() {
        if let Said::Find(answer, key) = question.said {
            assert!(least.iter().any(|&(a, _)| a == answer.number()));
            assert_eq!(key == 255, answer != Answer::Done);
        }
    }
}

#[test]
fn the_finder_is_asked_for_every_byte_and_every_key_of_many_nets() {
    let mut asked: BTreeMap<(u32, &str), BTreeSet<u8>> = BTreeMap::new();
    for question in questions().iter().filter(|q| q.is_find()) {
        let net = (question.crc_before, question.net);
        asked.entry(net).or_default().insert(question.asked[0]);
    }
    let nets = |least: usize| asked.values().filter(|keys| keys.len() >= least).count();
    assert!(nets(256) >= 2, "{}", nets(256));
    assert!(nets(64) >= 25, "{}", nets(64));
}

#[test]
fn the_finder_finds_the_least_among_several_and_not_the_first() {
    for (situation, least) in [
        ("several match", 100),
        ("the least that matches is not the first tuple", 100),
        ("nor the first at the target", 40),
        ("a consumed one comes before it", 20),
        ("one elsewhere comes before it", 10),
        ("only a consumed one would match", 5),
        ("only one elsewhere would match", 3),
        ("those there do not match", 20),
        ("none is there", 20),
    ] {
        let given = count(|q| q.is_find() && q.sees(situation));
        assert!(given >= least, "{situation}: {given}");
    }
}

#[test]
fn the_helpers_give_every_answer_a_name_and_none() {
    let helper = |q: &Question, letter: char| q.said.line().starts_with(letter);
    for letter in ['K', 'L'] {
        let given = |wanted: &dyn Fn(&Question) -> bool| count(|q| helper(q, letter) && wanted(q));
        for answer in 1..3 {
            assert!(given(&|q| q.answer() == answer) >= 50, "{letter} {answer}");
        }
        let none = format!("{letter} 0 255");
        assert!(given(&|q| q.said.line() == none) >= 30, "{none}");
        for (situation, least) in [
            ("none left", 30),
            ("one left", 15),
            ("a gap", 50),
            ("after an undoing", 200),
        ] {
            let given = given(&|q| q.answer() == 0 && q.sees(situation));
            assert!(given >= least, "{letter}, {situation}: {given}");
        }
    }
    for name in 0..64 {
        let line = format!("K 0 {name}");
        assert!(count(|q| q.said.line() == line) >= 2, "{line}");
    }
    for name in 8..32 {
        let line = format!("L 0 {name}");
        assert!(count(|q| q.said.line() == line) >= 1, "{line}");
    }
}

/// How often a rollback or roll was done in this situation.
fn rolled_back_seeing(situation: &str) -> usize {
    count(|q| q.rolled_back() && q.sees(situation))
}

#[test]
fn rollbacks_and_rolls_are_done_in_every_situation() {
    for (situation, least) in [
        ("nothing else depends", 300),
        ("60 and more", 9),
        ("30 and more", 150),
        ("ten and more directly", 6),
        ("two and more directly", 200),
        ("a split", 300),
        ("an in after a read", 100),
        ("an in after a read, another reader stays", 50),
        ("a made tuple that was read", 100),
        ("a made tuple that was taken", 150),
        ("a made locality", 300),
        ("a made locality with live records", 150),
        ("a made locality with past records", 100),
        ("a newloc at a made locality", 100),
        ("freed at a made locality", 200),
        ("a full net", 400),
        ("all lower keys", 150),
        ("all higher keys", 150),
        ("lower and higher keys", 300),
    ] {
        let given = rolled_back_seeing(situation);
        assert!(given >= least, "{situation}: {given}");
    }
    let by_roll = |situation: &str| count(|q| q.code() == Some(3) && q.sees(situation));
    for (situation, least) in [
        ("30 and more", 15),
        ("a split", 50),
        ("an in after a read", 10),
        ("a made tuple that was taken", 30),
        ("a made locality with live records", 40),
        ("a newloc at a made locality", 20),
        ("all lower keys", 15),
    ] {
        let given = by_roll(situation);
        assert!(given >= least, "roll, {situation}: {given}");
    }
}

#[test]
fn undone_is_the_number_of_dependents_up_to_62_and_touched_has_many_bits() {
    let most = questions().iter().map(|q| q.undone_and_touched().0).max();
    assert_eq!(most, Some(62));
    let undone: BTreeSet<u32> = questions()
        .iter()
        .filter(|q| q.rolled_back())
        .map(|q| q.undone_and_touched().0)
        .collect();
    assert!((1..=62).all(|number| undone.contains(&number)));
    let bits =
        |least: u32| count(|q| q.rolled_back() && q.undone_and_touched().1.count_ones() >= least);
    assert!(bits(2) >= 300, "{}", bits(2));
    assert!(bits(5) >= 60, "{}", bits(5));
    assert!(bits(15) >= 10, "{}", bits(15));
    for locality in 0..32 {
        let touched = count(|q| q.undone_and_touched().1 >> locality & 1 == 1);
        assert!(touched >= 1, "locality {locality}: {touched}");
    }
    for question in questions().iter().filter(|q| q.rolled_back()) {
        assert_eq!(question.undone_and_touched().0, question.undone.len());
        assert_ne!(question.undone_and_touched().1, 0);
    }
}

#[test]
fn in_each_net_grown_for_a_purpose_every_event_is_rolled_back() {
    let script = purposes_script();
    for (place, purpose) in purposes().iter().enumerate() {
        let net = purpose.net(&script);
        let splits = net
            .events()
            .filter(|(_, process, _)| script.node(process.node).kind == Kind::Split);
        let (events, splits) = (net.events().count(), splits.count());
        let of = |wanted: &dyn Fn(&Question) -> bool| {
            count(|q| q.note == Note::Purpose(place) && wanted(q))
        };
        let done = of(&|q| q.code() == Some(2) && q.answer() == 0);
        let at_split = of(&|q| q.code() == Some(2) && q.answer() == 5);
        assert_eq!(done, 3 * (events - splits), "{}", purpose.name);
        assert_eq!(at_split, 3 * splits, "{}", purpose.name);
        let backward = of(&|q| q.code() == Some(1) && matches!(q.answer(), 0 | 12));
        assert_eq!(backward, 3 * events, "{}", purpose.name);
        let others = of(&|q| matches!(q.code(), Some(1 | 2)) && q.answer() == 4);
        assert!(others >= 2 * (64 - events), "{}: {others}", purpose.name);
        let free = 64 - net.records().count();
        assert!(
            free < 10 || purpose.name.contains("24 newlocs"),
            "{}",
            purpose.name
        );
    }
}

/// Each purpose is what its name says, as far as numbers tell.
#[test]
fn the_nets_grown_for_a_purpose_have_their_shape() {
    let script = purposes_script();
    let shape = |name: &str| {
        let purposes = purposes();
        let purpose = purposes.iter().find(|purpose| purpose.name == name);
        let net = purpose.expect(name).net(&script);
        let dependence = Dependence::of(&script, &net);
        let most = |number: &dyn Fn(Key) -> u32| {
            let events = net.event_keys();
            events.iter().map(number).max().unwrap_or(0)
        };
        let dependents = most(&|event| dependence.dependents(event).len());
        let directly = most(&|event| dependence.directly_on(event).len());
        (dependents, directly, net.present.0)
    };
    assert_eq!(shape("a chain of 62 reads"), (62, 1, 0xFF));
    assert_eq!(shape("a roll at each turn of a chain"), (41, 1, 0xFF));
    assert_eq!(shape("a chain of 24 newlocs"), (24, 1, u32::MAX));
    assert_eq!(shape("24 newlocs side by side").2, u32::MAX);
    assert_eq!(shape("newlocs at made localities"), (42, 1, 0xFFFF_F8FF));
    assert_eq!(shape("records at made localities").0, 40);
    assert_eq!(shape("a tuple that many read").1, 30);
    assert_eq!(shape("a tuple that many read and one took").1, 31);
    assert_eq!(shape("a tree of splits"), (31, 2, 0xFF));
    assert_eq!(shape("a row of splits"), (31, 1, 0xFF));
    assert_eq!(shape("put out, read and taken by turns").0, 42);
    assert_eq!(shape("events on which nothing depends").0, 1);
    assert_eq!(shape("from one to the next by tuples").0, 30);
    assert_eq!(shape("the same with readers").0, 30);
}

/// "Rolling back one read undoes the in and not the other reads."
#[test]
fn a_read_rolled_back_takes_the_in_with_it_and_leaves_the_other_readers() {
    let place = purposes()
        .iter()
        .position(|purpose| purpose.name == "a tuple that many read and one took")
        .expect("it is there");
    let pairs = count(|q| {
        q.note == Note::Purpose(place)
            && q.code() == Some(2)
            && q.undone_and_touched().0 == 2
            && q.sees("an in after a read, another reader stays")
    });
    assert_eq!(pairs, 3 * 30);
}

#[test]
fn document_01_cases_and_printed_example_are_in_the_stream() {
    for (place, case) in CASES.iter().enumerate() {
        let of_case = questions().iter().filter(|q| q.note == Note::Case(place));
        let lines: Vec<String> = of_case
            .filter(|q| q.is_call())
            .map(|q| q.said.line())
            .collect();
        let expected: Vec<&str> = case.prints.lines().collect();
        assert_eq!(lines.len(), expected.len(), "{}", case.sentence);
        for (line, expected) in lines.iter().zip(&expected) {
            assert!(
                line.starts_with(&format!("C {expected} ")),
                "{}",
                case.sentence
            );
        }
        if let (Some(ends), Some(last)) = (case.ends, lines.last()) {
            let crc = crc32(&make(ends).expect("good text"));
            assert!(last.ends_with(&format!(" {crc:08x}")), "{}", case.sentence);
        }
    }
}

/// In the texts, a line above the requests says which check refuses them, or
/// that they are done.
#[test]
fn the_requests_by_hand_are_answered_as_the_table_has_it() {
    for (note, text) in [(Note::StepsByHand, STEPS), (Note::ByHand, REQUESTS)] {
        let mut asked = questions().iter().filter(|q| q.note == note && q.is_call());
        let mut expected = None;
        let (_, lines) = text.split_once("\nrequests\n").expect("two parts");
        for line in lines.lines() {
            if line.starts_with("# done") {
                expected = Some(0);
            } else if let Some(check) = line.strip_prefix("# check ") {
                let number = check.split(':').next().and_then(|word| word.parse().ok());
                expected = Some(number.expect("a number"));
            } else if line.starts_with("request") {
                let question = asked.next().expect("it is asked");
                assert_eq!(Some(question.answer()), expected, "{line}");
            }
        }
        assert!(asked.next().is_none());
    }
}

const WRONG_SCRIPTS: [&str; 5] = ["form", "one short", "one long", "empty", "one byte"];
const WRONG_NETS: [&str; 6] = [
    "form",
    "not accepted",
    "one short",
    "one long",
    "empty",
    "one byte",
];

#[test]
fn script_net_and_request_are_bad_alone_and_two_and_three_at_once() {
    let given = |script: &str, net: &str, request: &str| {
        count(|q| {
            let together = q.note == Note::Together && (q.is_call() || q.is_find());
            together && q.script == script && q.net == net && q.request == request
        })
    };
    for request in ["", "length", "range"] {
        for script in WRONG_SCRIPTS.into_iter().chain([""]) {
            for net in WRONG_NETS.into_iter().chain([""]) {
                let given = given(script, net, request);
                assert!(given >= 5, "{script}, {net}, {request}: {given}");
            }
        }
    }
}

#[test]
fn checks_run_in_number_order_1_before_2_before_3() {
    for question in questions() {
        let least = match (question.script, question.net, question.request) {
            ("", "", "") => None,
            ("", "", _) => Some(3),
            ("", _, _) => Some(2),
            _ => Some(1),
        };
        let answer = question.answer();
        match least {
            Some(least) => assert_eq!(answer, least),
            None => assert!(answer == 0 || answer > 3),
        }
    }
}

#[test]
fn requests_of_every_wrong_length_get_3_and_nothing_else() {
    for length in WRONG_REQUESTS {
        let given = count(|q| q.is_call() && q.asked.len() == length && q.answer() == 3);
        assert!(given >= 3, "length {length}: {given}");
    }
    assert_eq!(WRONG_REQUESTS[WRONG_REQUESTS.len() - 1], LONGEST_REQUEST);
    assert_eq!(
        count(|q| q.is_call() && q.asked.len() != 6 && !(1..4).contains(&q.answer())),
        0
    );
}

#[test]
fn nets_and_scripts_of_many_lengths_are_refused_and_left_as_found() {
    let mut nets = BTreeSet::new();
    for question in questions() {
        if question.length_before != NET_LENGTH {
            assert!(matches!(question.answer(), 1 | 2));
            assert_eq!(question.length_after, question.length_before);
            nets.insert(question.length_before);
        }
    }
    for length in [0, 1, 2, 16, 2064, 3599, 3601, LONGEST_IMAGE] {
        assert!(nets.contains(&length), "{length}");
    }
    let scripts: BTreeSet<usize> = Items::of(&stream().bytes)
        .filter_map(|item| match item {
            Item::Script(bytes) => Some(bytes.len()),
            _ => None,
        })
        .collect();
    for length in [0, 1, 2, 16, 2063, 2064, 2065, 3600, LONGEST_IMAGE] {
        assert!(scripts.contains(&length), "{length}");
    }
}

#[test]
fn any_refusal_leaves_the_net_with_undone_0_and_touched_0() {
    for question in questions() {
        let Said::Call(report, crc) = question.said else {
            continue;
        };
        if report.answer != Answer::Done {
            assert_eq!((report.undone, report.touched.0), (0, 0));
            assert_eq!(crc, question.crc_before);
            assert_eq!(question.length_after, question.length_before);
        } else {
            assert_ne!(crc, question.crc_before);
        }
    }
}

#[test]
fn a_forward_step_undoes_and_touches_nothing_and_a_backward_step_undoes_one() {
    for question in questions().iter().filter(|q| q.answer() == 0) {
        match (question.code(), question.undone_and_touched()) {
            (Some(0), numbers) => assert_eq!(numbers, (0, 0)),
            (Some(1), (undone, touched)) => assert!(undone == 1 && touched != 0),
            _ => {}
        }
    }
}

/// Script T, net A and a question of each sort: every letter, no other.
fn every_letter() -> Vec<u8> {
    let (script, net) = (make(T).expect("good text"), make(A).expect("good text"));
    let mut bytes = Vec::new();
    for item in [
        Item::FreeKey,
        Item::Call(&[]),
        Item::Script(&script),
        Item::Net(&net),
        Item::FreeKey,
        Item::FreeLocality,
        Item::Call(&[0, 0, 255, 2, 3, 255]),
        Item::Find(2),
        Item::Find(64),
        Item::Call(&[0, 2, 1, 4, 255, 255]),
        Item::Call(&[1, 0, 255, 255, 255, 255]),
        Item::Call(&[3, 4, 255, 255, 255, 255]),
        Item::Call(&[2, 0, 255, 255, 255, 255, 255]),
        Item::Patch(2, 0),
        Item::Find(255),
        Item::Base,
        Item::Patch(3600, 7),
        Item::FreeKey,
        Item::Net(&net[..3599]),
        Item::Call(&[3]),
        Item::Net(&[]),
        Item::FreeLocality,
    ] {
        item.write(&mut bytes);
    }
    bytes
}

/// The CRC-32s are those of the bytes that `make` gives for the nets.
#[test]
fn a_line_is_answer_undone_touched_and_the_crc_of_the_net_or_answer_and_name() {
    let net = make(A).expect("good text");
    let short = crc32(&net[..3599]);
    let expected = format!(
        "K 1 255\nC 1 0 00000000 00000000\nK 0 2\nL 0 8\nC 0 0 00000000 edfda82f\nF 0 1\n\
         F 3 255\nC 0 0 00000000 {:08x}\nC 12 0 00000000 {:08x}\nC 0 2 00000001 d8189ac5\n\
         C 3 0 00000000 d8189ac5\nF 2 255\nK 0 2\nC 2 0 00000000 {short:08x}\nL 2 255\n",
        after_the_in(),
        after_the_in()
    );
    assert_eq!(answer_calls(&every_letter()), expected);
}

/// The net of the printed example after its two steps, by hand.
fn after_the_in() -> u32 {
    crc32(
        &make(
            "net\npresent l0\nkey 0 past node 1 at l0 first=2 second=3\nkey 1 consumed (2) at l0\n\
             key 2 past node 2 at l0 r0=0 first=4 used=1\nkey 3 tuple (1) at l0\n\
             key 4 live node 3 at l0 r0=0",
        )
        .expect("good text"),
    )
}

#[test]
fn the_finder_and_the_stream_agree() {
    let (script, net) = (make(T).expect("good text"), make(A).expect("good text"));
    for key in 0..=255 {
        let mut bytes = Vec::new();
        Item::Script(&script).write(&mut bytes);
        Item::Net(&net).write(&mut bytes);
        Item::Find(key).write(&mut bytes);
        let (answer, tuple) = find(&script, &net, key);
        assert_eq!(
            answer_calls(&bytes),
            format!("F {} {tuple}\n", answer.number())
        );
    }
}

/// Around the ends of all items; within an image the place does not matter.
#[test]
fn a_stream_cut_at_any_byte_ends_quietly() {
    let whole = every_letter();
    let answers = answer_calls(&whole);
    let ends = ends_of_items(&whole);
    let near = |length: &usize| ends.iter().any(|end| end.abs_diff(*length) <= 8);
    for length in (0..whole.len()).filter(|length| near(length) || length % 101 == 0) {
        let cut = answer_calls(&whole[..length]);
        assert!(answers.starts_with(&cut), "cut at {length}");
        assert!(cut.len() < answers.len(), "cut at {length}");
    }
    let other_letter = [&whole[..], b"?K"].concat();
    assert_eq!(answer_calls(&other_letter), answers);
}

/// Where the items of a stream end; written again, they are the same bytes.
fn ends_of_items(bytes: &[u8]) -> Vec<usize> {
    let mut ends = Vec::new();
    let mut end = 0;
    for item in Items::of(bytes) {
        let mut written = Vec::new();
        item.write(&mut written);
        assert_eq!(bytes[end..end + written.len()], written);
        end += written.len();
        ends.push(end);
    }
    assert_eq!(end, bytes.len());
    ends
}

#[test]
fn a_length_beyond_the_limits_ends_the_stream_quietly() {
    let bytes = vec![b'K'; 5000];
    for letter in [b'S', b'N'] {
        let longest = [&[b'K', letter, 0, 16], &bytes[..]].concat();
        assert_eq!(answer_calls(&longest).lines().count(), 1 + 5000 - 4096);
        let longer = [&[b'K', letter, 1, 16], &bytes[..]].concat();
        assert_eq!(answer_calls(&longer), "K 1 255\n");
    }
    let longest = [&b"KC\x10"[..], &bytes[..16], b"K"].concat();
    assert_eq!(answer_calls(&longest).lines().count(), 3);
    let longer = [&b"KC\x11"[..], &bytes[..17], b"K"].concat();
    assert_eq!(answer_calls(&longer), "K 1 255\n");
}

#[test]
fn the_stream_of_seed_1_cut_at_any_byte_has_the_items_before_the_cut() {
    let bytes = &stream().bytes;
    let ends = ends_of_items(bytes);
    for length in (bytes.len() - 300..bytes.len()).chain((0..bytes.len()).step_by(9973)) {
        let items = Items::of(&bytes[..length]).count();
        assert_eq!(items, ends.partition_point(|&end| end <= length));
    }
}

#[test]
fn the_kept_stream_and_answers_are_what_the_commands_make() {
    let kept = |name: &str| {
        let folder = Path::new(env!("CARGO_MANIFEST_DIR")).join("../crates/calls");
        let path = folder.join(name);
        std::fs::read(&path).unwrap_or_else(|error| panic!("{}: {error}", path.display()))
    };
    let bytes = &stream().bytes;
    assert!(&kept("stdin") == bytes, "stdin is another stream");
    assert!(
        kept("stdout") == answer_calls(bytes).into_bytes(),
        "stdout has other answers"
    );
}
