//! The trial stream of seed 1: which answers, changes and reasons it brings
//! about, and that a net is refused for the sake of what was changed in it.

use reference::accept::Clause;
use reference::answer::Answer;
use reference::cases::{A, T};
use reference::crc32::crc32;
use reference::damage::clauses_broken_by;
use reference::names::{Key, Locality};
use reference::net::{Datum, Memory, Net, Process, Slot};
use reference::net_form::{broken_net_rules, NetRule};
use reference::random::Random;
use reference::request::Request;
use reference::rule::target;
use reference::script::{Field, Node, Script, Target};
use reference::script_form::{broken_script_rules, Kind, ScriptRule};
use reference::step::places_needed;
use reference::text_read::make;
use reference::trial_changes::{all_changes, Outcome};
use reference::trial_nets::{hand_made, scripts, REQUESTS};
use reference::trial_stream::{trials, Note, Trials};
use reference::trials::{answer_trials, Bench, Item, Items, Said};
use std::collections::{BTreeMap, BTreeSet};
use std::io::Write;
use std::path::Path;
use std::process::{Command, Stdio};
use std::sync::OnceLock;

fn stream() -> &'static Trials {
    static STREAM: OnceLock<Trials> = OnceLock::new();
    STREAM.get_or_init(|| trials(1))
}

/// A question of the stream, with what there is to know about it.
struct Question {
    note: Note,
    said: Said,
    request: Option<Vec<u8>>,
    /// Whether script and net have their form.
    script_rules: Vec<ScriptRule>,
    net_rules: Vec<NetRule>,
    /// The clauses that the net breaks, where both have.
    broken: Vec<Clause>,
    /// The kind of the process that a request names.
    kind: Option<Kind>,
    /// Why a request was answered so, as far as the net before it tells.
    reasons: Vec<&'static str>,
    crc_before: u32,
    events: usize,
    records: usize,
}

impl Question {
    fn answer(&self) -> u8 {
        self.said.answer().number()
    }

    fn is_verdict(&self) -> bool {
        self.request.is_none()
    }

    /// Code, key, and the net's CRC-32 afterwards, of a request that was done.
    fn done(&self) -> Option<(u8, u8, u32)> {
        match (&self.request, self.said) {
            (Some(bytes), Said::Report(report, crc)) if report.answer == Answer::Done => {
                Some((bytes[0], bytes[1], crc))
            }
            _ => None,
        }
    }
}

fn questions() -> &'static [Question] {
    static QUESTIONS: OnceLock<Vec<Question>> = OnceLock::new();
    QUESTIONS.get_or_init(|| {
        let mut bench = Bench::bare();
        let mut notes = stream().notes.iter();
        let mut questions = Vec::new();
        for item in Items::of(&stream().bytes) {
            if !matches!(item, Item::Verdict | Item::Request(_)) {
                assert_eq!(bench.take(item), None);
                continue;
            }
            let before = bench.clone();
            let said = bench.take(item).expect("a question is answered");
            let note = *notes.next().expect("a note for each question");
            questions.push(question(note, said, item, &before));
        }
        assert!(notes.next().is_none());
        questions
    })
}

fn question(note: Note, said: Said, item: Item, before: &Bench) -> Question {
    let request = match item {
        Item::Request(bytes) => Some(bytes.to_vec()),
        _ => None,
    };
    let script_rules = broken_script_rules(&before.script);
    let net_rules = broken_net_rules(&before.net);
    let mut question = Question {
        note,
        said,
        request,
        script_rules: script_rules.iter().map(|broken| broken.rule).collect(),
        net_rules: net_rules.iter().map(|broken| broken.rule).collect(),
        broken: Vec::new(),
        kind: None,
        reasons: Vec::new(),
        crc_before: crc32(&before.net),
        events: 0,
        records: 0,
    };
    if let (Ok(script), Ok(net)) = (Script::read(&before.script), Net::read(&before.net)) {
        question.broken = clauses_broken_by(&script, &net);
        question.events = net.events().count();
        question.records = net.records().count();
        if let Some(bytes) = &question.request {
            question.kind = process_at(&net, bytes[1]).map(|p| script.node(p.node).kind);
            question.reasons = reasons(&script, &net, bytes, said.answer());
        }
    }
    question
}

fn process_at(net: &Net, key: u8) -> Option<&Process> {
    net.slot(Key::new(u32::from(key))?).process()
}

/// Why a request gets its answer: everything that this check refuses in it.
fn reasons(script: &Script, net: &Net, bytes: &[u8], answer: Answer) -> Vec<&'static str> {
    let Some(request) = Request::read(bytes) else {
        return out_of_range(bytes);
    };
    let Some(process) = net.slot(request.key).process() else {
        return Vec::new();
    };
    let node = script.node(process.node);
    match answer {
        Answer::WrongPlaces => wrong_places(&request, node),
        Answer::Unset => unset(net, process, node),
        Answer::TargetAbsent => match node.target {
            Some(Target::Variable(_)) => vec!["variable target"],
            _ => vec!["literal target"],
        },
        Answer::NoTuple => no_tuple(net, &request),
        Answer::NoMatch => no_match(net, &request, node),
        Answer::NotFresh => not_fresh(net, &request),
        Answer::NotUndoable => not_undoable(script, net, request.key),
        _ => done_with(&request),
    }
}

/// The names of those that hold.
fn holding(all: &[(bool, &'static str)]) -> Vec<&'static str> {
    let holding = all.iter().filter(|(holds, _)| *holds);
    holding.map(|&(_, name)| name).collect()
}

fn out_of_range(bytes: &[u8]) -> Vec<&'static str> {
    let beyond = |byte: u8, count: u8| byte != 255 && byte >= count;
    holding(&[
        (bytes[0] > 3, "code above 3"),
        (bytes[1] > 63, "key above 63"),
        (beyond(bytes[2], 64), "tuple key out of range"),
        (beyond(bytes[3], 64), "first key out of range"),
        (beyond(bytes[4], 64), "second key out of range"),
        (beyond(bytes[5], 32), "locality out of range"),
        (bytes[5] == 32, "fresh locality 32"),
    ])
}

fn wrong_places(request: &Request, node: &Node) -> Vec<&'static str> {
    let filled = request.places.filled();
    let needed = match request.code as u8 {
        0 => places_needed(node.kind),
        _ => [false; 4],
    };
    let any = |wrong: fn(bool, bool) -> bool| (0..4).any(|i| wrong(filled[i], needed[i]));
    holding(&[
        (any(|filled, needed| filled && !needed), "unneeded place"),
        (any(|filled, needed| !filled && needed), "needed place 255"),
    ])
}

fn unset(net: &Net, process: &Process, node: &Node) -> Vec<&'static str> {
    let variable = match node.target {
        Some(Target::Variable(x)) => Some(process.variables[x.index()]),
        _ => None,
    };
    let field_unset = node.fields.iter().any(|field| match field {
        Field::Variable(x) => process.variables[x.index()] == Datum::Unset,
        _ => false,
    });
    let absent = target(node, &process.variables).is_some_and(|l| !net.present.contains(l));
    holding(&[
        (variable == Some(Datum::Unset), "target unset"),
        (matches!(variable, Some(Datum::Value(_))), "target a value"),
        (field_unset && !absent, "field unset"),
        (field_unset && absent, "field unset, target absent"),
    ])
}

fn no_tuple(net: &Net, request: &Request) -> Vec<&'static str> {
    let slot = request.places.tuple.map(|key| net.slot(key));
    let is = |wanted: fn(&Slot) -> bool| slot.is_some_and(wanted);
    holding(&[
        (is(|slot| *slot == Slot::Free), "tuple key free"),
        (is(|slot| slot.process().is_some()), "tuple key a process"),
        (
            is(|slot| matches!(slot, Slot::Consumed(_))),
            "tuple consumed",
        ),
        (is(|slot| matches!(slot, Slot::Tuple(_))), "tuple elsewhere"),
    ])
}

fn no_match(net: &Net, request: &Request, node: &Node) -> Vec<&'static str> {
    let key = request.places.tuple.expect("a tuple was named");
    let count = net.slot(key).tuple().map(|tuple| tuple.fields.len());
    let same = count == Some(node.fields.len());
    let first = request.places.first.expect("a first key was named");
    holding(&[
        (same, "a field does not match"),
        (!same, "counts differ"),
        (!net.is_free(first), "no match, key not free"),
    ])
}

fn not_fresh(net: &Net, request: &Request) -> Vec<&'static str> {
    let places = &request.places;
    let taken = |key: Option<Key>| key.is_some_and(|key| !net.is_free(key));
    let locality = places.locality;
    let present = locality.is_some_and(|l| net.present.contains(l));
    holding(&[
        (taken(places.first), "first key not free"),
        (taken(places.second), "second key not free"),
        (places.first == places.second, "both keys equal"),
        (places.first == Some(request.key), "first key its own"),
        (places.second == Some(request.key), "second key its own"),
        (
            places.first.is_some() && places.first == places.tuple,
            "first key the tuple's",
        ),
        (locality == Locality::new(7), "fresh locality 7"),
        (
            locality.is_some_and(|l| l.is_original()),
            "fresh locality below 8",
        ),
        (
            present && locality.is_some_and(|l| !l.is_original()),
            "fresh locality present",
        ),
    ])
}

fn not_undoable(script: &Script, net: &Net, event: Key) -> Vec<&'static str> {
    let Some(&memory) = net.memory(event) else {
        return Vec::new();
    };
    let is_read = |process: &Process| script.node(process.node).kind == Kind::Read;
    let read = |key: Key| {
        net.events()
            .any(|(_, process, other)| is_read(process) && other.used == Some(key))
    };
    let Memory {
        first,
        second,
        used,
        ..
    } = memory;
    let live = |key: Option<Key>| key.is_none_or(|key| net.slot(key).is_live());
    holding(&[
        (!live(first), "first key made not live"),
        (!live(second), "second key made not live"),
        (second.is_some_and(read), "tuple made in a past read"),
        (
            net.slot(event).process().is_some_and(is_read) && !live(used),
            "tuple read not live",
        ),
    ])
}

fn done_with(request: &Request) -> Vec<&'static str> {
    holding(&[
        (request.places.locality == Locality::new(8), "locality 8"),
        (request.places.locality == Locality::new(31), "locality 31"),
    ])
}

/// How many questions there are of a sort.
fn count(wanted: impl Fn(&Question) -> bool) -> usize {
    questions()
        .iter()
        .filter(|question| wanted(question))
        .count()
}

/// How many requests got this answer for this reason and no other.
fn count_alone(answer: u8, reason: &str) -> usize {
    count(|q| !q.is_verdict() && q.answer() == answer && q.reasons == [reason])
}

/// How many got it for this reason at all.
fn count_reason(answer: u8, reason: &str) -> usize {
    count(|q| !q.is_verdict() && q.answer() == answer && q.reasons.contains(&reason))
}

/// What the program prints, given this input.
fn printed(arguments: &[&str], input: &[u8]) -> Vec<u8> {
    let mut child = Command::new(env!("CARGO_BIN_EXE_reference"))
        .args(arguments)
        .stdin(Stdio::piped())
        .stdout(Stdio::piped())
        .spawn()
        .expect("the program starts");
    let mut stdin = child.stdin.take().expect("standard input");
    let output = std::thread::scope(|scope| {
        scope.spawn(move || stdin.write_all(input));
        child.wait_with_output().expect("the program ends")
    });
    assert!(output.status.success());
    output.stdout
}

#[test]
fn stream_and_answers_are_the_same_when_made_twice_and_keep_their_size() {
    let bytes = printed(&["trials", "1"], &[]);
    assert!(bytes == stream().bytes);
    assert!(bytes.len() < 600_000);
    let answers = String::from_utf8(printed(&["answer-trials"], &bytes)).expect("text");
    let lines = questions().iter().map(|question| question.said.line());
    assert!(answers.lines().eq(lines));
    assert!(questions().len() > 15_000);
    assert!(answers.len() < 400_000);
}

#[test]
fn another_seed_gives_other_scripts() {
    let scripts = |seed| scripts(&mut Random::new(seed));
    assert_eq!(scripts(1), scripts(1));
    assert_ne!(scripts(1), scripts(2));
}

#[test]
fn every_answer_of_the_table_is_given_many_times() {
    let least = [
        1000, 100, 500, 500, 500, 300, 600, 200, 100, 100, 100, 250, 300,
    ];
    for (answer, least) in least.into_iter().enumerate() {
        let given = count(|q| !q.is_verdict() && q.answer() == answer as u8);
        assert!(given >= least, "answer {answer}: {given}");
    }
    for (verdict, least) in [(0, 500), (1, 30), (2, 5000)] {
        let given = count(|q| q.is_verdict() && q.answer() == verdict);
        assert!(given >= least, "verdict {verdict}: {given}");
    }
}

/// In the text, a line above the requests says which check refuses them, or
/// that they are done.
#[test]
fn the_requests_by_hand_are_answered_as_the_table_has_it() {
    let mut asked = questions()
        .iter()
        .filter(|q| q.note == Note::ByHand && !q.is_verdict());
    let mut expected = None;
    for line in REQUESTS.lines() {
        if line.starts_with("# done") {
            expected = Some(0);
        } else if let Some(check) = line.strip_prefix("# check ") {
            let number = check.split(':').next().and_then(|word| word.parse().ok());
            expected = Some(number.expect("a number"));
        } else if line.starts_with("request ") {
            let question = asked.next().expect("it is asked");
            assert_eq!(Some(question.answer()), expected, "{line}");
        }
    }
    assert!(asked.next().is_none());
}

/// Checks 4 to 12, by the code and by the kind of node under the key.
fn possible(code: u8, kind: Kind) -> &'static [u8] {
    match (code, kind) {
        (0, Kind::Nil | Kind::Roll) => &[5],
        (0, Kind::In | Kind::Read) => &[0, 4, 6, 7, 8, 9, 10, 11],
        (0, Kind::Out | Kind::Eval) => &[0, 4, 6, 7, 8, 11],
        (0, _) => &[0, 4, 6, 11],
        (_, Kind::Nil | Kind::Roll) => &[4],
        _ => &[0, 4, 6, 12],
    }
}

#[test]
fn every_kind_of_node_gets_every_answer_that_it_can_get() {
    for code in 0..2 {
        for kind in Kind::ALL {
            let given = |answer: u8| {
                count(|q| {
                    let bytes = q.request.as_deref().unwrap_or(&[]);
                    bytes.first() == Some(&code) && q.kind == Some(kind) && q.answer() == answer
                })
            };
            for &answer in possible(code, kind) {
                let given = given(answer);
                assert!(
                    given >= 5,
                    "code {code}, {kind:?}, answer {answer}: {given}"
                );
            }
            let others = (4..13).filter(|answer| !possible(code, kind).contains(answer));
            assert!(others.map(given).all(|given| given == 0), "{code} {kind:?}");
        }
    }
}

#[test]
fn codes_2_and_3_are_in_no_request() {
    let codes: BTreeSet<u8> = questions()
        .iter()
        .filter_map(|q| q.request.as_ref().map(|bytes| bytes[0]))
        .collect();
    assert!(!codes.contains(&2) && !codes.contains(&3));
    assert!(codes.contains(&0) && codes.contains(&1) && codes.contains(&4));
    assert!(codes.contains(&255));
}

#[test]
fn which_nets_are_accepted_each_named_change_breaks_its_clause_alone() {
    let mut given: BTreeMap<usize, usize> = BTreeMap::new();
    let changes: Vec<_> = all_changes().collect();
    for question in questions() {
        let Note::Named(place) = question.note else {
            continue;
        };
        let change = changes[place];
        assert!(question.script_rules.is_empty() && question.net_rules.is_empty());
        if question.is_verdict() {
            *given.entry(place).or_default() += 1;
            let (holds, verdict) = match change.outcome {
                Outcome::Breaks(clauses) => (question.broken == clauses, 2),
                Outcome::Refused => (!question.broken.is_empty(), 2),
                Outcome::Accepted => (question.broken.is_empty(), 0),
            };
            assert!(holds, "{}: {:?}", change.name, question.broken);
            assert_eq!(question.answer(), verdict, "{}", change.name);
        }
    }
    for (place, change) in changes.iter().enumerate() {
        let given = given.get(&place).copied().unwrap_or(0);
        assert!(given >= 5, "{}: {given}", change.name);
    }
}

#[test]
fn which_nets_are_accepted_every_clause_is_broken_alone() {
    for clause in Clause::ALL {
        let alone = count(|q| q.is_verdict() && q.answer() == 2 && q.broken == [clause]);
        assert!(alone >= 10, "{clause:?}: {alone}");
    }
}

#[test]
fn which_nets_are_accepted_nets_made_by_hand_break_their_clause_alone() {
    let mut asked = questions()
        .iter()
        .filter(|q| q.note == Note::HandMade && q.is_verdict());
    let mut accepted = 0;
    for collection in hand_made() {
        assert!(broken_script_rules(&collection.script.write()).is_empty());
        for (broken, net) in &collection.nets {
            let expected: Vec<Clause> = broken.iter().copied().collect();
            assert_eq!(clauses_broken_by(&collection.script, net), expected);
            let question = asked.next().expect("it is asked");
            assert_eq!(question.crc_before, crc32(&net.write()));
            assert_eq!(question.answer() == 0, broken.is_none());
            accepted += usize::from(broken.is_none());
        }
    }
    assert!(asked.next().is_none());
    assert!(accepted >= 10);
}

/// READINGS, "Nets that catch wrong acceptance", and the refused ones of
/// document 01's own words, put together by hand.
#[test]
fn which_nets_are_accepted_the_nets_of_the_readings_are_in_the_stream() {
    let nets = [
        (
            "node 1 newloc(x0) then 1",
            "key 0 past node 1 at l8 x0=l8 first=0 made=l8",
            0,
        ),
        (
            "node 1 in(1)@l0 then 2\nnode 2 read(1)@l0 then 0",
            "key 0 past node 1 at l0 first=2 used=1\nkey 1 consumed (1) at l0\n\
             key 2 past node 2 at l0 first=3 used=1\nkey 3 live node 0 at l0",
            0,
        ),
        (
            "node 1 in(1)@l0 then 2\nnode 2 read(2)@l0 then 0\n\
             node 3 in(2)@l0 then 4\nnode 4 read(1)@l0 then 0",
            "key 0 past node 1 at l0 first=2 used=8\nkey 2 past node 2 at l0 first=4 used=9\n\
             key 4 live node 0 at l0\nkey 1 past node 3 at l0 first=3 used=9\n\
             key 3 past node 4 at l0 first=5 used=8\nkey 5 live node 0 at l0\n\
             key 8 consumed (1) at l0\nkey 9 consumed (2) at l0",
            0,
        ),
        (
            "node 1 eval(0)@l0 then 0",
            "key 0 past node 1 at l0 first=1 second=1\nkey 1 live node 0 at l0",
            1,
        ),
        (
            "node 1 out(1)@l5 then 0",
            "key 0 past node 1 at l0 first=1 second=2\nkey 1 live node 0 at l0\n\
             key 2 tuple (1) at l5",
            2,
        ),
    ];
    let clauses = [Clause::NoCycle, Clause::KeyMadeOnce, Clause::TargetPresent];
    let in_stream: Vec<(Option<Clause>, Net)> =
        hand_made().into_iter().flat_map(|c| c.nets).collect();
    for (script, records, clause) in nets {
        let present = if records.contains("made=l8") {
            "l0 l8"
        } else {
            "l0"
        };
        let text = format!("script\n{script}\nnet\npresent {present}\n{records}");
        let images = make(&text).expect("good text");
        let script = Script::read(&images[..2064]).expect("a good script");
        let net = Net::read(&images[2064..]).expect("the form");
        assert_eq!(clauses_broken_by(&script, &net), [clauses[clause]]);
        let same = |(_, other): &(Option<Clause>, Net)| without_nodes(other) == without_nodes(&net);
        assert!(in_stream.iter().any(same), "{text}");
    }
}

/// The net with every process at node 0: under a common script its nodes have
/// other names.
fn without_nodes(net: &Net) -> Net {
    let bytes = net.write();
    let mut plain = bytes.clone();
    for slot in (16..3600)
        .step_by(56)
        .filter(|&slot| matches!(bytes[slot], 1 | 2))
    {
        plain[slot + 2] = 0;
    }
    Net::read(&plain).expect("the form")
}

#[test]
fn after_a_change_both_verdicts_come() {
    let changed = |note: Note| matches!(note, Note::Named(_) | Note::OneByte | Note::AnyChange);
    let given = |verdict: u8, wanted: &dyn Fn(Note) -> bool| {
        count(|q| q.is_verdict() && wanted(q.note) && q.answer() == verdict)
    };
    assert!(given(0, &changed) >= 600, "{}", given(0, &changed));
    assert!(given(2, &changed) >= 5000, "{}", given(2, &changed));
    let one_byte = |note: Note| note == Note::OneByte;
    assert!(given(0, &one_byte) >= 50, "{}", given(0, &one_byte));
    assert!(given(2, &one_byte) >= 2000, "{}", given(2, &one_byte));
    let done_after = count(|q| !q.is_verdict() && changed(q.note) && q.answer() == 0);
    assert!(done_after >= 150, "{done_after}");
}

#[test]
fn nets_that_walks_came_to_are_accepted_small_half_full_and_full() {
    let reached: Vec<&Question> = questions()
        .iter()
        .filter(|q| matches!(q.note, Note::Reached | Note::Walked) && q.is_verdict())
        .collect();
    assert!(reached.iter().all(|q| q.answer() == 0));
    let sizes = |least: usize, most: usize| {
        let sized = |q: &&&Question| (least..=most).contains(&q.records);
        reached.iter().filter(sized).count()
    };
    assert!(sizes(0, 16) >= 10 && sizes(24, 41) >= 15 && sizes(64, 64) >= 8);
    let deepest = reached.iter().map(|q| q.events).max();
    assert_eq!(deepest, Some(62));
    let deep = reached.iter().filter(|q| q.events >= 20).count();
    assert!(deep >= 8, "{deep}");
}

#[test]
fn length_mark_version_and_form_each_rule_but_the_length_is_broken_alone() {
    for rule in NetRule::ALL {
        let alone = count(|q| q.net_rules == [rule] && q.script_rules.is_empty());
        assert_eq!(alone == 0, rule == NetRule::Length, "{rule:?}: {alone}");
        assert!(alone >= 3 || rule == NetRule::Length, "{rule:?}: {alone}");
    }
    for rule in ScriptRule::ALL {
        let alone = count(|q| q.script_rules == [rule] && q.answer() == 1);
        assert_eq!(alone == 0, rule == ScriptRule::Length, "{rule:?}: {alone}");
    }
    for question in questions() {
        let said = question.answer();
        assert_eq!(said == 1, !question.script_rules.is_empty());
        let refused = !question.net_rules.is_empty() || !question.broken.is_empty();
        assert!(said == 1 || (said == 2) == refused);
    }
}

#[test]
fn checks_run_in_number_order_1_and_2_before_3() {
    let out_of_range = |q: &Question| {
        let bytes = q.request.as_deref().unwrap_or(&[0; 6]);
        Request::read(bytes).is_none()
    };
    let bad_script = count(|q| out_of_range(q) && q.answer() == 1);
    let bad_net = count(|q| out_of_range(q) && q.answer() == 2);
    let both = count(|q| q.answer() == 1 && !q.net_rules.is_empty());
    assert!(bad_script >= 10, "{bad_script}");
    assert!(bad_net >= 30, "{bad_net}");
    assert!(both >= 10, "{both}");
}

#[test]
fn check_3_code_above_3_key_above_63_others_neither_255_nor_in_range() {
    let reasons = [
        "code above 3",
        "key above 63",
        "tuple key out of range",
        "first key out of range",
        "second key out of range",
        "locality out of range",
    ];
    for reason in reasons {
        let given = count_alone(3, reason) + count_reason(3, "fresh locality 32");
        assert!(given >= 20, "{reason}: {given}");
    }
    assert!(count_reason(3, "fresh locality 32") >= 5);
}

#[test]
fn check_6_an_unneeded_place_not_255_or_a_needed_one_255() {
    for reason in ["unneeded place", "needed place 255"] {
        let given = count_alone(6, reason);
        assert!(given >= 50, "{reason}: {given}");
    }
}

#[test]
fn checks_7_and_8_target_or_actual_variable_unset_target_no_locality_or_absent() {
    for (reason, least) in [("target unset", 20), ("target a value", 20)] {
        let given = count_reason(7, reason);
        assert!(given >= least, "{reason}: {given}");
    }
    assert!(count_reason(7, "field unset") >= 20);
    assert!(count_alone(7, "field unset") >= 5);
    assert!(count_alone(7, "field unset, target absent") >= 5);
    assert!(count_alone(8, "literal target") >= 50);
    assert!(count_alone(8, "variable target") >= 20);
}

#[test]
fn checks_9_and_10_tuple_key_not_a_live_tuple_at_the_target_and_no_match() {
    for (reason, least) in [
        ("tuple key free", 10),
        ("tuple key a process", 10),
        ("tuple consumed", 5),
        ("tuple elsewhere", 20),
    ] {
        let given = count_alone(9, reason);
        assert!(given >= least, "{reason}: {given}");
    }
    for reason in ["a field does not match", "counts differ"] {
        let given = count_reason(10, reason);
        assert!(given >= 10, "{reason}: {given}");
    }
    assert!(count_reason(10, "no match, key not free") >= 5);
}

#[test]
fn check_11_a_fresh_key_not_free_both_equal_or_fresh_locality_below_8_or_present() {
    for (reason, least) in [
        ("first key not free", 20),
        ("second key not free", 20),
        ("both keys equal", 10),
    ] {
        let given = count_alone(11, reason);
        assert!(given >= least, "{reason}: {given}");
    }
    for (reason, least) in [
        ("first key its own", 10),
        ("second key its own", 10),
        ("first key the tuple's", 5),
        ("fresh locality 7", 5),
        ("fresh locality below 8", 8),
        ("fresh locality present", 3),
    ] {
        let given = count_reason(11, reason);
        assert!(given >= least, "{reason}: {given}");
    }
    assert!(count_reason(0, "locality 8") >= 3);
    assert!(count_reason(0, "locality 31") >= 5);
}

#[test]
fn check_12_each_of_the_three_conditions_stands_alone_against_undoing() {
    for (reason, least) in [
        ("first key made not live", 20),
        ("second key made not live", 10),
        ("tuple made in a past read", 3),
        ("tuple read not live", 3),
    ] {
        let given = count_alone(12, reason);
        assert!(given >= least, "{reason}: {given}");
    }
}

#[test]
fn any_refusal_leaves_the_net_with_undone_0_and_touched_0() {
    for question in questions() {
        let Said::Report(report, crc) = question.said else {
            continue;
        };
        if report.answer != Answer::Done {
            assert_eq!((report.undone, report.touched.0), (0, 0));
            assert_eq!(crc, question.crc_before);
        } else {
            assert_ne!(crc, question.crc_before);
        }
    }
}

#[test]
fn steps_are_taken_back_to_the_byte() {
    let requests: Vec<&Question> = questions().iter().filter(|q| !q.is_verdict()).collect();
    let mut taken_back = [0, 0];
    for pair in requests.windows(2) {
        let (step, back) = (pair[0], pair[1]);
        if back.note == Note::TakenBack {
            let (code, key, _) = step.done().expect("the step was done");
            let (other_code, other_key, crc) = back.done().expect("it is done");
            assert_eq!((code + other_code, key), (1, other_key));
            assert_eq!(crc, step.crc_before);
            taken_back[usize::from(code)] += 1;
        }
    }
    let [undone, repeated] = taken_back;
    assert!(undone >= 120, "{undone}");
    assert!(repeated >= 100, "{repeated}");
}

/// Script T, net A and a question of each sort: every letter, no other.
fn every_letter() -> Vec<u8> {
    let (script, net) = (make(T).expect("good text"), make(A).expect("good text"));
    let mut bytes = Vec::new();
    for item in [
        Item::Script(&script),
        Item::Net(&net),
        Item::Verdict,
        Item::Request(&[0, 0, 255, 2, 3, 255]),
        Item::Request(&[1, 0, 255, 255, 255, 255]),
        Item::Patch(2, 0),
        Item::Verdict,
        Item::Request(&[0, 0, 255, 2, 3, 255]),
        Item::Base,
        Item::Request(&[0, 64, 255, 2, 3, 255]),
        Item::Patch(3599, 7),
        Item::Request(&[4, 0, 255, 2, 3, 255]),
        Item::Base,
        Item::Patch(3600, 7),
        Item::Verdict,
    ] {
        item.write(&mut bytes);
    }
    bytes
}

/// The CRC-32s are those of the bytes that `make` gives for the nets.
#[test]
fn a_line_is_answer_undone_touched_and_the_crc_of_the_net() {
    let expected = "\
V 0
R 0 0 00000000 edfda82f
R 0 1 00000001 d8189ac5
V 2
R 2 0 00000000 4ff43675
R 3 0 00000000 d8189ac5
R 2 0 00000000 467c0f66
V 0
";
    assert_eq!(answer_trials(&every_letter()), expected);
}

#[test]
fn a_script_without_its_form_is_1_whatever_the_net() {
    assert_eq!(answer_trials(b"V"), "V 1\n");
    let mut bytes = Vec::new();
    Item::Net(&make(A).expect("good text")).write(&mut bytes);
    bytes.push(b'V');
    assert_eq!(answer_trials(&bytes), "V 1\n");
}

#[test]
fn a_stream_cut_at_any_byte_ends_quietly() {
    let whole = every_letter();
    let answers = answer_trials(&whole);
    for length in 0..whole.len() {
        let cut = answer_trials(&whole[..length]);
        assert!(answers.starts_with(&cut), "cut at {length}");
        assert!(cut.len() < answers.len(), "cut at {length}");
    }
    let other_letter = [&whole[..], b"?V"].concat();
    assert_eq!(answer_trials(&other_letter), answers);
}

#[test]
fn the_stream_of_seed_1_cut_at_any_byte_has_the_items_before_the_cut() {
    let bytes = &stream().bytes;
    let mut ends = Vec::new();
    let mut end = 0;
    for item in Items::of(bytes) {
        let mut written = Vec::new();
        item.write(&mut written);
        assert_eq!(bytes[end..end + written.len()], written);
        end += written.len();
        ends.push(end);
    }
    assert_eq!(end, bytes.len());
    for length in (bytes.len() - 300..bytes.len()).chain((0..bytes.len()).step_by(9973)) {
        let items = Items::of(&bytes[..length]).count();
        assert_eq!(items, ends.partition_point(|&end| end <= length));
    }
}

#[test]
fn the_kept_stream_and_answers_are_what_the_commands_make() {
    let kept = |name: &str| {
        let folder = Path::new(env!("CARGO_MANIFEST_DIR")).join("../crates/trials");
        let path = folder.join(name);
        std::fs::read(&path).unwrap_or_else(|error| panic!("{}: {error}", path.display()))
    };
    let bytes = &stream().bytes;
    assert!(&kept("stdin") == bytes, "stdin is another stream");
    assert!(
        kept("stdout") == answer_trials(bytes).into_bytes(),
        "stdout has other answers"
    );
}
