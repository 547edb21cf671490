//! How often each answer, code, kind, rule and clause came up, and what never
//! did.

use crate::accept::Clause;
use crate::answer::{Answer, Report};
use crate::machine::{absent_locality, free_key};
use crate::names::{Key, Keys};
use crate::net::{Net, Slot};
use crate::net_form::NetRule;
use crate::request::{Code, Request};
use crate::script::{Field, Node, Script};
use crate::script_form::{Kind, ScriptRule};
use crate::walk::Taken;
use std::fmt::Write;

/// The key names no process.
const NO_PROCESS: usize = 8;

/// What the streams are to bring about beside answers and damage.
#[derive(Clone, Copy, PartialEq, Eq, Debug)]
pub enum Feature {
    AllKeysInUse,
    AllLocalitiesMade,
    KeyReusedAfterUndoing,
    InOfATupleReadBefore,
    ReadOfAMadeTuple,
    TupleAtAMadeLocality,
    ProcessAtAMadeLocality,
    StepAtAMadeLocality,
    ReferenceSet,
    VariableAndFormalAtOnce,
    RollbackOfTenOrMore,
    RollbackOfThirtyOrMore,
    RollbackOverASplit,
    RollbackOfAReadBeforeAnIn,
    LocalityMadeAbsent,
    RollOfThreeOrMore,
    BackwardOverAConsumedTuple,
    StartWithHistory,
    ChangedNetAccepted,
    ChangedNetRefused,
    ShortScript,
    ShortNet,
    NoRequests,
    BytesLeftOver,
    CodeAbove3,
    KeyAbove63,
    TupleKeyOutOfRange,
    FirstFreshOutOfRange,
    SecondFreshOutOfRange,
    LocalityOutOfRange,
    HelperNoKeyLeft,
    HelperNoLocalityLeft,
}

impl Feature {
    pub const ALL: [Feature; 32] = [
        Feature::AllKeysInUse,
        Feature::AllLocalitiesMade,
        Feature::KeyReusedAfterUndoing,
        Feature::InOfATupleReadBefore,
        Feature::ReadOfAMadeTuple,
        Feature::TupleAtAMadeLocality,
        Feature::ProcessAtAMadeLocality,
        Feature::StepAtAMadeLocality,
        Feature::ReferenceSet,
        Feature::VariableAndFormalAtOnce,
        Feature::RollbackOfTenOrMore,
        Feature::RollbackOfThirtyOrMore,
        Feature::RollbackOverASplit,
        Feature::RollbackOfAReadBeforeAnIn,
        Feature::LocalityMadeAbsent,
        Feature::RollOfThreeOrMore,
        Feature::BackwardOverAConsumedTuple,
        Feature::StartWithHistory,
        Feature::ChangedNetAccepted,
        Feature::ChangedNetRefused,
        Feature::ShortScript,
        Feature::ShortNet,
        Feature::NoRequests,
        Feature::BytesLeftOver,
        Feature::CodeAbove3,
        Feature::KeyAbove63,
        Feature::TupleKeyOutOfRange,
        Feature::FirstFreshOutOfRange,
        Feature::SecondFreshOutOfRange,
        Feature::LocalityOutOfRange,
        Feature::HelperNoKeyLeft,
        Feature::HelperNoLocalityLeft,
    ];
}

/// The counts.
#[derive(Clone, Debug)]
pub struct Tally {
    pub streams: u64,
    pub lines: u64,
    answers: [u64; Answer::COUNT],
    /// By code, kind of the process at the key, and answer.
    table: [[[u64; Answer::COUNT]; 9]; 4],
    script_rules: [u64; ScriptRule::ALL.len()],
    net_rules: [u64; NetRule::ALL.len()],
    clauses: [u64; Clause::ALL.len()],
    features: [u64; Feature::ALL.len()],
    finder: [u64; Answer::COUNT],
    /// The keys that an undoing freed in this stream.
    freed: Keys,
}

impl Default for Tally {
    fn default() -> Tally {
        Tally {
            streams: 0,
            lines: 0,
            answers: [0; Answer::COUNT],
            table: [[[0; Answer::COUNT]; 9]; 4],
            script_rules: [0; ScriptRule::ALL.len()],
            net_rules: [0; NetRule::ALL.len()],
            clauses: [0; Clause::ALL.len()],
            features: [0; Feature::ALL.len()],
            finder: [0; Answer::COUNT],
            freed: Keys::default(),
        }
    }
}

impl Tally {
    pub fn begin_stream(&mut self) {
        self.streams += 1;
        self.freed = Keys::default();
    }

    pub fn line(&mut self, report: &Report) {
        self.lines += 1;
        self.answers[report.answer as usize] += 1;
    }

    pub fn script_rule(&mut self, rule: ScriptRule) {
        self.script_rules[rule as usize] += 1;
    }

    pub fn net_rule(&mut self, rule: NetRule) {
        self.net_rules[rule as usize] += 1;
    }

    pub fn clause(&mut self, clause: Clause) {
        self.clauses[clause as usize] += 1;
    }

    pub fn feature(&mut self, feature: Feature) {
        self.features[feature as usize] += 1;
    }

    pub fn found(&mut self, answer: Answer) {
        self.finder[answer as usize] += 1;
    }

    pub fn helpers(&mut self, net: &Net) {
        if free_key(net).is_none() {
            self.feature(Feature::HelperNoKeyLeft);
        }
        if absent_locality(net).is_none() {
            self.feature(Feature::HelperNoLocalityLeft);
        }
    }

    /// A request of the walk, with the net after it.
    pub fn request(&mut self, script: &Script, taken: &Taken, after: &Net) {
        let Some(request) = Request::read(&taken.bytes) else {
            self.out_of_range(&taken.bytes);
            return;
        };
        let kind = taken.kind.map_or(NO_PROCESS, |kind| kind as usize);
        self.table[request.code as usize][kind][taken.report.answer as usize] += 1;
        if taken.report.answer != Answer::Done {
            return;
        }
        match request.code {
            Code::Forward => self.forward(script, &request, taken, after),
            Code::Backward => self.backward(&request, taken),
            Code::Rollback | Code::Roll => self.rollback(script, &request, taken, after),
        }
        if request.code != Code::Forward {
            let freed = taken
                .before
                .records()
                .filter(|&(key, _)| after.is_free(key));
            freed.for_each(|(key, _)| self.freed.insert(key));
        }
    }

    fn out_of_range(&mut self, bytes: &[u8]) {
        let beyond = |byte: u8, count: u8| byte != 255 && byte >= count;
        let wrong = [
            (bytes[0] > 3, Feature::CodeAbove3),
            (bytes[1] > 63, Feature::KeyAbove63),
            (beyond(bytes[2], 64), Feature::TupleKeyOutOfRange),
            (beyond(bytes[3], 64), Feature::FirstFreshOutOfRange),
            (beyond(bytes[4], 64), Feature::SecondFreshOutOfRange),
            (beyond(bytes[5], 32), Feature::LocalityOutOfRange),
        ];
        wrong
            .iter()
            .filter(|(is, _)| *is)
            .for_each(|&(_, feature)| self.feature(feature));
    }

    fn forward(&mut self, script: &Script, request: &Request, taken: &Taken, after: &Net) {
        let Some(process) = taken.before.slot(request.key).process() else {
            return;
        };
        let node = script.node(process.node);
        let fresh = [request.places.first, request.places.second];
        let read_before = request
            .places
            .tuple
            .is_some_and(|tuple| is_read(script, &taken.before, tuple));
        let tuple_made = request
            .places
            .tuple
            .is_some_and(|tuple| is_made(&taken.before, tuple));
        let second = request.places.second.map(|key| after.slot(key));
        let far = second
            .and_then(Slot::locality)
            .is_some_and(|l| !l.is_original());
        let is = [
            (
                fresh.iter().flatten().any(|&key| self.freed.contains(key)),
                Feature::KeyReusedAfterUndoing,
            ),
            (
                node.kind == Kind::In && read_before,
                Feature::InOfATupleReadBefore,
            ),
            (
                node.kind == Kind::Read && tuple_made,
                Feature::ReadOfAMadeTuple,
            ),
            (node.kind == Kind::Out && far, Feature::TupleAtAMadeLocality),
            (
                node.kind == Kind::Eval && far,
                Feature::ProcessAtAMadeLocality,
            ),
            (
                !process.locality.is_original(),
                Feature::StepAtAMadeLocality,
            ),
            (node.reference.is_some(), Feature::ReferenceSet),
            (variable_and_formal(node), Feature::VariableAndFormalAtOnce),
            (free_key(after).is_none(), Feature::AllKeysInUse),
            (absent_locality(after).is_none(), Feature::AllLocalitiesMade),
        ];
        is.iter()
            .filter(|(is, _)| *is)
            .for_each(|&(_, feature)| self.feature(feature));
    }

    fn backward(&mut self, request: &Request, taken: &Taken) {
        let used = taken
            .before
            .memory(request.key)
            .and_then(|memory| memory.used);
        if used.is_some_and(|key| matches!(taken.before.slot(key), Slot::Consumed(_))) {
            self.feature(Feature::BackwardOverAConsumedTuple);
        }
    }

    fn rollback(&mut self, script: &Script, request: &Request, taken: &Taken, after: &Net) {
        let undone = taken.report.undone;
        let split_undone = taken.before.events().any(|(key, process, _)| {
            script.node(process.node).kind == Kind::Split && after.memory(key).is_none()
        });
        let read_with_in = request.code == Code::Rollback
            && taken.kind == Some(Kind::Read)
            && taken
                .before
                .memory(request.key)
                .and_then(|m| m.used)
                .is_some_and(|key| matches!(taken.before.slot(key), Slot::Consumed(_)));
        let is = [
            (undone >= 10, Feature::RollbackOfTenOrMore),
            (undone >= 30, Feature::RollbackOfThirtyOrMore),
            (split_undone, Feature::RollbackOverASplit),
            (read_with_in, Feature::RollbackOfAReadBeforeAnIn),
            (
                taken.before.present != after.present,
                Feature::LocalityMadeAbsent,
            ),
            (
                request.code == Code::Roll && undone >= 3,
                Feature::RollOfThreeOrMore,
            ),
        ];
        is.iter()
            .filter(|(is, _)| *is)
            .for_each(|&(_, feature)| self.feature(feature));
    }

    /// What never came up though it can, and what came up though it cannot.
    pub fn complaints(&self) -> Vec<String> {
        let mut complaints = Vec::new();
        let mut never = |count: u64, what: String| {
            if count == 0 {
                complaints.push(format!("never: {what}"));
            }
        };
        for (number, &count) in self.answers.iter().enumerate() {
            never(count, format!("answer {number}"));
        }
        for (rule, &count) in ScriptRule::ALL.iter().zip(&self.script_rules) {
            never(count, format!("script rule {rule:?}"));
        }
        for (rule, &count) in NetRule::ALL.iter().zip(&self.net_rules) {
            never(count, format!("net rule {rule:?}"));
        }
        for (clause, &count) in Clause::ALL.iter().zip(&self.clauses) {
            never(count, format!("clause {clause:?}"));
        }
        for (feature, &count) in Feature::ALL.iter().zip(&self.features) {
            never(count, format!("{feature:?}"));
        }
        for number in [0, 1, 2, 3, 4, 5, 7, 8, 9] {
            never(self.finder[number], format!("finder's answer {number}"));
        }
        for (code, kind, answer, count) in self.cells().filter(|&(c, k, a, _)| possible(c, k, a)) {
            never(
                count,
                format!("code {code}, {}, answer {answer}", kind_word(kind)),
            );
        }
        complaints.extend(self.impossible());
        complaints
    }

    fn impossible(&self) -> impl Iterator<Item = String> + '_ {
        let came_up = |&(code, kind, answer, count): &(usize, usize, usize, u64)| {
            count > 0 && !possible(code, kind, answer)
        };
        self.cells().filter(came_up).map(|(code, kind, answer, _)| {
            format!(
                "came up though it cannot: code {code}, {}, answer {answer}",
                kind_word(kind)
            )
        })
    }

    fn cells(&self) -> impl Iterator<Item = (usize, usize, usize, u64)> + '_ {
        let kinds = |code: usize| (0..9).map(move |kind| (code, kind));
        (0..4).flat_map(kinds).flat_map(move |(code, kind)| {
            (0..Answer::COUNT).map(move |a| (code, kind, a, self.table[code][kind][a]))
        })
    }

    /// The counts as text.
    pub fn text(&self) -> String {
        let mut text = format!("streams {}\nlines {}\n", self.streams, self.lines);
        text += "\nanswer      count\n";
        for (number, count) in self.answers.iter().enumerate() {
            let _ = writeln!(text, "{number:6} {count:10}");
        }
        text += &self.totals();
        text += &self.table_text();
        text += "\nscript rule broken singly\n";
        for (rule, count) in ScriptRule::ALL.iter().zip(&self.script_rules) {
            let _ = writeln!(text, "{:28}{count:8}", format!("{rule:?}"));
        }
        text += "\nnet rule broken singly\n";
        for (rule, count) in NetRule::ALL.iter().zip(&self.net_rules) {
            let _ = writeln!(text, "{:28}{count:8}", format!("{rule:?}"));
        }
        text += "\nclause broken singly\n";
        for (clause, count) in Clause::ALL.iter().zip(&self.clauses) {
            let _ = writeln!(text, "{:28}{count:8}", format!("{clause:?}"));
        }
        text += "\nalso\n";
        for (feature, count) in Feature::ALL.iter().zip(&self.features) {
            let _ = writeln!(text, "{:28}{count:8}", format!("{feature:?}"));
        }
        text += "\nfinder's answer\n";
        for number in [0, 1, 2, 3, 4, 5, 7, 8, 9] {
            let _ = writeln!(text, "{number:6} {:10}", self.finder[number]);
        }
        text
    }

    /// Requests in range, by code and by kind.
    fn totals(&self) -> String {
        let sum = |wanted: &dyn Fn(usize, usize) -> bool| -> u64 {
            let cells = self
                .cells()
                .filter(|&(code, kind, _, _)| wanted(code, kind));
            cells.map(|(_, _, _, count)| count).sum()
        };
        let mut text = "\ncode        count\n".to_string();
        for code in 0..4 {
            let _ = writeln!(text, "{code:6} {:10}", sum(&|c, _| c == code));
        }
        text += "\nkind at the key   count\n";
        for kind in 0..9 {
            let _ = writeln!(text, "{:13}{:10}", kind_word(kind), sum(&|_, k| k == kind));
        }
        text
    }

    fn table_text(&self) -> String {
        let mut text =
            "\ncode, kind at the key, then answer:count for each answer that can come up\n"
                .to_string();
        for code in 0..4 {
            for kind in 0..9 {
                let _ = write!(text, "{code} {:11}", kind_word(kind));
                for answer in 0..Answer::COUNT {
                    let count = self.table[code][kind][answer];
                    if possible(code, kind, answer) || count > 0 {
                        let _ = write!(text, " {answer}:{count}");
                    }
                }
                text += "\n";
            }
        }
        text
    }
}

fn kind_word(kind: usize) -> &'static str {
    Kind::ALL.get(kind).map_or("no process", |kind| kind.word())
}

/// Can this answer come to this code where the key names a process at this
/// kind (or none)? Answer 3 is counted by the place that is wrong.
fn possible(code: usize, kind: usize, answer: usize) -> bool {
    let action = (1..=6).contains(&kind);
    let target = matches!(kind, 1 | 2 | 3 | 5);
    let takes = matches!(kind, 2 | 3);
    match (code, answer) {
        (0 | 3, 4) => action || kind == NO_PROCESS,
        (1 | 2, 4) => true,
        (0, 0 | 6 | 11) => action,
        (0, 5) => matches!(kind, 0 | 7),
        (0, 7 | 8) => target,
        (0, 9 | 10) => takes,
        (1, 0 | 6 | 12) => action,
        (2, 0 | 6) => action && kind != 6,
        (2, 5) => kind == 6,
        (3, 0 | 6 | 7) => kind == 7,
        (3, 5) => kind < 7,
        _ => false,
    }
}

fn is_read(script: &Script, net: &Net, tuple: Key) -> bool {
    net.events().any(|(_, process, memory)| {
        memory.used == Some(tuple) && script.node(process.node).kind == Kind::Read
    })
}

fn is_made(net: &Net, key: Key) -> bool {
    net.events().any(|(_, _, memory)| memory.made_key(key))
}

/// A template in which one variable is both an actual field and a formal.
fn variable_and_formal(node: &Node) -> bool {
    node.fields.iter().any(|field| match *field {
        Field::Variable(x) => {
            node.fields.contains(&Field::FormalValue(x))
                || node.fields.contains(&Field::FormalLocality(x))
        }
        _ => false,
    })
}
