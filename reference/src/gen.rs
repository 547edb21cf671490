//! Streams of script, net and requests from a seed: walks from fresh nets and
//! from nets with a history, damaged images, short input. Each comes with
//! what `rewind` is to print.

use crate::answer::{Answer, Report};
use crate::arbitrary;
use crate::damage::{change, clauses_broken_by, damage_net, damage_script, rename};
use crate::machine::find;
use crate::net::Net;
use crate::net_form::NetRule;
use crate::random::Random;
use crate::recipes::RECIPES;
use crate::script::Script;
use crate::script_form::ScriptRule;
use crate::tally::{Feature, Tally};
use crate::walk::{Mood, Walk};

/// A stream, and the reports of its lines.
pub struct Generated {
    pub bytes: Vec<u8>,
    pub reports: Vec<Report>,
}

impl Generated {
    pub fn text(&self) -> String {
        self.reports
            .iter()
            .map(|report| report.line() + "\n")
            .collect()
    }
}

/// Makes streams and counts what they bring about.
pub struct Generator {
    random: Random,
    pub tally: Tally,
    /// Which damage comes next: every rule and clause takes its turn.
    turn: usize,
}

impl Generator {
    pub fn new(seed: u64) -> Generator {
        Generator {
            random: Random::new(seed),
            tally: Tally::default(),
            turn: 0,
        }
    }

    /// The next stream.
    pub fn stream(&mut self) -> Generated {
        self.tally.begin_stream();
        let stream = match self.random.below(16) {
            0..=2 => self.damaged(),
            3 => self.short(),
            4 | 5 => self.changed(),
            6 | 7 => self.with_history(),
            _ => self.fresh(),
        };
        stream
            .reports
            .iter()
            .for_each(|report| self.tally.line(report));
        stream
    }

    fn fresh(&mut self) -> Generated {
        let script = arbitrary::script(&mut self.random);
        let net = arbitrary::start(&mut self.random, &script);
        self.walk_from(&script, net)
    }

    fn with_history(&mut self) -> Generated {
        let (script, net) = some_history(&mut self.random);
        self.tally.feature(Feature::StartWithHistory);
        self.walk_from(&script, net)
    }

    /// A net with a history, changed at random: it may be accepted still.
    fn changed(&mut self) -> Generated {
        let (script, mut net) = some_history(&mut self.random);
        for _ in 0..1 + self.random.below(2) {
            change(&mut self.random, &mut net);
        }
        let broken = clauses_broken_by(&script, &net);
        if broken.is_empty() {
            self.tally.feature(Feature::ChangedNetAccepted);
            return self.walk_from(&script, net);
        }
        self.tally.feature(Feature::ChangedNetRefused);
        if let [clause] = broken[..] {
            self.tally.clause(clause);
        }
        refused(
            script.write(),
            &net.write(),
            Answer::NotAccepted,
            &mut self.random,
        )
    }

    fn walk_from(&mut self, script: &Script, net: Net) -> Generated {
        let mut bytes = script.write();
        bytes.extend(net.write());
        let mut reports = Vec::new();
        let mut walk = Walk {
            script,
            net,
            mood: Mood::Mixed,
        };
        for _ in 0..self.phases() {
            let (mood, steps) = self.phase();
            walk.mood = mood;
            for _ in 0..steps {
                if mood == Mood::Filling
                    && walk.is_stuck(&mut self.random)
                    && !self.random.one_in(4)
                {
                    break;
                }
                let taken = walk.step(&mut self.random);
                self.tally.request(script, &taken, &walk.net);
                bytes.extend(&taken.bytes);
                reports.push(taken.report);
            }
        }
        self.ask(script, &walk.net);
        self.left_over(&mut bytes, &mut reports);
        Generated { bytes, reports }
    }

    fn phases(&mut self) -> u64 {
        if self.random.one_in(30) {
            self.tally.feature(Feature::NoRequests);
            return 0;
        }
        1 + self.random.below(4)
    }

    fn phase(&mut self) -> (Mood, u64) {
        match self.random.below(6) {
            0 => (Mood::Filling, 90),
            1 => (Mood::Undoing, 1 + self.random.below(20)),
            _ => (Mood::Mixed, 1 + self.random.below(30)),
        }
    }

    /// The finder and the helpers on the walk's last net.
    fn ask(&mut self, script: &Script, net: &Net) {
        self.tally.helpers(net);
        let live: Vec<u8> = net
            .records()
            .filter(|(_, slot)| slot.is_live())
            .map(|(key, _)| key.byte())
            .collect();
        let (script, net) = (script.write(), net.write());
        for _ in 0..4 {
            let any = self.random.below(72) as u8;
            let key = self
                .random
                .pick(&live)
                .filter(|_| !self.random.one_in(4))
                .unwrap_or(any);
            let (answer, _) = find(&script, &net, key);
            self.tally.found(answer);
        }
    }

    fn left_over(&mut self, bytes: &mut Vec<u8>, reports: &mut Vec<Report>) {
        if self.random.one_in(6) {
            let count = 1 + self.random.below(5) as usize;
            bytes.extend(vec![self.random.below(4) as u8; count]);
            reports.push(Report::refused(Answer::BadRequest));
            self.tally.feature(Feature::BytesLeftOver);
        }
    }

    fn short(&mut self) -> Generated {
        let (script, net) = some_history(&mut self.random);
        let (script, net) = (script.write(), net.write());
        let mut bytes = script.clone();
        bytes.extend(&net);
        let length = self.random.below(bytes.len() as u64) as usize;
        bytes.truncate(length);
        let (feature, answer) = if length < script.len() {
            (Feature::ShortScript, Answer::BadScript)
        } else {
            (Feature::ShortNet, Answer::NotAccepted)
        };
        self.tally.feature(feature);
        let (answer_found, _) = find(&bytes[..length.min(script.len())], &net[1..], 0);
        self.tally.found(answer_found);
        Generated {
            bytes,
            reports: vec![Report::refused(answer)],
        }
    }

    /// Each rule of the form and each clause in turn, broken singly.
    fn damaged(&mut self) -> Generated {
        let rules = ScriptRule::ALL.len();
        let forms = rules + NetRule::ALL.len();
        let turn = self.turn % (forms + RECIPES.len());
        self.turn += 1;
        if turn < rules {
            return self.damaged_script(ScriptRule::ALL[turn]);
        }
        if turn < forms {
            return self.damaged_net(NetRule::ALL[turn - rules]);
        }
        let (script, net) = RECIPES[turn - forms].renamed(&mut self.random);
        self.tally.clause(RECIPES[turn - forms].clause);
        refused(
            script.write(),
            &net.write(),
            Answer::NotAccepted,
            &mut self.random,
        )
    }

    fn damaged_script(&mut self, rule: ScriptRule) -> Generated {
        loop {
            let (script, net) = some_history(&mut self.random);
            if let Some(script) = damage_script(&mut self.random, &script.write(), rule) {
                self.tally.script_rule(rule);
                return self.damaged_length(script, &net.write(), rule == ScriptRule::Length);
            }
        }
    }

    fn damaged_net(&mut self, rule: NetRule) -> Generated {
        loop {
            let (script, net) = some_history(&mut self.random);
            if let Some(net) = damage_net(&mut self.random, &net.write(), rule) {
                self.tally.net_rule(rule);
                // A net that is too long would be cut by its place in the stream.
                let cut = rule == NetRule::Length && net.len() > 3600;
                let net = if cut { &net[..3599] } else { &net[..] };
                let mut bytes = script.write();
                bytes.extend(net);
                return Generated {
                    bytes,
                    reports: vec![Report::refused(Answer::NotAccepted)],
                };
            }
        }
    }

    /// A script of wrong length shifts what follows: only a short one, with
    /// nothing after it, stays one of wrong length in a stream.
    fn damaged_length(&mut self, mut script: Vec<u8>, net: &[u8], length: bool) -> Generated {
        if length {
            script.truncate(2063);
            return Generated {
                bytes: script,
                reports: vec![Report::refused(Answer::BadScript)],
            };
        }
        refused(script, net, Answer::BadScript, &mut self.random)
    }
}

/// A bad script or net, with requests after it that are not looked at.
fn refused(mut bytes: Vec<u8>, net: &[u8], answer: Answer, random: &mut Random) -> Generated {
    bytes.extend(net);
    bytes.extend(vec![0; random.below(13) as usize]);
    Generated {
        bytes,
        reports: vec![Report::refused(answer)],
    }
}

/// A script, and a net that a walk came to.
pub fn some_history(random: &mut Random) -> (Script, Net) {
    let script = arbitrary::script(random);
    let net = arbitrary::start(random, &script);
    let mood = random
        .pick(&[Mood::Mixed, Mood::Filling, Mood::Filling])
        .unwrap_or(Mood::Mixed);
    let mut walk = Walk {
        script: &script,
        net,
        mood,
    };
    for _ in 0..1 + random.below(70) {
        walk.step(random);
    }
    let net = rename(random, &walk.net);
    (script, net)
}
