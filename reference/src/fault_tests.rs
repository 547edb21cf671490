//! Wrong programs are noticed: each seeded error changes what the cases or
//! the generated streams print.

use crate::accept::Clause;
use crate::call_stream::calls;
use crate::calls::{self, Said as Call};
use crate::cases::CASES;
use crate::claims::Claims;
use crate::fault::{with, Fault};
use crate::gen::{Generated, Generator};
use crate::net_form::NetRule;
use crate::program::rewind;
use crate::random::Random;
use crate::recipes::RECIPES;
use crate::script_form::ScriptRule;
use crate::trial_stream::trials;
use crate::trials::{said, Said};
use std::panic::{catch_unwind, UnwindSafe};

const SEED: u64 = 2;
const LINES: u64 = 60_000;

const READINGS: [Fault; 29] = [
    Fault::UndoOutUnderReader,
    Fault::SpawnGetsReference,
    Fault::LeaveInAfterRead,
    Fault::RestoreContinuation,
    Fault::KeepMadeLocality,
    Fault::SwappedSplit,
    Fault::InDropsReference,
    Fault::LaxFormal,
    Fault::LaxActual,
    Fault::LaxCount,
    Fault::SelfLoopIsNoCycle,
    Fault::DependenceWithoutTuples,
    Fault::ReadConsumes,
    Fault::BindBeforeEvaluating,
    Fault::AbsentTargetAllowed,
    Fault::PresenceBeforeFields,
    Fault::FreshBeforeMatch,
    Fault::PlacesBeforeNode,
    Fault::TouchedForgetsAbsent,
    Fault::MadeCountedByEvent,
    Fault::UndoTargetOnly,
    Fault::UndoDescendantsOnly,
    Fault::UndoneOneLess,
    Fault::SplitsNotCounted,
    Fault::TouchedOfTargetOnly,
    Fault::RestoringWins,
    Fault::SplitRolledBack,
    Fault::RollByReferenceZero,
    Fault::ShortRequestFilled,
];

/// What `rewind` cannot show: it puts no request of more than 6 bytes, prints
/// no net, and asks neither the finder nor the helpers.
const NOT_IN_REWIND: [Fault; 9] = [
    Fault::LongRequestCut,
    Fault::RefusedNetResized,
    Fault::FinderGivesGreatest,
    Fault::FinderTakesConsumed,
    Fault::FinderLooksEverywhere,
    Fault::FinderKeyFirst,
    Fault::LastKeyForgotten,
    Fault::LastLocalityForgotten,
    Fault::LocalityBelow8,
];

/// Short streams first: a damaged image is noticed by its one line.
fn streams() -> Vec<Generated> {
    let mut generator = Generator::new(SEED);
    let mut streams = Vec::new();
    while generator.tally.lines < LINES {
        streams.push(generator.stream());
    }
    streams.sort_by_key(|stream| stream.reports.len());
    streams
}

/// A case that does not hold, or that panics.
fn noticed_by_case(fault: Fault) -> Option<&'static str> {
    let holds = |number: usize| {
        with(fault, || {
            catch_unwind(|| CASES[number].holds(0)).unwrap_or(false)
        })
    };
    (0..CASES.len())
        .find(|&number| !holds(number))
        .map(|number| CASES[number].sentence)
}

/// A stream that prints something else, or that panics.
fn noticed_by_stream(fault: Fault, streams: &[Generated]) -> Option<usize> {
    streams.iter().position(|stream| {
        let run = || catch_unwind(|| rewind(&stream.bytes, &mut Random::new(0)).text());
        with(fault, run).map_or(true, |text| text != stream.text())
    })
}

fn check(faults: &[Fault], streams: &[Generated]) {
    let mut unnoticed = Vec::new();
    for &fault in faults {
        let case = noticed_by_case(fault);
        let stream = noticed_by_stream(fault, streams);
        println!("{fault:?}: case {case:?}, stream {stream:?}");
        if case.is_none() && stream.is_none() {
            unnoticed.push(fault);
        }
    }
    assert!(unnoticed.is_empty(), "nobody noticed {unnoticed:?}");
}

#[test]
fn without_a_seeded_error_cases_and_streams_hold() {
    assert!(CASES.iter().all(|case| case.holds(0)));
    for stream in &streams() {
        assert_eq!(
            rewind(&stream.bytes, &mut Random::new(9)).text(),
            stream.text()
        );
    }
}

fn all_faults() -> Vec<Fault> {
    let mut faults = READINGS.to_vec();
    faults.extend(ScriptRule::ALL.map(Fault::ScriptRuleLeftOut));
    faults.extend(NetRule::ALL.map(Fault::NetRuleLeftOut));
    faults.extend(Clause::ALL.map(Fault::ClauseLeftOut));
    faults
}

#[test]
fn every_seeded_error_is_noticed() {
    let streams = streams();
    check(&all_faults(), &streams);
}

/// In a trial stream every image and request has its length and nothing is
/// rolled back.
const NOT_IN_TRIALS: [Fault; 12] = [
    Fault::TouchedForgetsAbsent,
    Fault::ScriptRuleLeftOut(ScriptRule::Length),
    Fault::NetRuleLeftOut(NetRule::Length),
    Fault::UndoTargetOnly,
    Fault::UndoDescendantsOnly,
    Fault::UndoneOneLess,
    Fault::SplitsNotCounted,
    Fault::TouchedOfTargetOnly,
    Fault::RestoringWins,
    Fault::SplitRolledBack,
    Fault::RollByReferenceZero,
    Fault::ShortRequestFilled,
];

#[test]
fn every_seeded_error_is_noticed_by_the_trials_alone() {
    let stream = trials(1).bytes;
    let expected: Vec<Said> = said(&stream).collect();
    for fault in all_faults() {
        if NOT_IN_TRIALS.contains(&fault) {
            continue;
        }
        let same = || catch_unwind(|| said(&stream).eq(expected.iter().copied()));
        assert!(!with(fault, same).unwrap_or(false), "{fault:?}");
    }
}

/// The calls show all that the trials cannot, and the rest as well.
#[test]
fn every_seeded_error_is_noticed_by_the_calls_alone() {
    let stream = calls(1).bytes;
    let expected: Vec<Call> = calls::said(&stream).collect();
    let mut unnoticed = Vec::new();
    for fault in all_faults().into_iter().chain(NOT_IN_REWIND) {
        let differing = || catch_unwind(|| first_other(&stream, &expected));
        match with(fault, differing) {
            Ok(None) => unnoticed.push(fault),
            Ok(Some(question)) => println!("{fault:?}: question {question}"),
            Err(_) => println!("{fault:?}: it panics"),
        }
    }
    assert!(
        unnoticed.is_empty(),
        "the calls do not notice {unnoticed:?}"
    );
}

/// The first question to which something else is said.
fn first_other(stream: &[u8], expected: &[Call]) -> Option<usize> {
    let mut pairs = calls::said(stream).zip(expected);
    pairs.position(|(said, expected)| said != *expected)
}

/// Do the claims notice it? A panic counts.
fn noticed_by_claims(fault: Fault, try_claims: impl FnOnce(&mut Claims) + UnwindSafe) -> bool {
    let run = move || {
        let mut claims = Claims::new(SEED);
        try_claims(&mut claims);
        !claims.refuted.is_empty()
    };
    with(fault, || catch_unwind(run).unwrap_or(true))
}

/// Tried on generated nets.
fn noticed_on_generated_nets(fault: Fault) -> bool {
    noticed_by_claims(fault, |claims| {
        while claims.nets < 400 && claims.refuted.is_empty() {
            claims.try_one();
        }
    })
}

/// Tried on the nets that this clause alone refuses: with the clause left
/// out they are accepted.
fn noticed_on_recipes(clause: Clause) -> bool {
    RECIPES
        .iter()
        .filter(|recipe| recipe.clause == clause)
        .any(|recipe| {
            noticed_by_claims(Fault::ClauseLeftOut(clause), |claims| {
                let (script, net) = recipe.images();
                claims.try_net(&script, &net);
            })
        })
}

/// READINGS, "What the theorems do not fix": these errors keep every claim,
/// so only the cases and the streams notice them. Demand 3 holds for splits
/// too, and for whichever event a roll takes.
const KEEPS_THE_CLAIMS: [Fault; 11] = [
    Fault::SpawnGetsReference,
    Fault::SwappedSplit,
    Fault::InDropsReference,
    Fault::LaxFormal,
    Fault::LaxActual,
    Fault::LaxCount,
    Fault::PresenceBeforeFields,
    Fault::PlacesBeforeNode,
    Fault::SplitRolledBack,
    Fault::RollByReferenceZero,
    Fault::ShortRequestFilled,
];

#[test]
fn claims_notice_every_error_but_those_that_the_theorems_do_not_fix() {
    for fault in READINGS {
        let keeps = KEEPS_THE_CLAIMS.contains(&fault);
        assert_eq!(noticed_on_generated_nets(fault), !keeps, "{fault:?}");
    }
}

/// These only say from which nets one may start.
const SAYS_WHERE_TO_START: [Clause; 3] = [
    Clause::ConsumedByAnIn,
    Clause::PresentIsMade,
    Clause::RootAtPresent,
];

#[test]
fn claims_need_every_clause_but_those_that_say_where_to_start() {
    for clause in Clause::ALL {
        let start = SAYS_WHERE_TO_START.contains(&clause);
        assert_eq!(noticed_on_recipes(clause), !start, "{clause:?}");
    }
}
