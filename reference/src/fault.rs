//! Seeded errors. In every build but the crate's own tests `seeded` is the
//! constant `false`; there, a test may seed one error at a time, to show that
//! the cases and the generated streams notice it.

use crate::accept::Clause;
use crate::net_form::NetRule;
use crate::script_form::ScriptRule;

/// A wrong reading of document 01.
#[derive(Clone, Copy, PartialEq, Eq, Debug)]
pub enum Fault {
    /// Easy error 1: undoing the out under a standing reader.
    UndoOutUnderReader,
    /// Easy error 2: giving the spawned process the new reference.
    SpawnGetsReference,
    /// Easy error 3: leaving an in done when the read before it is undone.
    LeaveInAfterRead,
    /// Easy error 4: restoring a continuation instead of the kept process.
    RestoreContinuation,
    /// Easy error 5: keeping a made locality.
    KeepMadeLocality,
    /// The right side of a split in byte 3's record, the left in byte 4's.
    SwappedSplit,
    /// An in's continuation without the node's reference.
    InDropsReference,
    /// A formal for a value takes a locality too, and the other way round.
    LaxFormal,
    /// An actual field compares numbers only.
    LaxActual,
    /// A template matches a tuple with further fields.
    LaxCount,
    /// An event that depends directly on itself is not a cycle.
    SelfLoopIsNoCycle,
    /// Dependence without its second clause: who used a tuple that was made.
    DependenceWithoutTuples,
    /// A read consumes its tuple.
    ReadConsumes,
    /// The template is evaluated after its formals are bound.
    BindBeforeEvaluating,
    /// The forward step lets a target be absent.
    AbsentTargetAllowed,
    /// Check 8 before check 7.
    PresenceBeforeFields,
    /// Check 11 before checks 9 and 10.
    FreshBeforeMatch,
    /// Check 6 before check 5.
    PlacesBeforeNode,
    /// Touched leaves out a locality that becomes absent.
    TouchedForgetsAbsent,
    /// Keys made are counted by event and not by place.
    MadeCountedByEvent,
    /// A rollback undoes its target alone and reports what it should.
    UndoTargetOnly,
    /// A rollback undoes what grew out of its target by keys alone: neither
    /// who used a tuple that was made nor who took one that was read.
    UndoDescendantsOnly,
    /// Undone is one less where more than the target is undone.
    UndoneOneLess,
    /// Undone leaves out the splits.
    SplitsNotCounted,
    /// Touched is that of the target's own step.
    TouchedOfTargetOnly,
    /// What is undone and was made by what is undone stays: a process as live,
    /// a consumed tuple as a live one.
    RestoringWins,
    /// Code 2 takes a split too.
    SplitRolledBack,
    /// A roll takes reference 0, whichever its node names.
    RollByReferenceZero,
    /// A request of fewer than 6 bytes is filled up with 255.
    ShortRequestFilled,
    /// A request of more than 6 bytes is cut.
    LongRequestCut,
    /// A net that is not accepted gets its length.
    RefusedNetResized,
    /// The finder gives the greatest key.
    FinderGivesGreatest,
    /// The finder gives consumed tuples too.
    FinderTakesConsumed,
    /// The finder looks at every locality.
    FinderLooksEverywhere,
    /// The finder's check 3 before its checks 1 and 2.
    FinderKeyFirst,
    /// The helper says "none" where key 63 alone is left.
    LastKeyForgotten,
    /// The helper says "none" where locality 31 alone is left.
    LastLocalityForgotten,
    /// The helper gives an absent locality below 8.
    LocalityBelow8,
    /// A rule of the script's form is left out.
    ScriptRuleLeftOut(ScriptRule),
    /// A rule of the net's form is left out.
    NetRuleLeftOut(NetRule),
    /// A clause of acceptance is left out.
    ClauseLeftOut(Clause),
}

#[cfg(not(test))]
pub const fn seeded(_: Fault) -> bool {
    false
}

#[cfg(test)]
pub use seeding::{seeded, with};

#[cfg(test)]
mod seeding {
    use super::Fault;
    use std::cell::Cell;

    thread_local! {
        static SEEDED: Cell<Option<Fault>> = const { Cell::new(None) };
    }

    pub fn seeded(fault: Fault) -> bool {
        SEEDED.get() == Some(fault)
    }

    /// Takes the error out again, also when the seeded program panics.
    struct Unseed;

    impl Drop for Unseed {
        fn drop(&mut self) {
            SEEDED.set(None);
        }
    }

    /// Runs `program` with one error seeded.
    pub fn with<T>(fault: Fault, program: impl FnOnce() -> T) -> T {
        SEEDED.set(Some(fault));
        let _unseed = Unseed;
        program()
    }
}
