//! For each clause of acceptance, nets that this clause alone refuses:
//! together they show that none of the clauses follows from the others.

use crate::accept::Clause;
use crate::damage::Recipe;

const fn recipe(clause: Clause, text: &'static str) -> Recipe {
    Recipe { clause, text }
}

pub const RECIPES: [Recipe; 53] = [
    recipe(
        Clause::EventAtAction,
        "
        script
        net
        present l0
        key 0 past node 0 at l0",
    ),
    recipe(
        Clause::EventAtAction,
        "
        script
        node 1 roll(r0)
        net
        present l0
        key 0 past node 1 at l0",
    ),
    recipe(
        Clause::PlacesHeld,
        "
        script
        node 1 out(1)@l0 then 0
        net   # an out that made no tuple
        present l0
        key 0 past node 1 at l0 first=1
        key 1 live node 0 at l0",
    ),
    recipe(
        Clause::PlacesHeld,
        "
        script
        node 1 out(1)@l0 then 0
        net   # an out that used a tuple
        present l0
        key 0 past node 1 at l0 first=1 second=2 used=3
        key 1 live node 0 at l0
        key 2 tuple (1) at l0
        key 3 tuple (1) at l0",
    ),
    recipe(
        Clause::PlacesHeld,
        "
        script
        node 1 in(!x0)@l0 then 0
        net   # an in that made a second key
        present l0
        key 0 past node 1 at l0 first=1 second=3 used=2
        key 1 live node 0 at l0 x0=4
        key 2 consumed (4) at l0
        key 3 tuple (4) at l0",
    ),
    recipe(
        Clause::PlacesHeld,
        "
        script
        node 1 split(0, 0)
        net   # a split without a left side
        present l0
        key 0 past node 1 at l0 second=2
        key 2 live node 0 at l0",
    ),
    recipe(
        Clause::PlacesHeld,
        "
        script
        node 1 newloc(x0) then 0
        net   # a newloc that made no locality
        present l0
        key 0 past node 1 at l0 first=1
        key 1 live node 0 at l0",
    ),
    recipe(
        Clause::PlacesHeld,
        "
        script
        node 1 read(1)@l0 then 0
        net   # a read that used nothing
        present l0
        key 0 past node 1 at l0 first=1
        key 1 live node 0 at l0",
    ),
    recipe(
        Clause::PlacesHeld,
        "
        script
        node 1 eval(0)@l0 then 0
        net   # an eval that made a locality
        present l0 l8
        key 0 past node 1 at l0 first=1 second=2 made=l8
        key 1 live node 0 at l0
        key 2 live node 0 at l0",
    ),
    recipe(
        Clause::TargetIsLocality,
        "
        script
        node 1 out(1)@x0 then 0
        net   # unset
        present l0
        key 0 past node 1 at l0 first=1 second=2
        key 1 live node 0 at l0
        key 2 tuple (1) at l0",
    ),
    recipe(
        Clause::TargetIsLocality,
        "
        script
        node 1 eval(0)@x0 then 0
        net   # a value
        present l0
        key 0 past node 1 at l0 x0=0 first=1 second=2
        key 1 live node 0 at l0 x0=0
        key 2 live node 0 at l0 x0=0",
    ),
    recipe(
        Clause::TargetIsLocality,
        "
        script
        node 1 read(1)@x0 then 0
        net   # a value
        present l0
        key 0 past node 1 at l0 x0=0 first=1 used=2
        key 1 live node 0 at l0 x0=0
        key 2 tuple (1) at l0",
    ),
    recipe(
        Clause::FieldsSet,
        "
        script
        node 1 out(x0)@l0 then 0
        net
        present l0
        key 0 past node 1 at l0 first=1 second=2
        key 1 live node 0 at l0
        key 2 tuple (0) at l0",
    ),
    recipe(
        Clause::FieldsSet,
        "
        script
        node 1 in(x0)@l0 then 0
        net
        present l0
        key 0 past node 1 at l0 first=1 used=2
        key 1 live node 0 at l0
        key 2 consumed (0) at l0",
    ),
    recipe(
        Clause::TargetPresent,
        "
        script
        node 1 out(1)@l5 then 0
        net   # READINGS: only this clause refuses it
        present l0
        key 0 past node 1 at l0 first=1 second=2
        key 1 live node 0 at l0
        key 2 tuple (1) at l5",
    ),
    recipe(
        Clause::TargetPresent,
        "
        script
        node 1 eval(0)@l5 then 0
        net
        present l0
        key 0 past node 1 at l0 first=1 second=2
        key 1 live node 0 at l0
        key 2 live node 0 at l5",
    ),
    recipe(
        Clause::ContinuationAgrees,
        "
        script
        node 1 out(1)@l0 as r0 then 0
        net   # the reference is not set
        present l0
        key 0 past node 1 at l0 first=1 second=2
        key 1 live node 0 at l0
        key 2 tuple (1) at l0",
    ),
    recipe(
        Clause::ContinuationAgrees,
        "
        script
        node 1 in(!x0)@l0 as r2 then 0
        net   # the formal is not bound
        present l0
        key 0 past node 1 at l0 first=1 used=2
        key 1 live node 0 at l0 r2=0
        key 2 consumed (3) at l0",
    ),
    recipe(
        Clause::ContinuationAgrees,
        "
        script
        node 1 in(!x0)@l0 as r2 then 0
        net   # the reference of an in is dropped
        present l0
        key 0 past node 1 at l0 first=1 used=2
        key 1 live node 0 at l0 x0=3
        key 2 consumed (3) at l0",
    ),
    recipe(
        Clause::ContinuationAgrees,
        "
        script
        node 1 newloc(x0) then 0
        net   # bound to another locality
        present l0 l8
        key 0 past node 1 at l0 first=1 made=l8
        key 1 live node 0 at l0 x0=l0",
    ),
    recipe(
        Clause::ContinuationAgrees,
        "
        script
        node 1 out(1)@l0 then 2
        net   # another node
        present l0
        key 0 past node 1 at l0 first=1 second=2
        key 1 live node 3 at l0
        key 2 tuple (1) at l0",
    ),
    recipe(
        Clause::ContinuationAgrees,
        "
        script
        node 1 out(1)@l0 then 0
        net   # another locality
        present l0 l1
        key 0 past node 1 at l0 first=1 second=2
        key 1 live node 0 at l1
        key 2 tuple (1) at l0",
    ),
    recipe(
        Clause::ContinuationAgrees,
        "
        script
        node 1 split(2, 3)
        net   # the sides of a split, swapped: the left one
        present l0
        key 0 past node 1 at l0 first=1 second=2
        key 1 live node 3 at l0
        key 2 live node 3 at l0",
    ),
    recipe(
        Clause::ContinuationAgrees,
        "
        script
        node 1 out(1)@l0 then 0
        net   # the continuation is free
        present l0
        key 0 past node 1 at l0 first=1 second=2
        key 2 tuple (1) at l0",
    ),
    recipe(
        Clause::TupleMadeAgrees,
        "
        script
        node 1 out(1)@l0 then 0
        net   # another number
        present l0
        key 0 past node 1 at l0 first=1 second=2
        key 1 live node 0 at l0
        key 2 tuple (2) at l0",
    ),
    recipe(
        Clause::TupleMadeAgrees,
        "
        script
        node 1 out(1)@l0 then 0
        net   # at another locality
        present l0 l1
        key 0 past node 1 at l0 first=1 second=2
        key 1 live node 0 at l0
        key 2 tuple (1) at l1",
    ),
    recipe(
        Clause::TupleMadeAgrees,
        "
        script
        node 1 out(1)@l0 then 0
        net   # a process
        present l0
        key 0 past node 1 at l0 first=1 second=2
        key 1 live node 0 at l0
        key 2 live node 0 at l0",
    ),
    recipe(
        Clause::SpawnedAgrees,
        "
        script
        node 1 eval(0)@l0 as r1 then 0
        net   # with the new reference
        present l0
        key 0 past node 1 at l0 first=1 second=2
        key 1 live node 0 at l0 r1=0
        key 2 live node 0 at l0 r1=0",
    ),
    recipe(
        Clause::SpawnedAgrees,
        "
        script
        node 1 eval(2)@l1 then 0
        net   # at the wrong locality
        present l0 l1
        key 0 past node 1 at l0 first=1 second=2
        key 1 live node 0 at l0
        key 2 live node 2 at l0",
    ),
    recipe(
        Clause::RightSideAgrees,
        "
        script
        node 1 split(2, 3)
        net   # the left side twice
        present l0
        key 0 past node 1 at l0 first=1 second=2
        key 1 live node 2 at l0
        key 2 live node 2 at l0",
    ),
    recipe(
        Clause::UsedIsTuple,
        "
        script
        node 1 read(1)@l0 then 0
        net   # a read of a process
        present l0
        key 0 past node 1 at l0 first=1 used=2
        key 1 live node 0 at l0
        key 2 live node 0 at l0",
    ),
    recipe(
        Clause::UsedIsTuple,
        "
        script
        node 1 in(1)@l0 then 0
        net   # an in of a free key
        present l0
        key 0 past node 1 at l0 first=1 used=2
        key 1 live node 0 at l0",
    ),
    recipe(
        Clause::UsedAtTarget,
        "
        script
        node 1 read(1)@l0 then 0
        net
        present l0 l1
        key 0 past node 1 at l0 first=1 used=2
        key 1 live node 0 at l0
        key 2 tuple (1) at l1",
    ),
    recipe(
        Clause::UsedMatches,
        "
        script
        node 1 read(1)@l0 then 0
        net   # a locality is not a value
        present l0
        key 0 past node 1 at l0 first=1 used=2
        key 1 live node 0 at l0
        key 2 tuple (l1) at l0",
    ),
    recipe(
        Clause::UsedMatches,
        "
        script
        node 1 in(!x0)@l0 then 0
        net   # counts differ
        present l0
        key 0 past node 1 at l0 first=1 used=2
        key 1 live node 0 at l0 x0=1
        key 2 consumed (1, 1) at l0",
    ),
    recipe(
        Clause::KeyMadeOnce,
        "
        script
        node 1 eval(0)@l0 then 0
        net   # READINGS: once in each place of one event
        present l0
        key 0 past node 1 at l0 first=1 second=1
        key 1 live node 0 at l0",
    ),
    recipe(
        Clause::KeyMadeOnce,
        "
        script
        node 1 out(1)@l0 then 0
        net   # one continuation for two events
        present l0
        key 0 past node 1 at l0 first=1 second=2
        key 1 live node 0 at l0
        key 2 tuple (1) at l0
        key 3 past node 1 at l0 first=1 second=4
        key 4 tuple (1) at l0",
    ),
    recipe(
        Clause::LocalityMadeOnce,
        "
        script
        node 1 newloc(x0) then 0
        net
        present l0 l8
        key 0 past node 1 at l0 first=1 made=l8
        key 1 live node 0 at l0 x0=l8
        key 2 past node 1 at l0 first=3 made=l8
        key 3 live node 0 at l0 x0=l8",
    ),
    recipe(
        Clause::LocalityMadeFrom8,
        "
        script
        node 1 newloc(x0) then 0
        net
        present l0 l7
        key 0 past node 1 at l0 first=1 made=l7
        key 1 live node 0 at l0 x0=l7",
    ),
    recipe(
        Clause::ConsumedByAnIn,
        "
        script
        net
        present l0
        key 0 consumed (1) at l0",
    ),
    recipe(
        Clause::ConsumedByOneIn,
        "
        script
        node 1 in(1)@l0 then 0
        net
        present l0
        key 0 past node 1 at l0 first=1 used=4
        key 1 live node 0 at l0
        key 2 past node 1 at l0 first=3 used=4
        key 3 live node 0 at l0
        key 4 consumed (1) at l0",
    ),
    recipe(
        Clause::LiveByNoIn,
        "
        script
        node 1 in(1)@l0 then 0
        net
        present l0
        key 0 past node 1 at l0 first=1 used=2
        key 1 live node 0 at l0
        key 2 tuple (1) at l0",
    ),
    recipe(
        Clause::MadeIsPresent,
        "
        script
        node 1 newloc(x0) then 0
        net
        present l0
        key 0 past node 1 at l0 first=1 made=l31
        key 1 live node 0 at l0 x0=l31",
    ),
    recipe(
        Clause::PresentIsMade,
        "
        script
        net
        present l0 l8",
    ),
    recipe(
        Clause::RootAtPresent,
        "
        script
        net
        present l0
        key 0 live node 0 at l1",
    ),
    recipe(
        Clause::RootBelow8,
        "
        script
        node 1 newloc(x0) then 0
        net
        present l0 l8
        key 0 past node 1 at l0 first=1 made=l8
        key 1 live node 0 at l0 x0=l8
        key 2 tuple (1) at l8",
    ),
    recipe(
        Clause::RootNamesBelow8,
        "
        script
        net
        present l0
        key 0 live node 0 at l0 x7=l8",
    ),
    recipe(
        Clause::RootNamesBelow8,
        "
        script
        net
        present l0
        key 0 tuple (1, l31) at l0",
    ),
    recipe(
        Clause::RootNamesBelow8,
        "
        script
        node 1 newloc(x0) then 0
        net   # it knows a locality that was made later
        present l0 l8
        key 0 past node 1 at l0 first=1 made=l8
        key 1 live node 0 at l0 x0=l8
        key 2 live node 0 at l0 x7=l8",
    ),
    recipe(
        Clause::RootHoldsNoReference,
        "
        script
        net
        present l0
        key 0 live node 0 at l0 r3=1",
    ),
    recipe(
        Clause::NoCycle,
        "
        script
        node 1 newloc(x0) then 1
        net   # READINGS: it made itself
        present l0 l8
        key 0 past node 1 at l8 x0=l8 first=0 made=l8",
    ),
    recipe(
        Clause::NoCycle,
        "
        script
        node 1 in(1)@l0 then 2
        node 2 read(1)@l0 then 0
        net   # READINGS: an in whose continuation read the tuple that it took
        present l0
        key 0 past node 1 at l0 first=2 used=1
        key 1 consumed (1) at l0
        key 2 past node 2 at l0 first=3 used=1
        key 3 live node 0 at l0",
    ),
    recipe(
        Clause::NoCycle,
        "
        script
        node 1 in(1)@l0 then 2
        node 2 read(2)@l0 then 0
        node 3 in(2)@l0 then 4
        node 4 read(1)@l0 then 0
        net   # READINGS: two ins, each read by the other's continuation afterwards
        present l0
        key 0 past node 1 at l0 first=2 used=8
        key 2 past node 2 at l0 first=4 used=9
        key 4 live node 0 at l0
        key 1 past node 3 at l0 first=3 used=9
        key 3 past node 4 at l0 first=5 used=8
        key 5 live node 0 at l0
        key 8 consumed (1) at l0
        key 9 consumed (2) at l0",
    ),
];
