//! Document 01, "Which nets are accepted": every clause refuses a net that
//! no other clause refuses.

use reference::accept::{accept, Clause, Refusal};
use reference::damage::clauses_broken_by;
use reference::recipes::RECIPES;

#[test]
fn each_recipe_breaks_its_clause_alone() {
    for (number, recipe) in RECIPES.iter().enumerate() {
        let (script, net) = recipe.images();
        assert_eq!(
            clauses_broken_by(&script, &net),
            [recipe.clause],
            "recipe {number}: {}",
            recipe.text
        );
        match accept(&script, &net.write()) {
            Err(Refusal::Clause(broken)) => assert_eq!(broken.clause, recipe.clause),
            other => panic!("recipe {number}: {other:?}"),
        }
    }
}

#[test]
fn every_clause_has_a_recipe() {
    for clause in Clause::ALL {
        assert!(
            RECIPES.iter().any(|recipe| recipe.clause == clause),
            "{clause:?}"
        );
    }
}
