//! Clauses in the tableaux that the builder makes: refuted by a split, split to
//! bring a literal onto the branch, split without need, or never split.

use super::builder::Builder;
use super::derivations::obtain;
use super::draft::{ClauseId, Literal, Place};
use super::refutations::{denied, deny, some_literal};

/// C lines after which no clause is made.
const ENOUGH_LINES: usize = 200;
/// Small clauses are the rule.
const SIZES: [usize; 14] = [1, 2, 2, 2, 2, 2, 3, 3, 3, 4, 5, 6, 7, 8];

pub fn has_room(builder: &Builder) -> bool {
    builder.draft.clause_lines() < ENOUGH_LINES
}

fn some_literals(builder: &mut Builder) -> Vec<Literal> {
    let size = builder.random.pick(&SIZES);
    let mut literals = Vec::new();
    for _ in 0..size {
        let literal = some_literal(builder);
        let is_denied = builder.random.chance(1, 2);
        literals.push(if is_denied { denied(literal) } else { literal });
    }
    literals
}

/// A new clause, or one that there is.
fn some_clause(builder: &mut Builder) -> ClauseId {
    let made = builder.draft.clauses.len();
    if !has_room(builder) || made > 0 && builder.random.chance(1, 3) {
        return ClauseId(builder.random.below(made));
    }
    let literals = some_literals(builder);
    builder.draft.assume_among(literals)
}

/// The denials of some literals, brought onto the branch.
fn obtain_denials(builder: &mut Builder, literals: &[Literal], depth: usize) -> Vec<Place> {
    let mut places = Vec::new();
    for literal in literals {
        places.push(obtain(builder, denied(*literal), depth));
    }
    places
}

/// Splits a clause, and closes its first alternatives with these denials of
/// their literals. Each alternative stands where the one before it did.
fn split(builder: &mut Builder, clause: ClauseId, denials: &[Place]) -> Place {
    let added = builder.draft.cla(clause);
    for denial in denials {
        deny(builder, added, *denial);
    }
    added
}

/// Every literal of a clause is denied.
pub fn refuted(builder: &mut Builder, depth: usize) {
    let clause = some_clause(builder);
    let literals = builder.draft.clauses[clause.0].clone();
    let denials = obtain_denials(builder, &literals, depth);
    split(builder, clause, &denials);
}

/// A clause with the wanted literal in it: the alternatives before it are
/// closed, those after it wait.
pub fn with_literal(builder: &mut Builder, wanted: Literal, depth: usize) -> Place {
    let mut literals = some_literals(builder);
    literals.pop();
    let mut index = literals.len();
    if builder.may_split() && builder.random.chance(1, 2) {
        index = builder.random.below(literals.len() + 1);
    }
    literals.insert(index, wanted);
    let denials = obtain_denials(builder, &literals[..index], depth);
    let clause = builder.draft.assume_among(literals);
    split(builder, clause, &denials)
}

/// A split whose alternatives are to be closed otherwise.
pub fn idle_split(builder: &mut Builder) {
    let clause = some_clause(builder);
    builder.draft.cla(clause);
}

/// A clause that is not split here.
pub fn idle_clause(builder: &mut Builder) {
    some_clause(builder);
}
