//! Refutations by equality and order alone: by a chain of steps and `cls`, which
//! one `bck` could do for, or by `bck`.

use super::builder::Builder;
use super::derivations::obtain;
use super::draft::{lit, Sort};
use super::entailed::{self, Entailed};

/// The most steps of a chain in a tableau that has other work to do.
const MOST_STEPS: usize = 12;

/// Something that follows from literals on the branch.
fn some_entailed(builder: &mut Builder, depth: usize) -> Entailed {
    let steps = if builder.spent() || builder.random.chance(2, 3) {
        builder.random.below(3)
    } else {
        builder.random.below(MOST_STEPS + 1)
    };
    let entailed = entailed::any(builder, steps);
    for literal in entailed.literals() {
        let depth = builder.random.below(depth + 1);
        obtain(builder, literal, depth);
    }
    entailed
}

/// A chain of steps, and the denial of what it comes to.
pub fn chained(builder: &mut Builder, depth: usize) {
    let entailed = some_entailed(builder, depth);
    let word = if entailed.is_order() { "nl" } else { "ne" };
    let denial = obtain(builder, lit(entailed.left, word, entailed.right), depth);
    let place = entailed.derive(&mut builder.draft);
    builder.draft.cls(place, denial);
}

/// The same without the steps, so that terms which only they need are missing.
pub fn bck(builder: &mut Builder, depth: usize) {
    let entailed = some_entailed(builder, depth);
    let denial = entailed.denial(builder.random);
    obtain(builder, denial, depth);
    builder.draft.bck();
}

/// A term is not equal to itself, or a class not under itself.
pub fn bck_of_itself(builder: &mut Builder, depth: usize) {
    let literal = if builder.random.chance(1, 2) {
        let class = builder.some(Sort::Class);
        lit(class, "nl", class)
    } else {
        let term = builder.some_term();
        lit(term, "ne", term)
    };
    obtain(builder, literal, depth);
    builder.draft.bck();
}
