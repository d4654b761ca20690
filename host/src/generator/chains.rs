//! Closed tableaux each branch of which closes by a chain of steps of equality
//! and order, and `cls`.

use crate::random::Random;

use super::draft::{lit, Draft, Place, Sort};
use super::entailed::{any, Entailed, Fresh, Source};

const MOST_BRANCHES: usize = 4;
const MOST_STEPS: usize = 30;

/// All that is needed is assumed; the branches come from cuts that help nothing.
pub fn draft(random: &mut Random) -> Draft {
    let mut fresh = Fresh {
        draft: Draft::default(),
        random,
    };
    let branches = 1 + fresh.random.below(MOST_BRANCHES);
    let chains: Vec<(Entailed, Place)> = (0..branches).map(|_| assumed(&mut fresh)).collect();
    let (u, r) = (fresh.leaf(Sort::Reference), fresh.leaf(Sort::Region));
    for _ in 1..branches {
        fresh.draft.cut(u, r);
    }
    for (entailed, denial) in chains {
        let place = entailed.derive(&mut fresh.draft);
        fresh.draft.cls(place, denial);
    }
    fresh.draft
}

/// Something that follows from assumptions, and where its denial is assumed.
fn assumed(fresh: &mut Fresh) -> (Entailed, Place) {
    let most = fresh.random.pick(&[1, 5, MOST_STEPS]);
    let steps = fresh.random.below(most + 1);
    let entailed = any(fresh, steps);
    for literal in entailed.literals() {
        fresh.draft.assume(literal);
    }
    let word = if entailed.is_order() { "nl" } else { "ne" };
    let denial = lit(entailed.left, word, entailed.right);
    let place = fresh.draft.assume(denial);
    (entailed, place)
}
