//! Many denied literals of which one follows.

use super::arrangements::{placed, Arrange};
use super::{assume_arranged, keys, links, variables};
use crate::generator::closable::Closable;
use crate::generator::draft::{lit, TermId, MOST_IN_CLAUSE};
use crate::generator::full_tables::key_clauses::MOST_ASSUMPTIONS;
use crate::generator::full_tables::room;
use crate::generator::tableau::Tableau;
use crate::random::Random;

const SEED: u64 = 20_080_808;

/// As many literals that regions differ as may be assumed. None are equal; the
/// key says that one differs from itself.
pub fn unequal() -> Tableau {
    let mut random = Random::new(SEED);
    let mut made = Closable::new();
    let count = room(&made.draft);
    let regions = variables(&mut made.draft, "rgv", count);
    while made.draft.length() < MOST_ASSUMPTIONS {
        let (left, right) = (random.pick(&regions), random.pick(&regions));
        if left != right {
            made.draft.assume(lit(left, "ne", right));
        }
    }
    made.fill_by_keys(keys(|index| {
        lit(regions[count - 1 - index], "ne", regions[count - 1 - index])
    }))
}

/// Classes that nothing is below. A key leads to one of the last.
const TOPS: usize = 48;

/// A chain of classes, and as many literals as may be assumed that a class in
/// its lower half is not below one of the tops. The key puts the chain's end
/// below one of those that the last literals speak of.
pub fn above_chain(arrange: Arrange) -> Tableau {
    let mut made = Closable::new();
    let tops = variables(&mut made.draft, "clv", TOPS);
    let count = room(&made.draft);
    let names = (1_000..).take(count);
    let chain: Vec<TermId> = names.map(|name| made.draft.variable("clv", name)).collect();
    let chain = placed(&chain, arrange);
    assume_arranged(&mut made, &links(&chain, "le"), arrange);
    deny_tops(made, &chain[..count / 2], &tops, &[chain[count - 1]])
}

/// Pairs of classes, each below both of the next pair.
const PAIRS: usize = 150;

/// The same over a graph in which there are many ways up.
pub fn above_diamonds() -> Tableau {
    let mut made = Closable::new();
    let tops = variables(&mut made.draft, "clv", TOPS);
    let names = (1_000..).take(2 * PAIRS);
    let classes: Vec<TermId> = names.map(|name| made.draft.variable("clv", name)).collect();
    let pairs: Vec<&[TermId]> = classes.chunks(2).collect();
    for next in pairs.windows(2).rev() {
        for (lower, upper) in [(0, 0), (0, 1), (1, 0), (1, 1)] {
            made.draft.assume(lit(next[0][lower], "le", next[1][upper]));
        }
    }
    deny_tops(made, &classes[..PAIRS], &tops, pairs[PAIRS - 1])
}

/// Denies that these classes are below the tops, and closes by keys that put
/// the ends, which all of these are below, below a top. Only what is denied
/// last speaks of the tops in keys.
fn deny_tops(mut made: Closable, classes: &[TermId], tops: &[TermId], ends: &[TermId]) -> Tableau {
    let mut random = Random::new(SEED);
    let (other_tops, in_keys) = tops.split_at(tops.len() - MOST_IN_CLAUSE);
    while made.draft.length() < MOST_ASSUMPTIONS - MOST_IN_CLAUSE {
        let (class, top) = (random.pick(classes), random.pick(other_tops));
        made.draft.assume(lit(class, "nl", top));
    }
    for top in in_keys {
        made.draft.assume(lit(classes[0], "nl", *top));
    }
    made.fill_by_keys(keys(|index| {
        lit(ends[index % ends.len()], "le", in_keys[index])
    }))
}

/// The fewest terms and assumptions, and so the most closings.
pub fn small_table() -> Tableau {
    let made = Closable::new();
    let u = made.u;
    made.fill_by_keys(keys(|_| lit(u, "ne", u)))
}
