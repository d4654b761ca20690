//! Tables of random terms, deep ones among them, with random assumptions.

use crate::generator::aliases;
use crate::generator::draft::{
    lit, Draft, Literal, Operation, Sort, TermId, MOST_IN_CLAUSE, OPERATIONS,
};
use crate::generator::tableau::{without_steps, Tableau};
use crate::random::Random;

use Sort::{Class, Field, Heap, Reference, Region};

/// The operations whose terms nest deep.
const DEEP: [Operation; 3] = [OPERATIONS[0], OPERATIONS[5], OPERATIONS[6]];
const SORTS: [Sort; 5] = [Reference, Region, Heap, Field, Class];

/// How many of the latest terms an argument is mostly taken from.
const LATEST: usize = 3;

/// A table with assumptions and no steps.
pub fn table(random: &mut Random) -> Tableau {
    let mut draft = Draft::default();
    variables(&mut draft, random);
    let (operations, terms) = match random.below(20) {
        0 => (&DEEP[..], random.below(300)),
        1..=4 => (&DEEP[..], random.below(40)),
        _ => (&OPERATIONS[..], random.below(30)),
    };
    for _ in 0..terms {
        grow(&mut draft, operations, random);
    }
    for _ in 0..random.pick(&[0, 1, 2, 3, 5, 8, 13, 40]) {
        assume(&mut draft, random);
    }
    for _ in 0..random.pick(&[0, 0, 0, 1, 2, 3, 5, 40]) {
        let literals = 1 + random.below(MOST_IN_CLAUSE);
        assume_among(&mut draft, literals, random);
    }
    without_steps(&draft, random)
}

/// Makes a term of those that there are, which may be one of them.
pub fn grow(draft: &mut Draft, operations: &[Operation], random: &mut Random) {
    let (word, sorts) = random.pick(operations);
    let arguments: Vec<TermId> = sorts
        .iter()
        .map(|sort| some_term(draft, *sort, random))
        .collect();
    draft.term(word, &arguments);
}

/// Assumes a random literal.
pub fn assume(draft: &mut Draft, random: &mut Random) {
    let literal = some_literal(draft, random);
    draft.assume(literal);
}

/// Assumes one of so many random literals.
pub fn assume_among(draft: &mut Draft, literals: usize, random: &mut Random) {
    let literals = (0..literals).map(|_| some_literal(draft, random)).collect();
    draft.assume_among(literals);
}

/// Some variables of each sort, and the constants.
fn variables(draft: &mut Draft, random: &mut Random) {
    for word in ["rfv", "rgv", "arv", "fnv", "clv"] {
        for _ in 0..1 + random.below(3) {
            // Variables of different sorts often have the same name.
            let name = match random.below(2) {
                0 => aliases::name(&draft.names(word), random),
                _ => 1 + random.below(3) as u32,
            };
            draft.variable(word, name);
        }
    }
    for word in ["nul", "emp", "all"] {
        if random.chance(3, 4) {
            draft.term(word, &[]);
        }
    }
}

fn some_term(draft: &Draft, sort: Sort, random: &mut Random) -> TermId {
    let known = draft.terms_of_sort(sort);
    let latest = known.len().saturating_sub(LATEST);
    if random.chance(2, 3) {
        return random.pick(&known[latest..]);
    }
    random.pick(&known)
}

fn some_literal(draft: &Draft, random: &mut Random) -> Literal {
    let (words, left, right) = match random.below(4) {
        0 => (["in", "ni"], Reference, Region),
        1 => (["le", "nl"], Class, Class),
        _ => {
            let sort = random.pick(&SORTS);
            (["eq", "ne"], sort, sort)
        }
    };
    let [left, right] = [left, right].map(|sort| {
        let known = draft.terms_of_sort(sort);
        random.pick(&known)
    });
    lit(left, random.pick(&words), right)
}
