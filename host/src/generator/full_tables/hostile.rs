//! Files of as many bytes as there may be, with as many closings by `bck` as
//! they have room for. Each closing takes all of a closure that is long to
//! find: long chains and cycles, congruences that wait for others, many terms
//! with one hash. What is assumed stands in an order in which little follows
//! from one pass over it.

mod arrangements;
mod congruences;
mod denials;
mod joins;
mod mixed;
mod orders;
mod shared_signatures;

use super::key_clauses::Keys;
use super::{full_table, FullTable, Kind};
use crate::generator::closable::Closable;
use crate::generator::draft::{lit, Draft, Literal, TermId};
use arrangements::{backwards, shuffled, zigzag};

const KINDS: &[Kind] = &[
    ("chain of `le`, backwards", || orders::chain(backwards)),
    ("chain of `le`, random", || orders::chain(shuffled)),
    ("chain of `le`, zigzag", || orders::chain(zigzag)),
    ("cycle of `le`, backwards", || orders::cycle(backwards)),
    ("cycle of `le`, random", || orders::cycle(shuffled)),
    ("cycle of `le`, zigzag", || orders::cycle(zigzag)),
    ("`le` there and back, backwards", || {
        orders::there_and_back(backwards)
    }),
    ("`le` there and back, zigzag", || {
        orders::there_and_back(zigzag)
    }),
    ("ladder of `le`, backwards", || orders::ladder(backwards)),
    ("ladder of `le`, zigzag", || orders::ladder(zigzag)),
    ("nested cycles of `le`, random", || {
        orders::nested_cycles(shuffled)
    }),
    ("nested cycles of `le`, zigzag", || {
        orders::nested_cycles(zigzag)
    }),
    ("overlapping cycles of `le`", || {
        orders::overlapping_cycles(zigzag)
    }),
    ("random cycles of `le`", || orders::random_cycles(shuffled)),
    ("congruences, backwards", || congruences::levels(backwards)),
    ("congruences, random", || congruences::levels(shuffled)),
    ("congruences, zigzag", || congruences::levels(zigzag)),
    ("nested terms made equal", congruences::tower),
    ("joins, backwards", || joins::chain(backwards)),
    ("joins, random", || joins::chain(shuffled)),
    ("joins, zigzag", || joins::chain(zigzag)),
    ("joins to one on the left", || joins::star(true)),
    ("joins to one on the right", || joins::star(false)),
    ("joins of joins, with congruences", joins::tournament),
    ("random literals", mixed::random_literals),
    ("`le` by way of `typ`", || mixed::order_by_types(zigzag)),
    ("shared hash, nothing equal", shared_signatures::apart),
    ("shared hash, one `eq`", shared_signatures::one_equation),
    ("shared hash, two `eq`", shared_signatures::two_equations),
    ("shared hash, all equal", shared_signatures::all_equal),
    ("shared hash, congruences", || {
        shared_signatures::congruences(backwards)
    }),
    ("many `ne`", denials::unequal),
    ("many `nl`, long chain", || denials::above_chain(shuffled)),
    ("many `nl`, many ways up", denials::above_diamonds),
    ("small table", denials::small_table),
];

pub fn all() -> Vec<FullTable> {
    let made = KINDS.iter().map(|(kind, make)| full_table(kind, make()));
    made.collect()
}

/// Eight literals, of this literal for each index from 0 on.
fn keys(key: impl Fn(usize) -> Literal) -> Keys {
    std::array::from_fn(key)
}

/// So many variables, with names from 2 on.
fn variables(draft: &mut Draft, word: &'static str, count: usize) -> Vec<TermId> {
    let names = (2..).take(count);
    names.map(|name| draft.variable(word, name)).collect()
}

/// Assumes literals that stand in this arrangement.
fn assume_arranged(made: &mut Closable, literals: &[Literal], arrange: arrangements::Arrange) {
    for index in arrange(literals.len()) {
        made.draft.assume(literals[index]);
    }
}

/// Neighbours in a list, with this word between them.
fn links(list: &[TermId], word: &'static str) -> Vec<Literal> {
    let pairs = list.windows(2);
    pairs.map(|pair| lit(pair[0], word, pair[1])).collect()
}
