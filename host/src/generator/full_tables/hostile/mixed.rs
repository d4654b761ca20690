//! Equations, congruences and the order together.

use super::arrangements::{placed, Arrange};
use super::{assume_arranged, keys, variables};
use crate::generator::closable::Closable;
use crate::generator::draft::{lit, Draft, Sort, TermId, MOST_IN_CLAUSE, MOST_TERMS, OPERATIONS};
use crate::generator::full_tables::key_clauses::MOST_ASSUMPTIONS;
use crate::generator::full_tables::{fill, room};
use crate::generator::tableau::Tableau;
use crate::random::Random;

const SEED: u64 = 20_090_909;

/// The classes of references x and y, typ(x) below typ(y), and this y equal to
/// the next x. The first such equation is the key.
pub fn order_by_types(arrange: Arrange) -> Tableau {
    let mut made = Closable::new();
    let draft = &mut made.draft;
    let count = room(draft) / 4;
    let references = variables(draft, "rfv", 2 * count);
    let references = placed(&references, arrange);
    let mut types = references.clone();
    for index in arrange(types.len()) {
        types[index] = draft.term("typ", &[references[index]]);
    }
    fill(draft, 0);
    draft.assume(lit(types[0], "nl", types[2 * count - 1]));
    let pairs = (0..count).map(|index| (2 * index, 2 * index + 1));
    let below = pairs.map(|(x, y)| lit(types[x], "le", types[y]));
    let next = (1..count).map(|index| (2 * index - 1, 2 * index)).skip(1);
    let equal = next.map(|(y, x)| lit(references[y], "eq", references[x]));
    let literals: Vec<_> = below.chain(equal).collect();
    assume_arranged(&mut made, &literals, arrange);
    made.fill_by_keys(keys(|index| {
        lit(references[1], "eq", references[2 * (index + 1)])
    }))
}

/// As many random literals `eq` and `le` as may be assumed, on terms of two
/// worlds that have no variable in common. The key makes a reference of one
/// equal to one of the other, by which a class of one comes to be below a class
/// of the other.
pub fn random_literals() -> Tableau {
    let mut random = Random::new(SEED);
    let mut made = Closable::new();
    let draft = &mut made.draft;
    let half = draft.terms.len() + room(draft) / 2;
    let lower = World::make(draft, &mut random, 1_000, half);
    let upper = World::make(draft, &mut random, 2_000, MOST_TERMS);
    let (low, high) = (
        lower.variable(Sort::Class, 0),
        upper.variable(Sort::Class, 0),
    );
    draft.assume(lit(low, "nl", high));
    for index in 0..MOST_IN_CLAUSE {
        draft.assume(lit(low, "le", lower.type_of(index)));
        draft.assume(lit(upper.type_of(index), "le", high));
    }
    while draft.length() < MOST_ASSUMPTIONS {
        let world = if random.chance(1, 2) { &lower } else { &upper };
        world.assume(draft, &mut random);
    }
    made.fill_by_keys(keys(|index| {
        lit(lower.reference(index), "eq", upper.reference(index))
    }))
}

/// The sorts, with the words and the numbers of their variables in a world.
const VARIABLES: [(Sort, &str, usize); 5] = [
    (Sort::Reference, "rfv", 40),
    (Sort::Region, "rgv", 20),
    (Sort::Heap, "arv", 8),
    (Sort::Field, "fnv", 10),
    (Sort::Class, "clv", 40),
];

/// Terms on variables of their own.
struct World {
    /// For each sort its terms, the variables first.
    terms: [Vec<TermId>; VARIABLES.len()],
    /// The classes of the references in keys.
    types: Vec<TermId>,
}

impl World {
    /// Makes terms until there are so many in the table.
    fn make(draft: &mut Draft, random: &mut Random, least_name: u32, until: usize) -> World {
        let terms = VARIABLES.map(|(_, word, count)| {
            let names = (least_name..).take(count);
            names.map(|name| draft.variable(word, name)).collect()
        });
        let mut world = World {
            terms,
            types: Vec::new(),
        };
        for index in 0..MOST_IN_CLAUSE {
            let class = draft.term("typ", &[world.reference(index)]);
            world.types.push(class);
        }
        while draft.terms.len() < until {
            let (word, sorts) = random.pick(&OPERATIONS);
            let pick = |sort: &Sort| random.pick(world.of_sort(*sort));
            let arguments: Vec<TermId> = sorts.iter().map(pick).collect();
            let before = draft.terms.len();
            let term = draft.term(word, &arguments);
            if draft.terms.len() > before {
                world.terms[index_of(draft.sort(term))].push(term);
            }
        }
        world
    }

    fn of_sort(&self, sort: Sort) -> &[TermId] {
        &self.terms[index_of(sort)]
    }

    fn variable(&self, sort: Sort, index: usize) -> TermId {
        self.of_sort(sort)[index]
    }

    fn reference(&self, index: usize) -> TermId {
        self.variable(Sort::Reference, index)
    }

    fn type_of(&self, index: usize) -> TermId {
        self.types[index]
    }

    /// Assumes a random literal of two terms.
    fn assume(&self, draft: &mut Draft, random: &mut Random) {
        let (sort, _, _) = random.pick(&VARIABLES);
        let terms = self.of_sort(sort);
        let word = if sort == Sort::Class { "le" } else { "eq" };
        let (left, right) = (random.pick(terms), random.pick(terms));
        draft.assume(lit(left, word, right));
    }
}

fn index_of(sort: Sort) -> usize {
    let known = VARIABLES.iter().position(|(known, _, _)| *known == sort);
    known.expect("every sort has variables")
}
