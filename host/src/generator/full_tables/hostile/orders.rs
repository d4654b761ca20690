//! Chains and cycles of classes, as long as the table allows.

use super::arrangements::{placed, Arrange};
use super::{assume_arranged, keys, links, variables};
use crate::generator::closable::Closable;
use crate::generator::draft::{lit, Literal, TermId, MOST_IN_CLAUSE};
use crate::generator::full_tables::key_clauses::MOST_ASSUMPTIONS;
use crate::generator::full_tables::room;
use crate::generator::tableau::Tableau;
use crate::random::Random;

const SEED: u64 = 20_070_707;

/// Classes and literals on them. Both stand arranged.
struct Graph {
    made: Closable,
    classes: Vec<TermId>,
    literals: Vec<Literal>,
    arrange: Arrange,
}

impl Graph {
    /// As many classes as the table has room for.
    fn full(arrange: Arrange) -> Graph {
        let made = Closable::new();
        let classes = room(&made.draft);
        Graph::with(made, classes, arrange)
    }

    fn with(mut made: Closable, classes: usize, arrange: Arrange) -> Graph {
        let classes = variables(&mut made.draft, "clv", classes);
        Graph {
            made,
            classes: placed(&classes, arrange),
            literals: Vec::new(),
            arrange,
        }
    }

    fn last(&self) -> usize {
        self.classes.len() - 1
    }

    /// The literal that one class is related to another, by their indices.
    fn lit(&self, left: usize, word: &'static str, right: usize) -> Literal {
        lit(self.classes[left], word, self.classes[right])
    }

    fn below(&mut self, lower: usize, upper: usize) {
        let literal = self.lit(lower, "le", upper);
        self.literals.push(literal);
    }

    /// Each class below the next, between these two.
    fn chain(&mut self, first: usize, last: usize) {
        self.literals
            .extend(links(&self.classes[first..=last], "le"));
    }

    /// How many literals more may be assumed, and the one denied besides.
    fn room(&self) -> usize {
        MOST_ASSUMPTIONS - self.made.draft.length() - self.literals.len() - 1
    }

    /// The denied literal follows with any of the keys.
    fn finish(mut self, denied: Literal, key: impl Fn(&Graph, usize) -> Literal) -> Tableau {
        let keys = keys(|index| key(&self, index));
        self.made.draft.assume(denied);
        assume_arranged(&mut self.made, &self.literals, self.arrange);
        self.made.fill_by_keys(keys)
    }
}

/// One chain, and its ends denied. Its first link is the key.
pub fn chain(arrange: Arrange) -> Tableau {
    let mut graph = Graph::full(arrange);
    graph.chain(1, graph.last());
    let denied = graph.lit(0, "nl", graph.last());
    graph.finish(denied, |graph, index| graph.lit(0, "le", 1 + index))
}

/// One cycle, and two of its classes said to differ. The link that closes it is
/// the key.
pub fn cycle(arrange: Arrange) -> Tableau {
    let mut graph = Graph::full(arrange);
    graph.chain(0, graph.last());
    let denied = ends_differ(&graph);
    graph.finish(denied, link_back)
}

/// The first class that is in the cycle with every key, and the last.
fn ends_differ(graph: &Graph) -> Literal {
    graph.lit(MOST_IN_CLAUSE - 1, "ne", graph.last())
}

/// From the last class back to one of the first.
fn link_back(graph: &Graph, index: usize) -> Literal {
    graph.lit(graph.last(), "le", index)
}

/// A chain with a link back for every link. With the key, which is the first
/// link, each two neighbours are a cycle.
pub fn there_and_back(arrange: Arrange) -> Tableau {
    let mut graph = Graph::with(Closable::new(), MOST_ASSUMPTIONS / 2, arrange);
    for lower in 0..graph.last() {
        graph.below(lower + 1, lower);
        if lower > 0 {
            graph.below(lower, lower + 1);
        }
    }
    let denied = graph.lit(0, "ne", graph.last());
    graph.finish(denied, |graph, index| graph.lit(0, "le", 1 + index))
}

/// A chain up and one down, and a rung from each class of the first over to the
/// second. The link from the foot of the second to that of the first is the
/// key: with it, there is a cycle over every rung.
pub fn ladder(arrange: Arrange) -> Tableau {
    let mut graph = Graph::full(arrange);
    let height = graph.classes.len() / 2;
    for level in 0..height {
        let (up, down) = (2 * level, 2 * level + 1);
        if level + 1 < height {
            graph.below(up, up + 2);
            graph.below(down + 2, down);
        }
        graph.below(up, down);
    }
    let denied = graph.lit(1, "ne", 2 * height - 2);
    graph.finish(denied, |graph, index| graph.lit(1, "le", 2 * index))
}

/// A chain, and links back from the end to the start, from the last but one to
/// the second, and so on. The link in its middle is the key, on which all
/// cycles lie.
pub fn nested_cycles(arrange: Arrange) -> Tableau {
    let mut graph = Graph::full(arrange);
    let (middle, last) = (graph.last() / 2, graph.last());
    graph.chain(0, middle);
    graph.chain(middle + 1, last);
    let skips = graph.room().min(middle - MOST_IN_CLAUSE);
    for start in 0..skips {
        graph.below(last - start, start);
    }
    let denied = graph.lit(0, "ne", last);
    graph.finish(denied, |graph, index| {
        graph.lit(middle - index, "le", middle + 1)
    })
}

/// A chain with links back that skip a few classes, so that each cycle overlaps
/// with the next ones. The first link is the key.
pub fn overlapping_cycles(arrange: Arrange) -> Tableau {
    let mut graph = Graph::full(arrange);
    let last = graph.last();
    graph.chain(1, last);
    graph.below(MOST_IN_CLAUSE, 0);
    // Three of five links back, so that they overlap from the start to the end.
    for upper in (MOST_IN_CLAUSE + 1..=last).filter(|upper| upper % 5 < 3 || *upper == last) {
        graph.below(upper, upper - 5);
    }
    assert!(graph.literals.len() < MOST_ASSUMPTIONS);
    let denied = graph.lit(0, "ne", last);
    graph.finish(denied, |graph, index| graph.lit(0, "le", 1 + index))
}

/// A chain, and links between any two classes but none from the last, which the
/// key leads back to one of the first.
pub fn random_cycles(arrange: Arrange) -> Tableau {
    let mut random = Random::new(SEED);
    let mut graph = Graph::full(arrange);
    let last = graph.last();
    graph.chain(0, last);
    for _ in 0..graph.room() {
        let lower = random.below(last);
        let near = lower.saturating_sub(random.below(30)) + random.below(30);
        graph.below(lower, near.min(last));
    }
    let denied = ends_differ(&graph);
    graph.finish(denied, link_back)
}
