//! The order of classes: which are equal, since each is below the other, and
//! which are below which.

/// No edge, and no component.
const NONE: u16 = u16::MAX;

/// A graph with an edge from a class up to another for each literal.
#[derive(Default)]
pub struct Order {
    /// The first edge from each class.
    first: Vec<u16>,
    /// The next edge from the same class, and where the edge leads.
    edges: Vec<(u16, u16)>,
    /// When a class was first visited, from 1 on; 0 if it was not.
    visited: Vec<u16>,
    visits: u16,
    /// The strongly connected component of each class, once it is finished. Those
    /// above a component have lower numbers.
    component: Vec<u16>,
    components: u16,
    /// Visited classes without a component.
    open: Vec<u16>,
    /// Classes with a component, those of one together, the lowest number first.
    finished: Vec<u16>,
    /// For each component the set of those above it, itself among them.
    above: Vec<u64>,
    /// How many words a set has.
    width: usize,
}

impl Order {
    /// Finds the components of the graph with these edges. The classes are
    /// numbers below the second.
    pub fn close(&mut self, below: &[(u16, u16)], numbers: usize) {
        self.clear(numbers);
        for (lower, upper) in below {
            let first = &mut self.first[usize::from(*lower)];
            let edge = self.edges.len() as u16;
            self.edges.push((*first, *upper));
            *first = edge;
        }
        for (lower, _) in below {
            if self.visited[usize::from(*lower)] == 0 {
                self.visit(*lower);
            }
        }
    }

    fn clear(&mut self, numbers: usize) {
        refill(&mut self.first, numbers, NONE);
        refill(&mut self.visited, numbers, 0);
        refill(&mut self.component, numbers, NONE);
        self.edges.clear();
        self.finished.clear();
        self.visits = 0;
        self.components = 0;
    }

    /// Visits a class and those above it. Gives the first visit among those of
    /// its component that were met. No deeper than there are terms.
    fn visit(&mut self, class: u16) -> u16 {
        self.visits += 1;
        let visit = self.visits;
        self.visited[usize::from(class)] = visit;
        let height = self.open.len();
        self.open.push(class);
        let mut least = visit;
        let mut edge = self.first[usize::from(class)];
        while edge != NONE {
            let (next, upper) = self.edges[usize::from(edge)];
            let met = self.visited[usize::from(upper)];
            if met == 0 {
                least = least.min(self.visit(upper));
            } else if self.component[usize::from(upper)] == NONE {
                least = least.min(met);
            }
            edge = next;
        }
        if least == visit {
            for member in self.open.drain(height..) {
                self.component[usize::from(member)] = self.components;
                self.finished.push(member);
            }
            self.components += 1;
        }
        least
    }

    /// Whether two different classes are below each other.
    pub fn is_equal(&self, one: u16, other: u16) -> bool {
        let component = self.component[usize::from(one)];
        component != NONE && component == self.component[usize::from(other)]
    }

    /// Finds what is above each component. What is above it has been found
    /// when its turn comes.
    pub fn reach(&mut self) {
        let components = usize::from(self.components);
        self.width = components.div_ceil(64);
        refill(&mut self.above, components * self.width, 0);
        for class in &self.finished {
            let component = usize::from(self.component[usize::from(*class)]);
            let (known, rest) = self.above.split_at_mut(component * self.width);
            let set = &mut rest[..self.width];
            set[component / 64] |= 1 << (component % 64);
            let mut edge = self.first[usize::from(*class)];
            while edge != NONE {
                let (next, upper) = self.edges[usize::from(edge)];
                let upper = usize::from(self.component[usize::from(upper)]);
                if upper != component {
                    let more = &known[upper * self.width..][..self.width];
                    set.iter_mut()
                        .zip(more)
                        .for_each(|(word, more)| *word |= more);
                }
                edge = next;
            }
        }
    }

    /// Whether a class is below another. To be called after `reach`.
    pub fn is_below(&self, lower: u16, upper: u16) -> bool {
        let lower = self.component[usize::from(lower)];
        let upper = self.component[usize::from(upper)];
        if lower == NONE || upper == NONE {
            return false;
        }
        let (lower, upper) = (usize::from(lower), usize::from(upper));
        self.above[lower * self.width + upper / 64] >> (upper % 64) & 1 == 1
    }
}

fn refill<T: Clone>(list: &mut Vec<T>, count: usize, value: T) {
    list.clear();
    list.resize(count, value);
}
