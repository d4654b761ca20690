//! Equations and orders that follow from literals by about so many steps of
//! `trn`, `sub`, `let` and `lea`: the literals, and the steps one by one.

use crate::random::Random;

use super::aliases;
use super::builder::Builder;
use super::draft::{lit, sort_of_word, Draft, Literal, Operation, Place, Sort, TermId, OPERATIONS};

/// Where the terms come from that the others are made of.
pub trait Source {
    fn draft(&mut self) -> &mut Draft;
    fn random(&mut self) -> &mut Random;
    fn leaf(&mut self, sort: Sort) -> TermId;
}

/// Terms as the builder likes them, old ones among them.
impl Source for Builder<'_> {
    fn draft(&mut self) -> &mut Draft {
        &mut self.draft
    }

    fn random(&mut self) -> &mut Random {
        self.random
    }

    fn leaf(&mut self, sort: Sort) -> TermId {
        self.some(sort)
    }
}

/// A new variable each time, so that nothing follows but what is meant to.
pub struct Fresh<'a> {
    pub draft: Draft,
    pub random: &'a mut Random,
}

impl Source for Fresh<'_> {
    fn draft(&mut self) -> &mut Draft {
        &mut self.draft
    }

    fn random(&mut self) -> &mut Random {
        self.random
    }

    fn leaf(&mut self, sort: Sort) -> TermId {
        let word = match sort {
            Sort::Reference => "rfv",
            Sort::Region => "rgv",
            Sort::Heap => "arv",
            Sort::Field => "fnv",
            Sort::Class => "clv",
        };
        let known = self.draft.names(word);
        loop {
            let name = aliases::name(&known, self.random);
            if !self.draft.has_variable(word, name) {
                return self.draft.variable(word, name);
            }
        }
    }
}

/// Left eq right or left le right, and how it follows.
pub struct Entailed {
    pub left: TermId,
    pub right: TermId,
    how: How,
}

enum How {
    /// left eq right is on the branch.
    Equal,
    /// right eq left is.
    Turned,
    /// left le right is.
    Under,
    /// The right side of each is the left side of the next. With an order among
    /// them the whole is an order.
    Chain(Vec<Entailed>),
    /// Of two terms with one word: their arguments, where they do not agree.
    Arguments(Vec<Option<Entailed>>),
    /// An order from left to right, and one back.
    Circle(Box<Entailed>, Box<Entailed>),
}

fn made(left: TermId, right: TermId, how: How) -> Entailed {
    Entailed { left, right, how }
}

fn chain(items: Vec<Entailed>) -> Entailed {
    let (left, right) = (items[0].left, items[items.len() - 1].right);
    made(left, right, How::Chain(items))
}

/// An equation on the branch.
fn equation(source: &mut impl Source, left: TermId, right: TermId) -> Entailed {
    let how = if source.random().chance(1, 2) {
        How::Equal
    } else {
        How::Turned
    };
    made(left, right, how)
}

/// An equation or an order on the branch.
fn step_up(source: &mut impl Source, left: TermId, right: TermId) -> Entailed {
    if source.random().chance(1, 3) {
        return equation(source, left, right);
    }
    made(left, right, How::Under)
}

/// The operations whose terms are of this sort.
fn operations_of(sort: Sort) -> Vec<Operation> {
    let of_sort = |operation: &&Operation| sort_of_word(operation.0) == sort;
    OPERATIONS.iter().filter(of_sort).copied().collect()
}

/// An equation that follows by so many steps; without circles all of its literals
/// are needed even for the order.
pub fn equal(source: &mut impl Source, sort: Sort, steps: usize, circles: bool) -> Entailed {
    let operations = operations_of(sort);
    if steps == 0 {
        let (left, right) = (source.leaf(sort), source.leaf(sort));
        return equation(source, left, right);
    }
    if sort == Sort::Class && circles && steps >= 3 && source.random().chance(1, 2) {
        return circle(source, steps);
    }
    if operations.is_empty() || source.random().chance(1, 3) {
        return joined(source, sort, steps, circles);
    }
    let (word, sorts) = source.random().pick(&operations);
    by_arguments(source, word, sorts, steps)
}

/// Equations one after the other, with equations on the branch between them.
fn joined(source: &mut impl Source, sort: Sort, steps: usize, circles: bool) -> Entailed {
    let part = source.random().below(steps);
    let mut items = vec![equal(source, sort, part, circles)];
    let mut rest = steps - part;
    while rest > 0 {
        let last = items[items.len() - 1].right;
        if rest == 1 || source.random().chance(1, 2) {
            let new = source.leaf(sort);
            items.push(equation(source, last, new));
            rest -= 1;
        } else {
            let part = source.random().below(rest - 1);
            let next = equal(source, sort, part, circles);
            items.push(equation(source, last, next.left));
            items.push(next);
            rest -= part + 2;
        }
    }
    chain(items)
}

/// Two terms with one word, which differ in some arguments.
fn by_arguments(
    source: &mut impl Source,
    word: &'static str,
    sorts: &[Sort],
    steps: usize,
) -> Entailed {
    let mut differing: Vec<bool> = sorts.iter().map(|_| source.random().chance(1, 2)).collect();
    let at = source.random().below(sorts.len());
    differing[at] = true;
    let count = differing.iter().filter(|differs| **differs).count();
    let mut parts = vec![0; count];
    for _ in 1..steps {
        parts[source.random().below(count)] += 1;
    }
    let (mut left, mut right, mut arguments) = (Vec::new(), Vec::new(), Vec::new());
    for (sort, differs) in sorts.iter().zip(differing) {
        let argument = differs.then(|| {
            let part = parts.pop().unwrap_or(0);
            equal(source, *sort, part, true)
        });
        let sides = match &argument {
            Some(equation) => (equation.left, equation.right),
            None => {
                let same = source.leaf(*sort);
                (same, same)
            }
        };
        left.push(sides.0);
        right.push(sides.1);
        arguments.push(argument);
    }
    let left = source.draft().term(word, &left);
    let right = source.draft().term(word, &right);
    made(left, right, How::Arguments(arguments))
}

/// The steps of one linked rung of a ladder: `sub`, and `trn` twice.
const LINKED: usize = 3;

/// A ladder: each equation makes two terms equal, one inside the other, or two
/// others that are linked to these. Of two rungs so many are linked.
fn ladder(source: &mut impl Source, sort: Sort, steps: usize, linked: usize) -> Entailed {
    let operations = operations_of(sort);
    if operations.is_empty() || steps == 0 {
        return equal(source, sort, steps, true);
    }
    let is_linked = steps >= LINKED && source.random().chance(linked, 2);
    let rung = if is_linked { LINKED } else { 1 };
    let (word, sorts) = source.random().pick(&operations);
    let leads_on: Vec<usize> = (0..sorts.len())
        .filter(|at| sorts.len() == 1 || sorts[*at] != Sort::Field)
        .collect();
    let at = source.random().pick(&leads_on);
    let inner = ladder(source, sorts[at], steps - rung, linked);
    let mut left: Vec<TermId> = sorts.iter().map(|sort| source.leaf(*sort)).collect();
    let mut right = left.clone();
    (left[at], right[at]) = (inner.left, inner.right);
    let left = source.draft().term(word, &left);
    let right = source.draft().term(word, &right);
    let mut arguments: Vec<Option<Entailed>> = sorts.iter().map(|_| None).collect();
    arguments[at] = Some(inner);
    let equal = made(left, right, How::Arguments(arguments));
    if !is_linked {
        return equal;
    }
    let (first, last) = (source.leaf(sort), source.leaf(sort));
    chain(vec![
        equation(source, first, left),
        equal,
        equation(source, right, last),
    ])
}

/// Two orders, each of which leads from the end of the other to its beginning.
fn circle(source: &mut impl Source, steps: usize) -> Entailed {
    let rest = steps - 3;
    let part = source.random().below(rest + 1);
    let (up, down) = (under(source, part), under(source, rest - part));
    let over = made(up.right, down.left, How::Under);
    let back = made(down.right, up.left, How::Under);
    let (up, down) = if source.random().chance(1, 2) {
        (up, chain(vec![over, down, back]))
    } else {
        (chain(vec![up, over]), chain(vec![down, back]))
    };
    made(up.left, up.right, How::Circle(Box::new(up), Box::new(down)))
}

/// An order that follows by so many steps, and that all of its literals are
/// needed for. At least one of them is an order.
pub fn under(source: &mut impl Source, steps: usize) -> Entailed {
    if steps == 0 {
        let (left, right) = (source.leaf(Sort::Class), source.leaf(Sort::Class));
        return made(left, right, How::Under);
    }
    let part = source.random().below(steps);
    let mut items = vec![item(source, part)];
    let mut rest = steps - part;
    while rest > 0 {
        let last = items[items.len() - 1].right;
        if rest == 1 || source.random().chance(1, 2) {
            let new = source.leaf(Sort::Class);
            items.push(step_up(source, last, new));
            rest -= 1;
        } else {
            let part = source.random().below(rest - 1);
            let next = item(source, part);
            items.push(step_up(source, last, next.left));
            items.push(next);
            rest -= part + 2;
        }
    }
    if !items.iter().any(Entailed::is_order) {
        let (last, new) = (items[items.len() - 1].right, source.leaf(Sort::Class));
        items.push(made(last, new, How::Under));
    }
    chain(items)
}

/// A part of an order: an order, or classes that are equal without a circle.
fn item(source: &mut impl Source, steps: usize) -> Entailed {
    if source.random().chance(1, 2) {
        return under(source, steps);
    }
    equal(source, Sort::Class, steps, false)
}

/// An equation or an order, of any sort.
pub fn any(source: &mut impl Source, steps: usize) -> Entailed {
    if source.random().chance(1, 3) {
        return under(source, steps);
    }
    if source.random().chance(1, 4) {
        let sort = source.random().pick(&[Sort::Reference, Sort::Region]);
        let linked = source.random().below(3);
        return ladder(source, sort, steps, linked);
    }
    let sort = source.random().pick(&[
        Sort::Reference,
        Sort::Region,
        Sort::Heap,
        Sort::Field,
        Sort::Class,
        Sort::Class,
    ]);
    equal(source, sort, steps, true)
}

impl Entailed {
    pub fn is_order(&self) -> bool {
        match &self.how {
            How::Under => true,
            How::Chain(items) => items.iter().any(Entailed::is_order),
            _ => false,
        }
    }

    /// The literals from which it follows.
    pub fn literals(&self) -> Vec<Literal> {
        let (left, right) = (self.left, self.right);
        match &self.how {
            How::Equal => vec![lit(left, "eq", right)],
            How::Turned => vec![lit(right, "eq", left)],
            How::Under => vec![lit(left, "le", right)],
            How::Chain(items) => items.iter().flat_map(Entailed::literals).collect(),
            How::Arguments(arguments) => {
                let differing = arguments.iter().flatten();
                differing.flat_map(Entailed::literals).collect()
            }
            How::Circle(up, down) => [up.literals(), down.literals()].concat(),
        }
    }

    /// What denies it; that of an equation in either order.
    pub fn denial(&self, random: &mut Random) -> Literal {
        if self.is_order() {
            return lit(self.left, "nl", self.right);
        }
        if random.chance(1, 2) {
            return lit(self.right, "ne", self.left);
        }
        lit(self.left, "ne", self.right)
    }

    /// Derives it step by step from its literals, which are on the branch.
    pub fn derive(&self, draft: &mut Draft) -> Place {
        if self.is_order() {
            return self.derive_order(draft);
        }
        self.derive_equation(draft)
    }

    fn derive_equation(&self, draft: &mut Draft) -> Place {
        let there = |draft: &Draft, literal| draft.find(literal).expect("a literal on the branch");
        match &self.how {
            How::Equal => there(draft, lit(self.left, "eq", self.right)),
            How::Turned => {
                let turned = there(draft, lit(self.right, "eq", self.left));
                draft.sym(turned)
            }
            How::Chain(items) => {
                let mut whole = items[0].derive_equation(draft);
                for item in &items[1..] {
                    let next = item.derive_equation(draft);
                    whole = draft.trn(whole, next);
                }
                whole
            }
            How::Arguments(arguments) => self.derive_by_arguments(draft, arguments),
            How::Circle(up, down) => {
                let (p, q) = (up.derive_order(draft), down.derive_order(draft));
                draft.lea(p, q)
            }
            How::Under => unreachable!("an order is no equation"),
        }
    }

    /// `sub` for one argument after the other.
    fn derive_by_arguments(&self, draft: &mut Draft, arguments: &[Option<Entailed>]) -> Place {
        let word = draft.word(self.left);
        let mut terms = draft.terms[self.left.0].arguments.clone();
        let mut last = self.left;
        let mut whole = None;
        for (at, argument) in arguments.iter().enumerate() {
            let Some(argument) = argument else {
                continue;
            };
            let equation = argument.derive_equation(draft);
            terms[at] = argument.right;
            let next = draft.term(word, &terms);
            let changed = draft.sub(equation, last, next);
            whole = Some(match whole {
                Some(before) => draft.trn(before, changed),
                None => changed,
            });
            last = next;
        }
        whole.expect("an argument that differs")
    }

    fn derive_order(&self, draft: &mut Draft) -> Place {
        if !self.is_order() {
            // left le left, and then the equal term on the right.
            let equation = self.derive_equation(draft);
            let same = draft.ler(self.left);
            return draft.rep(same, equation, 2);
        }
        let How::Chain(items) = &self.how else {
            let literal = lit(self.left, "le", self.right);
            return draft.find(literal).expect("a literal on the branch");
        };
        let mut whole = items[0].derive_order(draft);
        for item in &items[1..] {
            if item.is_order() {
                let next = item.derive_order(draft);
                whole = draft.le_trans(whole, next);
            } else {
                let equation = item.derive_equation(draft);
                whole = draft.rep(whole, equation, 2);
            }
        }
        whole
    }
}
