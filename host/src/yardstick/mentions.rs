//! Which reference variables stand in the literals of the branch and of the
//! clauses.

use super::literals::{left, right, Literal};
use super::packing::{field, has_arguments, has_head, Packed, RFV};
use super::terms::{Terms, MOST_TERMS};
use super::tree::Tree;

const WORDS: usize = MOST_TERMS.div_ceil(64);

/// A set of reference variables: a bit for each, at its term number less 1.
type Row = [u64; WORDS];

/// The variables in a term. Most terms have one at the most and need no row.
#[derive(Clone, Copy, PartialEq, Eq)]
enum Variables {
    None,
    One(u16),
    /// The index of their row.
    Many(u16),
}

/// Nothing is noted before the first test, since many files have none.
#[derive(Default)]
pub struct Mentions {
    in_terms: Vec<Variables>,
    rows: Vec<Row>,
    /// The variables in the clauses and in the first `noted` literals of the
    /// branch.
    now: Row,
    noted: usize,
    /// What `noted` and `now` were at the splits of the alternatives that have
    /// waited since before the last test.
    at_splits: Vec<(usize, Row)>,
}

impl Mentions {
    /// Whether a reference variable stands in no literal of the branch, and in
    /// none of the clauses.
    pub fn is_fresh(
        &mut self,
        variable: u32,
        terms: &Terms,
        clauses: &[Literal],
        tree: &Tree,
    ) -> bool {
        if self.in_terms.is_empty() {
            self.note_terms(terms.all());
            self.note_literals(clauses);
        }
        for waiting in &tree.waiting()[self.at_splits.len()..] {
            self.note_branch(tree, waiting.length);
            self.at_splits.push((self.noted, self.now));
        }
        self.note_branch(tree, tree.branch().len());
        !has(&self.now, variable as usize - 1)
    }

    /// The first place on the branch where a reference variable stands, or 0.
    /// To be called after a test, which has noted the terms.
    pub fn first_place(&self, variable: u32, tree: &Tree) -> u32 {
        let index = variable as usize - 1;
        let is_in = |side: u32| match self.in_terms[side as usize - 1] {
            Variables::None => false,
            Variables::One(other) => usize::from(other) == index,
            Variables::Many(row) => has(&self.rows[usize::from(row)], index),
        };
        let mentions = |literal: &Literal| is_in(left(*literal)) || is_in(right(*literal));
        let found = tree.branch().iter().position(mentions);
        found.map_or(0, |index| index as u32 + 1)
    }

    fn note_terms(&mut self, terms: &[Packed]) {
        self.in_terms.reserve_exact(terms.len());
        for (index, term) in terms.iter().enumerate() {
            let variables = if has_head(*term, RFV) {
                Variables::One(index as u16)
            } else if has_arguments(*term) {
                self.in_arguments(*term)
            } else {
                Variables::None
            };
            self.in_terms.push(variables);
        }
    }

    /// The variables in the arguments of a term, which are earlier terms.
    fn in_arguments(&mut self, term: Packed) -> Variables {
        let numbers = (0..4).map(|index| field(term, index) as usize);
        let sets = numbers
            .filter(|number| *number != 0)
            .map(|number| self.in_terms[number - 1])
            .filter(|set| *set != Variables::None);
        let Some(first) = sets.clone().next() else {
            return Variables::None;
        };
        if sets.clone().all(|set| set == first) {
            return first;
        }
        let mut row = [0; WORDS];
        for set in sets {
            unite(&mut row, set, &self.rows);
        }
        self.rows.push(row);
        Variables::Many(self.rows.len() as u16 - 1)
    }

    #[inline(always)]
    fn note_branch(&mut self, tree: &Tree, length: usize) {
        self.note_literals(&tree.branch()[self.noted..length]);
        self.noted = length;
    }

    #[inline(always)]
    fn note_literals(&mut self, literals: &[Literal]) {
        for literal in literals {
            for side in [left(*literal), right(*literal)] {
                let set = self.in_terms[side as usize - 1];
                unite(&mut self.now, set, &self.rows);
            }
        }
    }

    /// To be called when a closing has taken an alternative: back to its split,
    /// unless no test came after that.
    #[inline(always)]
    pub fn cut_back(&mut self, tree: &Tree) {
        if self.at_splits.len() > tree.waits() {
            (self.noted, self.now) = self.at_splits.pop().unwrap_or_default();
        }
    }
}

#[inline(always)]
fn has(row: &Row, index: usize) -> bool {
    row[index / 64] >> (index % 64) & 1 == 1
}

#[inline(always)]
fn unite(row: &mut Row, variables: Variables, rows: &[Row]) {
    match variables {
        Variables::None => {}
        Variables::One(index) => row[index as usize / 64] |= 1 << (index % 64),
        Variables::Many(index) => {
            for (word, more) in row.iter_mut().zip(rows[index as usize]) {
                *word |= more;
            }
        }
    }
}
