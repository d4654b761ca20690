//! The clauses of the C lines: of each, at least one literal is assumed.

use super::literals::{Literal, NO_LITERAL};
use super::refusal::{ensure, Refusal};

const MOST_LITERALS: usize = 400;
const MOST_IN_CLAUSE: usize = 8;

pub struct Clauses {
    count: usize,
    /// The literals of all clauses, in the order of their lines.
    literals: [Literal; MOST_LITERALS],
    /// How many literals the clauses up to each number have, from 0 on.
    ends: [u16; MOST_LITERALS + 1],
}

impl Clauses {
    pub fn new() -> Clauses {
        Clauses {
            count: 0,
            literals: [NO_LITERAL; MOST_LITERALS],
            ends: [0; MOST_LITERALS + 1],
        }
    }

    pub fn count(&self) -> usize {
        self.count
    }

    /// How many literals the clauses up to this number have together.
    #[inline(always)]
    pub fn end(&self, number: usize) -> usize {
        usize::from(self.ends[number])
    }

    /// The literals of all clauses.
    pub fn literals(&self) -> &[Literal] {
        &self.literals[..self.end(self.count)]
    }

    /// The literals of the clause that a field names.
    #[inline(always)]
    pub fn named(&self, number: u32) -> Result<&[Literal], Refusal> {
        let number = number as usize;
        ensure(number.wrapping_sub(1) < self.count, Refusal::Place)?;
        Ok(&self.literals[self.end(number - 1)..self.end(number)])
    }

    /// Where the first clause ends of which all literals are as asked.
    pub fn first_end(&self, asked: impl Fn(&Literal) -> bool) -> Option<usize> {
        let mut ends = self.ends[..=self.count].windows(2);
        let all_asked = |pair: &&[u16]| {
            let [start, end] = [pair[0], pair[1]].map(usize::from);
            self.literals[start..end].iter().all(&asked)
        };
        ends.find(all_asked).map(|pair| usize::from(pair[1]))
    }

    /// Adds a literal to the last clause, or to a new one after it.
    #[inline(always)]
    pub fn add(&mut self, number: u32, literal: Literal) -> Result<(), Refusal> {
        let number = number as usize;
        let end = self.end(self.count);
        // The next number is never 0; the last is, before the first clause.
        let fits = number.wrapping_sub(self.count) <= 1 && number != 0;
        ensure(fits && end < MOST_LITERALS, Refusal::Clause)?;
        ensure(end - self.end(number - 1) < MOST_IN_CLAUSE, Refusal::Clause)?;
        self.literals[end] = literal;
        self.count = number;
        self.ends[number] = end as u16 + 1;
        Ok(())
    }
}
