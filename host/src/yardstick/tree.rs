//! The branch and the alternatives that wait.

use super::literals::{Literal, NO_LITERAL};
use super::refusal::{ensure, Refusal};

const MOST_PLACES: usize = 1_000;
const MOST_WAITING: usize = 200;

/// An alternative that waits. No rule has more than two literals in one.
#[derive(Clone, Copy, Default)]
pub struct Waiting {
    /// The branch's length at the split.
    pub length: usize,
    first: Literal,
    /// Or `NO_LITERAL`.
    second: Literal,
}

pub struct Tree {
    length: usize,
    /// Place number n stands at index n - 1.
    branch: [Literal; MOST_PLACES],
    waits: usize,
    /// The alternative to be taken next stands last.
    waiting: [Waiting; MOST_WAITING],
    closed: bool,
    closings: u32,
}

impl Tree {
    pub fn new() -> Tree {
        Tree {
            length: 0,
            branch: [NO_LITERAL; MOST_PLACES],
            waits: 0,
            waiting: [Waiting::default(); MOST_WAITING],
            closed: false,
            closings: 0,
        }
    }

    pub fn branch(&self) -> &[Literal] {
        &self.branch[..self.length]
    }

    /// How many alternatives wait.
    #[inline(always)]
    pub fn waits(&self) -> usize {
        self.waits
    }

    pub fn waiting(&self) -> &[Waiting] {
        &self.waiting[..self.waits]
    }

    #[inline(always)]
    pub fn is_closed(&self) -> bool {
        self.closed
    }

    pub fn closings(&self) -> u32 {
        self.closings
    }

    /// The literal at a place that a field names.
    #[inline(always)]
    pub fn at(&self, place: u32) -> Result<Literal, Refusal> {
        let index = (place as usize).wrapping_sub(1);
        ensure(index < self.length, Refusal::Place)?;
        Ok(self.branch[index])
    }

    #[inline(always)]
    pub fn add<const N: usize>(&mut self, literals: [Literal; N]) -> Result<(), Refusal> {
        self.ensure_room(N)?;
        self.extend(literals);
        Ok(())
    }

    /// A split with alternatives of one literal. The first is added; those that
    /// wait are given in the order in which they begin to, the rightmost first.
    #[inline(always)]
    pub fn split<const N: usize>(
        &mut self,
        first: Literal,
        rest: [Literal; N],
    ) -> Result<(), Refusal> {
        self.ensure_room(1)?;
        self.ensure_waiting(N)?;
        for literal in rest {
            self.wait(literal, NO_LITERAL);
        }
        self.extend([first]);
        Ok(())
    }

    /// A split with an alternative for each of some literals, in their order.
    #[inline(always)]
    pub fn split_among(&mut self, literals: &[Literal]) -> Result<(), Refusal> {
        let [first, rest @ ..] = literals else {
            unreachable!("a clause has a literal");
        };
        self.ensure_room(1)?;
        self.ensure_waiting(rest.len())?;
        for literal in rest.iter().rev() {
            self.wait(*literal, NO_LITERAL);
        }
        self.extend([*first]);
        Ok(())
    }

    /// A split into two, of which the first has two literals.
    #[inline(always)]
    pub fn split_pair(
        &mut self,
        pair: [Literal; 2],
        first: Literal,
        second: Literal,
    ) -> Result<(), Refusal> {
        self.ensure_room(2)?;
        self.ensure_waiting(1)?;
        self.wait(first, second);
        self.extend(pair);
        Ok(())
    }

    #[inline(always)]
    fn extend<const N: usize>(&mut self, literals: [Literal; N]) {
        self.branch[self.length..self.length + N].copy_from_slice(&literals);
        self.length += N;
    }

    #[inline(always)]
    fn wait(&mut self, first: Literal, second: Literal) {
        self.waiting[self.waits] = Waiting {
            length: self.length,
            first,
            second,
        };
        self.waits += 1;
    }

    #[inline(always)]
    fn ensure_room(&self, literals: usize) -> Result<(), Refusal> {
        ensure(self.length <= MOST_PLACES - literals, Refusal::Room)
    }

    #[inline(always)]
    fn ensure_waiting(&self, more: usize) -> Result<(), Refusal> {
        ensure(self.waits <= MOST_WAITING - more, Refusal::Waiting)
    }

    #[inline(always)]
    pub fn close(&mut self) {
        self.closings += 1;
        if self.waits == 0 {
            self.closed = true;
            return;
        }
        self.waits -= 1;
        let next = self.waiting[self.waits];
        self.length = next.length;
        self.extend([next.first]);
        if next.second != NO_LITERAL {
            self.extend([next.second]);
        }
    }
}
