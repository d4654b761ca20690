//! The rules. Each takes p, q, t and w, and makes its checks in the
//! order of their numbers: fields that it doesn't use, terms, sorts, places,
//! needs, freshness, terms to be added. All are inlined into the loop over the
//! lines, so that the fields stay in registers.

mod equations;
mod members;
mod regions;

use super::background::Background;
use super::literals::{denies, has_relation, left, right, Literal, Relation};
use super::packing::{field, has_head, Head, Packed, EMP, RFV};
use super::refusal::{ensure, unused, Refusal};
use super::steps::Checker;

type Fields = [u32; 4];
type Step = Result<(), Refusal>;

#[inline(always)]
fn need(so: bool) -> Step {
    ensure(so, Refusal::Need)
}

/// The sides of a literal, which must have this relation.
#[inline(always)]
fn sides(literal: Literal, relation: Relation) -> Result<(u32, u32), Refusal> {
    need(has_relation(literal, relation))?;
    Ok((left(literal), right(literal)))
}

/// The first N fields of a term, which must have this head.
#[inline(always)]
fn arguments<const N: usize>(term: Packed, head: Head) -> Result<[u32; N], Refusal> {
    need(has_head(term, head))?;
    Ok(std::array::from_fn(|index| field(term, index)))
}

impl Checker {
    #[inline(always)]
    fn ensure_fresh(&mut self, number: u32, term: Packed) -> Step {
        ensure(has_head(term, RFV), Refusal::Fresh)?;
        if !self.is_fresh(number) {
            return self.not_fresh(number);
        }
        Ok(())
    }

    #[cold]
    fn not_fresh(&mut self, variable: u32) -> Step {
        self.place = self.mentions.first_place(variable, &self.tree);
        Err(Refusal::Fresh)
    }

    #[inline(always)]
    fn is_fresh(&mut self, variable: u32) -> bool {
        let clauses = self.clauses.literals();
        self.mentions
            .is_fresh(variable, &self.terms, clauses, &self.tree)
    }

    #[inline(always)]
    pub fn cla(&mut self, [p, q, t, w]: Fields) -> Step {
        unused([p, q, w])?;
        self.tree.split_among(self.clauses.named(t)?)
    }

    #[inline(always)]
    pub fn cls(&mut self, [p, q, t, w]: Fields) -> Step {
        unused([t, w])?;
        let (p, q) = (self.tree.at(p)?, self.tree.at(q)?);
        need(denies(p, q))?;
        self.close();
        Ok(())
    }

    /// The rule `emp`.
    #[inline(always)]
    pub fn empty(&mut self, [p, q, t, w]: Fields) -> Step {
        unused([q, t, w])?;
        let (_, region) = sides(self.tree.at(p)?, Relation::In)?;
        need(has_head(self.terms.get(region), EMP))?;
        self.close();
        Ok(())
    }

    #[inline(always)]
    pub fn bck(&mut self, fields: Fields) -> Step {
        unused(fields)?;
        need(self.contradicts_itself())?;
        self.close();
        Ok(())
    }

    /// Whether the branch contradicts what follows from its equations and its
    /// order.
    #[inline(never)]
    fn contradicts_itself(&mut self) -> bool {
        let terms = self.terms.all();
        let background = self
            .background
            .get_or_insert_with(|| Box::new(Background::new(terms)));
        background.contradicts(self.tree.branch())
    }

    #[inline(always)]
    fn close(&mut self) {
        self.tree.close();
        self.mentions.cut_back(&self.tree);
    }
}
