//! Rules about regions, from `eqr` to `sgi`.

use super::{arguments, need, sides, Fields, Step};
use crate::yardstick::literals::Relation::{Eq, In, Ne, Ni};
use crate::yardstick::literals::{literal, Literal, Relation};
use crate::yardstick::packing::{has_sort, Sort, ALL, CAP, CUP, DIF, SIN};
use crate::yardstick::refusal::{unused, Refusal};
use crate::yardstick::steps::Checker;

impl Checker {
    #[inline(always)]
    pub fn eqr(&mut self, [p, q, t, w]: Fields) -> Step {
        unused([t, w])?;
        let (p, q) = (self.tree.at(p)?, self.tree.at(q)?);
        let (r, s) = self.regions(p, Eq)?;
        let (u, region) = sides(q, In)?;
        need(region == r)?;
        self.tree.add([literal(u, In, s)])
    }

    #[inline(always)]
    pub fn eql(&mut self, [p, q, t, w]: Fields) -> Step {
        unused([t, w])?;
        let (p, q) = (self.tree.at(p)?, self.tree.at(q)?);
        let (r, s) = self.regions(p, Eq)?;
        let (u, region) = sides(q, In)?;
        need(region == s)?;
        self.tree.add([literal(u, In, r)])
    }

    /// The sides of a literal, which must have this relation and be about
    /// regions. Both have one sort, so one of them is asked.
    #[inline(always)]
    fn regions(&self, literal: Literal, relation: Relation) -> Result<(u32, u32), Refusal> {
        let (r, s) = sides(literal, relation)?;
        need(has_sort(self.terms.get(r), Sort::Region))?;
        Ok((r, s))
    }

    #[inline(always)]
    pub fn ext(&mut self, [p, q, t, w]: Fields) -> Step {
        unused([q, t])?;
        let variable = self.terms.named(w)?;
        let (r, s) = self.regions(self.tree.at(p)?, Ne)?;
        self.ensure_fresh(w, variable)?;
        self.tree.split_pair(
            [literal(w, In, r), literal(w, Ni, s)],
            literal(w, Ni, r),
            literal(w, In, s),
        )
    }

    #[inline(always)]
    pub fn cpe(&mut self, [p, q, t, w]: Fields) -> Step {
        unused([q, t, w])?;
        let (u, region) = sides(self.tree.at(p)?, In)?;
        let [r, s] = arguments(self.terms.get(region), CAP)?;
        self.tree.add([literal(u, In, r), literal(u, In, s)])
    }

    #[inline(always)]
    pub fn cpi(&mut self, [p, q, t, w]: Fields) -> Step {
        unused([w])?;
        let term = self.terms.named(t)?;
        let (p, q) = (self.tree.at(p)?, self.tree.at(q)?);
        let (u, _) = sides(p, In)?;
        let [r, s] = arguments(term, CAP)?;
        need(p == literal(u, In, r) && q == literal(u, In, s))?;
        self.tree.add([literal(u, In, t)])
    }

    #[inline(always)]
    pub fn cue(&mut self, [p, q, t, w]: Fields) -> Step {
        unused([q, t, w])?;
        let (u, region) = sides(self.tree.at(p)?, In)?;
        let [r, s] = arguments(self.terms.get(region), CUP)?;
        self.tree.split(literal(u, In, r), [literal(u, In, s)])
    }

    #[inline(always)]
    pub fn cui(&mut self, [p, q, t, w]: Fields) -> Step {
        unused([q, w])?;
        let term = self.terms.named(t)?;
        let (u, region) = sides(self.tree.at(p)?, In)?;
        let [r, s] = arguments(term, CUP)?;
        need(region == r || region == s)?;
        self.tree.add([literal(u, In, t)])
    }

    #[inline(always)]
    pub fn dfe(&mut self, [p, q, t, w]: Fields) -> Step {
        unused([q, t, w])?;
        let (u, region) = sides(self.tree.at(p)?, In)?;
        let [r, s] = arguments(self.terms.get(region), DIF)?;
        self.tree.add([literal(u, In, r), literal(u, Ni, s)])
    }

    #[inline(always)]
    pub fn dfi(&mut self, [p, q, t, w]: Fields) -> Step {
        unused([w])?;
        let term = self.terms.named(t)?;
        let (p, q) = (self.tree.at(p)?, self.tree.at(q)?);
        let (u, _) = sides(p, In)?;
        let [r, s] = arguments(term, DIF)?;
        need(p == literal(u, In, r) && q == literal(u, Ni, s))?;
        self.tree.add([literal(u, In, t)])
    }

    #[inline(always)]
    pub fn sge(&mut self, [p, q, t, w]: Fields) -> Step {
        unused([q, t, w])?;
        let (u, region) = sides(self.tree.at(p)?, In)?;
        let [v] = arguments(self.terms.get(region), SIN)?;
        self.tree.add([literal(u, Eq, v)])
    }

    #[inline(always)]
    pub fn sgi(&mut self, [p, q, t, w]: Fields) -> Step {
        unused([p, q, w])?;
        let [u] = arguments(self.terms.named(t)?, SIN)?;
        let all = self.terms.find(ALL, [])?;
        self.tree.split(literal(u, Ni, all), [literal(u, In, t)])
    }
}
