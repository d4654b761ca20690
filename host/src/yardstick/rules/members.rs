//! Rules about members and images, from `cut` to `wit`, and `fin`.

use super::{arguments, need, sides, Fields, Step};
use crate::yardstick::literals::literal;
use crate::yardstick::literals::Relation::{Eq, In, Le, Ne, Ni, Nl};
use crate::yardstick::packing::{has_sort, Sort, ALL, CUP, DTY, IMG, NUL, REA, TYP};
use crate::yardstick::refusal::{ensure, unused, Refusal};
use crate::yardstick::steps::Checker;

impl Checker {
    #[inline(always)]
    pub fn cut(&mut self, [p, q, t, w]: Fields) -> Step {
        unused([p, q])?;
        let (of_t, of_w) = (self.terms.named(t)?, self.terms.named(w)?);
        let fit = has_sort(of_t, Sort::Reference) && has_sort(of_w, Sort::Region);
        ensure(fit, Refusal::Sort)?;
        self.tree.split(literal(t, In, w), [literal(t, Ni, w)])
    }

    #[inline(always)]
    pub fn all(&mut self, [p, q, t, w]: Fields) -> Step {
        unused([q, t, w])?;
        let (u, _) = sides(self.tree.at(p)?, In)?;
        let all = self.terms.find(ALL, [])?;
        self.tree.add([literal(u, In, all)])
    }

    #[inline(always)]
    pub fn nul(&mut self, [p, q, t, w]: Fields) -> Step {
        unused([q, t, w])?;
        let (u, _) = sides(self.tree.at(p)?, In)?;
        let nul = self.terms.find(NUL, [])?;
        self.tree.add([literal(u, Ne, nul)])
    }

    #[inline(always)]
    pub fn sep(&mut self, [p, q, t, w]: Fields) -> Step {
        unused([t, w])?;
        let (p, q) = (self.tree.at(p)?, self.tree.at(q)?);
        let (u, region) = sides(p, In)?;
        let (v, region_again) = sides(q, Ni)?;
        need(region_again == region)?;
        self.tree.add([literal(u, Ne, v)])
    }

    #[inline(always)]
    pub fn img(&mut self, [p, q, t, w]: Fields) -> Step {
        unused([q, w])?;
        let term = self.terms.named(t)?;
        let (u, region) = sides(self.tree.at(p)?, In)?;
        let [h, r, f] = arguments(term, IMG)?;
        need(region == r)?;
        let typ = self.terms.find(TYP, [u])?;
        let dty = self.terms.find(DTY, [f])?;
        let rea = self.terms.find(REA, [h, u, f])?;
        let all = self.terms.find(ALL, [])?;
        let waiting = [literal(rea, In, t), literal(rea, Ni, all)];
        self.tree.split(literal(typ, Nl, dty), waiting)
    }

    #[inline(always)]
    pub fn wit(&mut self, [p, q, t, w]: Fields) -> Step {
        unused([q, t])?;
        let variable = self.terms.named(w)?;
        let (u, region) = sides(self.tree.at(p)?, In)?;
        let [h, r, f] = arguments(self.terms.get(region), IMG)?;
        self.ensure_fresh(w, variable)?;
        let typ = self.terms.find(TYP, [w])?;
        let dty = self.terms.find(DTY, [f])?;
        let rea = self.terms.find(REA, [h, w, f])?;
        self.tree.add([
            literal(w, In, r),
            literal(typ, Le, dty),
            literal(rea, Eq, u),
        ])
    }

    #[inline(always)]
    pub fn fin(&mut self, [p, q, t, w]: Fields) -> Step {
        unused([q, t, w])?;
        let (union, image) = sides(self.tree.at(p)?, Eq)?;
        let [r, image_again] = arguments(self.terms.get(union), CUP)?;
        let [_, r_again, _] = arguments(self.terms.get(image), IMG)?;
        need(image_again == image && r_again == r)?;
        let turned = self.terms.find(CUP, [image, r])?;
        self.tree.add([literal(turned, Eq, r)])
    }
}
