//! Rules about equations, the order of classes and written heaps, from `ref` to
//! `rdm`.

use super::{arguments, need, sides, Fields, Step};
use crate::yardstick::literals::Relation::{Eq, Le, Ne};
use crate::yardstick::literals::{
    has_relation, left, literal, right, turned, with_left, with_right, NO_LITERAL,
};
use crate::yardstick::packing::{field, has_arguments, has_sort, same_head, Sort, REA, WRI};
use crate::yardstick::refusal::{ensure, unused, Refusal};
use crate::yardstick::steps::Checker;

impl Checker {
    /// The rule `ref`.
    #[inline(always)]
    pub fn reflexive(&mut self, [p, q, t, w]: Fields) -> Step {
        unused([p, q, w])?;
        self.terms.named(t)?;
        self.tree.add([literal(t, Eq, t)])
    }

    #[inline(always)]
    pub fn sym(&mut self, [p, q, t, w]: Fields) -> Step {
        unused([q, t, w])?;
        let p = self.tree.at(p)?;
        need(has_relation(p, Eq) || has_relation(p, Ne))?;
        self.tree.add([turned(p)])
    }

    #[inline(always)]
    pub fn trn(&mut self, [p, q, t, w]: Fields) -> Step {
        unused([t, w])?;
        let (p, q) = (self.tree.at(p)?, self.tree.at(q)?);
        let (a, b) = sides(p, Eq)?;
        let (b_again, c) = sides(q, Eq)?;
        need(b_again == b)?;
        self.tree.add([literal(a, Eq, c)])
    }

    #[inline(always)]
    pub fn sub(&mut self, [p, q, t, w]: Fields) -> Step {
        unused([q])?;
        let (of_t, of_w) = (self.terms.named(t)?, self.terms.named(w)?);
        let (a, b) = sides(self.tree.at(p)?, Eq)?;
        need(same_head(of_t, of_w) && has_arguments(of_t))?;
        let agree = |index| {
            let (x, y) = (field(of_t, index), field(of_w, index));
            x == y || x == a && y == b
        };
        need(agree(0) && agree(1) && agree(2) && agree(3))?;
        self.tree.add([literal(t, Eq, w)])
    }

    #[inline(always)]
    pub fn rep(&mut self, [p, q, t, w]: Fields) -> Step {
        unused([w])?;
        let (p, q) = (self.tree.at(p)?, self.tree.at(q)?);
        let (a, b) = sides(q, Eq)?;
        match t {
            1 => {
                need(left(p) == a)?;
                self.tree.add([with_left(p, b)])
            }
            2 => {
                need(right(p) == a)?;
                self.tree.add([with_right(p, b)])
            }
            _ => Err(Refusal::Need),
        }
    }

    #[inline(always)]
    pub fn ler(&mut self, [p, q, t, w]: Fields) -> Step {
        unused([p, q, w])?;
        ensure(has_sort(self.terms.named(t)?, Sort::Class), Refusal::Sort)?;
        self.tree.add([literal(t, Le, t)])
    }

    /// The rule `let`.
    #[inline(always)]
    pub fn le_trans(&mut self, [p, q, t, w]: Fields) -> Step {
        unused([t, w])?;
        let (p, q) = (self.tree.at(p)?, self.tree.at(q)?);
        let (a, b) = sides(p, Le)?;
        let (b_again, c) = sides(q, Le)?;
        need(b_again == b)?;
        self.tree.add([literal(a, Le, c)])
    }

    #[inline(always)]
    pub fn lea(&mut self, [p, q, t, w]: Fields) -> Step {
        unused([t, w])?;
        let (p, q) = (self.tree.at(p)?, self.tree.at(q)?);
        let (a, b) = sides(p, Le)?;
        need(q == literal(b, Le, a))?;
        self.tree.add([literal(a, Eq, b)])
    }

    #[inline(always)]
    pub fn rdh(&mut self, [p, q, t, w]: Fields) -> Step {
        unused([p, q, w])?;
        let [written, y, g] = arguments(self.terms.named(t)?, REA)?;
        let [_, u, f, v] = arguments(self.terms.get(written), WRI)?;
        need(y == u && g == f)?;
        self.tree.add([literal(t, Eq, v)])
    }

    #[inline(always)]
    pub fn rdm(&mut self, [p, q, t, w]: Fields) -> Step {
        unused([p, q, w])?;
        let [written, y, g] = arguments(self.terms.named(t)?, REA)?;
        let [h, u, f, _] = arguments(self.terms.get(written), WRI)?;
        let rea = self.terms.find(REA, [h, y, g])?;
        let changed = [literal(u, Eq, y), literal(f, Eq, g)];
        self.tree
            .split_pair(changed, literal(t, Eq, rea), NO_LITERAL)
    }
}
