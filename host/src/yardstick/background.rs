//! What follows from the equations and the order that stand on a branch, for
//! the rule `bck`. No term has a class as an argument, so what the order makes
//! equal makes no other terms equal: the order comes after the equations.

mod congruence;
mod order;

use super::literals::{left, relation, right, Literal, Relation};
use super::packing::Packed;
use congruence::Congruence;
use order::Order;

/// The two sides of a literal.
type Sides = (u16, u16);

pub struct Background {
    congruence: Congruence,
    order: Order,
    equations: Vec<Sides>,
    unequal: Vec<Sides>,
    below: Vec<Sides>,
    not_below: Vec<Sides>,
}

impl Background {
    /// Takes the terms in the order of their numbers, from 1.
    pub fn new(terms: &[Packed]) -> Background {
        Background {
            congruence: Congruence::new(terms),
            order: Order::default(),
            equations: Vec::new(),
            unequal: Vec::new(),
            below: Vec::new(),
            not_below: Vec::new(),
        }
    }

    /// Whether what follows from the branch contradicts one of its literals.
    pub fn contradicts(&mut self, branch: &[Literal]) -> bool {
        self.take_apart(branch);
        self.congruence.close(&self.equations);
        if self.equal_by_equations() {
            return true;
        }
        if self.below.is_empty() {
            return false;
        }
        for (lower, upper) in &mut self.below {
            *lower = self.congruence.find(*lower);
            *upper = self.congruence.find(*upper);
        }
        self.order.close(&self.below, self.congruence.numbers());
        self.equal_by_order() || self.below_by_order()
    }

    fn take_apart(&mut self, branch: &[Literal]) {
        self.equations.clear();
        self.unequal.clear();
        self.below.clear();
        self.not_below.clear();
        for literal in branch {
            let sides = (left(*literal) as u16, right(*literal) as u16);
            match relation(*literal) {
                Relation::In | Relation::Ni => {}
                Relation::Eq => self.equations.push(sides),
                Relation::Ne => self.unequal.push(sides),
                Relation::Le => self.below.push(sides),
                Relation::Nl => self.not_below.push(sides),
            }
        }
    }

    /// Whether the sides of a literal are in one class, and leaves them as
    /// their classes if none are.
    fn equal_by_equations(&mut self) -> bool {
        let denied = self.unequal.iter_mut().chain(&mut self.not_below);
        for (left, right) in denied {
            *left = self.congruence.find(*left);
            *right = self.congruence.find(*right);
            if left == right {
                return true;
            }
        }
        false
    }

    fn equal_by_order(&self) -> bool {
        let mut unequal = self.unequal.iter();
        unequal.any(|(left, right)| self.order.is_equal(*left, *right))
    }

    fn below_by_order(&mut self) -> bool {
        if self.not_below.is_empty() {
            return false;
        }
        self.order.reach();
        let mut not_below = self.not_below.iter();
        not_below.any(|(lower, upper)| self.order.is_below(*lower, *upper))
    }
}
