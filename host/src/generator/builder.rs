//! Builds random closed tableaux: picks terms, closes branches one after the
//! other, and adds steps that help nothing.

use crate::random::Random;

use super::aliases;
use super::clauses;
use super::derivations;
use super::draft::{lit, Draft, Literal, Place, Sort, TermId, MOST_TERMS, MOST_WAITING};
use super::refutations;

/// Room kept free below the limits, so that a refutation under way fits.
const SPARE_WAITING: usize = 20;
const SPARE_TERMS: usize = 150;
const ENOUGH_PLACES: usize = 500;
const ENOUGH_ASSUMPTIONS: usize = 150;

pub struct Builder<'a> {
    pub draft: Draft,
    pub random: &'a mut Random,
    /// Steps after which nothing is added that is not needed.
    budget: usize,
    /// How deep random terms are.
    depth: usize,
    /// How many variables of a sort there are at most.
    most_variables: usize,
    /// Variables kept for steps that need a fresh one.
    witnesses: Vec<TermId>,
}

impl<'a> Builder<'a> {
    pub fn new(random: &'a mut Random, budget: usize, depth: usize) -> Builder<'a> {
        let most_variables = 1 + random.below(4);
        Builder {
            draft: Draft::default(),
            random,
            budget,
            depth,
            most_variables,
            witnesses: Vec::new(),
        }
    }

    // Terms

    /// A variable whose name no other of its word has yet.
    fn new_variable(&mut self, word: &'static str) -> TermId {
        let known = self.draft.names(word);
        loop {
            let name = aliases::name(&known, self.random);
            if !self.draft.has_variable(word, name) {
                return self.draft.variable(word, name);
            }
        }
    }

    /// A variable of this word, an old one or a new one; no witness.
    fn variable(&mut self, word: &'static str) -> TermId {
        let all = (0..self.draft.terms.len()).map(TermId);
        let known: Vec<TermId> = all
            .filter(|term| self.draft.word(*term) == word && !self.witnesses.contains(term))
            .collect();
        if known.is_empty() || (known.len() < self.most_variables && self.random.chance(1, 2)) {
            return self.new_variable(word);
        }
        self.random.pick(&known)
    }

    /// A term of this sort without witnesses.
    pub fn some(&mut self, sort: Sort) -> TermId {
        let depth = self.random.below(self.depth + 1);
        self.some_to_depth(sort, depth)
    }

    fn many_terms(&self) -> bool {
        self.draft.terms.len() + SPARE_TERMS > MOST_TERMS
    }

    fn some_to_depth(&mut self, sort: Sort, depth: usize) -> TermId {
        let depth = if self.many_terms() { 0 } else { depth };
        match sort {
            Sort::Reference => self.some_reference(depth),
            Sort::Region => self.some_region(depth),
            Sort::Heap => self.some_heap(depth),
            Sort::Field => self.variable("fnv"),
            Sort::Class => self.some_class(depth),
        }
    }

    fn some_reference(&mut self, depth: usize) -> TermId {
        if depth == 0 {
            if self.random.chance(1, 12) {
                return self.draft.term("nul", &[]);
            }
            return self.variable("rfv");
        }
        let h = self.some_to_depth(Sort::Heap, depth - 1);
        let u = self.some_to_depth(Sort::Reference, depth - 1);
        let f = self.variable("fnv");
        self.draft.term("rea", &[h, u, f])
    }

    fn some_region(&mut self, depth: usize) -> TermId {
        if depth == 0 {
            return match self.random.below(12) {
                0 => self.draft.term("emp", &[]),
                1 => self.draft.term("all", &[]),
                _ => self.variable("rgv"),
            };
        }
        match self.random.below(5) {
            0 => {
                let u = self.some_to_depth(Sort::Reference, depth - 1);
                self.draft.term("sin", &[u])
            }
            1 => {
                let h = self.some_to_depth(Sort::Heap, depth - 1);
                let r = self.some_to_depth(Sort::Region, depth - 1);
                let f = self.variable("fnv");
                self.draft.term("img", &[h, r, f])
            }
            _ => {
                let word = self.random.pick(&["cup", "cap", "dif"]);
                let r = self.some_to_depth(Sort::Region, depth - 1);
                let s = self.some_to_depth(Sort::Region, depth - 1);
                self.draft.term(word, &[r, s])
            }
        }
    }

    fn some_heap(&mut self, depth: usize) -> TermId {
        if depth == 0 {
            return self.variable("arv");
        }
        let h = self.some_to_depth(Sort::Heap, depth - 1);
        let u = self.some_to_depth(Sort::Reference, depth - 1);
        let f = self.variable("fnv");
        let v = self.some_to_depth(Sort::Reference, depth - 1);
        self.draft.term("wri", &[h, u, f, v])
    }

    fn some_class(&mut self, depth: usize) -> TermId {
        match self.random.below(3) {
            0 => {
                let u = self.some_to_depth(Sort::Reference, depth.saturating_sub(1));
                self.draft.term("typ", &[u])
            }
            1 => {
                let f = self.variable("fnv");
                self.draft.term("dty", &[f])
            }
            _ => self.variable("clv"),
        }
    }

    /// An image of this region.
    pub fn some_image(&mut self, r: TermId) -> TermId {
        let (h, f) = (self.some(Sort::Heap), self.some(Sort::Field));
        self.draft.term("img", &[h, r, f])
    }

    pub fn region_variable(&mut self) -> TermId {
        self.variable("rgv")
    }

    /// A term of any sort.
    pub fn some_term(&mut self) -> TermId {
        let sort = self.some_sort();
        self.some(sort)
    }

    pub fn some_sort(&mut self) -> Sort {
        self.random.pick(&[
            Sort::Reference,
            Sort::Region,
            Sort::Heap,
            Sort::Field,
            Sort::Class,
        ])
    }

    /// A term of this sort that stands in the table, witnesses among them; it
    /// may not be assumed of.
    fn any(&mut self, sort: Sort) -> TermId {
        let known = self.draft.terms_of_sort(sort);
        if known.is_empty() {
            return self.some(sort);
        }
        self.random.pick(&known)
    }

    /// A variable that is fresh on the branch; one that served on another
    /// branch, if there is one and chance has it.
    pub fn fresh(&mut self) -> TermId {
        let old: Vec<TermId> = self.witnesses.clone();
        let free: Vec<TermId> = old
            .into_iter()
            .filter(|variable| self.draft.is_fresh(*variable))
            .collect();
        if !free.is_empty() && self.random.chance(4, 5) {
            return self.random.pick(&free);
        }
        let variable = self.new_variable("rfv");
        self.witnesses.push(variable);
        variable
    }

    // Branches

    pub fn spent(&self) -> bool {
        self.draft.steps.len() >= self.budget
            || self.draft.length() >= ENOUGH_PLACES
            || self.many_terms()
    }

    /// Whether some more alternatives may wait.
    pub fn may_split(&self) -> bool {
        !self.spent() && self.draft.waiting() + SPARE_WAITING < MOST_WAITING
    }

    /// Closes the branch and every alternative that comes to wait meanwhile.
    pub fn close_branch(&mut self, depth: usize) {
        let height = self.draft.waiting();
        while !self.draft.is_closed() && self.draft.waiting() >= height {
            while !self.spent() && self.random.chance(3, 4) {
                self.idle_step();
            }
            self.refute(depth);
        }
    }

    /// Closes the branch by one refutation, or by a member of `emp` that a step
    /// has added.
    fn refute(&mut self, depth: usize) {
        if let Some(place) = self.derived_in_empty() {
            if self.random.chance(1, 2) {
                return self.draft.empty(place);
            }
        }
        let crowded = self.draft.waiting() + SPARE_WAITING > MOST_WAITING
            || self.draft.assumptions.len() > ENOUGH_ASSUMPTIONS
            || self.many_terms();
        if crowded {
            return refutations::contradiction_again(self);
        }
        let depth = if self.spent() { 0 } else { depth };
        refutations::any(self, depth);
    }

    fn derived_in_empty(&self) -> Option<Place> {
        let mut places = self.draft.places_with(&["in"]).into_iter();
        places.find(|place| {
            let (_, region) = self.draft.sides(*place, "in");
            matches!(place, Place::Derived(_)) && self.draft.word(region) == "emp"
        })
    }

    /// Splits until so many alternatives wait.
    pub fn tower(&mut self, height: usize) {
        while self.draft.waiting() < height {
            let (t, w) = (self.any(Sort::Reference), self.any(Sort::Region));
            self.draft.cut(t, w);
        }
    }

    // Steps that help nothing

    fn idle_step(&mut self) {
        match self.random.below(16) {
            0 => {
                let t = self.some_term();
                self.draft.reflexive(t);
            }
            1 => {
                let t = self.any(Sort::Class);
                let p = self.draft.ler(t);
                if self.random.chance(1, 2) {
                    self.draft.le_trans(p, p);
                }
                if self.random.chance(1, 2) {
                    self.draft.lea(p, p);
                }
            }
            2 => self.idle_member(),
            3..=6 => self.idle_split(),
            7 => self.idle_equation(),
            8 => self.idle_substitution(),
            9 => self.idle_read(),
            10 => clauses::idle_clause(self),
            11 => self.idle_counting(),
            _ => self.idle_membership(),
        }
    }

    /// A fresh member of `all`, which is assumed not to be empty. The
    /// alternative that has it in `emp` waits, or comes first and is closed.
    fn idle_member(&mut self) {
        let all = self.draft.term("all", &[]);
        let emp = self.draft.term("emp", &[]);
        if self.may_split() && self.random.chance(1, 2) {
            let (p, w) = (self.found_or_assumed(lit(all, "ne", emp)), self.fresh());
            self.draft.ext(p, w);
        } else if self.draft.waiting() < MOST_WAITING {
            let (p, w) = (self.found_or_assumed(lit(emp, "ne", all)), self.fresh());
            let in_empty = self.draft.ext(p, w);
            self.draft.empty(in_empty);
        }
    }

    fn found_or_assumed(&mut self, literal: Literal) -> Place {
        match self.draft.find(literal) {
            Some(place) => place,
            None => self.draft.assume(literal),
        }
    }

    fn idle_split(&mut self) {
        if !self.may_split() {
            return;
        }
        match self.random.below(6) {
            0 => {
                let u = self.any(Sort::Reference);
                let t = self.draft.term("sin", &[u]);
                self.draft.sgi(t);
            }
            1 => self.idle_extension(),
            2 => self.idle_image(),
            3 => clauses::idle_split(self),
            _ => {
                let (t, w) = (self.any(Sort::Reference), self.any(Sort::Region));
                self.draft.cut(t, w);
            }
        }
    }

    fn idle_extension(&mut self) {
        let of_regions = |draft: &Draft, place| {
            let literal = draft.literal(place);
            draft.sort(literal.left) == Sort::Region
        };
        let mut places = self.draft.places_with(&["ne"]);
        places.retain(|place| of_regions(&self.draft, *place));
        if !places.is_empty() {
            let (p, w) = (self.random.pick(&places), self.fresh());
            self.draft.ext(p, w);
        }
    }

    fn idle_image(&mut self) {
        let places = self.draft.places_with(&["in"]);
        if !places.is_empty() {
            let p = self.random.pick(&places);
            let (_, r) = self.draft.sides(p, "in");
            let (h, f) = (self.any(Sort::Heap), self.any(Sort::Field));
            let t = self.draft.term("img", &[h, r, f]);
            self.draft.img(p, t);
        }
    }

    fn idle_equation(&mut self) {
        let places = self.draft.places_with(&["eq", "ne"]);
        if places.is_empty() {
            return;
        }
        let p = self.random.pick(&places);
        let changed = self.draft.sym(p);
        if self.draft.literal(p).word == "eq" {
            // a eq b, b eq a: both ends of a chain, and a place used twice.
            match self.random.below(3) {
                0 => self.draft.trn(p, changed),
                1 => self.draft.rep(p, p, 1),
                _ => self.draft.rep(changed, p, 2),
            };
        }
    }

    /// `sub` between a term and itself: all arguments agree.
    fn idle_substitution(&mut self) {
        let places = self.draft.places_with(&["eq"]);
        let all = (0..self.draft.terms.len()).map(TermId);
        let terms: Vec<TermId> = all
            .filter(|term| !self.draft.terms[term.0].arguments.is_empty())
            .collect();
        if !places.is_empty() && !terms.is_empty() {
            let (p, t) = (self.random.pick(&places), self.random.pick(&terms));
            self.draft.sub(p, t, t);
        }
    }

    fn idle_read(&mut self) {
        let (h, f) = (self.any(Sort::Heap), self.any(Sort::Field));
        let (u, v) = (self.any(Sort::Reference), self.any(Sort::Reference));
        let written = self.draft.term("wri", &[h, u, f, v]);
        let y = self.random.pick(&[u, v]);
        let t = self.draft.term("rea", &[written, y, f]);
        if y == u && self.random.chance(1, 2) {
            self.draft.rdh(t);
        } else if self.may_split() {
            self.draft.rdm(t);
        }
    }

    /// `fin` where the branch has what it needs, or where that is assumed.
    fn idle_counting(&mut self) {
        let mut places = self.draft.places_with(&["eq"]);
        places.retain(|place| self.draft.is_inside_image(*place));
        if places.is_empty() || self.random.chance(1, 3) {
            let r = self.some(Sort::Region);
            let image = self.some_image(r);
            places = vec![derivations::inside_image(self, image, 0)];
        }
        let p = self.random.pick(&places);
        self.draft.fin(p);
    }

    fn idle_membership(&mut self) {
        let places = self.draft.places_with(&["in"]);
        if places.is_empty() {
            return;
        }
        let p = self.random.pick(&places);
        let (_, r) = self.draft.sides(p, "in");
        match self.random.below(6) {
            0 => self.draft.all(p),
            1 => self.draft.nul(p),
            2 => {
                let s = self.some(Sort::Region);
                let pair = self.random.pick(&[[r, s], [s, r]]);
                let t = self.draft.term("cup", &pair);
                self.draft.cui(p, t)
            }
            3 => {
                let t = self.draft.term("cap", &[r, r]);
                self.draft.cpi(p, p, t)
            }
            4 => {
                let same = self.draft.reflexive(r);
                derivations::along(self, same, p)
            }
            _ => derivations::eliminate(self, p),
        };
    }
}
