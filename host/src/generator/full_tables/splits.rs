//! Rules that split, each alternative closed at once.

use super::fill;
use super::rounds::Round;
use crate::generator::closable::{Closable, NO_MEMBER};
use crate::generator::draft::{
    lit, ClauseId, Literal, Sort, MOST_CLAUSE_LINES, MOST_IN_CLAUSE, MOST_WAITING,
};
use crate::generator::tableau::Tableau;

pub fn cut_shallow() -> Tableau {
    let mut made = Closable::new();
    fill(&mut made.draft, 0);
    made.fill_with(Round::of(2, 1), |made, _| {
        let member = made.draft.cut(made.u, made.r);
        made.draft.cls(member, NO_MEMBER);
    })
}

/// As many alternatives as may wait, and as many closings, again and again.
pub fn cut_deep() -> Tableau {
    let mut made = Closable::new();
    fill(&mut made.draft, 0);
    while made.has_steps(2) {
        while made.has_steps(2) && made.draft.waiting() < MOST_WAITING {
            made.draft.cut(made.u, made.r);
        }
        while made.draft.waiting() > 0 {
            made.cls();
        }
    }
    made.pad()
}

pub fn cue() -> Tableau {
    let mut made = Closable::new();
    let (u, r) = (made.u, made.r);
    let s = made.draft.variable("rgv", 2);
    let cup = made.draft.term("cup", &[r, s]);
    fill(&mut made.draft, 0);
    let in_cup = made.draft.assume(lit(u, "in", cup));
    made.fill_with(Round::of(2, 1), |made, _| {
        let member = made.draft.cue(in_cup);
        made.draft.cls(member, NO_MEMBER);
    })
}

pub fn sgi() -> Tableau {
    let mut made = Closable::new();
    let u = made.u;
    let all = made.draft.term("all", &[]);
    let sin = made.draft.term("sin", &[u]);
    fill(&mut made.draft, 0);
    let allocated = made.draft.assume(lit(u, "in", all));
    made.fill_with(Round::of(2, 1), |made, _| {
        let outside = made.draft.sgi(sin);
        made.draft.cls(allocated, outside);
    })
}

/// All alternatives but the last closed at once.
pub fn clauses_of_eight() -> Tableau {
    with_clauses(MOST_IN_CLAUSE)
}

pub fn clauses_of_two() -> Tableau {
    with_clauses(2)
}

/// As many clauses of one size as there may be, split one after the other,
/// again and again.
fn with_clauses(size: usize) -> Tableau {
    let mut made = Closable::new();
    fill(&mut made.draft, 0);
    let regions = made.draft.terms_of_sort(Sort::Region);
    let literals = regions[..MOST_CLAUSE_LINES]
        .iter()
        .map(|region| lit(made.u, "in", *region));
    let literals: Vec<Literal> = literals.collect();
    for clause in literals.chunks(size) {
        made.draft.assume_among(clause.to_vec());
    }
    let clauses = made.draft.clauses.len();
    made.fill_with(Round::of(size, 1), |made, number| {
        made.draft.cla(ClauseId(number % clauses));
        for _ in 1..size {
            made.cls();
        }
    })
}
