//! Rules that add a literal on a branch as long as it may be.

use super::rounds::Round;
use super::{fill, fill_from, room};
use crate::generator::closable::Closable;
use crate::generator::draft::{lit, Place, TermId, MOST_TERMS};
use crate::generator::tableau::Tableau;

/// r eq s and s eq r, where s stands last in the table.
struct Equations {
    made: Closable,
    there: Place,
    back: Place,
}

fn equations() -> Equations {
    let mut made = Closable::new();
    fill(&mut made.draft, 0);
    let (r, s) = (made.r, TermId(MOST_TERMS - 1));
    let there = made.draft.assume(lit(r, "eq", s));
    let back = made.draft.assume(lit(s, "eq", r));
    Equations { made, there, back }
}

impl Equations {
    /// Every step takes the literal that the step before it has added; the
    /// first of a branch takes r eq s.
    fn fill(self, step: impl Fn(&mut Closable, Place) -> Place) -> Tableau {
        let mut last = self.there;
        self.made.fill_with(Round::of(1, 1), |made, number| {
            let place = if number == 0 { self.there } else { last };
            last = step(made, place);
        })
    }
}

pub fn sym() -> Tableau {
    equations().fill(|made, last| made.draft.sym(last))
}

/// r eq s gives r eq r, which gives r eq s again.
pub fn trn() -> Tableau {
    let equations = equations();
    let (there, back, r) = (equations.there, equations.back, equations.made.r);
    equations.fill(|made, last| {
        let reflexive = made.draft.literal(last).right == r;
        made.draft.trn(last, if reflexive { there } else { back })
    })
}

/// As `trn`, on the right side.
pub fn rep() -> Tableau {
    let equations = equations();
    let (there, back, r) = (equations.there, equations.back, equations.made.r);
    equations.fill(|made, last| {
        let reflexive = made.draft.literal(last).right == r;
        made.draft
            .rep(last, if reflexive { there } else { back }, 2)
    })
}

/// u eq v under `rea`, for many fields.
pub fn sub() -> Tableau {
    let mut made = Closable::new();
    let (u, draft) = (made.u, &mut made.draft);
    let v = draft.variable("rfv", 2);
    let h = draft.variable("arv", 1);
    let mut reads = Vec::new();
    for name in (1..).take(room(draft) / 3) {
        let f = draft.variable("fnv", name);
        reads.push((draft.term("rea", &[h, u, f]), draft.term("rea", &[h, v, f])));
    }
    fill(draft, 0);
    let equation = draft.assume(lit(u, "eq", v));
    made.fill_with(Round::of(1, 1), |made, number| {
        let (of_u, of_v) = reads[number % reads.len()];
        made.draft.sub(equation, of_u, of_v);
    })
}

pub fn reflexive() -> Tableau {
    reflexive_from(2)
}

/// The regions have names from this one on.
pub fn reflexive_from(least_name: u32) -> Tableau {
    let mut made = Closable::new();
    fill_from(&mut made.draft, 0, least_name);
    made.fill_with(Round::of(1, 1), |made, number| {
        made.draft.reflexive(TermId(number % MOST_TERMS));
    })
}
