//! Many rules in turn, and many assumptions.

use super::fill;
use super::rounds::Round;
use crate::generator::closable::Closable;
use crate::generator::draft::{lit, Sort};
use crate::generator::tableau::Tableau;

pub fn region_rules() -> Tableau {
    let mut made = Closable::new();
    let (u, r) = (made.u, made.r);
    let draft = &mut made.draft;
    fill(draft, 6);
    let v = draft.variable("rfv", 2);
    let s = draft.variable("rgv", 1_000);
    let cap = draft.term("cap", &[r, s]);
    let cup = draft.term("cup", &[r, s]);
    let dif = draft.term("dif", &[r, s]);
    let sin = draft.term("sin", &[v]);
    let in_cap = draft.assume(lit(u, "in", cap));
    let in_dif = draft.assume(lit(u, "in", dif));
    let in_sin = draft.assume(lit(u, "in", sin));
    let equal = draft.assume(lit(r, "eq", s));
    made.fill_with(Round::of(9, 11), |made, _| {
        let draft = &mut made.draft;
        let both = draft.cpe(in_cap);
        draft.cpi(both, both.after(1), cap);
        draft.cui(both, cup);
        let apart = draft.dfe(in_dif);
        draft.dfi(apart, apart.after(1), dif);
        draft.sep(both.after(1), apart.after(1));
        draft.sge(in_sin);
        let along = draft.eqr(equal, apart);
        draft.eql(equal, along);
    })
}

pub fn class_and_heap_rules() -> Tableau {
    let mut made = Closable::new();
    let (u, draft) = (made.u, &mut made.draft);
    fill(draft, 9);
    let h = draft.variable("arv", 1);
    let f = draft.variable("fnv", 1);
    let v = draft.variable("rfv", 2);
    let written = draft.term("wri", &[h, u, f, v]);
    let read = draft.term("rea", &[written, u, f]);
    let class = draft.term("typ", &[u]);
    let other_class = draft.term("typ", &[v]);
    let declared = draft.term("dty", &[f]);
    let third_class = draft.variable("clv", 1);
    let up = draft.assume(lit(class, "le", declared));
    let down = draft.assume(lit(declared, "le", class));
    draft.assume(lit(third_class, "le", class));
    made.fill_with(Round::of(9, 9), |made, _| {
        let draft = &mut made.draft;
        draft.ler(declared);
        let around = draft.le_trans(up, down);
        draft.le_trans(around, up);
        let equal = draft.lea(up, down);
        draft.rep(around, equal, 2);
        let value = draft.rdh(read);
        let turned = draft.sym(value);
        draft.trn(value, turned);
        draft.reflexive(other_class);
    })
}

const ASSUMPTIONS: usize = 900;

/// Little room is left on the branch, so `cut` stands for the steps.
pub fn many_assumptions() -> Tableau {
    let mut made = Closable::new();
    fill(&mut made.draft, 0);
    let (u, regions) = (made.u, made.draft.terms_of_sort(Sort::Region));
    for (index, region) in regions.iter().cycle().enumerate() {
        if made.draft.assumptions.len() == ASSUMPTIONS {
            break;
        }
        let literal = match index % 2 {
            0 => lit(u, "in", *region),
            _ => lit(*region, "eq", made.r),
        };
        made.draft.assume(literal);
    }
    made.fill_with(Round::of(2, 1), |made, _| {
        made.draft.cut(made.u, made.r);
        made.cls();
    })
}
