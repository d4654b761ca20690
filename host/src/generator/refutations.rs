//! One refutation for each rule: literals that can't all be true, and steps
//! that close the branch from them. Each closes the alternatives of its own
//! splits too.

use super::builder::Builder;
use super::clauses;
use super::derivations::obtain;
use super::draft::{denial, lit, Literal, Place, Sort, TermId, OPERATIONS};
use super::heap_refutations as heaps;
use super::identities;
use super::relation_refutations as relations;

type Refutation = fn(&mut Builder, usize);

const REFUTATIONS: [Refutation; 41] = [
    eqr,
    eql,
    ext_of_all,
    cpe,
    cpi,
    cue,
    cui,
    dfe,
    dfi,
    sge,
    sgi,
    all,
    nul,
    sep,
    heaps::img,
    heaps::wit_of_empty,
    heaps::wit_of_single,
    heaps::wit_class,
    reflexive,
    sym,
    trn,
    sub,
    rep,
    ler,
    le_trans,
    lea,
    heaps::rdh,
    heaps::rdm,
    heaps::rdm_by_field,
    clauses::refuted,
    heaps::fin,
    heaps::fin_member,
    heaps::fin_unequal,
    contradiction,
    empty,
    identities::unequal,
    identities::member,
    relations::chained,
    relations::chained,
    relations::bck,
    relations::bck_of_itself,
];

/// Closes the branch by a refutation chosen at random.
pub fn any(builder: &mut Builder, depth: usize) {
    let refutation = builder.random.pick(&REFUTATIONS);
    refutation(builder, depth);
}

/// Closes the branch by two assumptions, old ones if some deny each other.
pub fn contradiction_again(builder: &mut Builder) {
    for place in builder.draft.places_with(&["in", "eq", "le"]) {
        let denied = denied(builder.draft.literal(place));
        if let Some(other) = builder.draft.find(denied) {
            return builder.draft.cls(place, other);
        }
    }
    contradiction(builder, 0);
}

pub fn denied(literal: Literal) -> Literal {
    lit(literal.left, denial(literal.word), literal.right)
}

/// Closes the branch with the literal at a place and its denial.
pub fn deny(builder: &mut Builder, place: Place, denial_place: Place) {
    if matches!(builder.draft.literal(place).word, "in" | "eq" | "le") {
        builder.draft.cls(place, denial_place);
    } else {
        builder.draft.cls(denial_place, place);
    }
}

fn reference(builder: &mut Builder) -> TermId {
    builder.some(Sort::Reference)
}

fn region(builder: &mut Builder) -> TermId {
    builder.some(Sort::Region)
}

fn class(builder: &mut Builder) -> TermId {
    builder.some(Sort::Class)
}

fn two_regions(builder: &mut Builder) -> (TermId, TermId) {
    (region(builder), region(builder))
}

pub fn some_literal(builder: &mut Builder) -> Literal {
    match builder.random.below(3) {
        0 => lit(reference(builder), "in", region(builder)),
        1 => {
            let sort = builder.some_sort();
            lit(builder.some(sort), "eq", builder.some(sort))
        }
        _ => lit(class(builder), "le", class(builder)),
    }
}

// Regions

fn eqr(builder: &mut Builder, depth: usize) {
    let (r, s) = two_regions(builder);
    let u = reference(builder);
    let equation = obtain(builder, lit(r, "eq", s), depth);
    let member = obtain(builder, lit(u, "in", r), depth);
    let no_member = obtain(builder, lit(u, "ni", s), depth);
    let added = builder.draft.eqr(equation, member);
    builder.draft.cls(added, no_member);
}

fn eql(builder: &mut Builder, depth: usize) {
    let (r, s) = two_regions(builder);
    let u = reference(builder);
    let equation = obtain(builder, lit(r, "eq", s), depth);
    let member = obtain(builder, lit(u, "in", s), depth);
    let no_member = obtain(builder, lit(u, "ni", r), depth);
    let added = builder.draft.eql(equation, member);
    builder.draft.cls(added, no_member);
}

/// `all` is not empty, but equal to a region that is.
fn ext_of_all(builder: &mut Builder, depth: usize) {
    let all = builder.draft.term("all", &[]);
    let emp = builder.draft.term("emp", &[]);
    let r = region(builder);
    let [left, right] = builder.random.pick(&[[all, emp], [emp, all]]);
    let unequal = obtain(builder, lit(left, "ne", right), depth);
    let to_r = obtain(builder, lit(all, "eq", r), depth);
    let to_empty = obtain(builder, lit(r, "eq", emp), depth);
    let w = builder.fresh();
    let added = builder.draft.ext(unequal, w);
    // The second alternative stands where the first did; w in right comes last.
    for (member, side) in [(added, left), (added.after(1), right)] {
        let mut impossible = member;
        if side == all {
            let moved = builder.draft.eqr(to_r, member);
            impossible = builder.draft.eqr(to_empty, moved);
        }
        builder.draft.empty(impossible);
    }
}

fn cpe(builder: &mut Builder, depth: usize) {
    let (r, s) = two_regions(builder);
    let u = reference(builder);
    let cap = builder.draft.term("cap", &[r, s]);
    let member = obtain(builder, lit(u, "in", cap), depth);
    let side = builder.random.below(2);
    let denied = obtain(builder, lit(u, "ni", [r, s][side]), depth);
    let added = builder.draft.cpe(member);
    builder.draft.cls(added.after(side), denied);
}

fn cpi(builder: &mut Builder, depth: usize) {
    let (r, s) = two_regions(builder);
    let u = reference(builder);
    let cap = builder.draft.term("cap", &[r, s]);
    let p = obtain(builder, lit(u, "in", r), depth);
    let q = obtain(builder, lit(u, "in", s), depth);
    let denied = obtain(builder, lit(u, "ni", cap), depth);
    let added = builder.draft.cpi(p, q, cap);
    builder.draft.cls(added, denied);
}

fn cue(builder: &mut Builder, depth: usize) {
    let (r, s) = two_regions(builder);
    let u = reference(builder);
    let cup = builder.draft.term("cup", &[r, s]);
    let member = obtain(builder, lit(u, "in", cup), depth);
    let not_left = obtain(builder, lit(u, "ni", r), depth);
    let not_right = obtain(builder, lit(u, "ni", s), depth);
    let added = builder.draft.cue(member);
    builder.draft.cls(added, not_left);
    builder.draft.cls(added, not_right);
}

fn cui(builder: &mut Builder, depth: usize) {
    let (r, s) = two_regions(builder);
    let u = reference(builder);
    let cup = builder.draft.term("cup", &[r, s]);
    let side = builder.random.pick(&[r, s]);
    let member = obtain(builder, lit(u, "in", side), depth);
    let denied = obtain(builder, lit(u, "ni", cup), depth);
    let added = builder.draft.cui(member, cup);
    builder.draft.cls(added, denied);
}

fn dfe(builder: &mut Builder, depth: usize) {
    let (r, s) = two_regions(builder);
    let u = reference(builder);
    let dif = builder.draft.term("dif", &[r, s]);
    let member = obtain(builder, lit(u, "in", dif), depth);
    if builder.random.chance(1, 2) {
        let denied = obtain(builder, lit(u, "ni", r), depth);
        let added = builder.draft.dfe(member);
        builder.draft.cls(added, denied);
    } else {
        let other = obtain(builder, lit(u, "in", s), depth);
        let added = builder.draft.dfe(member);
        builder.draft.cls(other, added.after(1));
    }
}

fn dfi(builder: &mut Builder, depth: usize) {
    let (r, s) = two_regions(builder);
    let u = reference(builder);
    let dif = builder.draft.term("dif", &[r, s]);
    let p = obtain(builder, lit(u, "in", r), depth);
    let q = obtain(builder, lit(u, "ni", s), depth);
    let denied = obtain(builder, lit(u, "ni", dif), depth);
    let added = builder.draft.dfi(p, q, dif);
    builder.draft.cls(added, denied);
}

fn sge(builder: &mut Builder, depth: usize) {
    let (u, v) = (reference(builder), reference(builder));
    let sin = builder.draft.term("sin", &[v]);
    let member = obtain(builder, lit(u, "in", sin), depth);
    let unequal = obtain(builder, lit(u, "ne", v), depth);
    let added = builder.draft.sge(member);
    builder.draft.cls(added, unequal);
}

fn sgi(builder: &mut Builder, depth: usize) {
    let (u, r) = (reference(builder), region(builder));
    let sin = builder.draft.term("sin", &[u]);
    let member = obtain(builder, lit(u, "in", r), depth);
    let denied = obtain(builder, lit(u, "ni", sin), depth);
    let first = builder.draft.sgi(sin);
    let allocated = builder.draft.all(member);
    builder.draft.cls(allocated, first);
    builder.draft.cls(first, denied);
}

fn all(builder: &mut Builder, depth: usize) {
    let (u, r) = (reference(builder), region(builder));
    let all = builder.draft.term("all", &[]);
    let member = obtain(builder, lit(u, "in", r), depth);
    let denied = obtain(builder, lit(u, "ni", all), depth);
    let added = builder.draft.all(member);
    builder.draft.cls(added, denied);
}

fn nul(builder: &mut Builder, depth: usize) {
    let (u, r) = (reference(builder), region(builder));
    let nul = builder.draft.term("nul", &[]);
    let member = obtain(builder, lit(u, "in", r), depth);
    let equation = obtain(builder, lit(u, "eq", nul), depth);
    let added = builder.draft.nul(member);
    builder.draft.cls(equation, added);
}

fn sep(builder: &mut Builder, depth: usize) {
    let (u, v) = (reference(builder), reference(builder));
    let r = region(builder);
    let member = obtain(builder, lit(u, "in", r), depth);
    let no_member = obtain(builder, lit(v, "ni", r), depth);
    let equation = obtain(builder, lit(u, "eq", v), depth);
    let added = builder.draft.sep(member, no_member);
    builder.draft.cls(equation, added);
}

fn empty(builder: &mut Builder, depth: usize) {
    let u = reference(builder);
    let emp = builder.draft.term("emp", &[]);
    let member = obtain(builder, lit(u, "in", emp), depth);
    builder.draft.empty(member);
}

// Equality

fn reflexive(builder: &mut Builder, depth: usize) {
    let t = builder.some_term();
    let unequal = obtain(builder, lit(t, "ne", t), depth);
    let added = builder.draft.reflexive(t);
    builder.draft.cls(added, unequal);
}

fn sym(builder: &mut Builder, depth: usize) {
    let sort = builder.some_sort();
    let (a, b) = (builder.some(sort), builder.some(sort));
    let equal = obtain(builder, lit(a, "eq", b), depth);
    let unequal = obtain(builder, lit(b, "ne", a), depth);
    let turned = builder.random.pick(&[equal, unequal]);
    let added = builder.draft.sym(turned);
    let other = if turned == equal { unequal } else { equal };
    deny(builder, added, other);
}

fn trn(builder: &mut Builder, depth: usize) {
    let sort = builder.some_sort();
    let (a, b, c) = (builder.some(sort), builder.some(sort), builder.some(sort));
    let p = obtain(builder, lit(a, "eq", b), depth);
    let q = obtain(builder, lit(b, "eq", c), depth);
    let unequal = obtain(builder, lit(a, "ne", c), depth);
    let added = builder.draft.trn(p, q);
    builder.draft.cls(added, unequal);
}

/// a eq b, and two terms that differ only where one has a and the other b.
fn sub(builder: &mut Builder, depth: usize) {
    let (word, sorts) = builder.random.pick(&OPERATIONS);
    let changed = builder.random.pick(sorts);
    let (a, b) = (builder.some(changed), builder.some(changed));
    let (mut left, mut right) = (Vec::new(), Vec::new());
    for sort in sorts {
        if *sort == changed && builder.random.chance(2, 3) {
            left.push(a);
            right.push(b);
        } else {
            let same = builder.some(*sort);
            left.push(same);
            right.push(same);
        }
    }
    let t = builder.draft.term(word, &left);
    let w = builder.draft.term(word, &right);
    let equation = obtain(builder, lit(a, "eq", b), depth);
    let unequal = obtain(builder, lit(t, "ne", w), depth);
    let added = builder.draft.sub(equation, t, w);
    builder.draft.cls(added, unequal);
}

/// A literal, positive or denied, with one side replaced.
fn rep(builder: &mut Builder, depth: usize) {
    let mut literal = some_literal(builder);
    if builder.random.chance(1, 2) {
        literal = denied(literal);
    }
    let side = 1 + builder.random.below(2) as u32;
    let old = if side == 1 {
        literal.left
    } else {
        literal.right
    };
    let sort = builder.draft.sort(old);
    let new = builder.some(sort);
    let mut other = denied(literal);
    match side {
        1 => other.left = new,
        _ => other.right = new,
    }
    let p = obtain(builder, literal, depth);
    let q = obtain(builder, lit(old, "eq", new), depth);
    let denial_place = obtain(builder, other, depth);
    let added = builder.draft.rep(p, q, side);
    deny(builder, added, denial_place);
}

fn contradiction(builder: &mut Builder, depth: usize) {
    let literal = some_literal(builder);
    let p = obtain(builder, literal, depth);
    let q = obtain(builder, denied(literal), depth);
    builder.draft.cls(p, q);
}

// Classes

fn ler(builder: &mut Builder, depth: usize) {
    let c = class(builder);
    let denied = obtain(builder, lit(c, "nl", c), depth);
    let added = builder.draft.ler(c);
    builder.draft.cls(added, denied);
}

fn le_trans(builder: &mut Builder, depth: usize) {
    let (a, b, c) = (class(builder), class(builder), class(builder));
    let p = obtain(builder, lit(a, "le", b), depth);
    let q = obtain(builder, lit(b, "le", c), depth);
    let denied = obtain(builder, lit(a, "nl", c), depth);
    let added = builder.draft.le_trans(p, q);
    builder.draft.cls(added, denied);
}

fn lea(builder: &mut Builder, depth: usize) {
    let (a, b) = (class(builder), class(builder));
    let p = obtain(builder, lit(a, "le", b), depth);
    let q = obtain(builder, lit(b, "le", a), depth);
    let unequal = obtain(builder, lit(a, "ne", b), depth);
    let added = builder.draft.lea(p, q);
    builder.draft.cls(added, unequal);
}
