//! Ways to bring a wanted literal onto the branch: assume it, find it there,
//! or derive it by a rule from other literals obtained in the same way.

use super::builder::Builder;
use super::clauses;
use super::draft::{lit, Literal, Place, Sort, TermId};

/// Brings the literal onto the branch, by up to `depth` rules one upon the
/// other. Alternatives may come to wait, and those of derivations that must be
/// closed first are closed on return.
pub fn obtain(builder: &mut Builder, wanted: Literal, depth: usize) -> Place {
    if builder.random.chance(3, 4) {
        if let Some(place) = builder.draft.find(wanted) {
            return place;
        }
    }
    if depth == 0 || builder.spent() || builder.random.chance(1, 3) {
        return builder.draft.assume(wanted);
    }
    if clauses::has_room(builder) && builder.random.chance(1, 10) {
        return clauses::with_literal(builder, wanted, depth - 1);
    }
    let Literal { left, word, right } = wanted;
    match word {
        "in" => obtain_in(builder, left, right, depth - 1),
        "ni" => obtain_ni(builder, left, right, depth - 1),
        "eq" => obtain_eq(builder, left, right, depth - 1),
        "ne" => obtain_ne(builder, left, right, depth - 1),
        "le" => obtain_le(builder, left, right, depth - 1),
        _ => by_replacement(builder, wanted, depth - 1),
    }
}

fn obtain_in(builder: &mut Builder, u: TermId, r: TermId, depth: usize) -> Place {
    let word = builder.draft.word(r);
    if matches!(word, "cup" | "cap" | "dif" | "all") && builder.random.chance(2, 3) {
        return introduce(builder, u, r, depth);
    }
    match builder.random.below(8) {
        0 | 1 if builder.may_split() => builder.draft.cut(u, r),
        2 => from_intersection(builder, u, r, depth),
        3 => {
            let s = builder.some(Sort::Region);
            let dif = builder.draft.term("dif", &[r, s]);
            let p = obtain(builder, lit(u, "in", dif), depth);
            builder.draft.dfe(p)
        }
        4 => from_equal_region(builder, u, r, depth),
        5 => from_union(builder, u, r, depth),
        6 => from_image(builder, u, r, depth),
        _ => by_replacement(builder, lit(u, "in", r), depth),
    }
}

/// u in r for a region that is made of others.
fn introduce(builder: &mut Builder, u: TermId, t: TermId, depth: usize) -> Place {
    if builder.draft.word(t) == "all" {
        let r = builder.some(Sort::Region);
        let p = obtain(builder, lit(u, "in", r), depth);
        return builder.draft.all(p);
    }
    let (r, s) = (builder.draft.argument(t, 0), builder.draft.argument(t, 1));
    match builder.draft.word(t) {
        "cup" => {
            let side = builder.random.pick(&[r, s]);
            let p = obtain(builder, lit(u, "in", side), depth);
            builder.draft.cui(p, t)
        }
        "cap" => {
            let p = obtain(builder, lit(u, "in", r), depth);
            let q = obtain(builder, lit(u, "in", s), depth);
            builder.draft.cpi(p, q, t)
        }
        _ => {
            let p = obtain(builder, lit(u, "in", r), depth);
            let q = obtain(builder, lit(u, "ni", s), depth);
            builder.draft.dfi(p, q, t)
        }
    }
}

fn from_intersection(builder: &mut Builder, u: TermId, r: TermId, depth: usize) -> Place {
    let s = builder.some(Sort::Region);
    let left = builder.random.chance(1, 2);
    let sides = if left { [r, s] } else { [s, r] };
    let cap = builder.draft.term("cap", &sides);
    let p = obtain(builder, lit(u, "in", cap), depth);
    let first = builder.draft.cpe(p);
    if left {
        first
    } else {
        first.after(1)
    }
}

fn from_equal_region(builder: &mut Builder, u: TermId, r: TermId, depth: usize) -> Place {
    let s = builder.some(Sort::Region);
    let q = obtain(builder, lit(u, "in", s), depth);
    if builder.random.chance(1, 2) {
        let p = obtain(builder, lit(s, "eq", r), depth);
        builder.draft.eqr(p, q)
    } else {
        let p = obtain(builder, lit(r, "eq", s), depth);
        builder.draft.eql(p, q)
    }
}

/// u in cup(s,r), and the alternative u in s is closed.
fn from_union(builder: &mut Builder, u: TermId, r: TermId, depth: usize) -> Place {
    let s = builder.some(Sort::Region);
    let cup = builder.draft.term("cup", &[s, r]);
    let denied = obtain(builder, lit(u, "ni", s), depth);
    let p = obtain(builder, lit(u, "in", cup), depth);
    let first = builder.draft.cue(p);
    builder.draft.cls(first, denied);
    // The second alternative stands where the first did.
    first
}

/// u in an image of r, where r is inside that image.
fn from_image(builder: &mut Builder, u: TermId, r: TermId, depth: usize) -> Place {
    let image = builder.some_image(r);
    let inside = inside_image(builder, image, depth);
    let member = obtain(builder, lit(u, "in", image), depth);
    by_counting(builder, inside, member)
}

/// cup(r,i) eq i for an image i of r: r is inside i.
pub fn inside_image(builder: &mut Builder, image: TermId, depth: usize) -> Place {
    let r = builder.draft.argument(image, 1);
    let cup = builder.draft.term("cup", &[r, image]);
    obtain(builder, lit(cup, "eq", image), depth)
}

/// u in r, from the place where r is inside its image and that where u is in
/// the image.
pub fn by_counting(builder: &mut Builder, inside: Place, member: Place) -> Place {
    let equation = builder.draft.fin(inside);
    let (cup, _) = builder.draft.sides(equation, "eq");
    let in_cup = builder.draft.cui(member, cup);
    builder.draft.eqr(equation, in_cup)
}

fn obtain_ni(builder: &mut Builder, u: TermId, r: TermId, depth: usize) -> Place {
    match builder.random.below(4) {
        0 | 1 if builder.may_split() => {
            let first = builder.draft.cut(u, r);
            builder.close_branch(depth);
            first
        }
        2 => {
            let s = builder.some(Sort::Region);
            let dif = builder.draft.term("dif", &[s, r]);
            let p = obtain(builder, lit(u, "in", dif), depth);
            builder.draft.dfe(p).after(1)
        }
        _ => by_replacement(builder, lit(u, "ni", r), depth),
    }
}

fn obtain_eq(builder: &mut Builder, a: TermId, b: TermId, depth: usize) -> Place {
    if a == b {
        return builder.draft.reflexive(a);
    }
    let sort = builder.draft.sort(a);
    match builder.random.below(4) {
        0 => {
            let p = obtain(builder, lit(b, "eq", a), depth);
            builder.draft.sym(p)
        }
        1 if sort == Sort::Class => {
            let p = obtain(builder, lit(a, "le", b), depth);
            let q = obtain(builder, lit(b, "le", a), depth);
            builder.draft.lea(p, q)
        }
        1 if sort == Sort::Reference => {
            let sin = builder.draft.term("sin", &[b]);
            let p = obtain(builder, lit(a, "in", sin), depth);
            builder.draft.sge(p)
        }
        2 => by_replacement(builder, lit(a, "eq", b), depth),
        _ => {
            let c = builder.some(sort);
            let p = obtain(builder, lit(a, "eq", c), depth);
            let q = obtain(builder, lit(c, "eq", b), depth);
            builder.draft.trn(p, q)
        }
    }
}

fn obtain_ne(builder: &mut Builder, a: TermId, b: TermId, depth: usize) -> Place {
    let sort = builder.draft.sort(a);
    match builder.random.below(4) {
        0 => {
            let p = obtain(builder, lit(b, "ne", a), depth);
            builder.draft.sym(p)
        }
        1 if builder.draft.word(b) == "nul" => {
            let r = builder.some(Sort::Region);
            let p = obtain(builder, lit(a, "in", r), depth);
            builder.draft.nul(p)
        }
        1 | 2 if sort == Sort::Reference => {
            let r = builder.some(Sort::Region);
            let p = obtain(builder, lit(a, "in", r), depth);
            let q = obtain(builder, lit(b, "ni", r), depth);
            builder.draft.sep(p, q)
        }
        _ => by_replacement(builder, lit(a, "ne", b), depth),
    }
}

fn obtain_le(builder: &mut Builder, a: TermId, b: TermId, depth: usize) -> Place {
    if a == b {
        return builder.draft.ler(a);
    }
    if builder.random.chance(1, 3) {
        return by_replacement(builder, lit(a, "le", b), depth);
    }
    let c = builder.some(Sort::Class);
    let p = obtain(builder, lit(a, "le", c), depth);
    let q = obtain(builder, lit(c, "le", b), depth);
    builder.draft.le_trans(p, q)
}

/// The literal with another term on one side, and `rep`.
fn by_replacement(builder: &mut Builder, wanted: Literal, depth: usize) -> Place {
    let side = 1 + builder.random.below(2) as u32;
    let new = if side == 1 { wanted.left } else { wanted.right };
    let old = {
        let sort = builder.draft.sort(new);
        builder.some(sort)
    };
    let mut premise = wanted;
    match side {
        1 => premise.left = old,
        _ => premise.right = old,
    }
    let p = obtain(builder, premise, depth);
    let q = obtain(builder, lit(old, "eq", new), depth);
    builder.draft.rep(p, q, side)
}

/// One of the three rules that carry u in r along r eq r.
pub fn along(builder: &mut Builder, equation: Place, membership: Place) -> Place {
    match builder.random.below(3) {
        0 => builder.draft.eqr(equation, membership),
        1 => builder.draft.eql(equation, membership),
        _ => builder.draft.rep(membership, equation, 2),
    }
}

/// Takes u in r apart if r is made of others, else makes u in `all` of it.
pub fn eliminate(builder: &mut Builder, p: Place) -> Place {
    let (_, r) = builder.draft.sides(p, "in");
    match builder.draft.word(r) {
        "cap" => builder.draft.cpe(p),
        "dif" => builder.draft.dfe(p),
        "sin" => builder.draft.sge(p),
        "cup" if builder.may_split() => builder.draft.cue(p),
        "img" => {
            let w = builder.fresh();
            builder.draft.wit(p, w)
        }
        _ => builder.draft.all(p),
    }
}
