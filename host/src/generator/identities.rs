//! Equal regions written in two ways. The branch is closed by cases: is u in
//! each of the regions that the two are made of, or not?

use super::builder::Builder;
use super::derivations::obtain;
use super::draft::{lit, Draft, Place, Sort, TermId};

/// Two ways to write one region ne: `ext`, then cases of its witness.
pub fn unequal(builder: &mut Builder, depth: usize) {
    let (left, right) = two_ways(builder);
    let p = obtain(builder, lit(left, "ne", right), depth);
    let w = builder.fresh();
    builder.draft.ext(p, w);
    by_cases(&mut builder.draft, w, left, right);
    by_cases(&mut builder.draft, w, left, right);
}

/// u is in the one and not in the other.
pub fn member(builder: &mut Builder, depth: usize) {
    let (left, right) = two_ways(builder);
    let u = builder.some(Sort::Reference);
    obtain(builder, lit(u, "in", left), depth);
    obtain(builder, lit(u, "ni", right), depth);
    by_cases(&mut builder.draft, u, left, right);
}

/// A region made of at most two others, so that the cases stay few.
fn some_operand(builder: &mut Builder) -> TermId {
    if builder.random.chance(1, 8) {
        return builder.draft.term("emp", &[]);
    }
    let region = builder.some(Sort::Region);
    if leaves(&builder.draft, region) > 2 {
        return builder.region_variable();
    }
    region
}

fn leaves(draft: &Draft, region: TermId) -> usize {
    if !is_compound(draft, region) {
        return 1;
    }
    let (r, s) = sides(draft, region);
    leaves(draft, r) + leaves(draft, s)
}

fn two_ways(builder: &mut Builder) -> (TermId, TermId) {
    let (a, b) = (some_operand(builder), some_operand(builder));
    let draft = &mut builder.draft;
    let mut pair = match builder.random.below(6) {
        0 => (draft.term("cup", &[a, b]), draft.term("cup", &[b, a])),
        1 => (draft.term("cap", &[a, b]), draft.term("cap", &[b, a])),
        2 => (a, draft.term("cup", &[a, a])),
        3 => {
            let inner = draft.term("dif", &[a, b]);
            (draft.term("cap", &[a, b]), draft.term("dif", &[a, inner]))
        }
        4 => {
            let inner = draft.term("dif", &[b, a]);
            (draft.term("cup", &[a, b]), draft.term("cup", &[a, inner]))
        }
        _ => {
            let inner = draft.term("cap", &[a, b]);
            (draft.term("dif", &[a, b]), draft.term("dif", &[a, inner]))
        }
    };
    if builder.random.chance(1, 2) {
        pair = (pair.1, pair.0);
    }
    pair
}

fn is_compound(draft: &Draft, region: TermId) -> bool {
    matches!(draft.word(region), "cup" | "cap" | "dif")
}

fn sides(draft: &Draft, region: TermId) -> (TermId, TermId) {
    (draft.argument(region, 0), draft.argument(region, 1))
}

/// Closes a branch on which u is in one of two equal regions and not in the
/// other.
fn by_cases(draft: &mut Draft, u: TermId, left: TermId, right: TermId) {
    let atom = undecided(draft, u, left).or_else(|| undecided(draft, u, right));
    if let Some(atom) = atom {
        let first = draft.cut(u, atom);
        if draft.word(atom) == "emp" {
            draft.empty(first);
        } else {
            by_cases(draft, u, left, right);
        }
        return by_cases(draft, u, left, right);
    }
    let closed = settle(draft, u, left) || settle(draft, u, right);
    assert!(closed, "the two regions are not equal");
}

/// A region inside this one that is made of no others, of which the branch
/// does not say whether u is in it.
fn undecided(draft: &Draft, u: TermId, region: TermId) -> Option<TermId> {
    if is_compound(draft, region) {
        let (r, s) = sides(draft, region);
        return undecided(draft, u, r).or_else(|| undecided(draft, u, s));
    }
    let known =
        draft.find(lit(u, "in", region)).is_some() || draft.find(lit(u, "ni", region)).is_some();
    (!known).then_some(region)
}

/// Whether u is in the region, as far as the regions that it is made of say.
fn truth(draft: &Draft, u: TermId, region: TermId) -> bool {
    if !is_compound(draft, region) {
        return draft.find(lit(u, "in", region)).is_some();
    }
    let (r, s) = sides(draft, region);
    let (in_r, in_s) = (truth(draft, u, r), truth(draft, u, s));
    match draft.word(region) {
        "cup" => in_r || in_s,
        "cap" => in_r && in_s,
        _ => in_r && !in_s,
    }
}

/// Brings u in the region or u not in the region onto the branch, whichever is
/// so, and the same for all regions inside. True if that closed the branch.
fn settle(draft: &mut Draft, u: TermId, region: TermId) -> bool {
    let member = draft.find(lit(u, "in", region));
    let no_member = draft.find(lit(u, "ni", region));
    if !is_compound(draft, region) {
        return close_both(draft, member, no_member);
    }
    let (r, s) = sides(draft, region);
    if settle(draft, u, r) || settle(draft, u, s) {
        return true;
    }
    if truth(draft, u, region) {
        let member = member.unwrap_or_else(|| introduce(draft, u, region));
        return close_both(draft, Some(member), no_member);
    }
    if let Some(member) = member {
        eliminate(draft, u, member);
        return true;
    }
    if no_member.is_none() {
        let first = draft.cut(u, region);
        eliminate(draft, u, first);
    }
    false
}

fn close_both(draft: &mut Draft, member: Option<Place>, no_member: Option<Place>) -> bool {
    if let (Some(p), Some(q)) = (member, no_member) {
        draft.cls(p, q);
        return true;
    }
    false
}

fn place_of(draft: &Draft, u: TermId, word: &'static str, region: TermId) -> Option<Place> {
    draft.find(lit(u, word, region))
}

/// Adds u in the region, which is so, once its sides are settled.
fn introduce(draft: &mut Draft, u: TermId, region: TermId) -> Place {
    let (r, s) = sides(draft, region);
    let in_r = place_of(draft, u, "in", r);
    let in_s = place_of(draft, u, "in", s);
    match draft.word(region) {
        "cup" => draft.cui(in_r.or(in_s).expect("a side holds u"), region),
        "cap" => draft.cpi(
            in_r.expect("the left side holds u"),
            in_s.expect("the right side holds u"),
            region,
        ),
        _ => draft.dfi(
            in_r.expect("the left side holds u"),
            place_of(draft, u, "ni", s).expect("the right side does not"),
            region,
        ),
    }
}

/// Closes a branch with u in the region, which is not so, once its sides are
/// settled.
fn eliminate(draft: &mut Draft, u: TermId, member: Place) {
    let (_, region) = draft.sides(member, "in");
    let (r, s) = sides(draft, region);
    let not_r = place_of(draft, u, "ni", r);
    let not_s = place_of(draft, u, "ni", s);
    match draft.word(region) {
        "cup" => {
            let added = draft.cue(member);
            draft.cls(added, not_r.expect("the left side does not hold u"));
            draft.cls(added, not_s.expect("the right side does not hold u"));
        }
        "cap" => {
            let added = draft.cpe(member);
            match not_r {
                Some(denied) => draft.cls(added, denied),
                None => draft.cls(added.after(1), not_s.expect("one side does not hold u")),
            }
        }
        _ => {
            let in_s = place_of(draft, u, "in", s);
            let added = draft.dfe(member);
            match not_r {
                Some(denied) => draft.cls(added, denied),
                None => draft.cls(in_s.expect("the right side holds u"), added.after(1)),
            }
        }
    }
}
