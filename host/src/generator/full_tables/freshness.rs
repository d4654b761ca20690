//! Rules that take a fresh variable.

use super::rounds::Round;
use super::{fill, room};
use crate::generator::closable::Closable;
use crate::generator::draft::{lit, Draft, TermId};
use crate::generator::tableau::Tableau;

/// Variables to be taken as fresh, for each of which `held` makes terms that
/// hold it, as many as the table has room for.
fn witnesses(draft: &mut Draft, terms: usize, held: impl Fn(&mut Draft, TermId)) -> Vec<TermId> {
    let mut witnesses = Vec::new();
    for name in (2..).take(room(draft) / terms) {
        let w = draft.variable("rfv", name);
        held(draft, w);
        witnesses.push(w);
    }
    fill(draft, 0);
    witnesses
}

pub fn ext() -> Tableau {
    let mut made = Closable::new();
    let r = made.r;
    let s = made.draft.variable("rgv", 2);
    let witnesses = witnesses(&mut made.draft, 1, |_, _| ());
    let differ = made.draft.assume(lit(r, "ne", s));
    made.fill_with(round(2, 2, &witnesses), |made, number| {
        made.draft.ext(differ, witnesses[number]);
        made.cls();
    })
}

pub fn wit() -> Tableau {
    let mut made = Closable::new();
    let (u, r) = (made.u, made.r);
    let draft = &mut made.draft;
    let h = draft.variable("arv", 1);
    let f = draft.variable("fnv", 1);
    let img = draft.term("img", &[h, r, f]);
    draft.term("dty", &[f]);
    let witnesses = witnesses(draft, 3, |draft, w| {
        draft.term("typ", &[w]);
        draft.term("rea", &[h, w, f]);
    });
    let member = draft.assume(lit(u, "in", img));
    made.fill_with(round(1, 3, &witnesses), |made, number| {
        made.draft.wit(member, witnesses[number]);
    })
}

/// A round takes one witness of its branch.
fn round(steps: usize, places: usize, witnesses: &[TermId]) -> Round {
    Round {
        steps,
        places,
        most: witnesses.len(),
    }
}

/// A variable is taken as fresh beside a region that holds many others, and
/// one more from level to level. The closings of its two alternatives take it
/// off the branch, so that it is fresh again in a later round.
pub fn ext_deep_terms() -> Tableau {
    let mut made = Closable::new();
    let r = made.r;
    let s = made.draft.variable("rgv", 2);
    let regions = nested_regions(&mut made, WITNESSES);
    let witnesses = witnesses(&mut made.draft, 1, |_, _| ());
    let differ = made.draft.assume(lit(r, "ne", s));
    made.fill_with(Round::of(4, 1), |made, number| {
        let region = regions[regions.len() - 1 - number % regions.len()];
        made.draft.cut(made.u, region);
        made.draft.ext(differ, witnesses[number % witnesses.len()]);
        made.cls();
        made.cls();
    })
}

/// How many terms are left for witnesses.
const WITNESSES: usize = 40;
/// The variables in deep terms have names that no witness has.
const LEAST_NAME: u32 = 1_000;

/// Each region holds the one before it, a heap written once more, and a
/// variable more.
fn nested_regions(made: &mut Closable, room_left: usize) -> Vec<TermId> {
    let (draft, mut region) = (&mut made.draft, made.r);
    let f = draft.variable("fnv", 1);
    let mut heap = draft.variable("arv", 1);
    let mut regions = Vec::new();
    for name in (LEAST_NAME..).take((room(draft) - room_left) / 6) {
        let v = draft.variable("rfv", name);
        heap = draft.term("wri", &[heap, v, f, v]);
        let read = draft.term("rea", &[heap, v, f]);
        let sin = draft.term("sin", &[read]);
        let cup = draft.term("cup", &[region, sin]);
        region = draft.term("img", &[heap, cup, f]);
        regions.push(region);
    }
    regions
}
