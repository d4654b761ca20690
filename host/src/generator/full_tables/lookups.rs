//! Rules that look terms up. Early terms stand at the start of the table, late
//! ones at its end.

use super::rounds::Round;
use super::{fill, room};
use crate::generator::closable::{Closable, MEMBER};
use crate::generator::draft::{lit, Place, TermId};
use crate::generator::tableau::Tableau;

/// An `img` of u in r, and the assumptions that close two of its alternatives.
pub struct Image {
    img: TermId,
    below: Place,
    allocated: Place,
}

/// The terms that `Image::make` makes, and the two that it is given.
const IMAGE_TERMS: usize = 5 + 2;

impl Image {
    pub fn make(made: &mut Closable, h: TermId, f: TermId) -> Image {
        let (u, r) = (made.u, made.r);
        let draft = &mut made.draft;
        let img = draft.term("img", &[h, r, f]);
        let typ = draft.term("typ", &[u]);
        let dty = draft.term("dty", &[f]);
        let rea = draft.term("rea", &[h, u, f]);
        let all = draft.term("all", &[]);
        Image {
            img,
            below: draft.assume(lit(typ, "le", dty)),
            allocated: draft.assume(lit(rea, "in", all)),
        }
    }

    /// Each `img` looks four terms up.
    pub fn fill(self, made: Closable) -> Tableau {
        made.fill_with(Round::of(3, 1), |made, _| {
            let added = made.draft.img(MEMBER, self.img);
            made.draft.cls(self.below, added);
            made.draft.cls(self.allocated, added);
        })
    }
}

fn image(made: &mut Closable) -> Image {
    let h = made.draft.variable("arv", 1);
    let f = made.draft.variable("fnv", 1);
    Image::make(made, h, f)
}

pub fn img_early() -> Tableau {
    let mut made = Closable::new();
    let image = image(&mut made);
    fill(&mut made.draft, 0);
    image.fill(made)
}

pub fn img_late() -> Tableau {
    let mut made = Closable::new();
    fill(&mut made.draft, IMAGE_TERMS);
    let image = image(&mut made);
    image.fill(made)
}

/// Reads of a heap written again and again, each after one write more.
pub fn rdm() -> Tableau {
    let mut made = Closable::new();
    let (u, draft) = (made.u, &mut made.draft);
    let other = draft.variable("rfv", 2);
    let f = draft.variable("fnv", 1);
    let mut heap = draft.variable("arv", 1);
    draft.term("rea", &[heap, other, f]);
    let mut reads = Vec::new();
    for _ in 0..room(draft) / 2 {
        heap = draft.term("wri", &[heap, u, f, u]);
        reads.push(draft.term("rea", &[heap, other, f]));
    }
    fill(draft, 0);
    let differ = draft.assume(lit(u, "ne", other));
    made.fill_with(Round::of(2, 2), |made, number| {
        let equal = made.draft.rdm(reads[number % reads.len()]);
        made.draft.cls(equal, differ);
    })
}

/// Regions inside their own images, each in turn. A `fin` looks one term up.
pub fn fin() -> Tableau {
    let mut made = Closable::new();
    let draft = &mut made.draft;
    let h = draft.variable("arv", 1);
    let f = draft.variable("fnv", 1);
    let mut inside = Vec::new();
    for name in (2..).take(room(draft) / 4) {
        let r = draft.variable("rgv", name);
        let image = draft.term("img", &[h, r, f]);
        let union = draft.term("cup", &[r, image]);
        draft.term("cup", &[image, r]);
        inside.push(draft.assume(lit(union, "eq", image)));
    }
    made.fill_with(Round::of(1, 1), |made, number| {
        made.draft.fin(inside[number % inside.len()]);
    })
}

pub fn all_early() -> Tableau {
    all(with_early("all"))
}

pub fn all_late() -> Tableau {
    all(with_late("all"))
}

pub fn nul_early() -> Tableau {
    nul(with_early("nul"))
}

pub fn nul_late() -> Tableau {
    nul(with_late("nul"))
}

fn with_early(word: &'static str) -> Closable {
    let mut made = Closable::new();
    made.draft.term(word, &[]);
    fill(&mut made.draft, 0);
    made
}

fn with_late(word: &'static str) -> Closable {
    let mut made = Closable::new();
    fill(&mut made.draft, 1);
    made.draft.term(word, &[]);
    made
}

pub fn all(made: Closable) -> Tableau {
    made.fill_with(Round::of(1, 1), |made, _| {
        made.draft.all(MEMBER);
    })
}

fn nul(made: Closable) -> Tableau {
    made.fill_with(Round::of(1, 1), |made, _| {
        made.draft.nul(MEMBER);
    })
}
