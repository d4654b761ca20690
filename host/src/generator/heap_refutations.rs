//! Refutations by the rules about images, reads and writes.

use super::builder::Builder;
use super::derivations::{by_counting, inside_image, obtain};
use super::draft::{lit, Place, Sort, TermId};

fn reference(builder: &mut Builder) -> TermId {
    builder.some(Sort::Reference)
}

fn heap_and_field(builder: &mut Builder) -> (TermId, TermId) {
    (builder.some(Sort::Heap), builder.some(Sort::Field))
}

// Images

pub fn img(builder: &mut Builder, depth: usize) {
    let (u, r) = (reference(builder), builder.some(Sort::Region));
    let (h, f) = heap_and_field(builder);
    let img = builder.draft.term("img", &[h, r, f]);
    let typ = builder.draft.term("typ", &[u]);
    let dty = builder.draft.term("dty", &[f]);
    let rea = builder.draft.term("rea", &[h, u, f]);
    let all = builder.draft.term("all", &[]);
    let member = obtain(builder, lit(u, "in", r), depth);
    let below = obtain(builder, lit(typ, "le", dty), depth);
    let allocated = obtain(builder, lit(rea, "in", all), depth);
    let denied = obtain(builder, lit(rea, "ni", img), depth);
    let added = builder.draft.img(member, img);
    builder.draft.cls(below, added);
    builder.draft.cls(allocated, added);
    builder.draft.cls(added, denied);
}

/// The image of an empty region has no member.
pub fn wit_of_empty(builder: &mut Builder, depth: usize) {
    let (u, r) = (reference(builder), builder.some(Sort::Region));
    let (h, f) = heap_and_field(builder);
    let emp = builder.draft.term("emp", &[]);
    let img = builder.draft.term("img", &[h, r, f]);
    let member = obtain(builder, lit(u, "in", img), depth);
    let equation = obtain(builder, lit(r, "eq", emp), depth);
    let w = builder.fresh();
    let added = builder.draft.wit(member, w);
    let moved = builder.draft.eqr(equation, added);
    builder.draft.empty(moved);
}

/// The image of sin(v) has no member but rea(h,v,f).
pub fn wit_of_single(builder: &mut Builder, depth: usize) {
    let (u, v) = (reference(builder), reference(builder));
    let (h, f) = heap_and_field(builder);
    let rea = builder.draft.term("rea", &[h, v, f]);
    let (member, unequal) = {
        let sin = builder.draft.term("sin", &[v]);
        let img = builder.draft.term("img", &[h, sin, f]);
        let member = obtain(builder, lit(u, "in", img), depth);
        (member, obtain(builder, lit(rea, "ne", u), depth))
    };
    let w = builder.fresh();
    let added = builder.draft.wit(member, w);
    let equation = builder.draft.sge(added);
    let rea_w = builder.draft.term("rea", &[h, w, f]);
    let same = builder.draft.sub(equation, rea_w, rea);
    let turned = builder.draft.sym(same);
    let closing = builder.draft.trn(turned, added.after(2));
    builder.draft.cls(closing, unequal);
}

/// The image of sin(v) is empty unless v's class is below the field's.
pub fn wit_class(builder: &mut Builder, depth: usize) {
    let (u, v) = (reference(builder), reference(builder));
    let (h, f) = heap_and_field(builder);
    let typ = builder.draft.term("typ", &[v]);
    let dty = builder.draft.term("dty", &[f]);
    let sin = builder.draft.term("sin", &[v]);
    let img = builder.draft.term("img", &[h, sin, f]);
    let member = obtain(builder, lit(u, "in", img), depth);
    let not_below = obtain(builder, lit(typ, "nl", dty), depth);
    let w = builder.fresh();
    let added = builder.draft.wit(member, w);
    let equation = builder.draft.sge(added);
    let typ_w = builder.draft.term("typ", &[w]);
    let same = builder.draft.sub(equation, typ_w, typ);
    let below = builder.draft.rep(added.after(1), same, 1);
    builder.draft.cls(below, not_below);
}

// A region inside its image, which has no more members than the region

fn image(builder: &mut Builder) -> TermId {
    let r = builder.some(Sort::Region);
    builder.some_image(r)
}

pub fn fin(builder: &mut Builder, depth: usize) {
    let image = image(builder);
    let r = builder.draft.argument(image, 1);
    let turned = builder.draft.term("cup", &[image, r]);
    let inside = inside_image(builder, image, depth);
    let unequal = obtain(builder, lit(turned, "ne", r), depth);
    let added = builder.draft.fin(inside);
    builder.draft.cls(added, unequal);
}

/// Something in the image is outside the region.
pub fn fin_member(builder: &mut Builder, depth: usize) {
    let (u, image) = (reference(builder), image(builder));
    let r = builder.draft.argument(image, 1);
    let inside = inside_image(builder, image, depth);
    let member = obtain(builder, lit(u, "in", image), depth);
    let no_member = obtain(builder, lit(u, "ni", r), depth);
    let added = by_counting(builder, inside, member);
    builder.draft.cls(added, no_member);
}

/// The two are not equal. In one alternative the witness is in the region
/// alone, in the other in the image alone.
pub fn fin_unequal(builder: &mut Builder, depth: usize) {
    let image = image(builder);
    let r = builder.draft.argument(image, 1);
    let inside = inside_image(builder, image, depth);
    let [left, right] = builder.random.pick(&[[r, image], [image, r]]);
    let unequal = obtain(builder, lit(left, "ne", right), depth);
    let w = builder.fresh();
    let first = builder.draft.ext(unequal, w);
    let second = first.after(1);
    for (side, member, no_member) in [(left, first, second), (right, second, first)] {
        let added = if side == image {
            by_counting(builder, inside, member)
        } else {
            let cup = builder.draft.term("cup", &[r, image]);
            let in_cup = builder.draft.cui(member, cup);
            builder.draft.eqr(inside, in_cup)
        };
        builder.draft.cls(added, no_member);
    }
}

// Reads of writes

pub fn rdh(builder: &mut Builder, depth: usize) {
    let (u, v) = (reference(builder), reference(builder));
    let (h, f) = heap_and_field(builder);
    let wri = builder.draft.term("wri", &[h, u, f, v]);
    let rea = builder.draft.term("rea", &[wri, u, f]);
    let unequal = obtain(builder, lit(rea, "ne", v), depth);
    let added = builder.draft.rdh(rea);
    builder.draft.cls(added, unequal);
}

pub fn rdm(builder: &mut Builder, depth: usize) {
    let (u, y) = (reference(builder), reference(builder));
    let unequal = obtain(builder, lit(u, "ne", y), depth);
    let (f, g) = (builder.some(Sort::Field), builder.some(Sort::Field));
    read_elsewhere(builder, [u, y], [f, g], 0, unequal, depth);
}

pub fn rdm_by_field(builder: &mut Builder, depth: usize) {
    let (f, g) = (builder.some(Sort::Field), builder.some(Sort::Field));
    let unequal = obtain(builder, lit(f, "ne", g), depth);
    let (u, y) = (reference(builder), reference(builder));
    read_elsewhere(builder, [u, y], [f, g], 1, unequal, depth);
}

/// A write at u and f does not change what is read at y and g. `unequal` is
/// where u ne y (`which` 0) or f ne g (`which` 1) stands.
fn read_elsewhere(
    builder: &mut Builder,
    [u, y]: [TermId; 2],
    [f, g]: [TermId; 2],
    which: usize,
    unequal: Place,
    depth: usize,
) {
    let (h, v) = (builder.some(Sort::Heap), reference(builder));
    let wri = builder.draft.term("wri", &[h, u, f, v]);
    let rea = builder.draft.term("rea", &[wri, y, g]);
    let before = builder.draft.term("rea", &[h, y, g]);
    let changed = obtain(builder, lit(rea, "ne", before), depth);
    let added = builder.draft.rdm(rea);
    builder.draft.cls(added.after(which), unequal);
    builder.draft.cls(added, changed);
}
