//! Congruences each of which waits for another.

use super::arrangements::{placed, Arrange};
use super::{assume_arranged, keys};
use crate::generator::closable::Closable;
use crate::generator::draft::{lit, Literal, TermId};
use crate::generator::full_tables::key_clauses::Keys;
use crate::generator::full_tables::{fill, room};
use crate::generator::tableau::Tableau;

/// As many levels as the table has room for.
pub fn levels(arrange: Arrange) -> Tableau {
    let mut made = Closable::new();
    let count = (room(&made.draft) - LEVEL_BASE) / 2;
    let keys = make_levels(&mut made, count, arrange);
    fill(&mut made.draft, 0);
    made.fill_by_keys(keys)
}

/// The terms that the levels need besides two each.
const LEVEL_BASE: usize = 4;

/// Reads f(b) with f(b) eq b, and f(a) for many variables a, each equal to the
/// read of the one before it. The key makes one of the first variables equal to
/// b: then its read is, and the next variable, and so on.
pub fn make_levels(made: &mut Closable, count: usize, arrange: Arrange) -> Keys {
    let draft = &mut made.draft;
    let h = draft.variable("arv", LEVEL_NAME);
    let f = draft.variable("fnv", LEVEL_NAME);
    let b = draft.variable("rfv", LEVEL_NAME);
    let read_b = draft.term("rea", &[h, b, f]);
    let names = (LEVEL_NAME + 1..).take(count);
    let bases: Vec<TermId> = names.map(|name| draft.variable("rfv", name)).collect();
    let bases = placed(&bases, arrange);
    let mut reads = bases.clone();
    for index in arrange(count) {
        reads[index] = draft.term("rea", &[h, bases[index], f]);
    }
    let steps = bases[1..].iter().zip(&reads);
    let steps: Vec<Literal> = steps.map(|(base, read)| lit(*base, "eq", *read)).collect();
    draft.assume(lit(reads[count - 1], "ne", b));
    draft.assume(lit(read_b, "eq", b));
    assume_arranged(made, &steps, arrange);
    keys(|index| lit(bases[index], "eq", b))
}

/// The variables of the levels have names from this one on.
const LEVEL_NAME: u32 = 30;

/// How often the image is taken of what is equal to r: two numbers after each
/// other in Lucas's sequence, for which Euclid's algorithm takes long. Together
/// they are less than the table has terms.
const PERIODS: [usize; 2] = [322, 199];

/// The image of r, the image of that, and so on, as long as the table allows.
/// One of them is r, and with the key another is: then all are.
pub fn tower() -> Tableau {
    let mut made = Closable::new();
    let (r, draft) = (made.r, &mut made.draft);
    let h = draft.variable("arv", 1);
    let f = draft.variable("fnv", 1);
    let mut images = vec![r];
    while room(draft) > 0 {
        let last = images[images.len() - 1];
        images.push(draft.term("img", &[h, last, f]));
    }
    draft.assume(lit(r, "ne", images[1]));
    draft.assume(lit(images[PERIODS[0]], "eq", r));
    made.fill_by_keys(keys(|index| {
        // The same distance, so that all of the tower is equal from there on,
        // and by the first period from r on.
        lit(images[PERIODS[1] + index], "eq", images[index])
    }))
}
