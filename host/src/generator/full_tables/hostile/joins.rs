//! As many terms made equal as there are.

use super::arrangements::{placed, Arrange};
use super::{assume_arranged, keys, links, variables};
use crate::generator::closable::Closable;
use crate::generator::draft::{lit, TermId, MOST_IN_CLAUSE};
use crate::generator::full_tables::{fill, room};
use crate::generator::tableau::Tableau;

/// Regions each equal to the next, and the ends said to differ. The first link
/// is the key.
pub fn chain(arrange: Arrange) -> Tableau {
    let mut made = Closable::new();
    let count = room(&made.draft);
    let mut regions = variables(&mut made.draft, "rgv", count);
    regions.push(made.r);
    let regions = placed(&regions, arrange);
    let (first, last) = (regions[0], regions[regions.len() - 1]);
    made.draft.assume(lit(first, "ne", last));
    assume_arranged(&mut made, &links(&regions[1..], "eq"), arrange);
    made.fill_by_keys(keys(|index| lit(first, "eq", regions[1 + index])))
}

/// Regions all equal to one of them, which is the left side or the right one.
/// The key makes one more equal to it, and so to another from which it is said
/// to differ.
pub fn star(center_left: bool) -> Tableau {
    let mut made = Closable::new();
    let (center, draft) = (made.r, &mut made.draft);
    let count = room(draft);
    let regions = variables(draft, "rgv", count);
    let (in_keys, others) = regions.split_at(MOST_IN_CLAUSE);
    let join = |region| match center_left {
        true => lit(center, "eq", region),
        false => lit(region, "eq", center),
    };
    for region in in_keys {
        draft.assume(lit(*region, "ne", others[0]));
    }
    for region in others {
        draft.assume(join(*region));
    }
    made.fill_by_keys(keys(|index| join(in_keys[index])))
}

/// References in the tournament: a power of two.
const REFERENCES: usize = 128;
/// Reads of each.
const FIELDS: usize = 3;

/// Pairs of references made equal, then pairs of those, and so on, so that all
/// classes that are joined have one size. What is read of them becomes equal
/// too. The last join is the key.
pub fn tournament() -> Tableau {
    let mut made = Closable::new();
    let draft = &mut made.draft;
    let h = draft.variable("arv", 1);
    let references = variables(draft, "rfv", REFERENCES);
    let fields = variables(draft, "fnv", FIELDS);
    let mut read_of_ends = Vec::new();
    for (index, reference) in references.iter().enumerate() {
        for field in &fields {
            let read = draft.term("rea", &[h, *reference, *field]);
            if index == 0 || index == REFERENCES - 1 {
                read_of_ends.push(read);
            }
        }
    }
    types(&mut made, &references);
    fill(&mut made.draft, 0);
    made.draft
        .assume(lit(read_of_ends[0], "ne", read_of_ends[FIELDS]));
    let mut distance = 1;
    while distance < REFERENCES / 2 {
        for first in (0..REFERENCES).step_by(2 * distance) {
            let pair = lit(references[first], "eq", references[first + distance]);
            made.draft.assume(pair);
        }
        distance *= 2;
    }
    assert!(MOST_IN_CLAUSE <= distance);
    made.fill_by_keys(keys(|index| {
        lit(references[index], "eq", references[distance + index])
    }))
}

/// Makes the classes of as many references as the table has room for.
fn types(made: &mut Closable, references: &[TermId]) {
    for reference in references {
        if room(&made.draft) > 0 {
            made.draft.term("typ", &[*reference]);
        }
    }
}
