//! Tables whose terms share a hash in the proved checker. The hash is a sum of
//! products, so that terms with one hash and one argument in common have few
//! hashes when another takes this argument's place.

use super::arrangements::Arrange;
use super::congruences::make_levels;
use super::{keys, links, variables};
use crate::generator::closable::Closable;
use crate::generator::draft::{lit, TermId, MOST_IN_CLAUSE};
use crate::generator::full_tables::room;
use crate::generator::full_tables::shared_hash::Writes;
use crate::generator::tableau::Tableau;

/// A table of writes, and a short chain of classes whose first link is missing.
struct Chained {
    made: Closable,
    writes: Writes,
    classes: Vec<TermId>,
    /// Regions that stand in no other term.
    regions: Vec<TermId>,
}

impl Chained {
    fn new() -> Chained {
        let mut made = Closable::new();
        let classes = variables(&mut made.draft, "clv", MOST_IN_CLAUSE + 2);
        let regions = variables(&mut made.draft, "rgv", 2);
        let mut writes = Writes::new(&mut made.draft);
        writes.fill(&mut made.draft, 0);
        let last = classes[MOST_IN_CLAUSE + 1];
        for middle in &classes[1..=MOST_IN_CLAUSE] {
            made.draft.assume(lit(*middle, "le", last));
        }
        made.draft.assume(lit(classes[0], "nl", last));
        Chained {
            made,
            writes,
            classes,
            regions,
        }
    }

    fn finish(self) -> Tableau {
        let classes = self.classes;
        self.made
            .fill_by_keys(keys(|index| lit(classes[0], "le", classes[1 + index])))
    }
}

/// Nothing is equal.
pub fn apart() -> Tableau {
    Chained::new().finish()
}

/// Two terms are equal that stand in no other.
pub fn one_equation() -> Tableau {
    let mut chained = Chained::new();
    let regions = &chained.regions;
    chained.made.draft.assume(lit(regions[0], "eq", regions[1]));
    chained.finish()
}

/// Two references and two fields are equal, and by that some writes.
pub fn two_equations() -> Tableau {
    with_equal_arguments(2)
}

/// All references and all fields are, and by that all writes to one heap, which
/// are heaps themselves, and so on.
pub fn all_equal() -> Tableau {
    with_equal_arguments(usize::MAX)
}

/// So many references and fields are equal.
fn with_equal_arguments(count: usize) -> Tableau {
    let mut chained = Chained::new();
    let Writes {
        references, fields, ..
    } = &chained.writes;
    for list in [references, fields] {
        for literal in links(&list[..count.min(list.len())], "eq") {
            chained.made.draft.assume(literal);
        }
    }
    chained.finish()
}

/// Levels of congruences beside the writes: a checker that goes through the
/// table at each level takes longest with a third of the terms for the levels.
const LEVELS: usize = 100;

/// Terms become equal one after the other, and none of the writes do.
pub fn congruences(arrange: Arrange) -> Tableau {
    let mut made = Closable::new();
    let keys = make_levels(&mut made, LEVELS, arrange);
    let mut writes = Writes::new(&mut made.draft);
    while room(&made.draft) > 0 {
        writes.next(&mut made.draft);
    }
    made.fill_by_keys(keys)
}
