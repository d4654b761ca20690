//! Files with 600 terms and 2,500 steps, to time the checkers on. Each kind is
//! named after the rule that its steps are about; closings go with the rules
//! that split.

mod additions;
mod background;
mod freshness;
pub mod hash;
pub mod hostile;
mod key_clauses;
mod lookups;
mod mixtures;
mod rounds;
mod shared_hash;
mod splits;

use super::draft::{Draft, MOST_TERMS};
use super::tableau::{plain_line, text, Entry, Tableau};
use super::{accepted, refusal, Sample};

pub const STEPS: usize = 2_500;

/// An accepted file, and one that differs in its last line and is refused
/// there.
pub struct FullTable {
    pub accepted: Sample,
    pub refused: Sample,
}

/// The name of a kind, and how a file of it is made.
type Kind = (&'static str, fn() -> Tableau);

const KINDS: &[Kind] = &[
    ("`cut`, one waits", splits::cut_shallow),
    ("`cut`, 200 wait", splits::cut_deep),
    ("`cue`", splits::cue),
    ("`sgi`", splits::sgi),
    ("`img`, terms early", lookups::img_early),
    ("`img`, terms late", lookups::img_late),
    ("`rdm`, nested writes", lookups::rdm),
    ("`fin`", lookups::fin),
    ("`all`, term early", lookups::all_early),
    ("`all`, term late", lookups::all_late),
    ("`nul`, term early", lookups::nul_early),
    ("`nul`, term late", lookups::nul_late),
    ("`all`, shared hash, term early", shared_hash::all_early),
    ("`all`, shared hash, term late", shared_hash::all_late),
    ("`img`, shared hash", shared_hash::img),
    ("`sym`, long branch", additions::sym),
    ("`trn`, long branch", additions::trn),
    ("`rep`, long branch", additions::rep),
    ("`sub`", additions::sub),
    ("`ref`", additions::reflexive),
    ("`ref`, names of four digits", || {
        additions::reflexive_from(1_000)
    }),
    ("`ref`, names of five digits", || {
        additions::reflexive_from(10_000)
    }),
    ("`ext`", freshness::ext),
    ("`wit`", freshness::wit),
    ("`ext`, deep terms", freshness::ext_deep_terms),
    ("region rules", mixtures::region_rules),
    ("class and heap rules", mixtures::class_and_heap_rules),
    ("900 A lines", mixtures::many_assumptions),
    ("`cla`, 50 clauses of 8", splits::clauses_of_eight),
    ("`cla`, 200 clauses of 2", splits::clauses_of_two),
    ("`bck`, routines", background::routines),
    ("`bck`, long branch", background::long_branch),
];

pub fn all() -> Vec<FullTable> {
    let made = KINDS.iter().map(|(kind, make)| full_table(kind, make()));
    made.collect()
}

/// The last closing turned around is what the rule doesn't allow. Where others
/// are by `bck`, it doesn't allow the last one, a `cls` of `in` and `ni`.
fn full_table(kind: &'static str, tableau: Tableau) -> FullTable {
    let mut lines = tableau.lines.clone();
    let last = lines.len() - 1;
    if tableau.rules().any(|rule| rule == "bck") {
        lines[last] = plain_line('S', "bck", [Entry::Unused; 4]);
    } else {
        lines[last].entries.swap(0, 1);
    }
    FullTable {
        accepted: accepted(kind, &tableau),
        refused: Sample {
            kind,
            bytes: text(&lines),
            expected: refusal(12, last + 1),
        },
    }
}

/// Makes regions that no step needs, until there is room for so many terms
/// more.
fn fill(draft: &mut Draft, room_left: usize) {
    fill_from(draft, room_left, 2);
}

/// The same, with names from this one on.
fn fill_from(draft: &mut Draft, room_left: usize, least_name: u32) {
    let mut name = least_name;
    while room(draft) > room_left {
        draft.variable("rgv", name);
        name += 1;
    }
}

/// How many terms the table has room for.
fn room(draft: &Draft) -> usize {
    MOST_TERMS - draft.terms.len()
}
