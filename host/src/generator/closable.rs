//! A draft every branch of which can be closed at once.

use super::draft::{lit, Draft, Place, TermId};
use super::tableau::{self, Tableau};

/// Two assumptions that deny each other: u in r and u ni r.
pub struct Closable {
    pub draft: Draft,
    pub u: TermId,
    pub r: TermId,
}

/// Where u in r stands.
pub const MEMBER: Place = Place::Assumed(0);
/// Where u ni r stands.
pub const NO_MEMBER: Place = Place::Assumed(1);

impl Closable {
    pub fn new() -> Closable {
        let mut draft = Draft::default();
        let u = draft.variable("rfv", 1);
        let r = draft.variable("rgv", 1);
        draft.assume(lit(u, "in", r));
        draft.assume(lit(u, "ni", r));
        Closable { draft, u, r }
    }

    /// Closes one branch.
    pub fn cls(&mut self) {
        self.draft.cls(MEMBER, NO_MEMBER);
    }

    /// Closes all branches that are open.
    pub fn close(mut self) -> Tableau {
        while !self.draft.is_closed() {
            self.cls();
        }
        tableau::in_order(&self.draft)
    }
}
