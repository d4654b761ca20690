//! Closings by `bck`, as many as there may be. What is assumed contradicts
//! itself together with any literal of one clause, the keys, but not without.

use super::STEPS;
use crate::generator::closable::Closable;
use crate::generator::draft::{lit, Literal, MOST_IN_CLAUSE, MOST_PLACES};
use crate::generator::tableau::{self, lines_in_order, Tableau};

const MOST_BYTES: usize = 60_000;
/// The bytes of a step on small numbers: of every step here.
const STEP_BYTES: usize = "S,bck,0,0,0,0\n".len();
/// How many splits without a key lie above one with keys. So many leave room
/// for more closings than there can be.
const LEVELS: usize = 4;
/// The most assumptions, so that the splits have places, and the few steps that
/// make their number full.
pub const MOST_ASSUMPTIONS: usize = MOST_PLACES - LEVELS - MOST_IN_CLAUSE;

/// Each makes what is assumed contradict itself.
pub type Keys = [Literal; MOST_IN_CLAUSE];

impl Closable {
    /// As many steps as files with full tables have.
    pub fn close_by_keys(self, keys: Keys) -> Tableau {
        self.close_in_steps(keys, |_| STEPS)
    }

    /// As many steps as a file has room for.
    pub fn fill_by_keys(self, keys: Keys) -> Tableau {
        self.close_in_steps(keys, |made| {
            let before = tableau::text(&lines_in_order(&made.draft)).len();
            (MOST_BYTES - before) / STEP_BYTES
        })
    }

    /// Splits into branches without a key, and each of those into branches with
    /// one each, which `bck` closes. The last branch has none, and is closed by
    /// `cls`.
    fn close_in_steps(mut self, keys: Keys, most: impl Fn(&Closable) -> usize) -> Tableau {
        let no_key = lit(self.u, "in", self.r);
        let split = self.draft.assume_among(vec![no_key; MOST_IN_CLAUSE]);
        let keys = self.draft.assume_among(keys.to_vec());
        let steps = most(&self);
        let start = self.draft.length();
        assert!(start <= MOST_ASSUMPTIONS);
        let has_steps = |made: &Closable, more: usize| {
            // What waits is closed besides.
            made.draft.steps.len() + more + made.draft.waiting() <= steps
        };
        while !self.draft.is_closed() {
            let deep = self.draft.length() - start >= LEVELS;
            if !deep && has_steps(&self, 2 * (MOST_IN_CLAUSE + 1)) {
                self.draft.cla(split);
            } else if self.draft.waiting() > 0 && has_steps(&self, MOST_IN_CLAUSE + 1) {
                self.draft.cla(keys);
                for _ in 0..MOST_IN_CLAUSE {
                    self.draft.bck();
                }
            } else if has_steps(&self, 2) {
                self.draft.reflexive(self.u);
            } else {
                self.cls();
            }
        }
        tableau::in_order(&self.draft)
    }
}
