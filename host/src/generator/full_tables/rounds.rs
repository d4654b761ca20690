//! The same few steps again and again, on one branch after the other.

use super::STEPS;
use crate::generator::closable::Closable;
use crate::generator::draft::MOST_PLACES;
use crate::generator::tableau::Tableau;

/// What a round takes. It leaves as many alternatives waiting as it finds.
pub struct Round {
    pub steps: usize,
    pub places: usize,
    /// Rounds that one branch may have, where not only its places run out.
    pub most: usize,
}

impl Round {
    pub fn of(steps: usize, places: usize) -> Round {
        Round {
            steps,
            places,
            most: MOST_PLACES,
        }
    }
}

impl Closable {
    /// Whether so many steps more leave enough to close what is open.
    pub fn has_steps(&self, more: usize) -> bool {
        let closings = self.draft.waiting() + 1;
        self.draft.steps.len() + more + closings <= STEPS
    }

    /// Rounds, each given its number on its branch, until the steps run out. A
    /// cut before each branch lets a closing come back from it.
    pub fn fill_with(
        mut self,
        round: Round,
        mut make: impl FnMut(&mut Closable, usize),
    ) -> Tableau {
        // A cut and its closing besides.
        while self.has_steps(round.steps + 2) {
            self.draft.cut(self.u, self.r);
            let room = (MOST_PLACES - self.draft.length()) / round.places;
            for number in 0..room.min(round.most) {
                if self.has_steps(round.steps) {
                    make(&mut self, number);
                }
            }
            self.cls();
        }
        self.pad()
    }

    /// Adds what a round was too long for, and closes.
    pub fn pad(mut self) -> Tableau {
        while self.has_steps(1) {
            self.draft.reflexive(self.u);
        }
        self.close()
    }
}
