//! Tables whose terms share the hash of `all`: a search by hash for any of them
//! meets the others.

use super::hash::hash;
use super::lookups::{self, Image};
use super::room;
use crate::generator::closable::Closable;
use crate::generator::draft::{Draft, TermId};
use crate::generator::tableau::Tableau;

/// How many terms have to share the hash at least.
const SHARING: usize = 500;
/// Reference and field variables: so many that there is no lack of terms to
/// choose from.
const VARIABLES: usize = 20;
/// How many of them stand behind a late `all` at least.
const BEHIND: usize = 8;
/// The ways to write to one heap.
const WRITES: usize = VARIABLES * VARIABLES * VARIABLES;

/// `all` stands before the others, so that a search from the last term back
/// meets all of them first.
pub fn all_early() -> Tableau {
    let mut made = Closable::new();
    made.draft.term("all", &[]);
    let mut writes = Writes::new(&mut made.draft);
    writes.fill(&mut made.draft, 0);
    lookups::all(made)
}

/// `all` stands behind most of them, so that a search from the first term on
/// does.
pub fn all_late() -> Tableau {
    let mut made = Closable::new();
    let mut writes = Writes::new(&mut made.draft);
    writes.fill(&mut made.draft, BEHIND + 1);
    made.draft.term("all", &[]);
    writes.fill(&mut made.draft, 0);
    lookups::all(made)
}

/// The read that `img` looks up has the hash too.
pub fn img() -> Tableau {
    let mut made = Closable::new();
    made.draft.term("all", &[]);
    let mut writes = Writes::new(&mut made.draft);
    let (heap, field) = loop {
        let heap = writes.next(&mut made.draft);
        let shares = |field: &&TermId| shares_hash("rea", &[heap, made.u, **field]);
        if let Some(field) = writes.fields.iter().find(shares) {
            break (heap, *field);
        }
    };
    let image = Image::make(&mut made, heap, field);
    writes.fill(&mut made.draft, 0);
    image.fill(made)
}

/// The terms `wri` with the hash wanted: writes to a heap variable, to the
/// heaps thus made, and so on.
pub struct Writes {
    pub references: Vec<TermId>,
    pub fields: Vec<TermId>,
    heaps: Vec<TermId>,
    tried: usize,
}

impl Writes {
    pub fn new(draft: &mut Draft) -> Writes {
        let names = 1..=VARIABLES as u32;
        Writes {
            references: names
                .clone()
                .map(|name| draft.variable("rfv", name))
                .collect(),
            fields: names.map(|name| draft.variable("fnv", name)).collect(),
            heaps: vec![draft.variable("arv", 1)],
            tried: 0,
        }
    }

    /// Makes the next term.
    pub fn next(&mut self, draft: &mut Draft) -> TermId {
        loop {
            let arguments = self.arguments();
            self.tried += 1;
            if shares_hash("wri", &arguments) {
                let write = draft.term("wri", &arguments);
                self.heaps.push(write);
                return write;
            }
        }
    }

    fn arguments(&self) -> [TermId; 4] {
        let (heap, write) = (self.tried / WRITES, self.tried % WRITES);
        let (pair, value) = (write / VARIABLES, write % VARIABLES);
        [
            self.heaps[heap],
            self.references[pair / VARIABLES],
            self.fields[pair % VARIABLES],
            self.references[value],
        ]
    }

    /// Makes terms until there is room for so many more.
    pub fn fill(&mut self, draft: &mut Draft, room_left: usize) {
        while room(draft) > room_left {
            self.next(draft);
        }
        assert!(self.heaps.len() > SHARING);
    }
}

/// Whether a term has the hash of `all`. Terms keep the order in which they are
/// made, so their numbers are known.
fn shares_hash(word: &str, arguments: &[TermId]) -> bool {
    let mut fields = [0; 4];
    for (field, argument) in fields.iter_mut().zip(arguments) {
        *field = argument.0 as u64 + 1;
    }
    hash(word, fields) == hash("all", [0; 4])
}
