//! Closings by `bck`, which stand for many steps about equations and the order.

use super::key_clauses::Keys;
use super::rounds::Round;
use super::{fill, room};
use crate::generator::closable::Closable;
use crate::generator::draft::{lit, Draft, TermId};
use crate::generator::tableau::Tableau;

/// Objects that a routine writes to.
const OBJECTS: usize = 4;
/// Fields that it writes of each.
const FIELDS: usize = 5;

/// A routine that writes to some objects, and a read of another one, y, before
/// and after. The classes of the objects are below one that y's is not below.
struct Routine {
    /// The reads of y after each write, from the last to the first.
    reads: Vec<TermId>,
}

impl Routine {
    /// Makes its terms, and assumes that a union with the read, under other
    /// names of y and of its field, has changed.
    fn make(draft: &mut Draft, names: &mut u32) -> Routine {
        let h = variable(draft, "arv", names);
        let [y, other_y, value] = [(); 3].map(|_| variable(draft, "rfv", names));
        let [g, other_g] = [(); 2].map(|_| variable(draft, "fnv", names));
        let [class, greatest] = [(); 2].map(|_| variable(draft, "clv", names));
        let q = variable(draft, "rgv", names);
        let fields = [(); FIELDS].map(|_| variable(draft, "fnv", names));
        draft.assume(lit(y, "eq", other_y));
        draft.assume(lit(g, "eq", other_g));
        draft.assume(lit(class, "le", greatest));
        let class_of_y = draft.term("typ", &[other_y]);
        draft.assume(lit(class_of_y, "nl", greatest));
        let before = draft.term("rea", &[h, y, g]);
        let (mut heap, mut reads) = (h, Vec::new());
        for _ in 0..OBJECTS {
            let object = variable(draft, "rfv", names);
            let class_of_object = draft.term("typ", &[object]);
            draft.assume(lit(class_of_object, "le", class));
            for field in fields {
                heap = draft.term("wri", &[heap, object, field, value]);
                reads.push(draft.term("rea", &[heap, y, g]));
            }
        }
        reads.reverse();
        let after = draft.term("rea", &[heap, other_y, other_g]);
        let unions = [before, after].map(|read| {
            let sin = draft.term("sin", &[read]);
            draft.term("cup", &[q, sin])
        });
        draft.assume(lit(unions[1], "ne", unions[0]));
        Routine { reads }
    }

    /// The steps that prove it: after each write the read is what it was, since
    /// the object isn't y.
    fn prove(&self, draft: &mut Draft) {
        for read in &self.reads {
            draft.rdm(*read);
            draft.bck();
        }
        draft.bck();
    }
}

fn variable(draft: &mut Draft, word: &'static str, names: &mut u32) -> TermId {
    *names += 1;
    draft.variable(word, *names)
}

/// Routines that the table has room for.
const ROUTINES: usize = 8;
/// The steps of one's proof, and of a split before it.
const ROUTINE_STEPS: usize = 2 * OBJECTS * FIELDS + 2;
/// The rounds of one branch, so few that the proofs have places too.
const MOST_ROUNDS: usize = 500;

/// The proofs of some routines in turn.
pub fn routines() -> Tableau {
    let mut made = Closable::new();
    let mut names = 1;
    let routines = [(); ROUTINES].map(|_| Routine::make(&mut made.draft, &mut names));
    fill(&mut made.draft, 0);
    let round = Round {
        steps: ROUTINE_STEPS,
        places: 1,
        most: MOST_ROUNDS,
    };
    made.fill_with(round, |made, number| {
        made.draft.cut(made.u, made.r);
        routines[number % ROUTINES].prove(&mut made.draft);
    })
}

/// Groups of references that are equal, with what is read of each, and its
/// class.
const GROUPS: usize = 40;
const IN_GROUP: usize = 4;

/// Many equal references, many classes below others, and many literals that
/// deny what does not follow. A key makes two groups equal, or puts the greatest
/// class below a lesser one.
pub fn long_branch() -> Tableau {
    let mut made = Closable::new();
    let draft = &mut made.draft;
    let mut names = 1;
    let h = variable(draft, "arv", &mut names);
    let f = variable(draft, "fnv", &mut names);
    let groups = [(); GROUPS].map(|_| [(); IN_GROUP].map(|_| variable(draft, "rfv", &mut names)));
    let reads = groups.map(|group| group.map(|x| draft.term("rea", &[h, x, f])));
    let types = groups.map(|group| group.map(|x| draft.term("typ", &[x])));
    let mut classes = Vec::new();
    while room(draft) > 0 {
        classes.push(variable(draft, "clv", &mut names));
    }
    let greatest = classes[classes.len() - 1];
    for (index, group) in groups.iter().enumerate() {
        for next in group.windows(2) {
            draft.assume(lit(next[0], "eq", next[1]));
        }
        draft.assume(lit(types[index][0], "le", classes[index]));
    }
    for next in classes.windows(2) {
        draft.assume(lit(next[0], "le", next[1]));
    }
    for index in 0..GROUPS {
        let next = (index + 1) % GROUPS;
        draft.assume(lit(groups[index][1], "ne", groups[next][2]));
        draft.assume(lit(reads[index][3], "ne", reads[next][3]));
        draft.assume(lit(types[index][2], "ne", classes[next]));
        draft.assume(lit(classes[index], "nl", types[index][3]));
        draft.assume(lit(classes[next], "nl", types[index][1]));
    }
    let keys: Keys = std::array::from_fn(|index| match index % 2 {
        0 => lit(groups[index][0], "eq", groups[index + 1][0]),
        _ => lit(greatest, "le", types[GROUPS - index][0]),
    });
    made.close_by_keys(keys)
}
