//! The closing `bck`, written from the request "Let the checker close on
//! equalities by itself" alone and for plainness only. Sentences in quotes are
//! the request's, rows of rules those of document 01.

use crate::independent::{sort_of_word, takes_name, Literal, LiteralWord, Sort, Term, MOST_TERMS};

/// A relation over the terms in the table, by their indices: term number n has
/// index n - 1. It is a table of yes and no, with a row for each term.
#[derive(Debug, Clone, PartialEq, Eq)]
pub struct Relation {
    rows: Vec<Row>,
}

/// One bit for each term to which a term is in relation.
type Row = [u64; MOST_TERMS.div_ceil(64)];

impl Relation {
    fn nothing(terms: usize) -> Relation {
        let rows = vec![Row::default(); terms];
        Relation { rows }
    }

    pub fn has(&self, a: usize, b: usize) -> bool {
        self.rows[a][b / 64] >> (b % 64) & 1 == 1
    }

    pub fn put(&mut self, a: usize, b: usize) {
        self.rows[a][b / 64] |= 1 << (b % 64);
    }

    fn row(&self, a: usize) -> Row {
        self.rows[a]
    }

    /// Puts a in relation to every term of a row.
    fn put_row(&mut self, a: usize, row: Row) {
        for (bits, more) in self.rows[a].iter_mut().zip(row) {
            *bits |= more;
        }
    }
}

/// "the smallest pair of relations over the terms in the table"
#[derive(Debug, Clone, PartialEq, Eq)]
pub struct Relations {
    pub eq: Relation,
    pub le: Relation,
}

/// Puts into the relations what they lack by one of the conditions.
pub type Condition = fn(&[Term], &mut Relations);

/// "is closed under `ref`, `sym` on eq, `trn`, `sub` with several differing
/// arguments at once, `ler`, `let`, `lea`, and putting equals for equals in le",
/// on the left and on the right.
pub const CONDITIONS: [(&str, Condition); 9] = [
    ("ref", refl),
    ("sym", sym),
    ("trn", trn),
    ("sub", sub),
    ("ler", ler),
    ("let", le_trans),
    ("lea", lea),
    ("equals on the left", equals_on_the_left),
    ("equals on the right", equals_on_the_right),
];

/// The conditions without their names.
pub fn conditions() -> [Condition; CONDITIONS.len()] {
    CONDITIONS.map(|(_, condition)| condition)
}

/// "`bck` closes exactly when some ne literal on the branch has its two sides in
/// the eq relation, or some nl literal its two, left then right, in the le
/// relation."
pub fn closes(terms: &[Term], branch: &[Literal]) -> bool {
    contradicts(&smallest(terms, branch, &conditions()), branch)
}

/// Whether the relations have the two sides of some literal that denies them.
pub fn contradicts(relations: &Relations, branch: &[Literal]) -> bool {
    branch.iter().any(|literal| {
        let (left, right) = (index(literal.left), index(literal.right));
        match literal.word {
            LiteralWord::Ne => relations.eq.has(left, right),
            LiteralWord::Nl => relations.le.has(left, right),
            _ => false,
        }
    })
}

/// "Take the smallest pair of relations over the terms in the table that holds
/// the branch's eq and le literals and is closed under" the conditions. What is
/// put in has to be in every such pair; where all conditions one after the other
/// put in nothing more, the pair is closed under each.
pub fn smallest(terms: &[Term], branch: &[Literal], conditions: &[Condition]) -> Relations {
    let mut relations = literals(terms, branch);
    loop {
        let before = relations.clone();
        for condition in conditions {
            condition(terms, &mut relations);
        }
        if relations == before {
            return relations;
        }
    }
}

/// The pair that "holds the branch's eq and le literals", and nothing else.
pub fn literals(terms: &[Term], branch: &[Literal]) -> Relations {
    let mut relations = Relations {
        eq: Relation::nothing(terms.len()),
        le: Relation::nothing(terms.len()),
    };
    for literal in branch {
        let (left, right) = (index(literal.left), index(literal.right));
        match literal.word {
            LiteralWord::Eq => relations.eq.put(left, right),
            LiteralWord::Le => relations.le.put(left, right),
            _ => {}
        }
    }
    relations
}

fn index(number: u32) -> usize {
    number as usize - 1
}

/// Every two terms, and each with itself.
fn pairs(terms: &[Term]) -> impl Iterator<Item = (usize, usize)> {
    let all = 0..terms.len();
    all.clone()
        .flat_map(move |a| all.clone().map(move |b| (a, b)))
}

/// ref | t | any term | t eq t
fn refl(terms: &[Term], relations: &mut Relations) {
    for t in 0..terms.len() {
        relations.eq.put(t, t);
    }
}

/// sym | p | a eq b | the same, sides changed
fn sym(terms: &[Term], Relations { eq, .. }: &mut Relations) {
    for (a, b) in pairs(terms) {
        if eq.has(a, b) {
            eq.put(b, a);
        }
    }
}

/// trn | p q | a eq b; b eq c | a eq c
fn trn(terms: &[Term], Relations { eq, .. }: &mut Relations) {
    for (a, b) in pairs(terms) {
        if eq.has(a, b) {
            eq.put_row(a, eq.row(b));
        }
    }
}

/// sub | t, w have one word, whose arguments are terms and not a name, and has at
/// least one | t eq w, where at each argument the two are a pair in eq: "several
/// differing arguments at once". Arguments that agree are such a pair by `ref`.
fn sub(terms: &[Term], relations: &mut Relations) {
    for (t, term_t) in terms.iter().enumerate() {
        if takes_name(term_t.word) || term_t.arguments.is_empty() {
            continue;
        }
        for (w, term_w) in terms.iter().enumerate() {
            if term_t.word != term_w.word {
                continue;
            }
            let mut arguments = term_t.arguments.iter().zip(&term_w.arguments);
            if arguments.all(|(of_t, of_w)| relations.eq.has(index(*of_t), index(*of_w))) {
                relations.eq.put(t, w);
            }
        }
    }
}

/// ler | t | class t | t le t
fn ler(terms: &[Term], relations: &mut Relations) {
    for (t, term) in terms.iter().enumerate() {
        if sort_of_word(term.word) == Sort::Class {
            relations.le.put(t, t);
        }
    }
}

/// let | p q | a le b; b le c | a le c
fn le_trans(terms: &[Term], Relations { le, .. }: &mut Relations) {
    for (a, b) in pairs(terms) {
        if le.has(a, b) {
            le.put_row(a, le.row(b));
        }
    }
}

/// lea | p q | a le b; b le a | a eq b
fn lea(terms: &[Term], Relations { eq, le }: &mut Relations) {
    for (a, b) in pairs(terms) {
        if le.has(a, b) && le.has(b, a) {
            eq.put(a, b);
        }
    }
}

/// "putting equals for equals in le": a eq b; b le c | a le c
fn equals_on_the_left(terms: &[Term], Relations { eq, le }: &mut Relations) {
    for (a, b) in pairs(terms) {
        if eq.has(a, b) {
            le.put_row(a, le.row(b));
        }
    }
}

/// "putting equals for equals in le": a le b; b eq c | a le c
fn equals_on_the_right(terms: &[Term], Relations { eq, le }: &mut Relations) {
    for (a, b) in pairs(terms) {
        if le.has(a, b) {
            le.put_row(a, eq.row(b));
        }
    }
}
