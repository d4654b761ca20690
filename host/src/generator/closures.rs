//! Single closings by `bck`, of contradictions that take 1 to 30 steps, and their
//! near misses: of literals that are all needed one is missing, denied, turned
//! around or not on the branch; one argument of several isn't equal; an order is
//! denied the other way round, or taken for an equation; names are the numbers of equal terms; only members contradict
//! each other. All variables are new, so that nothing else follows.

use crate::random::Random;

use super::draft::{denial, lit, Draft, Literal, Operation, Sort, TermId, OPERATIONS};
use super::entailed::{any, equal, under, Entailed, Fresh, Source};
use super::tableau::{self, text, Tableau};
use super::{accepted, refusal, Sample};

type Case = fn(&mut Fresh, usize) -> Option<(Kind, Vec<Literal>)>;

/// What a file is, and whether it is refused with 12 at its last line.
type Kind = (&'static str, bool);

const MISSES: [Case; 12] = [
    link_missing,
    link_missing,
    argument_unequal,
    argument_unequal,
    link_denied,
    order_turned,
    order_denied_the_other_way,
    order_for_an_equation,
    other_words,
    names_for_terms,
    link_in_a_clause,
    link_in_a_closed_alternative,
];

const FITS: [Case; 4] = [whole, whole, itself, in_both_alternatives];

/// From 1 to 30.
fn some_steps(random: &mut Random) -> usize {
    let most = random.pick(&[1, 4, 10, 30]);
    1 + random.below(most)
}

pub fn sample(random: &mut Random) -> Sample {
    let case = if random.chance(1, 3) {
        random.pick(&FITS)
    } else {
        random.pick(&MISSES)
    };
    let steps = some_steps(random);
    let mut fresh = Fresh {
        draft: Draft::default(),
        random,
    };
    let mut made = case(&mut fresh, steps);
    if made.is_none() {
        fresh.draft = Draft::default();
        made = whole(&mut fresh, steps);
    }
    let ((kind, is_missed), literals) = made.expect("a contradiction");
    for literal in literals {
        fresh.draft.assume(literal);
    }
    noise(&mut fresh);
    while !fresh.draft.is_closed() {
        fresh.draft.bck();
    }
    finish(kind, is_missed, fresh)
}

/// A contradiction so small that many heaps can be tried on its literals.
pub fn small(random: &mut Random) -> Tableau {
    let steps = random.below(4);
    let mut fresh = Fresh {
        draft: Draft::default(),
        random,
    };
    let (_, literals, denial) = contradiction(&mut fresh, steps);
    for literal in literals {
        fresh.draft.assume(literal);
    }
    fresh.draft.assume(denial);
    fresh.draft.bck();
    tableau::shuffled(&fresh.draft, fresh.random)
}

/// Names that are numbers of terms must stay so; all else is in any order.
fn finish(kind: &'static str, is_missed: bool, fresh: Fresh) -> Sample {
    let Fresh { draft, random } = fresh;
    let tableau = if kind == NAMES {
        tableau::in_order(&draft)
    } else {
        tableau::shuffled(&draft, random)
    };
    if !is_missed {
        return accepted(kind, &tableau);
    }
    Sample {
        kind,
        bytes: text(&tableau.lines),
        expected: refusal(12, tableau.lines.len()),
    }
}

const NAMES: &str = "names taken for terms by bck";

fn missed(kind: &'static str, literals: Vec<Literal>) -> Option<(Kind, Vec<Literal>)> {
    Some(((kind, true), literals))
}

fn fitting(kind: &'static str, literals: Vec<Literal>) -> Option<(Kind, Vec<Literal>)> {
    Some(((kind, false), literals))
}

/// A contradiction: literals that entail something, and its denial.
fn contradiction(fresh: &mut Fresh, steps: usize) -> (Entailed, Vec<Literal>, Literal) {
    let entailed = any(fresh, steps);
    let literals = entailed.literals();
    let denial = entailed.denial(fresh.random);
    (entailed, literals, denial)
}

fn whole(fresh: &mut Fresh, steps: usize) -> Option<(Kind, Vec<Literal>)> {
    let (_, mut literals, denial) = contradiction(fresh, steps);
    literals.push(denial);
    fitting("a contradiction for bck", literals)
}

/// A term ne itself, or a class nl itself.
fn itself(fresh: &mut Fresh, steps: usize) -> Option<(Kind, Vec<Literal>)> {
    let (entailed, mut literals, _) = contradiction(fresh, steps);
    let side = fresh.random.pick(&[entailed.left, entailed.right]);
    let is_class = fresh.draft.sort(side) == Sort::Class;
    let word = if is_class && fresh.random.chance(1, 2) {
        "nl"
    } else {
        "ne"
    };
    literals.push(lit(side, word, side));
    fitting("a term denied itself for bck", literals)
}

/// One of the literals comes from a clause, whose other literal contradicts
/// itself or is as good.
fn in_both_alternatives(fresh: &mut Fresh, steps: usize) -> Option<(Kind, Vec<Literal>)> {
    let (entailed, mut literals, denial) = contradiction(fresh, steps);
    literals.push(denial);
    let moved = literals.swap_remove(fresh.random.below(literals.len()));
    let other = match fresh.random.below(3) {
        0 => lit(entailed.left, "ne", entailed.left),
        1 if matches!(moved.word, "eq" | "ne") => lit(moved.right, moved.word, moved.left),
        _ => moved,
    };
    split(fresh, [moved, other]);
    fitting("contradictions for bck in both alternatives", literals)
}

fn split(fresh: &mut Fresh, literals: [Literal; 2]) {
    let clause = fresh.draft.assume_among(literals.to_vec());
    fresh.draft.cla(clause);
}

fn link_missing(fresh: &mut Fresh, steps: usize) -> Option<(Kind, Vec<Literal>)> {
    let (_, mut literals, denial) = contradiction(fresh, steps);
    literals.swap_remove(fresh.random.below(literals.len()));
    literals.push(denial);
    missed("a link missing for bck", literals)
}

fn link_denied(fresh: &mut Fresh, steps: usize) -> Option<(Kind, Vec<Literal>)> {
    let (_, mut literals, denied) = contradiction(fresh, steps);
    let at = fresh.random.below(literals.len());
    literals[at].word = denial(literals[at].word);
    literals.push(denied);
    missed("a link denied for bck", literals)
}

/// Two terms with one word, whose arguments are all equal but one.
fn argument_unequal(fresh: &mut Fresh, steps: usize) -> Option<(Kind, Vec<Literal>)> {
    let arguments = |&(word, sorts): &Operation| (0..sorts.len()).map(move |at| (word, sorts, at));
    let all: Vec<_> = OPERATIONS.iter().flat_map(arguments).collect();
    let (word, sorts, unequal) = fresh.random.pick(&all);
    let part = fresh.random.below(2) * steps / sorts.len();
    let mut literals = Vec::new();
    let (mut left, mut right) = (Vec::new(), Vec::new());
    for (at, sort) in sorts.iter().enumerate() {
        let (one, other) = if at == unequal {
            (fresh.leaf(*sort), fresh.leaf(*sort))
        } else if fresh.random.chance(1, 3) {
            let same = fresh.leaf(*sort);
            (same, same)
        } else {
            let entailed = equal(fresh, *sort, part, true);
            literals.extend(entailed.literals());
            (entailed.left, entailed.right)
        };
        left.push(one);
        right.push(other);
    }
    let left = fresh.draft.term(word, &left);
    let right = fresh.draft.term(word, &right);
    literals.push(lit(left, "ne", right));
    missed("one argument unequal for bck", literals)
}

/// The sides of one order exchanged.
fn order_turned(fresh: &mut Fresh, steps: usize) -> Option<(Kind, Vec<Literal>)> {
    let (_, mut literals, denial) = contradiction(fresh, steps);
    let orders: Vec<usize> = (0..literals.len())
        .filter(|at| literals[*at].word == "le")
        .collect();
    if orders.is_empty() {
        return None;
    }
    let at = fresh.random.pick(&orders);
    literals[at] = lit(literals[at].right, "le", literals[at].left);
    literals.push(denial);
    missed("an order turned around for bck", literals)
}

/// b nl a, where a le b follows.
fn order_denied_the_other_way(fresh: &mut Fresh, steps: usize) -> Option<(Kind, Vec<Literal>)> {
    let entailed = under(fresh, steps);
    let mut literals = entailed.literals();
    literals.push(lit(entailed.right, "nl", entailed.left));
    missed("an order denied the other way", literals)
}

/// a ne b, where a le b follows.
fn order_for_an_equation(fresh: &mut Fresh, steps: usize) -> Option<(Kind, Vec<Literal>)> {
    let entailed = under(fresh, steps);
    let mut literals = entailed.literals();
    let (left, right) = (entailed.left, entailed.right);
    let (one, other) = fresh.random.pick(&[(left, right), (right, left)]);
    literals.push(lit(one, "ne", other));
    missed("an order taken for an equation", literals)
}

/// Equal arguments of two words.
fn other_words(fresh: &mut Fresh, steps: usize) -> Option<(Kind, Vec<Literal>)> {
    let words = ["cup", "cap", "dif"];
    let at = fresh.random.below(3);
    let (word, other) = (words[at], words[(at + 1 + fresh.random.below(2)) % 3]);
    let first = equal(fresh, Sort::Region, steps, true);
    let second = equal(fresh, Sort::Region, 0, true);
    let left = fresh.draft.term(word, &[first.left, second.left]);
    let right = fresh.draft.term(other, &[first.right, second.right]);
    let mut literals = [first.literals(), second.literals()].concat();
    literals.push(lit(left, "ne", right));
    missed("equal arguments of two words for bck", literals)
}

/// Two variables whose names are the numbers of terms that are equal.
fn names_for_terms(fresh: &mut Fresh, steps: usize) -> Option<(Kind, Vec<Literal>)> {
    let sort = fresh
        .random
        .pick(&[Sort::Reference, Sort::Region, Sort::Class]);
    let entailed = equal(fresh, sort, steps, true);
    let word = fresh.random.pick(&["rfv", "rgv", "arv", "fnv", "clv"]);
    let names = [entailed.left, entailed.right].map(|TermId(index)| index as u32 + 1);
    if names
        .iter()
        .any(|name| fresh.draft.has_variable(word, *name))
    {
        return None;
    }
    let [left, right] = names.map(|name| fresh.draft.variable(word, name));
    let mut literals = entailed.literals();
    literals.push(lit(left, "ne", right));
    missed(NAMES, literals)
}

/// One of the literals stands in a clause only, which nothing splits.
fn link_in_a_clause(fresh: &mut Fresh, steps: usize) -> Option<(Kind, Vec<Literal>)> {
    let (_, mut literals, denial) = contradiction(fresh, steps);
    literals.push(denial);
    let moved = literals.swap_remove(fresh.random.below(literals.len()));
    fresh.draft.assume_among(vec![moved]);
    missed("a link for bck in a clause only", literals)
}

/// One of the literals stands in the first alternative, and nothing like it in
/// the second.
fn link_in_a_closed_alternative(fresh: &mut Fresh, steps: usize) -> Option<(Kind, Vec<Literal>)> {
    let (_, mut literals, denial) = contradiction(fresh, steps);
    literals.push(denial);
    let moved = literals.swap_remove(fresh.random.below(literals.len()));
    let other = unrelated(fresh);
    split(fresh, [moved, other]);
    missed("a link for bck in a closed alternative", literals)
}

/// A literal about new variables.
fn unrelated(fresh: &mut Fresh) -> Literal {
    let (sort, word) = fresh.random.pick(&[
        (Sort::Reference, "eq"),
        (Sort::Region, "ne"),
        (Sort::Heap, "eq"),
        (Sort::Field, "ne"),
        (Sort::Class, "eq"),
        (Sort::Class, "ne"),
        (Sort::Class, "le"),
        (Sort::Class, "nl"),
    ]);
    lit(fresh.leaf(sort), word, fresh.leaf(sort))
}

/// Literals that change nothing: about new variables, or of members, which may
/// contradict each other; and terms made of old ones.
fn noise(fresh: &mut Fresh) {
    for _ in 0..fresh.random.below(4) {
        match fresh.random.below(3) {
            0 => {
                let literal = unrelated(fresh);
                fresh.draft.assume(literal);
            }
            1 => members(fresh),
            _ => larger_term(fresh),
        }
    }
}

/// u in r and u ni r, or u in emp; u and r are old or new.
fn members(fresh: &mut Fresh) {
    let mut some = |sort| {
        let known = fresh.draft.terms_of_sort(sort);
        if known.is_empty() || fresh.random.chance(1, 3) {
            return fresh.leaf(sort);
        }
        fresh.random.pick(&known)
    };
    let (u, r) = (some(Sort::Reference), some(Sort::Region));
    fresh.draft.assume(lit(u, "in", r));
    if fresh.random.chance(3, 4) {
        fresh.draft.assume(lit(u, "ni", r));
    }
}

fn larger_term(fresh: &mut Fresh) {
    let all = 0..fresh.draft.terms.len();
    let of = TermId(fresh.random.pick(&all.collect::<Vec<_>>()));
    match fresh.draft.sort(of) {
        Sort::Reference => fresh.draft.term("sin", &[of]),
        Sort::Region => fresh.draft.term("cup", &[of, of]),
        Sort::Field => fresh.draft.term("dty", &[of]),
        Sort::Heap | Sort::Class => return,
    };
}
