//! Checkers that are wrong about `bck` alone.

use host::call::Numbers;
use host::checkers::{plain_rust, plain_rust_by as by, Checker};
use host::independent::{sort_of_word, takes_name, Literal, LiteralWord, Sort, Term};
use host::independent_closure::{
    closes, conditions, contradicts, literals, smallest, Condition, Relations, CONDITIONS,
};

/// Checkers that the comparison finds.
pub const WRONG_CLOSURES: [Checker; 35] = [
    ("bck closes always", |file| by(file, |_, _| true)),
    ("bck never closes", |file| by(file, |_, _| false)),
    ("bck is no closing", not_counted),
    ("bck takes any field", any_field),
    ("bck after the tree is closed", after_the_end),
    ("nl taken right then left", |file| by(file, order_reversed)),
    ("nl taken either way", |file| by(file, order_either_way)),
    ("no nl", |file| {
        by(file, |t, b| without_word(t, b, LiteralWord::Nl))
    }),
    ("no ne", |file| {
        by(file, |t, b| without_word(t, b, LiteralWord::Ne))
    }),
    ("le taken for eq", |file| by(file, order_for_equality)),
    ("bck uses members", |file| by(file, with_members)),
    ("the first ne or nl only", |file| by(file, first_denial)),
    ("the last ne or nl only", |file| by(file, last_denial)),
    ("no ref", |file| by(file, without::<REF>)),
    ("no sym", |file| by(file, without::<SYM>)),
    ("no trn", |file| by(file, without::<TRN>)),
    ("no sub", |file| by(file, without::<SUB>)),
    ("no ler", |file| by(file, without::<LER>)),
    ("no let", |file| by(file, without::<LET>)),
    ("no lea", |file| by(file, without::<LEA>)),
    ("no equals for equals", |file| by(file, without_equals)),
    ("equals of literals alone in le", |file| {
        by(file, equals_of_literals)
    }),
    ("circles of two literals alone", |file| {
        by(file, circles_of_two)
    }),
    ("the first argument forgotten", |file| {
        by(file, |t, b| with_sub(t, b, forgetting::<0>))
    }),
    ("the second argument forgotten", |file| {
        by(file, |t, b| with_sub(t, b, forgetting::<1>))
    }),
    ("the third argument forgotten", |file| {
        by(file, |t, b| with_sub(t, b, forgetting::<2>))
    }),
    ("the fourth argument forgotten", |file| {
        by(file, |t, b| with_sub(t, b, forgetting::<3>))
    }),
    ("one differing argument only", |file| {
        by(file, |t, b| with_sub(t, b, one_differing))
    }),
    ("arguments in any order", |file| {
        by(file, |t, b| with_sub(t, b, any_order))
    }),
    ("names compared", |file| {
        by(file, |t, b| with_sub(t, b, with_names))
    }),
    ("words not compared", |file| {
        by(file, |t, b| with_sub(t, b, whatever_the_word))
    }),
    ("equal terms have equal arguments", |file| {
        by(file, |t, b| with_sub(t, b, arguments_too))
    }),
    ("a round less", |file| by(file, a_round_less)),
    ("two rounds at most", |file| by(file, rounds::<2>)),
    ("four rounds at most", |file| by(file, rounds::<4>)),
];

/// Closures that are no others: equals put on one side in le can be had from the
/// other side, `ler`, `let` and `sym`.
pub const SAME_CLOSURES: [Checker; 2] = [
    ("equals on the right only", |file| by(file, without::<LEFT>)),
    ("equals on the left only", |file| by(file, without::<RIGHT>)),
];

// The conditions, by their order in the table.
const REF: usize = 0;
const SYM: usize = 1;
const TRN: usize = 2;
const SUB: usize = 3;
const LER: usize = 4;
const LET: usize = 5;
const LEA: usize = 6;
const LEFT: usize = 7;
const RIGHT: usize = 8;

fn lines(file: &[u8]) -> impl Iterator<Item = &[u8]> {
    file.split_inclusive(|byte| *byte == b'\n')
}

fn not_counted(file: &[u8]) -> Numbers {
    let mut reply = plain_rust(file);
    if reply[0] == 0 {
        let is_bck = |line: &&[u8]| line.starts_with(b"S,bck,");
        reply[5] -= lines(file).filter(is_bck).count() as u32;
    }
    reply
}

/// What the file gets with 0 in all fields of `bck`, where one is refused.
fn any_field(file: &[u8]) -> Numbers {
    let reply = plain_rust(file);
    if reply[0] != 6 {
        return reply;
    }
    let other = lines(file).map(|line| match line.starts_with(b"S,bck,") {
        true => b"S,bck,0,0,0,0\n",
        false => line,
    });
    plain_rust(&other.collect::<Vec<_>>().concat())
}

/// `bck` is no bad line where nothing is left to close.
fn after_the_end(file: &[u8]) -> Numbers {
    match plain_rust(file) {
        [5, line, ..] if lines(file).nth(line as usize - 1).is_some_and(is_plain_bck) => {
            let before = lines(file).take(line as usize - 1).collect::<Vec<_>>();
            plain_rust(&before.concat())
        }
        reply => reply,
    }
}

fn is_plain_bck(line: &[u8]) -> bool {
    line == b"S,bck,0,0,0,0\n"
}

/// The relations as they should be.
fn right_relations(terms: &[Term], branch: &[Literal]) -> Relations {
    smallest(terms, branch, &conditions())
}

/// The sides of the literals with this word, as indices.
fn sides(branch: &[Literal], word: LiteralWord) -> impl Iterator<Item = (usize, usize)> + '_ {
    let found = branch.iter().filter(move |literal| literal.word == word);
    found.map(|literal| (literal.left as usize - 1, literal.right as usize - 1))
}

fn order_reversed(terms: &[Term], branch: &[Literal]) -> bool {
    let Relations { eq, le } = right_relations(terms, branch);
    sides(branch, LiteralWord::Ne).any(|(left, right)| eq.has(left, right))
        || sides(branch, LiteralWord::Nl).any(|(left, right)| le.has(right, left))
}

fn order_either_way(terms: &[Term], branch: &[Literal]) -> bool {
    closes(terms, branch) || order_reversed(terms, branch)
}

/// Literals with this word deny nothing.
fn without_word(terms: &[Term], branch: &[Literal], word: LiteralWord) -> bool {
    let mut kept = branch.to_vec();
    kept.retain(|literal| literal.word != word);
    closes(terms, &kept)
}

fn order_for_equality(terms: &[Term], branch: &[Literal]) -> bool {
    let Relations { le, .. } = right_relations(terms, branch);
    closes(terms, branch) || sides(branch, LiteralWord::Ne).any(|(left, right)| le.has(left, right))
}

fn with_members(terms: &[Term], branch: &[Literal]) -> bool {
    let denied = |sides_of_in| sides(branch, LiteralWord::Ni).any(|sides| sides == sides_of_in);
    closes(terms, branch) || sides(branch, LiteralWord::In).any(denied)
}

fn is_denial(literal: &&Literal) -> bool {
    matches!(literal.word, LiteralWord::Ne | LiteralWord::Nl)
}

fn first_denial(terms: &[Term], branch: &[Literal]) -> bool {
    let first = branch.iter().find(is_denial).copied();
    contradicts(&right_relations(terms, branch), first.as_slice())
}

fn last_denial(terms: &[Term], branch: &[Literal]) -> bool {
    let last = branch.iter().rfind(is_denial).copied();
    contradicts(&right_relations(terms, branch), last.as_slice())
}

fn with(terms: &[Term], branch: &[Literal], conditions: &[Condition]) -> bool {
    contradicts(&smallest(terms, branch, conditions), branch)
}

/// Closed under all conditions but one.
fn without<const CONDITION: usize>(terms: &[Term], branch: &[Literal]) -> bool {
    let mut conditions = conditions().to_vec();
    conditions.remove(CONDITION);
    with(terms, branch, &conditions)
}

fn without_equals(terms: &[Term], branch: &[Literal]) -> bool {
    with(terms, branch, &conditions()[..LEFT])
}

/// The literals of the branch, and others that follow from each pair of them.
fn with_more(
    branch: &[Literal],
    follows: impl Fn(&Literal, &Literal) -> Option<LiteralWord>,
) -> Vec<Literal> {
    let mut all = branch.to_vec();
    for one in branch {
        for other in branch {
            let (left, right) = (one.left, one.right);
            all.extend(follows(one, other).map(|word| Literal { word, left, right }));
            let (left, right) = (right, left);
            all.extend(follows(one, other).map(|word| Literal { word, left, right }));
        }
    }
    all
}

/// What `sub` or `lea` makes equal is not put for its equals.
fn equals_of_literals(terms: &[Term], branch: &[Literal]) -> bool {
    let class = |number: u32| sort_of_word(terms[number as usize - 1].word) == Sort::Class;
    let branch = with_more(branch, |one, _| {
        (one.word == LiteralWord::Eq && class(one.left)).then_some(LiteralWord::Le)
    });
    without_equals(terms, &branch)
}

/// `lea` for literals that stand on the branch, and for no others.
fn circles_of_two(terms: &[Term], branch: &[Literal]) -> bool {
    let is_order = |literal: &Literal| literal.word == LiteralWord::Le;
    let branch = with_more(branch, |one, other| {
        let is_circle = (one.left, one.right) == (other.right, other.left);
        (is_order(one) && is_order(other) && is_circle).then_some(LiteralWord::Eq)
    });
    without::<LEA>(terms, &branch)
}

/// With another condition for `sub`.
fn with_sub(terms: &[Term], branch: &[Literal], sub: Condition) -> bool {
    let mut conditions = conditions();
    conditions[SUB] = sub;
    with(terms, branch, &conditions)
}

/// Puts two terms into eq where they are fit.
fn equal_where(
    terms: &[Term],
    relations: &mut Relations,
    fit: impl Fn(&Relations, &Term, &Term) -> bool,
) {
    for (t, term) in terms.iter().enumerate() {
        for (w, other) in terms.iter().enumerate() {
            if fit(relations, term, other) {
                relations.eq.put(t, w);
            }
        }
    }
}

/// Whether the term has arguments, which are terms.
fn is_made(term: &Term) -> bool {
    !takes_name(term.word) && !term.arguments.is_empty()
}

/// `sub` where the arguments of two terms with one word are fit.
fn sub_where(
    terms: &[Term],
    relations: &mut Relations,
    fit: impl Fn(&Relations, &[u32], &[u32]) -> bool,
) {
    equal_where(terms, relations, |relations, term, other| {
        is_made(term)
            && term.word == other.word
            && fit(relations, &term.arguments, &other.arguments)
    });
}

fn are_equal(relations: &Relations, one: u32, other: u32) -> bool {
    relations.eq.has(one as usize - 1, other as usize - 1)
}

fn forgetting<const ARGUMENT: usize>(terms: &[Term], relations: &mut Relations) {
    sub_where(terms, relations, |relations, one, other| {
        let mut pairs = one.iter().zip(other).enumerate();
        pairs.all(|(at, (a, b))| at == ARGUMENT || are_equal(relations, *a, *b))
    });
}

fn one_differing(terms: &[Term], relations: &mut Relations) {
    sub_where(terms, relations, |relations, one, other| {
        let pairs = || one.iter().zip(other);
        pairs().filter(|(a, b)| a != b).count() <= 1
            && pairs().all(|(a, b)| are_equal(relations, *a, *b))
    });
}

fn any_order(terms: &[Term], relations: &mut Relations) {
    sub_where(terms, relations, |relations, one, other| {
        let in_order = |mut pairs: Vec<(&u32, &u32)>| {
            let mut all = pairs.drain(..);
            all.all(|(a, b)| are_equal(relations, *a, *b))
        };
        in_order(one.iter().zip(other).collect())
            || one.len() == 2 && in_order(one.iter().zip(other.iter().rev()).collect())
    });
}

/// A name is taken for the number of a term.
fn with_names(terms: &[Term], relations: &mut Relations) {
    right_sub(terms, relations);
    equal_where(terms, relations, |relations, term, other| {
        let ([a], [b]) = (&term.arguments[..], &other.arguments[..]) else {
            return false;
        };
        let in_table = |name: &u32| *name as usize <= terms.len();
        let has_name = takes_name(term.word) && term.word == other.word;
        has_name && in_table(a) && in_table(b) && are_equal(relations, *a, *b)
    });
}

fn right_sub(terms: &[Term], relations: &mut Relations) {
    CONDITIONS[SUB].1(terms, relations);
}

fn whatever_the_word(terms: &[Term], relations: &mut Relations) {
    equal_where(terms, relations, |relations, term, other| {
        let mut pairs = term.arguments.iter().zip(&other.arguments);
        is_made(term)
            && is_made(other)
            && term.arguments.len() == other.arguments.len()
            && pairs.all(|(a, b)| are_equal(relations, *a, *b))
    });
}

/// Where two terms with one word are equal, so are their arguments.
fn arguments_too(terms: &[Term], relations: &mut Relations) {
    right_sub(terms, relations);
    for (t, term) in terms.iter().enumerate() {
        for (w, other) in terms.iter().enumerate() {
            if is_made(term) && term.word == other.word && relations.eq.has(t, w) {
                for (a, b) in term.arguments.iter().zip(&other.arguments) {
                    relations.eq.put(*a as usize - 1, *b as usize - 1);
                }
            }
        }
    }
}

/// The relations after each round, from the literals on.
fn all_rounds(terms: &[Term], branch: &[Literal]) -> Vec<Relations> {
    let mut rounds = vec![literals(terms, branch)];
    loop {
        let mut next = rounds[rounds.len() - 1].clone();
        for (_, condition) in CONDITIONS {
            condition(terms, &mut next);
        }
        if next == rounds[rounds.len() - 1] {
            return rounds;
        }
        rounds.push(next);
    }
}

/// Without the last round that puts something in.
fn a_round_less(terms: &[Term], branch: &[Literal]) -> bool {
    let rounds = all_rounds(terms, branch);
    let last = rounds.len().saturating_sub(2);
    contradicts(&rounds[last], branch)
}

fn rounds<const MOST: usize>(terms: &[Term], branch: &[Literal]) -> bool {
    let rounds = all_rounds(terms, branch);
    contradicts(&rounds[MOST.min(rounds.len() - 1)], branch)
}
