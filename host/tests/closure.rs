//! The relations that `bck` looks at, got in another way on random tables and
//! branches: classes of equal terms, and paths between them.

use host::independent::{
    sort_of_word, takes_name, Literal, LiteralWord, Sort, Term, TermWord, MOST_TERMS,
};
use host::independent_closure::{conditions, contradicts, literals, smallest, CONDITIONS};
use host::random::Random;

const TABLES: u64 = 4_000;

const VARIABLES: [TermWord; 5] = [
    TermWord::Rfv,
    TermWord::Rgv,
    TermWord::Arv,
    TermWord::Fnv,
    TermWord::Clv,
];

const MADE: [(TermWord, &[Sort]); 9] = [
    (TermWord::Rea, &[Sort::Heap, Sort::Reference, Sort::Field]),
    (TermWord::Cup, &[Sort::Region, Sort::Region]),
    (TermWord::Cap, &[Sort::Region, Sort::Region]),
    (TermWord::Dif, &[Sort::Region, Sort::Region]),
    (TermWord::Sin, &[Sort::Reference]),
    (TermWord::Img, &[Sort::Heap, Sort::Region, Sort::Field]),
    (
        TermWord::Wri,
        &[Sort::Heap, Sort::Reference, Sort::Field, Sort::Reference],
    ),
    (TermWord::Typ, &[Sort::Reference]),
    (TermWord::Dty, &[Sort::Field]),
];

fn sort(terms: &[Term], number: u32) -> Sort {
    sort_of_word(terms[number as usize - 1].word)
}

/// The numbers of the terms of a sort.
fn of_sort(terms: &[Term], wanted: Sort) -> Vec<u32> {
    let all = 1..=terms.len() as u32;
    all.filter(|number| sort(terms, *number) == wanted)
        .collect()
}

/// Some variables, whose names are the numbers of terms, and terms made of
/// earlier ones.
fn table(random: &mut Random) -> Vec<Term> {
    let mut terms = Vec::new();
    for word in VARIABLES {
        for name in 1..=2 + random.below(3) as u32 {
            let arguments = vec![name];
            terms.push(Term { word, arguments });
        }
    }
    for _ in 0..random.below(40) {
        let (word, sorts) = random.pick(&MADE);
        let pick = |sort: &Sort| random.pick(&of_sort(&terms, *sort));
        let arguments = sorts.iter().map(pick).collect();
        let term = Term { word, arguments };
        if !terms.contains(&term) {
            terms.push(term);
        }
    }
    terms
}

fn branch(terms: &[Term], random: &mut Random) -> Vec<Literal> {
    let count = random.below(terms.len());
    let literal = |random: &mut Random| {
        let left = 1 + random.below(terms.len()) as u32;
        let sort = sort(terms, left);
        let right = random.pick(&of_sort(terms, sort));
        let is_order = sort == Sort::Class && random.chance(3, 4);
        let word = match (is_order, random.chance(1, 6)) {
            (false, false) => LiteralWord::Eq,
            (false, true) => LiteralWord::Ne,
            (true, false) => LiteralWord::Le,
            (true, true) => LiteralWord::Nl,
        };
        Literal { word, left, right }
    };
    (0..count).map(|_| literal(random)).collect()
}

/// For each term the number of its class, and whether a path leads from one
/// class to another.
struct Classes {
    of: Vec<usize>,
    paths: Vec<Vec<bool>>,
}

impl Classes {
    fn new(terms: &[Term], branch: &[Literal]) -> Classes {
        let mut of: Vec<usize> = (0..terms.len()).collect();
        let pairs = |word| {
            let found = branch.iter().filter(move |literal| literal.word == word);
            found.map(|literal| (literal.left as usize - 1, literal.right as usize - 1))
        };
        for (left, right) in pairs(LiteralWord::Eq) {
            merge(&mut of, left, right);
        }
        loop {
            let paths = paths(&of, pairs(LiteralWord::Le));
            let before = of.clone();
            for one in 0..terms.len() {
                for other in 0..terms.len() {
                    let in_circle = paths[of[one]][of[other]] && paths[of[other]][of[one]];
                    if in_circle || have_equal_arguments(&of, &terms[one], &terms[other]) {
                        merge(&mut of, one, other);
                    }
                }
            }
            if of == before {
                return Classes { of, paths };
            }
        }
    }
}

fn merge(of: &mut [usize], one: usize, other: usize) {
    let (kept, gone) = (of[one], of[other]);
    for class in of {
        if *class == gone {
            *class = kept;
        }
    }
}

fn have_equal_arguments(of: &[usize], one: &Term, other: &Term) -> bool {
    let are_equal = |(a, b): (&u32, &u32)| of[*a as usize - 1] == of[*b as usize - 1];
    one.word == other.word
        && !takes_name(one.word)
        && !one.arguments.is_empty()
        && one.arguments.iter().zip(&other.arguments).all(are_equal)
}

/// Paths along the orders, the empty ones too: a search from each class.
fn paths(of: &[usize], orders: impl Iterator<Item = (usize, usize)>) -> Vec<Vec<bool>> {
    let orders: Vec<(usize, usize)> = orders.map(|(a, b)| (of[a], of[b])).collect();
    let search = |from: usize| {
        let mut reached = vec![false; of.len()];
        let mut left = vec![from];
        while let Some(class) = left.pop() {
            if !reached[class] {
                reached[class] = true;
                left.extend(orders.iter().filter(|(a, _)| *a == class).map(|(_, b)| b));
            }
        }
        reached
    };
    (0..of.len()).map(search).collect()
}

#[test]
fn classes_and_paths_give_the_same_relations() {
    let (mut equal, mut ordered, mut closed, mut open) = (0, 0, 0, 0);
    for number in 0..TABLES {
        let mut random = Random::of_batch(1, number);
        let terms = table(&mut random);
        let branch = branch(&terms, &mut random);
        let relations = smallest(&terms, &branch, &conditions());
        let classes = Classes::new(&terms, &branch);
        for a in 0..terms.len() {
            for b in 0..terms.len() {
                let (of_a, of_b) = (classes.of[a], classes.of[b]);
                assert_eq!(relations.eq.has(a, b), of_a == of_b);
                let are_classes = [a, b].iter().all(|term| {
                    let number = *term as u32 + 1;
                    sort(&terms, number) == Sort::Class
                });
                let is_under = are_classes && classes.paths[of_a][of_b];
                assert_eq!(relations.le.has(a, b), is_under);
                equal += usize::from(a != b && of_a == of_b);
                ordered += usize::from(is_under && of_a != of_b);
            }
        }
        if contradicts(&relations, &branch) {
            closed += 1;
        } else {
            open += 1;
        }
    }
    println!("{equal} equal, {ordered} ordered; {closed} closed, {open} open");
    for count in [equal, ordered, closed, open] {
        assert!(count >= 500, "{equal} {ordered} {closed} {open}");
    }
}

/// The pair holds the literals and is closed under each condition.
#[test]
fn the_pair_is_closed() {
    for number in 0..TABLES {
        let mut random = Random::of_batch(2, number);
        let terms = table(&mut random);
        let branch = branch(&terms, &mut random);
        let relations = smallest(&terms, &branch, &conditions());
        let given = literals(&terms, &branch);
        for a in 0..terms.len() {
            for b in 0..terms.len() {
                assert!(relations.eq.has(a, b) || !given.eq.has(a, b));
                assert!(relations.le.has(a, b) || !given.le.has(a, b));
            }
        }
        for (name, condition) in CONDITIONS {
            let mut further = relations.clone();
            condition(&terms, &mut further);
            assert!(further == relations, "{name}");
        }
    }
}

/// Neither the order of the conditions nor that of the literals matters.
#[test]
fn any_order_gives_the_same_pair() {
    for number in 0..TABLES {
        let mut random = Random::of_batch(3, number);
        let terms = table(&mut random);
        let mut branch = branch(&terms, &mut random);
        let relations = smallest(&terms, &branch, &conditions());
        let mut shuffled = conditions();
        random.shuffle(&mut shuffled);
        random.shuffle(&mut branch);
        assert!(smallest(&terms, &branch, &shuffled) == relations);
    }
}

/// The last term that there can be has its place in both relations.
#[test]
fn the_last_term() {
    let variable = |name: usize| Term {
        word: TermWord::Clv,
        arguments: vec![name as u32],
    };
    let terms: Vec<Term> = (1..=MOST_TERMS).map(variable).collect();
    let last = MOST_TERMS as u32;
    for (word, turned) in [(LiteralWord::Eq, true), (LiteralWord::Le, false)] {
        let literal = Literal {
            word,
            left: 1,
            right: last,
        };
        let relations = smallest(&terms, &[literal], &conditions());
        let (first, last) = (0, MOST_TERMS - 1);
        assert_eq!(relations.eq.has(last, first), turned);
        assert!(relations.le.has(first, last));
        assert_eq!(relations.le.has(last, first), turned);
        assert!(!relations.eq.has(first, last - 1) && !relations.le.has(last - 1, last));
    }
}
