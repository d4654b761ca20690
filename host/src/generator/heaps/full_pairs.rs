//! Pairs to time the evaluators on. In all of them every assumption is true, so
//! that an evaluator goes through all lines of both files.

use crate::generator::draft::{
    Draft, MOST_CLAUSE_LINES, MOST_IN_CLAUSE, MOST_PLACES, MOST_TERMS, OPERATIONS,
};
use crate::generator::tableau::without_steps;
use crate::random::Random;

use super::assumptions;
use super::heap_file::{fact, Fact, HeapFile, LIMITS, MOST_BYTES};
use super::{Evaluation, GoodPair, Pair};

pub fn full_pairs() -> Vec<Pair> {
    vec![
        full("600 terms, 1,000 A lines, full heap file", mixture()),
        full("600 terms, 400 C lines, full heap file", clauses()),
        full("`img` under 300 `wri`", images()),
        full("1,000 `eq` and `ne` of heaps", comparisons()),
        full("the most subjects", subjects()),
        full("600 `arv`, full heap file", variables("arv")),
        full("600 `arv`, 1,000 `eq`, full heap file", equal_variables()),
        full("600 `rgv`, full heap file", variables("rgv")),
        full("600 `rfv` that are not given", variables("rfv")),
        full("600 `rfv`, names of five digits", long_names()),
        full("a small pair", small()),
    ]
}

fn full(kind: &'static str, (checker, heap): (Vec<u8>, HeapFile)) -> Pair {
    Pair {
        kind,
        checker,
        heap: heap.bytes(),
        expected: Evaluation::Reply([0, 0, 0]),
    }
}

/// A checker file in the making, none of whose terms comes twice.
#[derive(Default)]
struct Checker {
    terms: u32,
    text: String,
    assumptions: String,
}

impl Checker {
    /// Gives the number of the term.
    fn term(&mut self, word: &str, arguments: &[u32]) -> u32 {
        self.text += &line('T', word, arguments);
        self.terms += 1;
        self.terms
    }

    fn variables(&mut self, word: &str, names: impl IntoIterator<Item = u32>) {
        for name in names {
            self.term(word, &[name]);
        }
    }

    fn assume(&mut self, left: u32, word: &str, right: u32) {
        self.assumptions += &line('A', word, &[left, right]);
    }

    fn bytes(self) -> Vec<u8> {
        (self.text + &self.assumptions).into_bytes()
    }
}

fn line(letter: char, word: &str, used: &[u32]) -> String {
    let mut numbers = [0; 4];
    numbers[..used.len()].copy_from_slice(used);
    let [a, b, c, d] = numbers;
    format!("{letter},{word},{a},{b},{c},{d}\n")
}

// Heap files

/// Names in a full heap file; those of regions and heaps are more than fit.
const NAMES: u32 = 30;

/// Facts that one file can have together, but for its length.
fn many_facts() -> Vec<Fact> {
    let [references, fields, classes] = LIMITS;
    let mut facts = Vec::new();
    facts.extend((1..references).map(|x| fact("alc", &[x])));
    facts.extend((0..references).map(|x| fact("typ", &[x, x % 10])));
    facts.extend((0..fields).map(|f| fact("dty", &[f, 9 - f % 10])));
    // The first ten classes stand in a line, and all others above them.
    for lower in 0..10 {
        facts.extend((lower + 1..classes).map(|upper| fact("sub", &[lower, upper])));
    }
    for word in ["rfv", "fnv", "clv"] {
        facts.extend((1..=NAMES).map(|name| fact(word, &[name, name % 10])));
    }
    for name in 1..=NAMES {
        facts.extend((1..references).map(|x| fact("rgv", &[name, x])));
        for x in 0..references {
            facts.extend((0..fields).map(|f| fact("arv", &[name, x, f, (x + f) % 10])));
        }
    }
    facts
}

/// As many facts as fit, the shortest lines first.
fn full_heap_file() -> HeapFile {
    let mut facts = many_facts();
    facts.sort_by_cached_key(|fact| fact.text().len());
    as_many_as_fit(facts)
}

fn as_many_as_fit(facts: impl IntoIterator<Item = Fact>) -> HeapFile {
    let mut file = HeapFile {
        facts: vec![fact("siz", &LIMITS)],
    };
    let mut bytes = file.bytes().len();
    for fact in facts {
        bytes += fact.text().len();
        if bytes > MOST_BYTES {
            break;
        }
        file.facts.push(fact);
    }
    file
}

// Pairs

/// Every word, on many variables.
fn mixture() -> (Vec<u8>, HeapFile) {
    let mut random = Random::new(1);
    let mut draft = full_table(&mut random);
    for _ in 0..MOST_PLACES {
        assumptions::assume(&mut draft, &mut random);
    }
    let good = GoodPair::of(without_steps(&draft, &mut random), full_heap_file());
    let truths = good.all_true(&mut random);
    (good.with_truths(&truths), good.heap)
}

/// As many clauses of eight literals as there may be; the last literal of each
/// is its only true one.
fn clauses() -> (Vec<u8>, HeapFile) {
    let mut random = Random::new(2);
    let mut draft = full_table(&mut random);
    for _ in 0..MOST_CLAUSE_LINES / MOST_IN_CLAUSE {
        assumptions::assume_among(&mut draft, MOST_IN_CLAUSE, &mut random);
    }
    let good = GoodPair::of(without_steps(&draft, &mut random), full_heap_file());
    let places = 1..=MOST_CLAUSE_LINES;
    let truths: Vec<bool> = places.map(|place| place % MOST_IN_CLAUSE == 0).collect();
    (good.with_truths(&truths), good.heap)
}

/// 600 terms with every word.
fn full_table(random: &mut Random) -> Draft {
    let mut draft = Draft::default();
    for name in 1..=NAMES {
        for word in ["rfv", "rgv", "arv", "fnv", "clv"] {
            draft.variable(word, name);
        }
    }
    for word in ["nul", "emp", "all"] {
        draft.term(word, &[]);
    }
    while draft.terms.len() < MOST_TERMS {
        assumptions::grow(&mut draft, &OPERATIONS, random);
    }
    draft
}

const WRITES: u32 = 300;

/// Images of `all` in many fields, under as many writes as there are.
fn images() -> (Vec<u8>, HeapFile) {
    let [references, fields, _] = LIMITS;
    let mut checker = Checker::default();
    let mut heap = checker.term("arv", &[1]);
    let [all, emp] = ["all", "emp"].map(|word| checker.term(word, &[]));
    let first_field = checker.terms + 1;
    checker.variables("fnv", 1..=fields);
    let first_reference = checker.terms + 1;
    checker.variables("rfv", 1..=4);
    for count in 0..WRITES {
        let [x, value] = [count, count / 4].map(|number| first_reference + number % 4);
        heap = checker.term("wri", &[heap, x, first_field + count % fields, value]);
    }
    let mut count = 0;
    while checker.terms < MOST_TERMS as u32 {
        let field = first_field + count % fields;
        checker.term("img", &[heap - count / fields, all, field]);
        count += 1;
    }
    for number in 0..MOST_PLACES as u32 {
        checker.assume(checker.terms - number % count, "ne", emp);
    }
    (checker.bytes(), heap_of_neighbours(references))
}

/// All are allocated and of one class. The variables of fields share four
/// values, so that not many lines give every entry that is read. An entry is a
/// neighbour, so that an image is large.
fn heap_of_neighbours(references: u32) -> HeapFile {
    let mut facts = vec![fact("siz", &LIMITS)];
    facts.extend((1..references).map(|x| fact("alc", &[x])));
    facts.extend((1..=4).map(|name| fact("rfv", &[name, name * references / 5])));
    facts.extend((1..=LIMITS[1]).map(|name| fact("fnv", &[name, name % 4])));
    for x in 0..references {
        let next = |f: u32| (x + f) % references;
        facts.extend((0..4).map(|f| fact("arv", &[1, x, f, next(f)])));
    }
    HeapFile { facts }
}

/// Two heaps, each written again and again with what stands there. They differ
/// in their last entry alone.
fn comparisons() -> (Vec<u8>, HeapFile) {
    let [references, fields, _] = LIMITS;
    let mut checker = Checker::default();
    let heap = checker.term("arv", &[1]);
    let nul = checker.term("nul", &[]);
    let last_reference = checker.term("rfv", &[1]);
    let [first_field, last_field] = [1, 2].map(|name| checker.term("fnv", &[name]));
    let other = checker.term("wri", &[heap, last_reference, last_field, last_reference]);
    let mut ends = [heap, other];
    while checker.terms + 2 <= MOST_TERMS as u32 {
        ends = ends.map(|end| checker.term("wri", &[end, nul, first_field, nul]));
    }
    for number in 0..MOST_PLACES as u32 {
        // The terms of one heap have every second number.
        let [one, two] = [0, 2].map(|less| ends[0] - less - 4 * (number % 100));
        if number % 2 == 0 {
            checker.assume(one, "eq", two);
        } else {
            checker.assume(one, "ne", two + 1);
        }
    }
    let facts = vec![
        fact("siz", &LIMITS),
        fact("rfv", &[1, references - 1]),
        fact("fnv", &[2, fields - 1]),
    ];
    (checker.bytes(), HeapFile { facts })
}

fn subjects() -> (Vec<u8>, HeapFile) {
    let mut checker = Checker::default();
    let nul = checker.term("nul", &[]);
    checker.assume(nul, "eq", nul);
    (checker.bytes(), full_heap_file())
}

/// Variables of one word; reference variables with names that are not given.
fn variables(word: &str) -> (Vec<u8>, HeapFile) {
    let mut checker = Checker::default();
    let first = if word == "rfv" { NAMES + 1 } else { 1 };
    checker.variables(word, first..first + MOST_TERMS as u32);
    checker.assume(1, "eq", 1);
    (checker.bytes(), full_heap_file())
}

/// Reference variables, the last ones of those that the heap file gives.
fn long_names() -> (Vec<u8>, HeapFile) {
    let heap = as_many_as_fit((10_000..).map(|name| fact("rfv", &[name, name % 10])));
    let last = &heap.facts[heap.facts.len() - MOST_TERMS..];
    let mut checker = Checker::default();
    checker.variables("rfv", last.iter().map(|fact| fact.numbers[0]));
    checker.assume(1, "ne", 2);
    (checker.bytes(), heap)
}

/// Heap variables, most of them not given and so equal.
fn equal_variables() -> (Vec<u8>, HeapFile) {
    let mut checker = Checker::default();
    checker.variables("arv", 1..=MOST_TERMS as u32);
    for number in 0..MOST_PLACES as u32 {
        // The number of a term is its name.
        let one = NAMES + 1 + number % 500;
        checker.assume(one, "eq", one + 1);
    }
    (checker.bytes(), full_heap_file())
}

/// What a routine writes to: of u, which is in r, the field f is set to v. What
/// is reached from r afterwards was reached before, or is v.
fn small() -> (Vec<u8>, HeapFile) {
    let mut checker = Checker::default();
    let [u, v] = [1, 2].map(|name| checker.term("rfv", &[name]));
    let [r, s] = [1, 2].map(|name| checker.term("rgv", &[name]));
    let heap = checker.term("arv", &[1]);
    let f = checker.term("fnv", &[1]);
    let after = checker.term("wri", &[heap, u, f, v]);
    let image = checker.term("img", &[after, r, f]);
    let before = checker.term("img", &[heap, r, f]);
    let value = checker.term("sin", &[v]);
    let both = checker.term("cup", &[before, value]);
    let read = checker.term("rea", &[after, u, f]);
    checker.assume(u, "in", r);
    checker.assume(v, "ni", s);
    checker.assume(read, "in", image);
    checker.assume(image, "ne", both);
    (checker.bytes(), small_heap())
}

fn small_heap() -> HeapFile {
    HeapFile {
        facts: vec![
            fact("siz", &[5, 2, 3]),
            fact("sub", &[1, 0]),
            fact("sub", &[2, 0]),
            fact("alc", &[1]),
            fact("alc", &[2]),
            fact("alc", &[3]),
            fact("typ", &[1, 1]),
            fact("typ", &[2, 1]),
            fact("typ", &[3, 2]),
            fact("dty", &[1, 1]),
            fact("rfv", &[1, 1]),
            fact("rfv", &[2, 3]),
            fact("fnv", &[1, 1]),
            fact("rgv", &[1, 1]),
            fact("rgv", &[1, 2]),
            fact("rgv", &[2, 2]),
            fact("arv", &[1, 1, 1, 2]),
            fact("arv", &[1, 2, 1, 3]),
            fact("arv", &[1, 3, 0, 1]),
        ],
    }
}
