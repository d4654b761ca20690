//! The pairs of files for the evaluators have what they are made for, all
//! evaluators agree on them, and evaluators that are wrong are found.

mod other_numbers;

use std::collections::{BTreeMap, BTreeSet};

use host::evaluators::evaluators;
use host::generator::heaps::{pairs, Pair, WORDS};
use host::name_parts::{bits_14, bits_16, first_four_digits, last_four_digits, PARTS};
use host::yardstick::evaluator::evaluate;
use other_numbers::{five_digits_refused, numbers_of_16_bits, six_digits_taken, with_names};

type Evaluator = fn(&[u8], &[u8]) -> [u32; 3];

const PAIRS: usize = 20_000;
const SEED: u64 = 20_040_406;
/// Batches for what doesn't need all pairs; some are at the limits.
const BATCHES: u64 = 300;

/// The refusals that a checker file can get, and those of a heap file.
const CHECKER_REFUSALS: [u32; 11] = [1, 2, 3, 4, 6, 7, 8, 9, 10, 15, 21];
const HEAP_REFUSALS: [u32; 7] = [1, 2, 3, 4, 6, 19, 20];

fn some_pairs() -> impl Iterator<Item = Pair> {
    (0..BATCHES).flat_map(|number| pairs(SEED, number))
}

fn show(pair: &Pair) -> String {
    let [checker, heap] = [&pair.checker, &pair.heap].map(|file| String::from_utf8_lossy(file));
    format!("{}, {:?}:\n{checker}\n{heap}", pair.kind, pair.expected)
}

/// Compares them with each other and with what is known. Gives the first pair
/// on which one of them is wrong or differs from the first.
fn compare(evaluators: &[(&str, Evaluator)], count: usize) -> Result<usize, Box<Pair>> {
    let mut compared = 0;
    for pair in (0..).flat_map(|number| pairs(SEED, number)) {
        let reply = |evaluate: Evaluator| evaluate(&pair.checker, &pair.heap);
        let first = reply(evaluators[0].1);
        let same = evaluators.iter().all(|(_, other)| reply(*other) == first);
        if !same || !pair.expected.allows(first) {
            return Err(Box::new(pair));
        }
        compared += 1;
        if compared == count {
            break;
        }
    }
    Ok(compared)
}

#[test]
fn evaluators_agree() {
    let evaluators = evaluators();
    if let Err(pair) = compare(&evaluators, PAIRS) {
        for (name, evaluate) in evaluators {
            println!("{name}: {:?}", evaluate(&pair.checker, &pair.heap));
        }
        panic!("{}", show(&pair));
    }
}

#[test]
fn every_refusal_of_each_file_is_reached() {
    let mut refusals: BTreeMap<(u32, u32), usize> = BTreeMap::new();
    for pair in some_pairs() {
        let [number, file, _] = evaluate(&pair.checker, &pair.heap);
        *refusals.entry((file, number)).or_default() += 1;
    }
    println!("{refusals:?}");
    let of_checker = CHECKER_REFUSALS.map(|number| (1, number));
    let of_heap = HEAP_REFUSALS.map(|number| (2, number));
    let expected = [&[(0, 0)][..], &of_checker, &of_heap].concat();
    assert_eq!(refusals.keys().copied().collect::<Vec<_>>(), expected);
    let rare = |refusal: &&(u32, u32)| refusals[refusal] < 3;
    assert_eq!(expected.iter().find(rare), None);
}

#[test]
fn all_are_true_often_and_any_line_is_the_first_false_one() {
    let (mut all_true, mut false_lines, mut count) = (0, BTreeSet::new(), 0);
    for pair in some_pairs() {
        count += 1;
        match evaluate(&pair.checker, &pair.heap) {
            [0, _, 0] => all_true += 1,
            [0, _, line] => {
                false_lines.insert(literals_before(&pair.checker, line));
            }
            _ => {}
        }
    }
    println!("{all_true} of {count} all true, false {false_lines:?}");
    assert!(all_true >= count / 10);
    assert!((0..13).all(|before| false_lines.contains(&before)));
    assert!(false_lines.len() > 20 && false_lines.contains(&999));
}

fn is_clause_line(line: &&[u8]) -> bool {
    line.starts_with(b"C,")
}

/// How many A and C lines stand before a line.
fn literals_before(checker: &[u8], line: u32) -> usize {
    let lines = checker.split(|byte| *byte == b'\n');
    let before = lines.take(line as usize - 1);
    let is_literal = |line: &&[u8]| line.starts_with(b"A,") || is_clause_line(line);
    before.filter(is_literal).count()
}

/// The lines (from, up to) of the clause on a line, where it is a C line.
fn clause_around(checker: &[u8], line: u32) -> Option<(u32, u32)> {
    let lines = checker.split(|byte| *byte == b'\n');
    let lines: Vec<&[u8]> = lines.take_while(|line| !line.starts_with(b"S,")).collect();
    let clause = |line: &[u8]| line.split(|byte| *byte == b',').nth(4).map(<[u8]>::to_vec);
    let wanted = lines
        .get(line as usize - 1)
        .filter(|line| is_clause_line(line))?;
    let same = |other: &&&[u8]| is_clause_line(other) && clause(other) == clause(wanted);
    let from = lines.iter().position(|line| same(&line))? as u32 + 1;
    Some((from, from + lines.iter().filter(same).count() as u32))
}

/// A false clause is named by its last line, also where it has several.
#[test]
fn clauses_are_false_often() {
    let mut sizes: BTreeMap<u32, usize> = BTreeMap::new();
    for pair in some_pairs() {
        let [number, _, line] = evaluate(&pair.checker, &pair.heap);
        if number == 0 && line > 0 {
            if let Some((from, to)) = clause_around(&pair.checker, line) {
                assert_eq!(line + 1, to, "{}", show(&pair));
                *sizes.entry(to - from).or_default() += 1;
            }
        }
    }
    println!("false clauses by size: {sizes:?}");
    assert_eq!(
        sizes.keys().copied().collect::<Vec<_>>(),
        Vec::from_iter(1..=8)
    );
    assert!(sizes.values().all(|count| *count >= 5));
}

/// An accepted file and one that is refused, with heaps in which all is true
/// and in which something is false.
#[test]
fn accepted_files_have_false_assumptions_and_others_may_not() {
    let replies = |kind: &'static str| {
        let pairs = some_pairs().filter(move |pair| pair.kind == kind);
        pairs.map(|pair| evaluate(&pair.checker, &pair.heap))
    };
    assert!(replies("closed tableau").all(|reply| reply[0] == 0 && reply[2] != 0));
    assert!(replies("other assumptions").any(|reply| reply == [0, 0, 0]));
    assert!(replies("other assumptions").any(|reply| reply[0] == 0 && reply[2] != 0));
}

const TERM_WORDS: [&str; 17] = [
    "nul", "rfv", "rea", "emp", "all", "rgv", "cup", "cap", "dif", "sin", "img", "arv", "wri",
    "fnv", "clv", "typ", "dty",
];
const LITERAL_WORDS: [&str; 6] = ["in", "ni", "eq", "ne", "le", "nl"];

/// Every word stands in a pair that gets no refusal.
#[test]
fn every_word_is_used() {
    let mut starts = BTreeSet::new();
    for pair in some_pairs() {
        if evaluate(&pair.checker, &pair.heap)[0] == 0 {
            let lines = [&pair.checker, &pair.heap].map(|file| file.split(|byte| *byte == b'\n'));
            for line in lines.into_iter().flatten() {
                let start: Vec<&[u8]> = line.splitn(3, |byte| *byte == b',').take(2).collect();
                starts.insert(start.join(&b','));
            }
        }
    }
    for (letter, words) in [
        ("T", &TERM_WORDS[..]),
        ("A", &LITERAL_WORDS),
        ("C", &LITERAL_WORDS),
        ("D", &WORDS),
    ] {
        for word in words {
            let start = format!("{letter},{word}");
            assert!(starts.contains(start.as_bytes()), "{start}");
        }
    }
}

#[test]
fn all_sizes_from_one_to_the_limits_are_tried() {
    let sizes: BTreeSet<String> = some_pairs()
        .filter(|pair| evaluate(&pair.checker, &pair.heap)[0] == 0)
        .filter_map(|pair| {
            let text = String::from_utf8(pair.heap).ok()?;
            text.lines().next().map(str::to_string)
        })
        .collect();
    for wanted in ["D,siz,1,1,1,0", "D,siz,64,16,16,0"] {
        assert!(sizes.contains(wanted), "{wanted}");
    }
    assert!(sizes.len() > 50, "{} different sizes", sizes.len());
}

/// The words and names of the variables on lines of a letter.
fn names(file: &[u8], letter: &str) -> BTreeSet<(String, usize)> {
    let text = String::from_utf8_lossy(file);
    let variable = |line: &str| match line.split(',').collect::<Vec<&str>>()[..] {
        [of, word @ ("rfv" | "rgv" | "arv" | "fnv" | "clv"), name, ..] if of == letter => {
            Some((word.to_string(), name.parse().ok()?))
        }
        _ => None,
    };
    text.lines().filter_map(variable).collect()
}

/// A D line gives a name that no T line has, but that shares a part with one
/// that does.
#[test]
fn names_are_easily_confused() {
    let mut shared = PARTS.map(|_| 0);
    for pair in some_pairs() {
        if evaluate(&pair.checker, &pair.heap)[0] != 0 {
            continue;
        }
        let (terms, facts) = (names(&pair.checker, "T"), names(&pair.heap, "D"));
        let others: Vec<_> = facts.difference(&terms).collect();
        for (count, (_, of)) in shared.iter_mut().zip(PARTS) {
            let parts: BTreeSet<_> = terms.iter().map(|(word, name)| (word, of(*name))).collect();
            let mut shares = others.iter().map(|(word, name)| (word, of(*name)));
            *count += usize::from(shares.any(|other| parts.contains(&other)));
        }
    }
    for (count, (part, _)) in shared.into_iter().zip(PARTS) {
        println!("{count} pairs with names that share {part}");
        assert!(count >= 40, "{count} {part}");
    }
}

/// A pair with every kind of line; a byte more makes its longest name too long.
const CHECKER: &[u8] = b"T,rfv,1,0,0,0\nT,rgv,65538,0,0,0\nA,in,1,2,0,0\n\
    C,ni,1,2,1,0\nC,eq,1,1,1,0\nC,in,1,2,2,0\nS,cls,1,2,0,0\n";
const HEAP: &[u8] = b"D,siz,12,2,2,0\nD,alc,1,0,0,0\nD,sub,0,1,0,0\nD,rgv,65538,1,0,0\n\
    D,rfv,1,1,0,0\nD,arv,1,11,1,10\n";

/// Every byte of each file made every other, and every byte put in.
#[test]
fn evaluators_agree_whatever_the_byte() {
    for_each_change(CHECKER, |checker| expect_agreement(checker, HEAP));
    for_each_change(HEAP, |heap| expect_agreement(CHECKER, heap));
}

fn for_each_change(file: &[u8], expect: impl Fn(&[u8])) {
    for position in 0..=file.len() {
        let (before, after) = file.split_at(position);
        let behind = after.get(1..).unwrap_or(&[]);
        for byte in 0..=u8::MAX {
            expect(&[before, &[byte], after].concat());
            expect(&[before, &[byte], behind].concat());
        }
        expect(&[before, behind].concat());
        expect(before);
    }
}

fn expect_agreement(checker: &[u8], heap: &[u8]) {
    let evaluators = evaluators();
    let known = (evaluators[0].1)(checker, heap);
    for (name, evaluate) in evaluators {
        let [checker_text, heap_text] = [checker, heap].map(String::from_utf8_lossy);
        let text = format!("{name}:\n{checker_text}\n{heap_text}");
        assert_eq!(evaluate(checker, heap), known, "{text}");
    }
}

// ---------------------------------------------------------------------------
// Evaluators that are wrong
// ---------------------------------------------------------------------------

fn all_true(checker: &[u8], heap: &[u8]) -> [u32; 3] {
    match evaluate(checker, heap) {
        [0, ..] => [0, 0, 0],
        refused => refused,
    }
}

fn line_from_0(checker: &[u8], heap: &[u8]) -> [u32; 3] {
    let [number, file, line] = evaluate(checker, heap);
    [number, file, line.saturating_sub(1)]
}

fn place_for_line(checker: &[u8], heap: &[u8]) -> [u32; 3] {
    match evaluate(checker, heap) {
        [0, 0, line] if line > 0 => [0, 0, literals_before(checker, line) as u32 + 1],
        reply => reply,
    }
}

fn clauses_passed_over(checker: &[u8], heap: &[u8]) -> [u32; 3] {
    match evaluate(checker, heap) {
        [0, 0, line] if line > 0 && clause_around(checker, line).is_some() => [0, 0, 0],
        reply => reply,
    }
}

fn first_line_of_clause(checker: &[u8], heap: &[u8]) -> [u32; 3] {
    match evaluate(checker, heap) {
        [0, 0, line] if line > 0 => {
            let clause = clause_around(checker, line);
            [0, 0, clause.map_or(line, |(from, _)| from)]
        }
        reply => reply,
    }
}

/// The heap file is read before the lines of the checker file.
fn heap_first(checker: &[u8], heap: &[u8]) -> [u32; 3] {
    match evaluate(b"", heap) {
        [0, ..] => evaluate(checker, heap),
        refused => refused,
    }
}

/// The part before the first S line has to be too long.
fn steps_not_counted(checker: &[u8], heap: &[u8]) -> [u32; 3] {
    let lines = checker.split_inclusive(|byte| *byte == b'\n');
    let before = lines.take_while(|line| !line.starts_with(b"S,"));
    evaluate(&checker[..before.map(<[u8]>::len).sum()], heap)
}

fn stops_at_any_s(checker: &[u8], heap: &[u8]) -> [u32; 3] {
    let lines = checker.split_inclusive(|byte| *byte == b'\n');
    let before = lines.take_while(|line| !line.starts_with(b"S"));
    match evaluate(checker, heap) {
        [1, 1, 0] => [1, 1, 0],
        _ => evaluate(&checker[..before.map(<[u8]>::len).sum()], heap),
    }
}

/// Another heap file in place of one that is refused so.
fn without_refusal(checker: &[u8], heap: &[u8], number: u32) -> [u32; 3] {
    let reply = evaluate(checker, heap);
    if reply[..2] != [number, 2] {
        return reply;
    }
    let lines = heap.split_inclusive(|byte| *byte == b'\n');
    let dropped = (reply[2] as usize).wrapping_sub(1);
    let others = lines.enumerate().filter(|(index, _)| *index != dropped);
    let rest: Vec<&[u8]> = others.map(|(_, line)| line).collect();
    match reply[2] {
        0 => [0, 0, 0],
        _ => evaluate(checker, &rest.concat()),
    }
}

fn any_fact(checker: &[u8], heap: &[u8]) -> [u32; 3] {
    without_refusal(checker, heap, 19)
}

fn any_order(checker: &[u8], heap: &[u8]) -> [u32; 3] {
    without_refusal(checker, heap, 20)
}

fn any_word(checker: &[u8], heap: &[u8]) -> [u32; 3] {
    without_refusal(checker, heap, 4)
}

const WRONG: [(&str, Evaluator); 18] = [
    ("true to all", all_true),
    ("lines from 0", line_from_0),
    ("the place for the line", place_for_line),
    ("clauses passed over", clauses_passed_over),
    ("the first line of a clause", first_line_of_clause),
    ("the heap file first", heap_first),
    ("S lines not counted", steps_not_counted),
    ("stops at S without a comma", stops_at_any_s),
    ("bad D lines left out", any_fact),
    ("any order of classes", any_order),
    ("unknown words left out", any_word),
    ("the last four digits of a name given", |checker, heap| {
        evaluate(checker, &with_names(heap, last_four_digits))
    }),
    ("the first four digits of a name given", |checker, heap| {
        evaluate(checker, &with_names(heap, first_four_digits))
    }),
    ("14 bits of a name given", |checker, heap| {
        evaluate(checker, &with_names(heap, bits_14))
    }),
    ("16 bits of a name given", |checker, heap| {
        evaluate(checker, &with_names(heap, bits_16))
    }),
    ("16 bits of other numbers", |checker, heap| {
        evaluate(checker, &numbers_of_16_bits(heap))
    }),
    ("five digits refused", |checker, heap| {
        evaluate(checker, &five_digits_refused(heap))
    }),
    ("six digits taken", |checker, heap| {
        evaluate(checker, &six_digits_taken(heap))
    }),
];

/// Alone against what is known, and beside the yardstick.
#[test]
fn wrong_evaluators_are_found() {
    for wrong in WRONG {
        assert!(compare(&[wrong], PAIRS).is_err(), "{}", wrong.0);
        let both = [("yardstick", evaluate as Evaluator), wrong];
        assert!(compare(&both, PAIRS).is_err(), "{}", wrong.0);
    }
}
