//! Checks the table of the evaluator's cases itself; no evaluator is run.

mod ends;
mod heap_cases;

use ends::{expect_in_every_field, LITERAL_WORDS, TERM_WORDS};
use heap_cases::{all, Case};
use std::collections::{BTreeSet, HashSet};

const HEAP_WORDS: [&str; 10] = [
    "siz", "alc", "typ", "dty", "sub", "rfv", "fnv", "clv", "rgv", "arv",
];

/// Refusal number, file, line.
fn numbers(case: &Case) -> [usize; 3] {
    let mut numbers = Vec::new();
    for text in case.reply.split(',') {
        let number: usize = text.parse().expect(case.name);
        assert_eq!(number.to_string(), text, "{}", case.name);
        numbers.push(number);
    }
    numbers.try_into().expect(case.name)
}

/// The file that the reply speaks of; without a refusal the checker file.
fn file_of(case: &Case) -> &[u8] {
    match numbers(case)[1] {
        2 => &case.heap,
        _ => &case.checker,
    }
}

/// A line of a file, from 1.
fn line(file: &[u8], number: usize) -> Option<&[u8]> {
    let index = number.checked_sub(1)?;
    file.split_inclusive(|&byte| byte == b'\n').nth(index)
}

/// The word on the line that the reply gives, when its letter is this one.
fn word_at(case: &Case, letter: &str) -> Option<String> {
    let text = line(file_of(case), numbers(case)[2])?;
    let rest = text.strip_prefix(letter.as_bytes())?.strip_prefix(b",")?;
    let word = rest.split(|&byte| byte == b',').next()?;
    Some(String::from_utf8_lossy(word).into_owned())
}

fn has(file: &[u8], start: &str) -> bool {
    let mut lines = file.split(|&byte| byte == b'\n');
    lines.any(|line| line.starts_with(start.as_bytes()))
}

/// The count that the documents give.
#[test]
fn there_are_2_333_pairs() {
    assert_eq!(all().len(), 2_333);
}

#[test]
fn names_are_unique() {
    let mut names = HashSet::new();
    for case in all() {
        assert!(names.insert(case.name), "{}", case.name);
    }
}

#[test]
fn no_pair_is_there_with_two_replies() {
    let mut pairs = HashSet::new();
    let mut replies = HashSet::new();
    for case in all() {
        pairs.insert((case.checker.clone(), case.heap.clone()));
        replies.insert((case.checker, case.heap, case.reply));
    }
    assert_eq!(pairs.len(), replies.len());
}

/// The numbers that each file can give, and each of them given.
#[test]
fn every_number_is_given_by_each_file() {
    let mut given: [BTreeSet<usize>; 3] = Default::default();
    for case in all() {
        let [number, file, _] = numbers(&case);
        given[file].insert(number);
    }
    let checker = [1, 2, 3, 4, 6, 7, 8, 9, 10, 15, 21];
    let heap = [1, 2, 3, 4, 6, 19, 20];
    assert_eq!(given[0], BTreeSet::from([0]));
    assert_eq!(given[1], BTreeSet::from(checker));
    assert_eq!(given[2], BTreeSet::from(heap));
}

/// The letter and the clause number of a line of the checker file, from 1.
fn clause_at(file: &[u8], number: usize) -> Option<(u8, &[u8])> {
    let text = line(file, number)?;
    Some((*text.first()?, text.split(|&byte| byte == b',').nth(4)?))
}

/// Whether this is the last line of a clause.
fn ends_a_clause(file: &[u8], number: usize) -> bool {
    let clause = clause_at(file, number);
    clause.is_some_and(|(letter, _)| letter == b'C') && clause != clause_at(file, number + 1)
}

/// 1 and 20 have line 0, 3 for an empty heap file line 1, any other refusal a
/// line of its file. Without a refusal it is 0, an A line, or the last line of a
/// clause.
#[test]
fn lines_of_replies() {
    for case in all() {
        let [number, file, at] = numbers(&case);
        assert_eq!(number == 1, file_of(&case).len() > 60_000, "{}", case.name);
        if number == 1 || number == 20 {
            assert_eq!(at, 0, "{}", case.name);
        } else if file == 0 {
            let a_line = word_at(&case, "A").is_some();
            let clause = ends_a_clause(&case.checker, at);
            assert!(at == 0 || a_line || clause, "{}", case.name);
        } else if !(number == 3 && case.heap.is_empty()) {
            let there = line(file_of(&case), at).is_some();
            assert!(there, "{}", case.name);
        }
    }
}

#[test]
fn every_literal_word_is_alone_and_true_and_false() {
    for word in LITERAL_WORDS {
        let mut truths = HashSet::new();
        for case in all().iter().filter(|case| case.name.starts_with("truth")) {
            if has(&case.checker, &format!("A,{word},")) {
                truths.insert(numbers(case)[2] == 0);
            }
        }
        assert_eq!(truths.len(), 2, "{word}");
    }
    for word in TERM_WORDS {
        let truth = |case: &Case| case.name.starts_with("truth");
        let used = |case: &Case| has(&case.checker, &format!("T,{word},"));
        assert!(all().iter().any(|case| truth(case) && used(case)), "{word}");
    }
}

/// Beside clauses an A line is reported; a clause with A lines and without.
#[test]
fn a_lines_and_clauses_are_reported() {
    for (letter, has_a_lines) in [("A", true), ("C", false), ("C", true)] {
        let there = |case: &Case| {
            let no_refusal = numbers(case)[1] == 0 && numbers(case)[2] != 0;
            let both = has(&case.checker, "C,") && has(&case.checker, "A,") == has_a_lines;
            no_refusal && both && word_at(case, letter).is_some()
        };
        assert!(all().iter().any(there), "{letter} {has_a_lines}");
    }
}

/// Every word is used well where all holds and where something is false, is
/// refused by 6 unless it uses all fields, and by 19.
#[test]
fn every_heap_word_is_used_and_refused() {
    let mut expected = BTreeSet::new();
    for word in HEAP_WORDS {
        for number in [6, 19] {
            expected.insert((word.to_string(), number));
        }
        let start = format!("D,{word},");
        for wanted in [true, false] {
            let good = |case: &Case| {
                let [number, _, at] = numbers(case);
                number == 0 && (at == 0) == wanted && has(&case.heap, &start)
            };
            assert!(all().iter().any(good), "{word} {wanted}");
        }
    }
    expected.remove(&("arv".to_string(), 6));
    let mut refused = BTreeSet::new();
    for case in all() {
        let [number, file, _] = numbers(&case);
        if file == 2 && (number == 6 || number == 19) {
            refused.insert((word_at(&case, "D").expect(case.name), number));
        }
    }
    assert_eq!(refused, expected);
}

/// On lines that are refused, or in good heap files.
#[test]
fn every_field_has_numbers_at_the_ends() {
    let mut lines = Vec::new();
    for case in all() {
        let [_, file, at] = numbers(&case);
        for (index, text) in String::from_utf8_lossy(&case.heap).lines().enumerate() {
            if file == 0 || file == 2 && index + 1 == at {
                lines.push(text.to_string());
            }
        }
    }
    expect_in_every_field(&lines, &HEAP_WORDS.map(|word| format!("D,{word}")));
}
