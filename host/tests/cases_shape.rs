//! Checks the table of cases itself; no checker is run.

mod ends;

use cases::{all, Case};
use ends::{expect_in_every_field, LITERAL_WORDS, TERM_WORDS};
use std::collections::{BTreeMap, HashSet};

const RULES: [&str; 32] = [
    "eqr", "eql", "ext", "cpe", "cpi", "cue", "cui", "dfe", "dfi", "sge", "sgi", "cut", "all",
    "nul", "sep", "img", "wit", "ref", "sym", "trn", "sub", "rep", "ler", "let", "lea", "rdh",
    "rdm", "cls", "emp", "cla", "fin", "bck",
];

/// How the lines of the rules that close begin.
const CLOSINGS: [&str; 3] = ["S,cls,", "S,emp,", "S,bck,"];

fn closes(line: &[u8]) -> bool {
    let starts = |rule: &&str| line.starts_with(rule.as_bytes());
    CLOSINGS.iter().any(starts)
}

/// The refusals that a file can get.
fn refusals() -> impl Iterator<Item = usize> {
    (1..=17).chain([21])
}

/// Whether the reply says yes, and its seven numbers.
fn parts(case: &Case) -> (bool, [usize; 7]) {
    let (word, numbers) = case.reply.split_once(',').expect(case.name);
    let yes = match word {
        "yes" => true,
        "no" => false,
        _ => panic!("{}: {}", case.name, case.reply),
    };
    let numbers: Vec<usize> = numbers
        .split(',')
        .map(|text| {
            let number: usize = text.parse().expect(case.name);
            assert_eq!(number.to_string(), text, "{}", case.name);
            number
        })
        .collect();
    (yes, numbers.try_into().expect(case.name))
}

/// The cases that say yes, or those that say no, with their numbers.
fn saying(yes: bool) -> Vec<(Case, [usize; 7])> {
    let mut cases = Vec::new();
    for case in all() {
        let (word, numbers) = parts(&case);
        if word == yes {
            cases.push((case, numbers));
        }
    }
    cases
}

fn count(file: &[u8], start: &str) -> usize {
    let lines = file.split(|&byte| byte == b'\n');
    lines
        .filter(|line| line.starts_with(start.as_bytes()))
        .count()
}

/// The count that the documents give.
#[test]
fn there_are_6_152_files() {
    assert_eq!(all().len(), 6_152);
}

#[test]
fn names_are_unique() {
    let mut names = HashSet::new();
    for case in all() {
        assert!(names.insert(case.name), "{}", case.name);
    }
}

#[test]
fn replies_have_the_right_form() {
    for case in all() {
        let (yes, numbers) = parts(&case);
        if yes {
            assert_eq!(numbers[..2], [0, 0], "{}", case.name);
        } else {
            assert!(refusals().any(|one| one == numbers[0]), "{}", case.name);
            assert_eq!(numbers[2..6], [0, 0, 0, 0], "{}", case.name);
        }
        let most = if numbers[0] == 13 { 1_000 } else { 0 };
        assert!(numbers[6] <= most, "{}", case.name);
    }
}

/// Whether the w of this S line is an `rfv`, by its T line.
fn w_is_rfv(case: &Case, line: usize) -> bool {
    let text = String::from_utf8_lossy(&case.file);
    let lines: Vec<&str> = text.lines().collect();
    let (_, w) = lines[line - 1].rsplit_once(',').expect(case.name);
    let term: usize = w.parse().expect(case.name);
    lines[term - 1].starts_with("T,rfv,")
}

/// With number 13, a w that has a place is an `rfv`; an `rfv` that has none is
/// in a clause. All kinds are there, places after the first too.
#[test]
fn places_of_number_13() {
    let mut kinds = HashSet::new();
    for (case, [number, line, .., place]) in saying(false) {
        if number == 13 {
            let rfv = w_is_rfv(&case, line);
            let clauses = count(&case.file, "C,") > 0;
            assert!(rfv || place == 0, "{}", case.name);
            assert!(!rfv || place > 0 || clauses, "{}", case.name);
            kinds.insert((rfv, place.min(2)));
        }
    }
    let all = [(false, 0), (true, 0), (true, 1), (true, 2)];
    assert_eq!(kinds, HashSet::from(all));
}

/// How many literals each clause has, by the clause numbers on the C lines.
fn sizes_of_clauses(file: &[u8]) -> Vec<usize> {
    let text = String::from_utf8_lossy(file);
    let mut sizes = BTreeMap::new();
    for line in text.lines().filter(|line| line.starts_with("C,")) {
        let clause = line.split(',').nth(4).map(str::to_string);
        *sizes.entry(clause).or_default() += 1;
    }
    sizes.into_values().collect()
}

#[test]
fn counts_of_accepted_files() {
    for (case, numbers) in saying(true) {
        let closings: usize = CLOSINGS.map(|rule| count(&case.file, rule)).iter().sum();
        let [terms, literals, steps] = ["T", "A", "S"].map(|letter| count(&case.file, letter));
        let assumed = literals + sizes_of_clauses(&case.file).len();
        assert_eq!(numbers[2..5], [terms, assumed, steps], "{}", case.name);
        assert_eq!(numbers[5], closings, "{}", case.name);
        assert_eq!(case.file.last(), Some(&b'\n'), "{}", case.name);
    }
}

/// Number 1 has line 0, number 17 the line after the last, any other a line of
/// the file.
#[test]
fn lines_of_refused_files() {
    for (case, [number, line, ..]) in saying(false) {
        let unended = case.file.last().is_some_and(|&byte| byte != b'\n');
        let ended = case.file.iter().filter(|&&byte| byte == b'\n').count();
        let last = ended + usize::from(unended);
        assert_eq!(number == 1, case.file.len() > 60_000, "{}", case.name);
        match number {
            1 => assert_eq!(line, 0, "{}", case.name),
            17 => assert_eq!(line, last + 1, "{}", case.name),
            _ => assert!((1..=last).contains(&line), "{}", case.name),
        }
    }
}

#[test]
fn every_rule_is_in_an_accepted_file() {
    let accepted = saying(true);
    for rule in RULES {
        let start = format!("S,{rule},");
        let there = |row: &(Case, _)| count(&row.0.file, &start) > 0;
        assert!(accepted.iter().any(there), "{rule}");
    }
}

#[test]
fn every_number_is_given() {
    let given: HashSet<usize> = saying(false).iter().map(|row| row.1[0]).collect();
    for number in refusals() {
        assert!(given.contains(&number), "{number}");
    }
}

/// The refusal numbers that a well shaped S line with this rule can get. 3, 7,
/// 10 and 21 are for other lines, and no rule uses all four fields.
fn numbers_of(rule: &str) -> Vec<usize> {
    let is = |rules: &[&str]| rules.contains(&rule);
    let uses_a_term = is(&[
        "ext", "cpi", "cui", "dfi", "sgi", "cut", "img", "wit", "ref", "sub", "ler", "rdh", "rdm",
    ]);
    // `cla` uses no place either, but gets 11 for its clause.
    let uses_no_place = is(&["sgi", "cut", "ref", "ler", "rdh", "rdm", "bck"]);
    let given = [
        (5, true),
        (6, true),
        (8, uses_a_term),
        (9, is(&["cut", "ler"])),
        (11, !uses_no_place),
        (12, !is(&["cut", "ref", "ler", "cla"])),
        (13, is(&["ext", "wit"])),
        (14, is(&["sgi", "all", "nul", "img", "wit", "rdm", "fin"])),
        (15, !is(&["cls", "emp", "bck"])),
        (16, is(&["ext", "cue", "sgi", "cut", "img", "rdm", "cla"])),
    ];
    given.iter().filter(|row| row.1).map(|row| row.0).collect()
}

/// The rules on refused S lines, with the numbers that refuse them.
fn refused_rules() -> HashSet<(String, usize)> {
    let mut refused = HashSet::new();
    for (case, [number, line, ..]) in saying(false) {
        // These come before the rule is known, or stand on no line.
        if [1, 2, 4, 17].contains(&number) {
            continue;
        }
        let mut lines = case.file.split(|&byte| byte == b'\n');
        let text = lines.nth(line - 1).expect(case.name);
        if let Some(step) = text.strip_prefix(b"S,") {
            let rule = String::from_utf8_lossy(&step[..3]);
            refused.insert((rule.into_owned(), number));
        }
    }
    refused
}

#[test]
fn every_rule_is_refused_by_each_number_it_can_get() {
    let mut expected = HashSet::new();
    for rule in RULES {
        expected.extend(
            numbers_of(rule)
                .into_iter()
                .map(|number| (rule.into(), number)),
        );
    }
    let refused = refused_rules();
    let wrong: Vec<_> = refused.symmetric_difference(&expected).collect();
    assert!(wrong.is_empty(), "{wrong:?}");
}

/// A well shaped S line with `fir` gets 4, and no accepted file has one.
#[test]
fn fir_is_refused_as_a_word() {
    for (case, _) in saying(true) {
        assert_eq!(count(&case.file, "S,fir,"), 0, "{}", case.name);
    }
    let mut given = HashSet::new();
    for (case, [number, line, ..]) in saying(false) {
        let mut lines = case.file.split(|&byte| byte == b'\n');
        let refused = line.checked_sub(1).and_then(|index| lines.nth(index));
        if refused.is_some_and(|text| text.starts_with(b"S,fir,")) {
            given.insert(number);
        }
    }
    assert_eq!(given, HashSet::from([2, 4]));
}

/// On lines that are refused, or in accepted files.
#[test]
fn every_field_has_numbers_at_the_ends() {
    let mut lines = Vec::new();
    for case in all() {
        let (yes, [_, line, ..]) = parts(&case);
        for (index, text) in String::from_utf8_lossy(&case.file).lines().enumerate() {
            if yes || index + 1 == line {
                lines.push(text.to_string());
            }
        }
    }
    let words: [(&str, &[&str]); 4] = [
        ("T", &TERM_WORDS),
        ("A", &LITERAL_WORDS),
        ("C", &LITERAL_WORDS),
        ("S", &RULES),
    ];
    let of_letter = |(letter, words): (&str, &[&str])| -> Vec<String> {
        words
            .iter()
            .map(|word| format!("{letter},{word}"))
            .collect()
    };
    expect_in_every_field(&lines, &words.map(of_letter).concat());
}

/// The cuts before the first closing: each leaves one alternative waiting.
fn open_cuts(file: &[u8]) -> usize {
    let lines = file.split(|&byte| byte == b'\n');
    lines
        .take_while(|line| !closes(line))
        .filter(|line| line.starts_with(b"S,cut,"))
        .count()
}

/// The literals of the largest clause.
fn most_literals(file: &[u8]) -> usize {
    sizes_of_clauses(file).into_iter().max().unwrap_or(0)
}

/// Alternatives that wait at the most: one less than a clause has literals for
/// each `cla` before the first closing, and one for each cut.
#[test]
fn clauses_reach_200_waiting_and_pass_it_by_one() {
    let waiting = |file: &[u8]| {
        let text = String::from_utf8_lossy(file);
        let is_open = |line: &&str| !closes(line.as_bytes());
        let open: Vec<&str> = text.lines().take_while(is_open).collect();
        let splits = open.iter().filter(|line| line.starts_with("S,cla,"));
        let pushed = most_literals(file).saturating_sub(1);
        (splits.count() * pushed, open_cuts(file))
    };
    let by_clauses = |row: &(Case, [usize; 7]), most: usize| {
        let (clauses, cuts) = waiting(&row.0.file);
        clauses > 0 && clauses + cuts == most
    };
    assert!(saying(true).iter().any(|row| by_clauses(row, 200)));
    let refused = saying(false);
    let mut above = refused.iter().filter(|row| by_clauses(row, 201));
    assert!(above.any(|row| row.1[0] == 16));
}

#[test]
fn every_limit_is_reached_and_passed_by_one() {
    type Limit = (usize, usize, fn(&[u8]) -> usize);
    let limits: [Limit; 6] = [
        (1, 60_000, |file| file.len()),
        (7, 600, |file| count(file, "T,")),
        (15, 1_000, |file| count(file, "A,")),
        (16, 200, open_cuts),
        (21, 400, |file| count(file, "C,")),
        (21, 8, most_literals),
    ];
    for (number, limit, size) in limits {
        let most = saying(true).iter().map(|row| size(&row.0.file)).max();
        assert_eq!(most, Some(limit), "accepted, for number {number}");
        let refused = saying(false);
        let above = refused.iter().filter(|row| size(&row.0.file) == limit + 1);
        assert!(above.into_iter().any(|row| row.1[0] == number), "{number}");
    }
}
