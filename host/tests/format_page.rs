//! The tables of docs/FORMAT.md say what the checkers and evaluators do.

mod built;
mod constants;
mod input;
mod page;
mod process;

use std::collections::BTreeSet;
use std::fs;
use std::path::Path;
use std::process::Command;
use std::sync::LazyLock;

use built::{built, reply};
use constants::constants;
use host::checkers::{self, CHECKERS};
use host::evaluators::{self, evaluators};
use host::independent_figures;
use input::run_on;
use page::{edited, rows};

const PAGE: &str = include_str!("../../docs/FORMAT.md");
const CHECKER_HEADER: &str = include_str!("../../include/tabcheck.h");
const EVALUATOR_HEADER: &str = include_str!("../../include/tabeval.h");

fn file(name: &str) -> String {
    let root = Path::new(env!("CARGO_MANIFEST_DIR")).join("..");
    fs::read_to_string(root.join(name)).expect(name)
}

fn text(lines: &[String]) -> String {
    lines.iter().map(|line| format!("{line}\n")).collect()
}

/// The refusal number of a checker file, which all checkers give.
fn number(lines: &[String]) -> u32 {
    let numbers = CHECKERS
        .iter()
        .map(|(_, check)| check(text(lines).as_bytes())[0]);
    let numbers: BTreeSet<u32> = numbers.collect();
    assert_eq!(numbers.len(), 1, "{lines:?}");
    *numbers.first().unwrap()
}

/// The refusal number of a heap file, which all evaluators give.
fn heap_number(lines: &[String]) -> u32 {
    let numbers = evaluators().into_iter();
    let numbers = numbers.map(|(_, evaluate)| evaluate(b"", text(lines).as_bytes())[0]);
    let numbers: BTreeSet<u32> = numbers.collect();
    assert_eq!(numbers.len(), 1, "{lines:?}");
    *numbers.first().unwrap()
}

fn line(letter: char, word: &str, [a, b, c, d]: [u32; 4]) -> String {
    format!("{letter},{word},{a},{b},{c},{d}")
}

/// Term 1 is a reference, 2 a region, and so on.
const SORTS: [&str; 5] = ["reference", "region", "heap", "field", "class"];
const VARIABLES: [&str; 5] = ["rfv", "rgv", "arv", "fnv", "clv"];
/// The name of a variable that no T line has made.
const NAME: u32 = 7;
/// Every number so far is good, but nothing is closed.
const OPEN: u32 = 17;

/// As the page has it; the next number has one digit more.
static GREATEST_NAME: LazyLock<u32> = LazyLock::new(|| {
    let (_, names) = PAGE.split_once("A name is 1 to ").expect("the names");
    let (greatest, _) = names.split_once('.').expect("a sentence");
    greatest.parse().expect("a number")
});

fn variables() -> Vec<String> {
    VARIABLES.map(|word| line('T', word, [1, 0, 0, 0])).to_vec()
}

/// A term of the sort.
fn term(sort: &str) -> u32 {
    SORTS.iter().position(|other| *other == sort).expect(sort) as u32 + 1
}

fn arguments(cell: &str) -> Vec<&str> {
    match cell {
        "none" => Vec::new(),
        _ => cell.split(", ").collect(),
    }
}

/// The number of the variables and this line.
fn number_with(letter: char, word: &str, fields: [u32; 4]) -> u32 {
    number(&[variables(), vec![line(letter, word, fields)]].concat())
}

/// A right line of these fields, and its neighbours: an unused field that is not
/// 0, a term that is not there, one of another sort.
fn expect_fields(letter: char, word: &str, arguments: &[&str]) {
    let mut fields = [0; 4];
    for (field, argument) in fields.iter_mut().zip(arguments) {
        *field = match *argument {
            "name" => NAME,
            sort => term(sort),
        };
    }
    assert_eq!(number_with(letter, word, fields), OPEN, "{word}");
    for at in 0..4 {
        let with = |value| {
            let mut fields = fields;
            fields[at] = value;
            number_with(letter, word, fields)
        };
        match arguments.get(at) {
            None => assert_eq!(with(1), 6, "{word} {at}"),
            Some(&"name") => {
                let names = [0, *GREATEST_NAME, *GREATEST_NAME + 1];
                assert_eq!(names.map(with), [8, OPEN, 2], "{word}");
            }
            Some(sort) => {
                assert_eq!([with(0), with(6)], [8, 8], "{word} {at}");
                for other in (1..=5).filter(|other| *other != term(sort)) {
                    assert_eq!(with(other), 9, "{word} {at}");
                }
            }
        }
    }
}

/// The first example is a line, the others are not.
#[test]
fn lines_and_what_are_none() {
    let mut paragraphs = PAGE.lines();
    let examples = paragraphs.find(|line| line.contains("is a line.")).unwrap();
    let lines = examples.split('`').skip(1).step_by(2);
    let numbers: Vec<u32> = lines.map(|line| number(&[line.to_string()])).collect();
    assert_eq!(numbers, [8, 2, 2, 2, 2]);
}

#[test]
fn t_lines() {
    let rows = rows(PAGE, ["Word", "Sort", "Arguments", "Value"]);
    assert_eq!(rows.len(), 17);
    for [word, sort, cell, _] in rows {
        let arguments = arguments(&cell);
        expect_fields('T', &word, &arguments);
        // The new term, number 6, has the sort: eq wants one sort on both sides.
        let mut fields = [0; 4];
        for (field, argument) in fields.iter_mut().zip(arguments) {
            *field = if argument == "name" {
                NAME
            } else {
                term(argument)
            };
        }
        for other in SORTS {
            let mut lines = variables();
            lines.push(line('T', &word, fields));
            lines.push(line('A', "eq", [6, term(other), 0, 0]));
            let expected = if other == sort { OPEN } else { 9 };
            assert_eq!(number(&lines), expected, "{word} {other}");
        }
    }
}

#[test]
fn a_lines() {
    let rows = rows(PAGE, ["Word", "Terms", "True when"]);
    let words: Vec<&str> = rows.iter().map(|[word, ..]| &word[..]).collect();
    assert_eq!(words, ["in", "ni", "eq", "ne", "le", "nl"]);
    for [word, terms, _] in &rows {
        if terms == "both of one sort, any" {
            for sort in SORTS {
                expect_fields('A', word, &[sort, sort]);
            }
        } else {
            expect_fields('A', word, &arguments(terms));
        }
    }
}

/// The words of A lines, on the same terms, with a clause number.
#[test]
fn c_lines() {
    for [word, terms, _] in rows(PAGE, ["Word", "Terms", "True when"]) {
        let sorts = if terms == "both of one sort, any" {
            vec!["class", "class"]
        } else {
            arguments(&terms)
        };
        let [left, right] = [term(sorts[0]), term(sorts[1])];
        let with = |fields| number_with('C', &word, fields);
        assert_eq!(with([left, right, 1, 0]), OPEN, "{word}");
        assert_eq!(with([left, right, 0, 0]), 21, "{word}");
        assert_eq!(with([left, right, 2, 0]), 21, "{word}");
        assert_eq!(with([left, right, 0, 1]), 6, "{word}");
        assert_eq!(with([left, 6, 0, 0]), 8, "{word}");
        assert_eq!(with([left, term("heap"), 0, 0]), 9, "{word}");
    }
}

/// Check 6 comes before all that a rule needs, so that it tells a field that is
/// used from one that is not.
#[test]
fn the_fields_of_every_rule() {
    let rows = rows(PAGE, ["Rule", "Uses", "Needs", "Adds"]);
    assert_eq!(rows.len(), 32);
    for [rule, uses, _, _] in rows {
        let uses: Vec<&str> = uses.split(' ').collect();
        for (at, field) in ["p", "q", "t", "w"].into_iter().enumerate() {
            let mut fields = [0; 4];
            fields[at] = 1;
            let number = number_with('S', &rule, fields);
            assert_ne!(number, 4, "{rule}");
            assert_eq!(number == 6, !uses.contains(&field), "{rule} {field}");
        }
    }
}

/// Sizes that differ, so that no range can be taken for another.
const SIZES: [u32; 3] = [5, 4, 3];

/// The least and the greatest number that a field of a D line takes.
fn range(cell: &str) -> [u32; 2] {
    match cell.trim_matches('*') {
        "reference" => [0, SIZES[0] - 1],
        "field" => [0, SIZES[1] - 1],
        "class" => [0, SIZES[2] - 1],
        "name" => [1, *GREATEST_NAME],
        _ => {
            let (least, greatest) = cell.split_once(" to ").expect(cell);
            [least, greatest].map(|number| number.parse().expect(cell))
        }
    }
}

/// The lines before a D line of this word.
fn before(word: &str) -> Vec<String> {
    let [references, fields, classes] = SIZES;
    let mut lines = Vec::new();
    if word != "siz" {
        lines.push(line('D', "siz", [references, fields, classes, 0]));
    }
    if word == "rgv" {
        lines.extend((1..references).map(|one| line('D', "alc", [one, 0, 0, 0])));
    }
    lines
}

#[test]
fn d_lines() {
    let columns = [
        "Word",
        "Field 3",
        "Field 4",
        "Field 5",
        "Field 6",
        "What it says",
        "Not said",
    ];
    let rows = rows(PAGE, columns);
    assert_eq!(rows.len(), 10);
    for [word, a, b, c, d, _, _] in rows {
        let cells = [a, b, c, d];
        let number = |fields| {
            let new = vec![line('D', &word, fields)];
            heap_number(&[before(&word), new].concat())
        };
        // The greatest numbers; a class is not put under itself.
        let mut fields = [0; 4];
        for (field, cell) in fields
            .iter_mut()
            .zip(&cells)
            .filter(|(_, cell)| *cell != "0")
        {
            *field = range(cell)[1];
        }
        if word == "sub" {
            fields[0] -= 1;
        }
        assert_eq!(number(fields), 0, "{word}");
        for (at, cell) in cells.iter().enumerate() {
            let with = |value| {
                let mut fields = fields;
                fields[at] = value;
                number(fields)
            };
            if cell == "0" {
                assert_eq!(with(1), 6, "{word} {at}");
                continue;
            }
            let [least, greatest] = range(cell);
            let beyond = if greatest == *GREATEST_NAME { 2 } else { 19 };
            assert_eq!(with(greatest + 1), beyond, "{word} {at}");
            if least > 0 {
                assert_eq!([with(least - 1), with(least)], [19, 0], "{word} {at}");
            }
        }
        expect_subject(&word, &cells, fields);
    }
}

/// A second line with another number in one field is refused if that field is no
/// part of the subject.
fn expect_subject(word: &str, cells: &[String; 4], fields: [u32; 4]) {
    if word == "siz" {
        return;
    }
    for (at, cell) in cells.iter().enumerate().filter(|(_, cell)| *cell != "0") {
        let mut other = fields;
        other[at] = match cell.trim_matches('*') {
            "class" => 0, // one less would put a class under itself
            _ => fields[at] - 1,
        };
        let mut lines = before(word);
        lines.push(line('D', word, fields));
        lines.push(line('D', word, other));
        let expected = if cell.starts_with("**") { 0 } else { 19 };
        assert_eq!(heap_number(&lines), expected, "{word} {at}");
    }
}

/// After 0, the numbers of both headers with their comments, in their order.
#[test]
fn the_numbers_are_those_of_the_headers() {
    let of_checker = constants(CHECKER_HEADER, "tabcheck_refusal");
    let of_evaluator = constants(EVALUATOR_HEADER, "tabeval_refusal");
    let mut constants = [&of_checker[1..], &of_evaluator[1..]].concat();
    constants.sort();
    let rows = rows(PAGE, ["No.", "When", "Example"]);
    let said = rows
        .iter()
        .map(|[number, when, _]| (number.parse().unwrap(), &when[..]));
    assert_eq!(said.collect::<Vec<(usize, &str)>>(), constants);
    assert_eq!(rows.len(), 21);
}

/// `heap_cases_shape.rs` says the same of the cases worked out by hand.
#[test]
fn where_the_numbers_come_from() {
    let rows = rows(
        PAGE,
        ["No.", "tabcheck", "tabeval, file 1", "tabeval, file 2"],
    );
    let given = |column: usize| -> BTreeSet<u32> {
        let rows = rows.iter().filter(|row| row[column] != "never");
        rows.map(|row| row[0].parse().unwrap()).collect()
    };
    assert_eq!(given(1), (1..=18).chain([21]).collect());
    assert_eq!(
        given(2),
        BTreeSet::from([1, 2, 3, 4, 6, 7, 8, 9, 10, 15, 18, 21])
    );
    assert_eq!(given(3), BTreeSet::from([1, 2, 3, 4, 6, 18, 19, 20]));
}

#[test]
fn edits_that_tabcheck_refuses() {
    for [name, edit, reply] in rows(PAGE, ["File", "Edit", "Reply"]) {
        let edited = edited(&file(&name), &edit);
        for (checker, check) in CHECKERS {
            let said = checkers::reply_line(check(edited.as_bytes()));
            assert_eq!(said, format!("{reply}\n"), "{checker}: {edit}");
        }
    }
}

/// The file of the page that shows a place; its last line has the reply.
#[test]
fn the_place_of_the_page() {
    let is_shown = |line: &&str| {
        ["    T,", "    A,", "    S,"]
            .iter()
            .any(|start| line.starts_with(start))
    };
    let shown: Vec<&str> = PAGE.lines().filter(is_shown).collect();
    let lines = shown
        .iter()
        .map(|line| line.split_whitespace().next().unwrap());
    let file: String = lines.map(|line| format!("{line}\n")).collect();
    let said = shown.last().unwrap().split_whitespace().nth(1);
    let reply = said.and_then(|said| said.strip_suffix(':')).unwrap();
    for (checker, check) in CHECKERS {
        let said = checkers::reply_line(check(file.as_bytes()));
        assert_eq!(said, format!("{reply}\n"), "{checker}");
    }
}

#[test]
fn edits_that_tabeval_reads() {
    let heap = file("examples/acknowledgement_hits_last_jog.heap");
    for [name, edit, reply] in rows(PAGE, ["Checker file", "Edit", "Reply of tabeval"]) {
        let edited = edited(&file(&name), &edit);
        for (evaluator, evaluate) in evaluators() {
            let said = evaluators::reply_line(evaluate(edited.as_bytes(), heap.as_bytes()));
            assert_eq!(said, format!("{reply}\n"), "{evaluator}: {edit}");
        }
    }
}

/// The heap of the page against the file of README.md, and without its fourth
/// line.
#[test]
fn the_heap_of_the_page() {
    let checker = file("crates/tabcheck/stdin");
    let lines = PAGE.lines().filter_map(|line| line.strip_prefix("    D,"));
    let heap = lines.map(|rest| format!("D,{}\n", rest.split(' ').next().unwrap()));
    let heap: String = heap.collect();
    for (heap, reply) in [(heap.clone(), [0, 0, 6]), (edited(&heap, "4d"), [0, 0, 5])] {
        for (evaluator, evaluate) in evaluators() {
            assert_eq!(
                evaluate(checker.as_bytes(), heap.as_bytes()),
                reply,
                "{evaluator}"
            );
        }
    }
}

const GOOD: &str = "yes,0,0,4,2,2,1,0\n";

/// What the program says of a night, and the independent figures with it. The
/// night is stored under a name of the test's own.
fn figures(night: &str, test: &str) -> String {
    let name = format!("format_{test}.in");
    let mut program = Command::new(built("tabfigures"));
    let said = reply(run_on(&mut program, &name, night.as_bytes()));
    assert_eq!(said, independent_figures::figures(night.as_bytes()));
    said
}

#[test]
fn the_figures_of_the_page() {
    let columns = [
        "S lines of accepted files",
        "Refused files",
        "Figures",
        "What they say",
    ];
    for [steps, refused, line, _] in rows(PAGE, columns) {
        let accepted = steps.split(", ").filter(|steps| *steps != "none");
        let mut night: String = accepted.map(|n| format!("yes,0,0,4,2,{n},1,0\n")).collect();
        night += &"no,17,8,0,0,0,0,0\n".repeat(refused.parse().unwrap());
        assert_eq!(figures(&night, "figures"), format!("{line}\n"));
    }
}

/// Each line is refused with its own number, alone and behind a good one.
#[test]
fn the_lines_that_get_2() {
    let rows = rows(PAGE, ["Number 2 is for a line", "Example"]).into_iter();
    let mut bad: Vec<String> = rows.map(|[_, line]| format!("{line}\n")).collect();
    bad.push(GOOD.trim_end().to_string()); // without its LF
    for line in bad {
        assert_eq!(figures(&line, "bad"), "2,1\n", "{line:?}");
        let second = format!("{GOOD}{line}");
        assert_eq!(figures(&second, "bad"), "2,2\n", "{line:?}");
    }
}

#[test]
fn the_lines_that_are_taken() {
    for [line, _] in rows(PAGE, ["Line that is taken", "Though"]) {
        let said = figures(&format!("{GOOD}{line}\n"), "taken");
        assert!(said.starts_with("2,"), "{line}: {said}");
        assert_eq!(said.split(',').count(), 6, "{line}: {said}");
    }
}
