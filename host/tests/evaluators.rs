//! The evaluators against the meaning: models that were searched for, files that
//! are accepted and so have no model, and heaps at random. All of it with clauses
//! too.

mod heap_cases;

use cases::digits::names_changed_over;
use host::evaluators::{evaluators, reply_line, Reply};
use host::generator::{batch, neighbour, small_tableau, Expected, Tableau};
use host::heap_lines::{heap_file, heap_lines, said_otherwise};
use host::independent::check;
use host::meaning::{assumptions, Heap, Values};
use host::models::{Model, Question, SMALL};
use host::random::Random;

const SEED: u64 = 20_031_103;
/// The most references, fields and classes of a heap that isn't small.
const LARGE: [usize; 3] = [12, 4, 6];
const ALL_TRUE: Reply = [0, 0, 0];

/// The reply of all evaluators, which must be the same.
fn reply(checker: &[u8], heap: &[u8]) -> Reply {
    let evaluators = evaluators();
    let (first, evaluate) = evaluators[0];
    let reply = evaluate(checker, heap);
    for (other, evaluate) in &evaluators[1..] {
        let text = [checker, b"and\n", heap].concat();
        let text = String::from_utf8_lossy(&text);
        assert_eq!(evaluate(checker, heap), reply, "{first}, {other}:\n{text}");
    }
    reply
}

/// The heap file of a model, in the order of `heap_lines` or in another.
fn files_of((heap, values): &Model, random: &mut Random) -> [Vec<u8>; 2] {
    let lines = heap_lines(heap, values);
    let otherwise = said_otherwise(&lines, random);
    [heap_file(&lines), heap_file(&otherwise)]
}

fn expect(file: &[u8], model: &Model, expected: Reply, random: &mut Random) {
    for heap in files_of(model, random) {
        let text = String::from_utf8_lossy(&heap);
        let of = String::from_utf8_lossy(file);
        assert_eq!(reply(file, &heap), expected, "{of}and\n{text}");
    }
}

/// The first lines of a file.
fn first_lines(file: &[u8], count: usize) -> &[u8] {
    let lines = file.split_inclusive(|byte| *byte == b'\n').take(count);
    &file[..lines.map(<[u8]>::len).sum()]
}

/// How many lines come before the steps.
fn lines_before_steps(file: &[u8]) -> usize {
    let lines = file.split_inclusive(|byte| *byte == b'\n');
    lines.take_while(|line| !line.starts_with(b"S,")).count()
}

/// A line of a file, from 1.
fn line_of(file: &[u8], number: usize) -> Option<&str> {
    let text = file
        .split(|byte| *byte == b'\n')
        .nth(number.checked_sub(1)?)?;
    std::str::from_utf8(text).ok()
}

/// The clause number on a C line.
fn clause_of(file: &[u8], number: usize) -> Option<&str> {
    let fields = line_of(file, number)?.strip_prefix("C,")?;
    fields.split(',').nth(3)
}

/// Whether the line is one of a clause, and not its last.
fn inside_clause(file: &[u8], number: usize) -> bool {
    let clause = clause_of(file, number);
    clause.is_some() && clause == clause_of(file, number + 1)
}

/// The line of the first false assumption: the first lines up to it, as a file,
/// no longer have this model. A clause is not cut short. 0 if they all have it.
fn first_false(file: &[u8], heap: &Heap, values: &Values) -> u32 {
    for count in 1..=lines_before_steps(file) {
        if inside_clause(file, count) {
            continue;
        }
        let answer = assumptions(first_lines(file, count), heap, values);
        if !answer.expect("the lines are good") {
            return count as u32;
        }
    }
    0
}

/// Pairs at random, all that follows from them, and the classes renamed.
fn some_order(classes: usize, random: &mut Random) -> Vec<Vec<bool>> {
    let mut names: Vec<usize> = (0..classes).collect();
    random.shuffle(&mut names);
    let mut order = vec![vec![false; classes]; classes];
    for a in 0..classes {
        order[names[a]][names[a]] = true;
        for b in a + 1..classes {
            order[names[a]][names[b]] = random.chance(1, 3);
        }
    }
    for middle in 0..classes {
        for a in 0..classes {
            for b in 0..classes {
                order[a][b] |= order[a][middle] && order[middle][b];
            }
        }
    }
    order
}

/// A heap and values at random, small or larger, with any order of classes.
fn some_model(question: &Question, random: &mut Random) -> Model {
    let most = random.pick(&[SMALL, LARGE]);
    let (mut heap, values) = question.random(most, random);
    heap.order = some_order(heap.classes, random);
    assert!(heap.is_finite_heap());
    (heap, values)
}

fn question(file: &[u8]) -> Question {
    Question::of_file(file).expect("the T, A and C lines are good")
}

/// The file without its steps, and some of its last A lines turned into clauses
/// of one literal or several.
fn with_clauses(file: &[u8], random: &mut Random) -> Vec<u8> {
    let text = std::str::from_utf8(file).expect("a tableau is ASCII");
    let starting = |letter: &str| {
        let lines = text.lines().filter(|line| line.starts_with(letter));
        lines.map(String::from).collect::<Vec<_>>()
    };
    let [terms, literals, mut clauses] = ["T,", "A,", "C,"].map(starting);
    let (kept, turned) = literals.split_at(random.below(literals.len() + 1));
    let last = clauses.last().and_then(|line| line.split(',').nth(4));
    let mut number: usize = last.map_or(0, |text| text.parse().expect("a clause number"));
    let mut size = 0;
    for line in turned {
        if size == 0 || size == 8 || random.chance(1, 2) {
            number += 1;
            size = 0;
        }
        size += 1;
        let fields: Vec<&str> = line.split(',').collect();
        let [_, word, left, right, ..] = fields[..] else {
            panic!("an A line has six fields");
        };
        clauses.push(format!("C,{word},{left},{right},{number},0"));
    }
    heap_file(&[&terms, kept, &clauses].concat())
}

/// A tableau's files with other assumptions, each with clauses too.
fn changed_files(tableau: &Tableau, random: &mut Random) -> Vec<Vec<u8>> {
    let mut files = Vec::new();
    for file in tableau.with_other_assumptions() {
        files.push(with_clauses(&file, random));
        files.push(file);
    }
    files
}

#[test]
fn models_make_all_true() {
    let mut in_turn = 0;
    let mut at_random = 0;
    for number in 0..150 {
        let mut random = Random::of_batch(SEED, number);
        let tableau = small_tableau(&mut random);
        for file in changed_files(&tableau, &mut random) {
            let question = question(&file);
            if let Some(model) = question.all_models(200).first {
                expect(&file, &model, ALL_TRUE, &mut random);
                in_turn += 1;
            }
            for _ in 0..20 {
                let (heap, values) = some_model(&question, &mut random);
                if question.holds(&heap, &values) {
                    expect(&file, &(heap, values), ALL_TRUE, &mut random);
                    at_random += 1;
                }
            }
        }
    }
    assert!(in_turn > 200 && at_random > 200, "{in_turn} {at_random}");
}

/// "no accepted file's assumptions ever evaluate to all true"
#[test]
fn accepted_files_are_never_all_true() {
    let mut heaps = 0;
    for number in 0..400 {
        let mut random = Random::of_batch(SEED, number);
        let tableau = small_tableau(&mut random);
        let mut files = vec![tableau.bytes()];
        files.extend((0..4).map(|_| neighbour(&tableau, &mut random).bytes));
        files.retain(|file| check(file).yes);
        assert!(!files.is_empty());
        for file in files {
            heaps += try_accepted(&file, 20, &mut random);
        }
    }
    assert!(heaps > 8_000, "{heaps}");
}

#[test]
fn larger_accepted_files_are_never_all_true() {
    let mut heaps = 0;
    for number in 0..60 {
        let mut random = Random::of_batch(SEED, number);
        for sample in batch(SEED, number) {
            let Expected::Reply([0, ..]) = sample.expected else {
                continue;
            };
            heaps += try_accepted(&sample.bytes, 5, &mut random);
        }
    }
    assert!(heaps > 300, "{heaps}");
}

/// Tries so many heaps on an accepted file. Each makes an A line or a clause
/// false.
fn try_accepted(file: &[u8], heaps: usize, random: &mut Random) -> usize {
    let question = question(file);
    let mut tried = 0;
    for _ in 0..heaps {
        let model = some_model(&question, random);
        for heap in files_of(&model, random) {
            // Too many variables for one heap file.
            if heap.len() > 60_000 {
                continue;
            }
            let [number, of, line] = reply(file, &heap);
            assert_eq!([number, of], [0, 0]);
            let ends_an_assumption = is_assumption(file, line as usize);
            assert!(
                ends_an_assumption,
                "{line}:\n{}",
                String::from_utf8_lossy(file)
            );
            tried += 1;
        }
    }
    tried
}

/// Whether this is an A line or the last line of a clause.
fn is_assumption(file: &[u8], number: usize) -> bool {
    let a_line = line_of(file, number).is_some_and(|text| text.starts_with("A,"));
    a_line || clause_of(file, number).is_some() && !inside_clause(file, number)
}

#[test]
fn replies_agree_with_the_meaning() {
    let mut all_true = 0;
    let mut clauses_false = 0;
    let mut clauses_true = 0;
    let mut lines = std::collections::BTreeSet::new();
    for number in 0..120 {
        let mut random = Random::of_batch(SEED + 1, number);
        let tableau = small_tableau(&mut random);
        let mut files = changed_files(&tableau, &mut random);
        files.push(with_clauses(&tableau.bytes(), &mut random));
        files.push(tableau.bytes());
        for file in files {
            let question = question(&file);
            for _ in 0..6 {
                let model = some_model(&question, &mut random);
                let line = first_false(&file, &model.0, &model.1);
                expect(&file, &model, [0, 0, line], &mut random);
                assert_eq!(line == 0, question.holds(&model.0, &model.1));
                all_true += usize::from(line == 0);
                clauses_false += usize::from(clause_of(&file, line as usize).is_some());
                let last = clause_of(&file, lines_before_steps(&file));
                clauses_true += usize::from(line == 0 && last.is_some());
                lines.insert(line as usize - lines_of_terms(&file).min(line as usize));
            }
        }
    }
    // Assumptions true, and false at many places.
    assert!(all_true > 50, "{all_true}");
    assert!(lines.len() > 5, "{lines:?}");
    assert!(clauses_false > 50, "{clauses_false}");
    assert!(clauses_true > 50, "{clauses_true}");
}

/// Which names the variables have changes no reply, where both files change.
#[test]
fn names_may_be_changed_over() {
    let mut changed = 0;
    for case in heap_cases::all() {
        let checker = names_changed_over(&case.checker);
        let heap = names_changed_over(&case.heap);
        let files = [&case.checker, &case.heap, &checker, &heap];
        if files.iter().any(|file| file.len() > 60_000) {
            continue;
        }
        let line = reply_line(reply(&checker, &heap));
        assert_eq!(line, format!("{}\n", case.reply), "{}", case.name);
        changed += usize::from(heap != case.heap);
    }
    assert!(changed > 500, "{changed}");
}

fn lines_of_terms(file: &[u8]) -> usize {
    let lines = file.split_inclusive(|byte| *byte == b'\n');
    lines.take_while(|line| line.starts_with(b"T,")).count()
}

/// What may stand in a reply.
fn expect_form(checker: &[u8], heap: &[u8]) -> Reply {
    let [number, file, line] = reply(checker, heap);
    match file {
        0 => assert_eq!(number, 0),
        1 => assert!([1, 2, 3, 4, 6, 7, 8, 9, 10, 15, 21].contains(&number)),
        2 => assert!([1, 2, 3, 4, 6, 19, 20].contains(&number)),
        _ => panic!("file {file}"),
    }
    let no_line = number == 1 || number == 20;
    if file != 0 {
        assert_eq!(line == 0, no_line, "{number},{file},{line}");
    }
    [number, file, line]
}

/// A byte changed, taken out or put in, or a line taken out, moved or repeated.
fn damage(file: &[u8], random: &mut Random) -> Vec<u8> {
    let mut bytes = file.to_vec();
    let byte = random.below(bytes.len());
    let mut lines: Vec<&[u8]> = file.split_inclusive(|byte| *byte == b'\n').collect();
    let count = lines.len();
    let line = random.below(count);
    match random.below(6) {
        0 => bytes[byte] = random.pick(b"0123456789,\nDTACSabclrsuvx"),
        1 => drop(bytes.remove(byte)),
        2 => bytes.insert(byte, random.pick(b"0123456789,\nDTACS")),
        3 => drop(lines.remove(line)),
        4 => lines.swap(line, random.below(count)),
        _ => lines.insert(line, lines[random.below(count)]),
    }
    if bytes == file {
        return lines.concat();
    }
    bytes
}

#[test]
fn damaged_files_get_a_reply() {
    let mut given = std::collections::BTreeSet::new();
    for number in 0..400 {
        let mut random = Random::of_batch(SEED + 2, number);
        let mut checker = small_tableau(&mut random).bytes();
        if random.chance(1, 2) {
            checker = with_clauses(&checker, &mut random);
        }
        let model = some_model(&question(&checker), &mut random);
        let [_, heap] = files_of(&model, &mut random);
        for _ in 0..20 {
            let [number, file, _] = expect_form(&checker, &damage(&heap, &mut random));
            given.insert((file, number));
            let [number, file, _] = expect_form(&damage(&checker, &mut random), &heap);
            given.insert((file, number));
        }
    }
    for number in [2, 3, 4, 6, 8, 9, 10, 21] {
        assert!(given.contains(&(1, number)), "{number}");
    }
    for number in [2, 3, 4, 6, 19, 20] {
        assert!(given.contains(&(2, number)), "{number}");
    }
}

#[test]
fn any_bytes_get_a_reply() {
    let mut random = Random::new(SEED);
    for length in 0..300 {
        let bytes: Vec<u8> = (0..length).map(|_| random.below(256) as u8).collect();
        let commas: Vec<u8> = (0..length)
            .map(|_| random.pick(b"DTACS,,,,,sizalc01\n"))
            .collect();
        for checker in [&b""[..], &bytes, &commas] {
            for heap in [&b""[..], &bytes, &commas] {
                expect_form(checker, heap);
            }
        }
    }
}
