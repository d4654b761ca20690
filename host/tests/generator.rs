//! The generator's files have what they are made for. All is read from the
//! text of the files; no checker is run.

use std::collections::{BTreeMap, BTreeSet, HashSet};
use std::sync::LazyLock;

use host::generator::{batch, not_fresh, refusal, Expected, Sample, FORMER_RULE};
use host::name_parts::PARTS;

const BATCHES: u64 = 800;
const SEED: u64 = 7;

/// The samples of all batches, made once for all tests.
static SAMPLES: LazyLock<Vec<Sample>> = LazyLock::new(|| {
    (0..BATCHES)
        .flat_map(|number| batch(SEED, number))
        .collect()
});

/// A line's letter, word and numbers.
type Line = (String, String, [usize; 4]);

fn lines(file: &[u8]) -> Vec<Line> {
    let text = std::str::from_utf8(file).expect("an accepted file is ASCII");
    text.lines()
        .map(|line| {
            let fields: Vec<&str> = line.split(',').collect();
            let number = |index: usize| fields[index].parse().expect("a number");
            let numbers = [number(2), number(3), number(4), number(5)];
            (fields[0].to_string(), fields[1].to_string(), numbers)
        })
        .collect()
}

fn accepted_files() -> Vec<Vec<Line>> {
    SAMPLES
        .iter()
        .filter(|sample| matches!(sample.expected, Expected::Reply([0, ..])))
        .map(|sample| lines(&sample.bytes))
        .collect()
}

/// How many literals each clause has.
fn clause_sizes(file: &[Line]) -> BTreeMap<usize, usize> {
    let mut sizes = BTreeMap::new();
    for (_, _, numbers) in file.iter().filter(|line| line.0 == "C") {
        *sizes.entry(numbers[2]).or_default() += 1;
    }
    sizes
}

/// The clause that each step splits, in the order of the steps.
fn split_clauses(file: &[Line]) -> Vec<usize> {
    let splits = file.iter().filter(|line| line.1 == "cla");
    splits.map(|(_, _, numbers)| numbers[2]).collect()
}

/// How many alternatives begin to wait at a step.
fn pushes(rule: &str, numbers: [usize; 4], sizes: &BTreeMap<usize, usize>) -> usize {
    match rule {
        "ext" | "cue" | "sgi" | "cut" | "rdm" => 1,
        "img" => 2,
        "cla" => sizes[&numbers[2]] - 1,
        _ => 0,
    }
}

fn closes(rule: &str) -> bool {
    matches!(rule, "cls" | "emp" | "bck")
}

fn most_waiting(file: &[Line]) -> usize {
    let sizes = clause_sizes(file);
    let (mut waiting, mut most) = (0, 0);
    for (letter, word, numbers) in file {
        if letter != "S" {
            continue;
        }
        waiting += pushes(word, *numbers, &sizes);
        most = most.max(waiting);
        if closes(word) {
            waiting = waiting.saturating_sub(1);
        }
    }
    most
}

fn deepest_term(file: &[Line]) -> usize {
    let mut depths = vec![0];
    for (letter, word, numbers) in file {
        if letter == "T" {
            let inside = if is_variable(word) { &[0; 4] } else { numbers };
            let depth = 1 + inside.iter().map(|number| depths[*number]).max().unwrap();
            depths.push(depth);
        }
    }
    depths.into_iter().max().unwrap()
}

/// Whether a step takes a variable as fresh that another has taken before.
fn takes_again(file: &[Line]) -> bool {
    let mut taken = HashSet::new();
    file.iter().any(|(letter, word, numbers)| {
        let takes = letter == "S" && matches!(word.as_str(), "ext" | "wit");
        takes && !taken.insert(numbers[3])
    })
}

fn is_variable(word: &str) -> bool {
    matches!(word, "rfv" | "rgv" | "arv" | "fnv" | "clv")
}

fn digits(number: usize) -> usize {
    number.to_string().len()
}

#[test]
fn accepted_files_are_varied() {
    let files = accepted_files();
    let count = |asked: &dyn Fn(&[Line]) -> bool| files.iter().filter(|file| asked(file)).count();
    assert!(count(&|file| most_waiting(file) == 200) >= 10);
    assert!(count(&|file| (4..200).contains(&most_waiting(file))) >= 30);
    assert!(count(&takes_again) >= 20);
    assert!(count(&|file| deepest_term(file) >= 6) >= 10);
    assert!(count(&|file| file.len() < 20) >= 50);
    assert!(count(&|file| file.len() > 300) >= 10);
}

/// Whether a clause is split while an alternative of another split of a clause
/// waits.
fn nests_splits(file: &[Line]) -> bool {
    let sizes = clause_sizes(file);
    // Of each alternative that waits, whether it is one of a clause.
    let mut of_clauses = Vec::new();
    for (_, word, numbers) in file.iter().filter(|line| line.0 == "S") {
        let more = pushes(word, *numbers, &sizes);
        if word == "cla" && more > 0 && of_clauses.contains(&true) {
            return true;
        }
        of_clauses.resize(of_clauses.len() + more, word == "cla");
        if closes(word) {
            of_clauses.pop();
        }
    }
    false
}

#[test]
fn clauses_are_varied() {
    let files = accepted_files();
    let count = |asked: &dyn Fn(&[Line]) -> bool| files.iter().filter(|file| asked(file)).count();
    let mut sizes: BTreeMap<usize, usize> = BTreeMap::new();
    for file in &files {
        let of_clauses = clause_sizes(file);
        for clause in split_clauses(file) {
            *sizes.entry(of_clauses[&clause]).or_default() += 1;
        }
    }
    assert_eq!(
        sizes.keys().copied().collect::<Vec<_>>(),
        Vec::from_iter(1..=8)
    );
    assert!(sizes.values().all(|splits| *splits >= 10), "{sizes:?}");
    let distinct = |file: &[Line]| BTreeSet::from_iter(split_clauses(file)).len();
    assert!(count(&|file| distinct(file) < split_clauses(file).len()) >= 20);
    assert!(count(&|file| distinct(file) < clause_sizes(file).len()) >= 20);
    assert!(count(&|file| distinct(file) >= 3) >= 20);
    assert!(count(&nests_splits) >= 20);
}

#[test]
fn names_and_places_of_every_length() {
    let (mut names, mut places) = (BTreeSet::new(), BTreeSet::new());
    for (letter, word, numbers) in accepted_files().into_iter().flatten() {
        if letter == "T" && is_variable(&word) {
            names.insert(digits(numbers[0]));
        }
        if letter == "S" && numbers[0] > 0 {
            places.insert(digits(numbers[0]));
        }
    }
    assert_eq!(names, BTreeSet::from([1, 2, 3, 4, 5]));
    assert!(places.is_superset(&BTreeSet::from([1, 2, 3])));
    let ends_at_1000 = |line: &Line| line.1 == "cls" && line.2[1] == 1_000;
    assert!(accepted_files().iter().flatten().any(ends_at_1000));
}

/// The names of the variables of each word.
fn names(file: &[Line]) -> BTreeMap<&str, BTreeSet<usize>> {
    let mut names: BTreeMap<&str, BTreeSet<usize>> = BTreeMap::new();
    for (letter, word, numbers) in file {
        if letter == "T" && is_variable(word) {
            names.entry(word).or_default().insert(numbers[0]);
        }
    }
    names
}

/// Names that differ, and not in what a checker with too little room keeps.
#[test]
fn names_are_easily_confused() {
    let files = accepted_files();
    let count = |asked: &dyn Fn(&BTreeSet<usize>) -> bool| {
        let has = |file: &&Vec<Line>| names(file).values().any(asked);
        files.iter().filter(has).count()
    };
    for (part, of) in PARTS {
        let shared = count(&|names| {
            let parts: BTreeSet<usize> = names.iter().map(|name| of(*name)).collect();
            parts.len() < names.len()
        });
        println!("{shared} files with two names that share {part}");
        assert!(shared >= 40, "{shared} {part}");
    }
    for edge in [9_999, 10_000, 99_999] {
        let with_it = count(&|names| names.contains(&edge));
        println!("{with_it} files with the name {edge}");
        assert!(with_it >= 40, "{with_it} {edge}");
    }
}

/// Numbers that name nothing have five digits often.
#[test]
fn long_numbers_stand_everywhere() {
    for kind in [
        "an unused field",
        "a number of no term",
        "a place not on the branch",
        "a split of no clause",
        "a gap in the clauses",
        "no side of a literal",
    ] {
        let samples = samples_of(kind);
        let refused = samples.iter().map(|(sample, file)| match sample.expected {
            Expected::Reply([_, line, ..]) => &file[line as usize - 1],
            expected => panic!("{kind}: {expected:?}"),
        });
        let has_five = |(_, word, numbers): &&Line| {
            let first = usize::from(is_variable(word));
            numbers[first..].iter().any(|number| digits(*number) == 5)
        };
        let long = refused.filter(has_five).count();
        println!("{kind}: {long} of {}", samples.len());
        assert!(long >= 3, "{kind}: {long}");
    }
}

/// A line is misshapen in one field: here by a digit too many.
#[test]
fn six_digits_stand_in_misshapen_lines() {
    let samples = SAMPLES.iter();
    let misshapen = samples.filter(|sample| sample.kind == "a line misshapen");
    let has_six = |sample: &&Sample| {
        let mut fields = sample.bytes.split(|byte| !byte.is_ascii_digit());
        fields.any(|digits| digits.len() == 6)
    };
    let count = misshapen.filter(has_six).count();
    assert!(count >= 5, "{count}");
}

/// Every kind of damage, of noise and of file at a limit.
#[test]
fn every_kind_is_made() {
    let kinds: BTreeSet<&str> = SAMPLES.iter().map(|sample| sample.kind).collect();
    for kind in [
        "closed tableau",
        "an alternative left out",
        "two alternatives exchanged",
        "a variable taken at random",
        "a fresh variable taken twice",
        "a step by fir",
        "w in a clause only",
        "w in a clause too",
        "w in assumptions",
        "a clause numbered 0",
        "a gap in the clauses",
        "clauses going back",
        "a ninth literal",
        "a T or A line among the clauses",
        "a clause before an A line",
        "a split of no clause",
        "a clause without its last alternative",
        "an assumption for fin changed",
        "fin on its own conclusion",
        "a field of bck",
        "bck on a closed tree",
        "bck under another letter",
        "bck put in",
        "bck for another closing",
        "a fitting step",
        "a near miss",
        "a step without its terms",
        "a term looked up left out",
        "a number changed",
        "a line dropped",
        "a line doubled",
        "two lines exchanged",
        "a byte changed",
        "a byte dropped",
        "a byte doubled",
        "two bytes exchanged",
        "bytes at random",
        "steps at random",
        "60,000 bytes",
        "60,001 bytes",
        "600 terms",
        "601 terms",
        "1,000 assumptions",
        "1,001 assumptions",
        "1,000 places",
        "1,001 places",
        "200 wait",
        "201 wait",
        "200 wait after img",
        "201 wait after img",
        "8 literals",
        "9 literals",
        "400 C lines",
        "401 C lines",
        "200 wait after cla",
        "201 wait after cla",
        "1,000 places after cla",
        "1,001 places after cla",
    ] {
        assert!(kinds.contains(kind), "{kind}");
    }
}

/// A step by a word that is no rule is refused with 4 where it stands: among
/// the steps or after the last, and whatever its fields hold.
#[test]
fn the_former_rule_stands_anywhere() {
    let (mut among, mut after, mut as_before, mut changed) = (0, 0, 0, 0);
    for (sample, file) in samples_of("a step by fir") {
        let is_it = |line: &Line| line.0 == "S" && line.1 == FORMER_RULE;
        let index = file.iter().position(is_it).expect("the step");
        assert_eq!(sample.expected, refusal(4, index + 1));
        let last = index + 1 == file.len();
        among += usize::from(!last);
        after += usize::from(last);
        let only_w = matches!(file[index].2, [0, 0, 0, w] if w > 0);
        as_before += usize::from(only_w);
        changed += usize::from(!only_w);
    }
    for count in [among, after, as_before, changed] {
        assert!(count >= 5, "{among} {after} {as_before} {changed}");
    }
    let accepted = accepted_files();
    let mut words = accepted.iter().flatten().map(|line| line.1.as_str());
    assert!(words.all(|word| word != FORMER_RULE));
}

/// The samples of one kind, each with its lines.
fn samples_of(kind: &str) -> Vec<(&'static Sample, Vec<Line>)> {
    let samples = SAMPLES.iter().filter(|sample| sample.kind == kind);
    samples
        .map(|sample| (sample, lines(&sample.bytes)))
        .collect()
}

/// The line, from 1, where w is not fresh.
fn refused_line(sample: &Sample) -> usize {
    match sample.expected {
        Expected::Reply([13, line, ..]) => line as usize,
        expected => panic!("{}: {expected:?}", sample.kind),
    }
}

/// The lines of this letter, of which one side is a term with w in it, counted
/// from 1 among the lines of their letter.
fn lines_with(file: &[Line], letter: &str, w: usize) -> Vec<usize> {
    let mut with_w = HashSet::from([w]);
    let terms = file.iter().filter(|line| line.0 == "T");
    for (index, (_, word, numbers)) in terms.enumerate() {
        if !is_variable(word) && numbers.iter().any(|number| with_w.contains(number)) {
            with_w.insert(index + 1);
        }
    }
    let literals = file.iter().filter(|line| line.0 == letter);
    let sides = literals.map(|(_, _, numbers)| &numbers[..2]);
    let mentions = |sides: &[usize]| sides.iter().any(|side| with_w.contains(side));
    sides
        .enumerate()
        .filter(|(_, sides)| mentions(sides))
        .map(|(index, _)| index + 1)
        .collect()
}

/// The reply has the first of several places, and 1 now and then.
#[test]
fn w_stands_in_several_assumptions() {
    let (mut several, mut first, mut later) = (0, 0, 0);
    for (sample, file) in samples_of("w in assumptions") {
        let line = refused_line(sample);
        let places = lines_with(&file, "A", file[line - 1].2[3]);
        assert_eq!(sample.expected, not_fresh(line, places[0]));
        several += usize::from(places.len() > 1);
        first += usize::from(places[0] == 1);
        later += usize::from(places[0] > 1);
    }
    for count in [several, first, later] {
        assert!(count >= 5, "{several} {first} {later}");
    }
}

/// What a clause says of w changes no place; where nothing else does, there is
/// none.
#[test]
fn w_stands_in_a_clause_only_or_too() {
    for (kind, only) in [("w in a clause only", true), ("w in a clause too", false)] {
        let samples = samples_of(kind);
        assert!(samples.len() >= 5, "{kind}: {}", samples.len());
        for (sample, file) in samples {
            let line = refused_line(sample);
            let w = file[line - 1].2[3];
            assert_ne!(lines_with(&file, "C", w), [], "{kind}");
            assert_eq!(lines_with(&file, "A", w), [], "{kind}");
            assert_eq!(sample.expected == not_fresh(line, 0), only, "{kind}");
        }
    }
}

/// A variable is taken again at once, or after other steps, some of which have
/// cut the branch back.
#[test]
fn a_variable_is_taken_again_at_any_time() {
    let (mut at_once, mut later, mut after_closing) = (0, 0, 0);
    for (sample, file) in samples_of("a fresh variable taken twice") {
        let again = refused_line(sample) - 1;
        let before = &file[..again];
        let taken = before.iter().rposition(|line| *line == file[again]);
        let between = &before[taken.expect("the first taking") + 1..];
        at_once += usize::from(between.is_empty());
        later += usize::from(!between.is_empty());
        let is_closing = |line: &Line| closes(&line.1);
        after_closing += usize::from(between.iter().any(is_closing));
    }
    for count in [at_once, later, after_closing] {
        assert!(count >= 5, "{at_once} {later} {after_closing}");
    }
}

/// `fin` takes assumptions and derived literals, and helps to close small files
/// and large ones.
#[test]
fn fin_is_varied() {
    let (mut assumed, mut derived, mut small, mut large) = (0, 0, 0, 0);
    for file in accepted_files() {
        let assumptions = file.iter().filter(|line| line.0 == "A").count();
        let steps = file.iter().filter(|line| line.1 == "fin");
        let places: Vec<usize> = steps.map(|(_, _, numbers)| numbers[0]).collect();
        let of_assumptions = places.iter().filter(|place| **place <= assumptions).count();
        assumed += of_assumptions;
        derived += places.len() - of_assumptions;
        small += usize::from(!places.is_empty() && file.len() < 30);
        large += usize::from(!places.is_empty() && file.len() > 100);
    }
    for count in [assumed, derived, small, large] {
        assert!(count >= 10, "{assumed} {derived} {small} {large}");
    }
}

/// The words of a literal and of its sides, whether the left side begins with
/// what the right side is an image of, and whether it ends with the right side.
type Premise = (String, String, String, bool, bool);

/// What a single step by `fin` names.
fn premise_of_fin(file: &[Line]) -> Premise {
    let term = |number: usize| &file[number - 1];
    let (_, word, [left, right, ..]) = file.iter().find(|line| line.0 == "A").unwrap();
    let ((_, left_word, of_left), (_, right_word, of_right)) = (term(*left), term(*right));
    let begins = of_left[0] == of_right[1];
    let ends = of_left[1] == *right;
    (
        left_word.clone(),
        word.clone(),
        right_word.clone(),
        begins,
        ends,
    )
}

/// Single steps by `fin`, which fit, which lack the union to be added, or whose
/// premises fail to fit in each way.
#[test]
fn fin_nearly_fits_in_every_way() {
    let premises = |kind: &str| -> BTreeSet<Premise> {
        let samples = samples_of(kind).into_iter();
        let by_fin = samples.filter(|(_, file)| file.last().unwrap().1 == "fin");
        by_fin.map(|(_, file)| premise_of_fin(&file)).collect()
    };
    let shape = |left: &str, word: &str, right: &str, begins, ends| {
        (left.into(), word.into(), right.into(), begins, ends)
    };
    let fitting = BTreeSet::from([shape("cup", "eq", "img", true, true)]);
    assert_eq!(premises("a fitting step"), fitting);
    assert_eq!(premises("a step without its terms"), fitting);
    let near = premises("a near miss");
    assert!(near.is_disjoint(&fitting));
    for shape in [
        shape("cup", "ne", "img", true, true),
        shape("cup", "eq", "img", true, false),
        shape("cup", "eq", "img", false, true),
        shape("cup", "eq", "img", false, false),
        shape("cap", "eq", "img", true, true),
        shape("img", "eq", "cup", false, false),
        shape("cup", "eq", "rgv", false, true),
    ] {
        assert!(near.contains(&shape), "{shape:?} {near:?}");
    }
}

/// An assumption for `fin` is changed in each way, and is refused at the step.
#[test]
fn an_assumption_for_fin_is_changed_in_every_way() {
    let mut changed = BTreeSet::new();
    for (sample, file) in samples_of("an assumption for fin changed") {
        let Expected::Reply([12, line, ..]) = sample.expected else {
            panic!("{:?}", sample.expected);
        };
        let (_, rule, [place, ..]) = &file[line as usize - 1];
        assert_eq!(rule, "fin");
        let mut assumptions = file.iter().filter(|line| line.0 == "A");
        let (_, word, [left, right, ..]) = assumptions.nth(*place - 1).unwrap();
        let term = |number: usize| file[number - 1].1.as_str();
        changed.insert((term(*left) == "cup", word.clone(), term(*right) == "img"));
    }
    let row = |union, word: &str, image| (union, word.to_string(), image);
    for expected in [
        row(false, "eq", false),
        row(true, "ne", true),
        row(true, "eq", true),
        row(true, "eq", false),
    ] {
        assert!(changed.contains(&expected), "{expected:?} {changed:?}");
    }
}

/// The kinds of single closings by `bck`, and whether they close.
const CLOSURES: [(&str, bool); 13] = [
    ("a contradiction for bck", true),
    ("a term denied itself for bck", true),
    ("contradictions for bck in both alternatives", true),
    ("a link missing for bck", false),
    ("one argument unequal for bck", false),
    ("a link denied for bck", false),
    ("an order turned around for bck", false),
    ("an order denied the other way", false),
    ("an order taken for an equation", false),
    ("equal arguments of two words for bck", false),
    ("names taken for terms by bck", false),
    ("a link for bck in a clause only", false),
    ("a link for bck in a closed alternative", false),
];

/// Each kind is made often, ends with `bck`, and is refused there or nowhere.
#[test]
fn single_closings_by_bck_are_of_every_kind() {
    for (kind, is_closed) in CLOSURES {
        let samples = samples_of(kind);
        println!("{kind}: {}", samples.len());
        assert!(samples.len() >= 25, "{kind}: {}", samples.len());
        for (sample, file) in samples {
            assert_eq!(file.last().unwrap().1, "bck");
            let splits = file.iter().filter(|line| line.1 == "cla").count();
            let closings = file.iter().filter(|line| line.1 == "bck").count();
            assert_eq!(closings, splits + 1, "{kind}");
            match sample.expected {
                Expected::Reply([0, ..]) => assert!(is_closed, "{kind}"),
                expected => {
                    assert!(!is_closed, "{kind}");
                    assert_eq!(expected, refusal(12, file.len()), "{kind}");
                }
            }
        }
    }
}

/// The contradictions have one literal up to some dozens, terms of every word
/// with arguments, terms inside terms, and tables in any order.
#[test]
fn contradictions_for_bck_are_varied() {
    let files: Vec<Vec<Line>> = samples_of("a contradiction for bck")
        .into_iter()
        .map(|(_, file)| file)
        .collect();
    let relations = |file: &[Line]| {
        let is_one = |line: &&Line| line.0 == "A" && matches!(line.1.as_str(), "eq" | "le");
        file.iter().filter(is_one).count()
    };
    let count = |asked: &dyn Fn(&[Line]) -> bool| files.iter().filter(|file| asked(file)).count();
    for (least, most) in [(1, 2), (3, 6), (7, 12), (13, 40)] {
        let with = count(&|file| (least..=most).contains(&relations(file)));
        println!("{with} with {least} to {most} literals");
        assert!(with >= 15, "{with} with {least} to {most} literals");
    }
    for word in [
        "rea", "cup", "cap", "dif", "sin", "img", "wri", "typ", "dty",
    ] {
        let with = count(&|file| file.iter().filter(|line| line.1 == word).count() >= 2);
        assert!(with >= 8, "{with} with {word}");
    }
    for depth in [2, 4, 6] {
        let with = count(&|file| deepest_term(file) >= depth);
        assert!(with >= 10, "{with} of depth {depth}");
    }
    let denied = |word: &str| count(&|file| file.iter().any(|line| line.1 == word));
    assert!(denied("ne") >= 50 && denied("nl") >= 50);
}

/// Of the arguments of each word, each alone is the one that isn't equal.
#[test]
fn every_argument_alone_is_unequal() {
    let mut alone = BTreeSet::new();
    for (_, file) in samples_of("one argument unequal for bck") {
        let terms: Vec<&Line> = file.iter().filter(|line| line.0 == "T").collect();
        let literals: Vec<&Line> = file.iter().filter(|line| line.0 == "A").collect();
        let are_linked = |one: usize, other: usize| {
            let links = |line: &&&Line| {
                let [left, right, ..] = line.2;
                line.1 == "eq" && ([left, right] == [one, other] || [right, left] == [one, other])
            };
            one == other || literals.iter().any(|line| links(&line))
        };
        // Two terms, made of variables alone, that a literal denies.
        for (_, _, [left, right, ..]) in literals.iter().filter(|line| line.1 == "ne") {
            let (one, other) = (terms[left - 1], terms[right - 1]);
            if one.1 != other.1 || is_variable(&one.1) {
                continue;
            }
            let unequal: Vec<usize> = (0..4)
                .filter(|at| !are_linked(one.2[*at], other.2[*at]))
                .collect();
            if let [at] = unequal[..] {
                alone.insert((one.1.clone(), at));
            }
        }
    }
    for (word, arguments) in [
        ("rea", 3),
        ("cup", 2),
        ("cap", 2),
        ("dif", 2),
        ("sin", 1),
        ("img", 3),
        ("wri", 4),
        ("typ", 1),
        ("dty", 1),
    ] {
        for at in 0..arguments {
            assert!(alone.contains(&(word.to_string(), at)), "{word} {at}");
        }
    }
}

/// `bck` closes small files and large ones, beside other closings and alone.
#[test]
fn bck_is_varied() {
    let (mut small, mut large, mut beside, mut alone, mut several) = (0, 0, 0, 0, 0);
    for file in accepted_files() {
        let steps = || file.iter().filter(|line| line.0 == "S");
        let by_bck = steps().filter(|line| line.1 == "bck").count();
        let by_others = steps().filter(|line| closes(&line.1)).count() - by_bck;
        if by_bck == 0 {
            continue;
        }
        small += usize::from(file.len() < 20);
        large += usize::from(file.len() > 150);
        beside += usize::from(by_others > 0);
        alone += usize::from(by_others == 0);
        several += usize::from(by_bck > 3);
    }
    println!("{small} small {large} large {beside} beside {alone} alone {several} several");
    for count in [small, large, beside, alone, several] {
        assert!(count >= 40, "{small} {large} {beside} {alone} {several}");
    }
}

/// A seed makes the same files again, another seed others.
#[test]
fn seeds_decide() {
    let bytes = |seed: u64, number: u64| -> Vec<Vec<u8>> {
        batch(seed, number).into_iter().map(|s| s.bytes).collect()
    };
    assert_eq!(bytes(1, 5), bytes(1, 5));
    assert_ne!(bytes(1, 5), bytes(2, 5));
    assert_ne!(bytes(1, 5), bytes(1, 6));
}
