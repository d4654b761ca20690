//! Compares the checkers on files made by the generator, and shows that the
//! comparison finds checkers that are wrong.

mod other_numbers;
mod wrong_closures;

use std::collections::BTreeSet;
use std::thread;

use host::call::Numbers;
use host::checkers::{plain_rust, Checker, CHECKERS};
use host::comparison::compare;
use host::generator::{batch, FORMER_RULE, RULES};
use host::name_parts::{bits_14, bits_16, first_four_digits, last_four_digits};
use host::soundness::try_meaning;
use other_numbers::{five_digits_refused, numbers_of_16_bits, six_digits_taken, with_names};
use wrong_closures::{SAME_CLOSURES, WRONG_CLOSURES};

const FILES: usize = 20_000;
const SMALL_TABLEAUX: usize = 600;
const SEED: u64 = 20_040_404;
const BATCHES: u64 = 300;

/// The rules with no need of their own but a sort.
const WITHOUT_NEEDS: [&str; 4] = ["cut", "ref", "ler", "cla"];
const WITH_FRESH: [&str; 2] = ["ext", "wit"];
/// The rules that add a term which no field or premise names.
const WITH_LOOKUP: [&str; 7] = ["sgi", "all", "nul", "img", "wit", "rdm", "fin"];

#[test]
fn checkers_agree() {
    let summary = match compare(CHECKERS, FILES, SEED) {
        Ok(summary) => summary,
        Err(difference) => panic!(
            "{}, known {:?}, replies {:?}:\n{}",
            difference.sample.kind,
            difference.sample.expected,
            difference.replies,
            String::from_utf8_lossy(&difference.sample.bytes)
        ),
    };
    print!("{summary}");
    assert!(summary.files >= FILES);
    assert!(summary.accepted >= FILES / 10);
    assert_eq!(summary.rules_missing(), Vec::<&str>::new());
    assert_eq!(summary.refusals_missing(), Vec::<u32>::new());
    let mut with_needs = RULES.to_vec();
    with_needs.retain(|rule| !WITHOUT_NEEDS.contains(rule));
    assert_eq!(summary.never_refused(&with_needs, 12), Vec::<&str>::new());
    assert_eq!(summary.never_refused(&WITH_FRESH, 13), Vec::<&str>::new());
    assert_eq!(summary.never_refused(&WITH_LOOKUP, 14), Vec::<&str>::new());
    assert!(summary.refused_steps[&(FORMER_RULE, 4)] >= FILES / 200);
    assert!(summary.refused_steps[&("cla", 11)] >= FILES / 400);
    assert!(summary.rules["fin"] >= FILES / 20);
    for (number, one_in) in [(11, 1_000), (12, 40), (14, 1_000), (15, 2_000)] {
        let count = summary.refused_steps[&("fin", number)];
        assert!(count >= FILES / one_in, "{count} with {number}");
    }
    assert!(summary.rules["bck"] >= FILES / 10);
    for (number, one_in) in [(5, 200), (6, 1_000), (12, 10)] {
        let count = summary.refused_steps[&("bck", number)];
        assert!(count >= FILES / one_in, "{count} with {number}");
    }
    for places in [0..1, 1..2, 2..10, 10..1_001] {
        let count = summary.with_places(places.clone());
        assert!(count >= FILES / 400, "{count} with places {places:?}");
    }
}

/// Otherwise files with a variable at random would test no freshness.
#[test]
fn a_variable_at_random_is_fresh_in_some_files() {
    let samples = (0..BATCHES).flat_map(|number| batch(SEED, number));
    let taken = samples.filter(|sample| sample.kind == "a variable taken at random");
    let numbers: Vec<u32> = taken.map(|sample| plain_rust(&sample.bytes)[0]).collect();
    assert!(numbers.contains(&0) && numbers.contains(&13));
}

/// A file with a line of each letter, and one that is refused after the tree
/// is closed; a byte more makes its longest name too long.
const SMALL: &[u8] = b"T,rfv,1,0,0,0\nT,rgv,65537,0,0,0\nA,in,1,2,0,0\nA,ni,1,2,0,0\n\
    C,in,1,2,1,0\nC,ni,1,2,1,0\nC,eq,1,1,2,0\n\
    S,ref,0,0,1,0\nS,cla,0,0,1,0\nS,cls,1,2,0,0\nS,cls,1,4,0,0\nS,cut,0,0,1,2\n";

/// A file closed by `fin`.
const COUNTING: &[u8] = include_bytes!("../../examples/region_inside_its_image.tab");

/// A file closed by `bck`, once by what a clause adds and once without it.
const RELATIONS: &[u8] = b"T,rfv,1,0,0,0\nT,rfv,2,0,0,0\nT,typ,1,0,0,0\nT,typ,2,0,0,0\n\
    A,le,3,4,0,0\nA,nl,4,3,0,0\nC,eq,1,2,1,0\nC,ne,1,1,1,0\n\
    S,cla,0,0,1,0\nS,bck,0,0,0,0\nS,bck,0,0,0,0\n";

/// Every byte of a small file made every other, and every byte put in.
#[test]
fn checkers_agree_whatever_the_byte() {
    assert_eq!(plain_rust(COUNTING), [0, 0, 7, 3, 4, 1, 0]);
    assert_eq!(plain_rust(RELATIONS), [0, 0, 4, 3, 3, 2, 0]);
    for file in [SMALL, COUNTING, RELATIONS] {
        for position in 0..=file.len() {
            for byte in 0..=u8::MAX {
                let (before, after) = file.split_at(position);
                expect_agreement(&[before, &[byte], after].concat());
                expect_agreement(&[before, &[byte], after.get(1..).unwrap_or(&[])].concat());
            }
            expect_agreement(&file[..position]);
        }
    }
}

fn expect_agreement(file: &[u8]) {
    let known = plain_rust(file);
    for (name, check) in CHECKERS {
        let text = String::from_utf8_lossy(file);
        assert_eq!(check(file), known, "{name}:\n{text}");
    }
}

/// The checkers are tried side by side: the search for models takes long.
#[test]
fn accepted_files_have_no_model() {
    thread::scope(|scope| {
        for checker in CHECKERS {
            scope.spawn(|| expect_no_model(*checker));
        }
    });
}

fn expect_no_model(checker: Checker) {
    let trials = match try_meaning(checker, SMALL_TABLEAUX, SEED) {
        Ok(trials) => trials,
        Err(file) => panic!("a model of\n{}", String::from_utf8_lossy(&file)),
    };
    print!("{}: {trials}", checker.0);
    assert_eq!(trials.accepted, SMALL_TABLEAUX);
    assert_eq!(trials.rules.len(), RULES.len());
    assert!(trials.damaged_accepted > 0);
    assert!(trials.by_bck > SMALL_TABLEAUX / 4);
    assert!(trials.complete > SMALL_TABLEAUX / 2);
    // Otherwise the heaps that are tried would say little.
    assert!(trials.changed_with_model > trials.changed / 5);
}

// ---------------------------------------------------------------------------
// Checkers that are wrong
// ---------------------------------------------------------------------------

fn lines(file: &[u8]) -> impl Iterator<Item = &[u8]> {
    file.split_inclusive(|byte| *byte == b'\n')
}

/// The number of the clause, where a line has the shape of a C line.
fn clause_of(line: &[u8]) -> Option<&str> {
    let text = std::str::from_utf8(line.strip_prefix(b"C,")?).ok()?;
    text.split(',').nth(3)
}

/// How many clauses there are, if they are numbered without gaps.
fn clauses(file: &[u8]) -> u32 {
    let numbers: BTreeSet<&str> = lines(file).filter_map(clause_of).collect();
    numbers.len() as u32
}

fn yes_to_all(file: &[u8]) -> Numbers {
    let count = |start: &str| {
        let found = lines(file).filter(|line| line.starts_with(start.as_bytes()));
        found.count() as u32
    };
    let closings = count("S,cls,") + count("S,emp,") + count("S,bck,");
    let assumed = count("A") + clauses(file);
    [0, 0, count("T"), assumed, count("S"), closings, 0]
}

fn no_to_all(_: &[u8]) -> Numbers {
    [17, 1, 0, 0, 0, 0, 0]
}

fn too_long_early(file: &[u8]) -> Numbers {
    if file.len() > 59_999 {
        return [1, 0, 0, 0, 0, 0, 0];
    }
    plain_rust(file)
}

fn line_from_0(file: &[u8]) -> Numbers {
    let mut reply = plain_rust(file);
    reply[1] = reply[1].saturating_sub(1);
    reply
}

fn closings_missing(file: &[u8]) -> Numbers {
    let mut reply = plain_rust(file);
    if reply[0] == 0 {
        reply[5] = 1;
    }
    reply
}

/// Takes a tree with branches open for closed.
fn open_accepted(file: &[u8]) -> Numbers {
    match plain_rust(file) {
        [17, ..] => yes_to_all(file),
        reply => reply,
    }
}

/// A file with 200 alternatives waiting has too many.
fn one_less_waits(file: &[u8]) -> Numbers {
    let reply = plain_rust(file);
    let cuts = |text: &[u8]| text.starts_with(b"S,cut,");
    let lines: Vec<&[u8]> = lines(file).collect();
    let run = lines.chunk_by(|a, b| cuts(a) && cuts(b));
    if reply[0] == 0 && run.into_iter().any(|run| run.len() >= 200) {
        return [16, 1, 0, 0, 0, 0, 0];
    }
    reply
}

fn clauses_not_counted(file: &[u8]) -> Numbers {
    let mut reply = plain_rust(file);
    if reply[0] == 0 {
        reply[3] -= clauses(file);
    }
    reply
}

/// What a file with other C lines gets, where that is a yes.
fn with_other_clauses(file: &[u8], other: &[u8]) -> Numbers {
    match plain_rust(other) {
        [0, _, terms, _, steps, closings, _] => {
            [0, 0, terms, yes_to_all(file)[3], steps, closings, 0]
        }
        _ => plain_rust(file),
    }
}

/// A clause of several literals is split without its last.
fn last_literal_dropped(file: &[u8]) -> Numbers {
    let lines: Vec<&[u8]> = lines(file).collect();
    let same =
        |one: &&[u8], next: &&[u8]| clause_of(one).is_some() && clause_of(one) == clause_of(next);
    let groups = lines.chunk_by(same);
    let kept = groups.flat_map(|group| &group[..1.max(group.len() - 1)]);
    with_other_clauses(file, &kept.copied().collect::<Vec<_>>().concat())
}

/// The last clause, where no step splits it, may have w in it.
fn last_clause_passed_over(file: &[u8]) -> Numbers {
    let Some(last) = lines(file).filter_map(clause_of).last() else {
        return plain_rust(file);
    };
    let split = format!("S,cla,0,0,{last},0\n");
    if lines(file).any(|line| line == split.as_bytes()) {
        return plain_rust(file);
    }
    let kept: Vec<&[u8]> = lines(file)
        .filter(|line| clause_of(line) != Some(last))
        .collect();
    with_other_clauses(file, &kept.concat())
}

/// The clauses have the numbers in which they stand, whatever the file says.
fn any_numbering(file: &[u8]) -> Numbers {
    let mut text = Vec::new();
    let (mut last, mut number) = (None, 0);
    for line in lines(file) {
        let Some(clause) = clause_of(line) else {
            text.push(line.to_vec());
            continue;
        };
        number += u32::from(last != Some(clause));
        last = Some(clause);
        let fields: Vec<&[u8]> = line.splitn(6, |byte| *byte == b',').collect();
        text.push(
            [
                &fields[..4].join(&b','),
                format!(",{number},").as_bytes(),
                fields[5],
            ]
            .concat(),
        );
    }
    with_other_clauses(file, &text.concat())
}

const PLACE: usize = 6;

fn place_missing(file: &[u8]) -> Numbers {
    let mut reply = plain_rust(file);
    reply[PLACE] = 0;
    reply
}

fn place_from_0(file: &[u8]) -> Numbers {
    let mut reply = plain_rust(file);
    reply[PLACE] = reply[PLACE].saturating_sub(1);
    reply
}

/// The A lines take no place.
fn place_among_derived(file: &[u8]) -> Numbers {
    let mut reply = plain_rust(file);
    let assumptions = lines(file).filter(|line| line.starts_with(b"A,")).count();
    reply[PLACE] = reply[PLACE].saturating_sub(assumptions as u32);
    reply
}

/// A w in a clause only, or one that is no variable, gets a place.
fn place_never_0(file: &[u8]) -> Numbers {
    let mut reply = plain_rust(file);
    if reply[0] == 13 {
        reply[PLACE] = reply[PLACE].max(1);
    }
    reply
}

fn place_beside_another_number(file: &[u8]) -> Numbers {
    let mut reply = plain_rust(file);
    if reply[0] == 12 {
        reply[PLACE] = 1;
    }
    reply
}

/// Where `fin` is refused since the assumption that it names does not fit, what
/// the file gets with another assumption there.
fn with_other_premise(file: &[u8], change: fn(&mut [&str])) -> Numbers {
    let reply = plain_rust(file);
    let Some(assumption) = misfit_of_fin(file, reply) else {
        return reply;
    };
    let text = String::from_utf8_lossy(file);
    let changed = text.lines().enumerate().map(|(index, line)| {
        let mut fields: Vec<&str> = line.split(',').collect();
        if index == assumption {
            change(&mut fields);
        }
        fields.join(",") + "\n"
    });
    plain_rust(changed.collect::<String>().as_bytes())
}

/// The line of the assumption, from 0, if that is why a file is refused.
fn misfit_of_fin(file: &[u8], reply: Numbers) -> Option<usize> {
    let [12, line, ..] = reply else {
        return None;
    };
    let step = lines(file).nth(line as usize - 1)?;
    let text = std::str::from_utf8(step.strip_prefix(b"S,fin,")?).ok()?;
    let place: usize = text.split(',').next()?.parse().ok()?;
    let is_assumption = |(_, line): &(usize, &[u8])| line.starts_with(b"A,");
    let mut assumptions = lines(file).enumerate().filter(is_assumption);
    let (index, _) = assumptions.nth(place - 1)?;
    Some(index)
}

/// `fin` takes i eq cup(r,i) too.
fn fin_either_way(file: &[u8]) -> Numbers {
    with_other_premise(file, |fields| fields.swap(2, 3))
}

/// `fin` takes cup(r,i) ne i too.
fn fin_on_a_denial(file: &[u8]) -> Numbers {
    with_other_premise(file, |fields| fields[1] = "eq")
}

/// The union that `fin` adds belongs to what it needs.
fn fin_needs_its_union(file: &[u8]) -> Numbers {
    let mut reply = plain_rust(file);
    let step = |line: u32| lines(file).nth(line as usize - 1);
    if reply[0] == 14 && step(reply[1]).is_some_and(|line| line.starts_with(b"S,fin,")) {
        reply[0] = 12;
    }
    reply
}

const WRONG: [Checker; 26] = [
    ("yes to all", yes_to_all),
    ("no to all", no_to_all),
    ("60,000 bytes are too many", too_long_early),
    ("lines from 0", line_from_0),
    ("closings invented", closings_missing),
    ("an open tree taken for closed", open_accepted),
    ("200 waiting are too many", one_less_waits),
    ("clauses not counted", clauses_not_counted),
    ("a clause without its last literal", last_literal_dropped),
    ("w in a clause that is not split", last_clause_passed_over),
    ("clauses with any numbers", any_numbering),
    ("no place", place_missing),
    ("places from 0", place_from_0),
    ("places of derived literals", place_among_derived),
    ("always a place", place_never_0),
    ("a place beside 12", place_beside_another_number),
    ("the sides of fin exchanged", fin_either_way),
    ("a denial for fin", fin_on_a_denial),
    ("12 for 14 at fin", fin_needs_its_union),
    ("the last four digits of a name", |file| {
        plain_rust(&with_names(file, last_four_digits))
    }),
    ("the first four digits of a name", |file| {
        plain_rust(&with_names(file, first_four_digits))
    }),
    ("14 bits of a name", |file| {
        plain_rust(&with_names(file, bits_14))
    }),
    ("16 bits of a name", |file| {
        plain_rust(&with_names(file, bits_16))
    }),
    ("16 bits of other numbers", |file| {
        plain_rust(&numbers_of_16_bits(file))
    }),
    ("five digits refused", |file| {
        plain_rust(&five_digits_refused(file))
    }),
    ("six digits taken", |file| {
        plain_rust(&six_digits_taken(file))
    }),
];

/// Alone against what is known beforehand, and beside the plain checker.
#[test]
fn wrong_checkers_are_found() {
    expect_found(&WRONG);
}

#[test]
fn checkers_wrong_about_bck_are_found() {
    expect_found(&WRONG_CLOSURES);
}

/// Equals may be put for equals in le on one side only: that says no less.
#[test]
fn one_side_for_equals_is_enough() {
    let checkers = [&[("plain Rust", plain_rust as _)], &SAME_CLOSURES[..]].concat();
    assert!(compare(&checkers, FILES / 4, SEED).is_ok());
}

fn expect_found(checkers: &[Checker]) {
    for wrong in checkers.iter().copied() {
        assert!(compare(&[wrong], FILES, SEED).is_err(), "{}", wrong.0);
        let both = [("plain Rust", plain_rust as _), wrong];
        assert!(compare(&both, FILES, SEED).is_err(), "{}", wrong.0);
    }
}

/// Wrong about `bck` in a way that small files show.
const ACCEPTS_TOO_MUCH: [&str; 6] = [
    "bck closes always",
    "nl taken either way",
    "le taken for eq",
    "the first argument forgotten",
    "the second argument forgotten",
    "the third argument forgotten",
];

#[test]
fn a_checker_that_accepts_too_much_is_found_by_the_meaning() {
    assert!(try_meaning(("yes to all", yes_to_all), SMALL_TABLEAUX, SEED).is_err());
    assert!(try_meaning(("open trees", open_accepted), SMALL_TABLEAUX, SEED).is_err());
    assert!(try_meaning(("a denial for fin", fin_on_a_denial), SMALL_TABLEAUX, SEED).is_err());
    for (name, check) in WRONG_CLOSURES {
        if ACCEPTS_TOO_MUCH.contains(&name) {
            assert!(
                try_meaning((name, check), SMALL_TABLEAUX, SEED).is_err(),
                "{name}"
            );
        }
    }
}
