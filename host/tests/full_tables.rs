//! The files that the checkers are timed on: they are full, and every checker
//! gives the replies known of them.

mod remembering;

use host::checkers::{CHECKERS, PROVED, YARDSTICK};
use host::generator::full_tables::{all, hash, FullTable, STEPS};
use host::generator::{Expected, Sample};
use remembering::REMEMBERING;

const MOST_BYTES: usize = 60_000;
const KINDS: usize = 32;

fn lines_with(file: &[u8], letter: u8) -> usize {
    let lines = file.split(|byte| *byte == b'\n');
    lines.filter(|line| line.first() == Some(&letter)).count()
}

#[test]
fn they_are_full() {
    let tables = all();
    assert_eq!(tables.len(), KINDS);
    for FullTable { accepted, refused } in tables {
        for sample in [&accepted, &refused] {
            assert!(sample.bytes.len() <= MOST_BYTES, "{}", sample.kind);
            assert_eq!(lines_with(&sample.bytes, b'T'), 600, "{}", sample.kind);
            assert_eq!(lines_with(&sample.bytes, b'S'), STEPS, "{}", sample.kind);
        }
    }
}

/// Those with clauses have all the C lines that there may be, and split often.
#[test]
fn clauses_are_many_and_split_often() {
    let with_clauses = all().into_iter().map(|table| table.accepted);
    let files: Vec<Vec<u8>> = with_clauses
        .filter(|sample| sample.kind.starts_with("`cla`"))
        .map(|sample| sample.bytes)
        .collect();
    assert_eq!(files.len(), 2);
    for (file, size) in files.iter().zip([8, 2]) {
        assert_eq!(lines_with(file, b'C'), 400);
        let lines = file.split(|byte| *byte == b'\n');
        let splits = lines.filter(|line| line.starts_with(b"S,cla,")).count();
        assert!(splits > (STEPS - 100) / size, "{splits}");
    }
}

#[test]
fn names_have_as_many_digits_as_said() {
    let sizes = [("four", "T,rgv,1234,0,0,0"), ("five", "T,rgv,12345,0,0,0")];
    for (digits, like) in sizes {
        let kind = format!("`ref`, names of {digits} digits");
        let table = all().into_iter().find(|table| table.accepted.kind == kind);
        let file = table.expect(&kind).accepted.bytes;
        let regions = file
            .split(|byte| *byte == b'\n')
            .filter(|line| line.starts_with(b"T,rgv,") && line.len() == like.len());
        assert_eq!(regions.count(), 600 - 2, "{kind}");
    }
}

/// The refused file differs in its last line alone.
#[test]
fn they_are_refused_at_the_last_line() {
    for FullTable { accepted, refused } in all() {
        let text = |file: Vec<u8>| String::from_utf8(file).unwrap();
        let (accepted, refused) = (text(accepted.bytes), text(refused.bytes));
        let pairs = accepted.lines().zip(refused.lines());
        let different: Vec<usize> = pairs
            .enumerate()
            .filter(|(_, (one, other))| one != other)
            .map(|(index, _)| index)
            .collect();
        assert_eq!(different, [accepted.lines().count() - 1]);
        assert_eq!(refused.lines().count(), accepted.lines().count());
    }
}

fn is_about_bck(sample: &Sample) -> bool {
    sample.kind.starts_with("`bck`")
}

/// The independent checker, which puts in pair after pair, would take too long
/// for many `bck`, and looks at each branch once.
#[test]
fn every_checker_gives_the_known_replies() {
    for table in all() {
        for sample in [table.accepted, table.refused] {
            let checkers = match is_about_bck(&sample) {
                true => &[REMEMBERING, PROVED, YARDSTICK],
                false => CHECKERS,
            };
            for (name, check) in checkers {
                let reply = Expected::Reply(check(&sample.bytes));
                assert_eq!(reply, sample.expected, "{name}: {}", sample.kind);
            }
        }
    }
}

/// Otherwise the terms that are chosen to share a hash would not.
#[test]
fn the_hash_is_that_of_the_proved_checker() {
    let source = concat!(env!("CARGO_MANIFEST_DIR"), "/../crates/table/src/lib.rt");
    let text = std::fs::read_to_string(source).unwrap();
    for (name, factor) in [
        ("LOW_FACTOR", hash::LOW_FACTOR),
        ("HIGH_FACTOR", hash::HIGH_FACTOR),
    ] {
        assert!(text.contains(&format!("const {name}: u64 = {factor};")));
    }
}
