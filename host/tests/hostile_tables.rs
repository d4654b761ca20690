//! The hostile files that the checkers are timed on: they are as long as a file
//! may be, and get the replies known of them.

mod remembering;

use host::checkers::{Checker, PROVED, YARDSTICK};
use host::generator::full_tables::{hostile, FullTable};
use host::generator::Expected;
use remembering::REMEMBERING;

const MOST_BYTES: usize = 60_000;
const STEP_BYTES: usize = "S,bck,0,0,0,0\n".len();

fn count(file: &[u8], start: &str) -> usize {
    let lines = file.split(|byte| *byte == b'\n');
    lines
        .filter(|line| line.starts_with(start.as_bytes()))
        .count()
}

/// No step more would fit, and nearly seven in eight steps are closings by `bck`.
#[test]
fn they_are_full() {
    for FullTable { accepted, refused } in hostile::all() {
        let kind = accepted.kind;
        for file in [&accepted.bytes, &refused.bytes] {
            assert!(file.len() <= MOST_BYTES, "{kind}");
            assert!(file.len() + STEP_BYTES > MOST_BYTES, "{kind}");
            let (closings, steps) = (count(file, "S,bck,"), count(file, "S,"));
            assert!(100 * closings > 86 * steps, "{kind}: {closings}");
        }
        assert!(count(&accepted.bytes, "T,") <= 600);
    }
}

fn expect_replies((name, check): Checker, tables: impl Iterator<Item = FullTable>) {
    for table in tables {
        for sample in [table.accepted, table.refused] {
            let reply = Expected::Reply(check(&sample.bytes));
            assert_eq!(reply, sample.expected, "{name}: {}", sample.kind);
        }
    }
}

#[test]
fn the_proved_checker_gives_the_known_replies() {
    expect_replies(PROVED, hostile::all().into_iter());
}

#[test]
fn the_yardstick_gives_the_known_replies() {
    expect_replies(YARDSTICK, hostile::all().into_iter());
}

/// Three kinds are left out in which each of 300 equations needs the one before:
/// it would take some seconds for each. There are shorter ones among the others.
#[test]
fn the_independent_checker_gives_the_known_replies() {
    let is_long = |table: &FullTable| table.accepted.kind.starts_with("congruences, ");
    let (long, others): (Vec<_>, Vec<_>) = hostile::all().into_iter().partition(is_long);
    assert_eq!(long.len(), 3);
    expect_replies(REMEMBERING, others.into_iter());
}
