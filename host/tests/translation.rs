//! A file whose branches close by chains of `ref`, `sym`, `trn`, `sub`, `ler`,
//! `let`, `lea` and `rep` and a `cls` is accepted with one `bck` in place of each
//! chain too, with as many closings.

use host::checkers::{Checker, CHECKERS, PLAIN_RUST};
use host::generator::{translated_chains, translated_tableau, Tableau, Translated};

const SEED: u64 = 9;
const CHAINS: u64 = 1_500;
const TABLEAUX: u64 = 300;

const APPLIED: [&str; 8] = ["ref", "sym", "trn", "sub", "ler", "let", "lea", "rep"];

fn count(tableau: &Tableau, asked: impl Fn(&str) -> bool) -> usize {
    tableau.rules().filter(|rule| asked(rule)).count()
}

/// Both are accepted with their counts, which differ in the steps alone.
fn expect_replies((name, check): Checker, made: &Translated) {
    for tableau in [&made.steps, &made.bck] {
        let file = tableau.bytes();
        let text = || String::from_utf8_lossy(&file).into_owned();
        assert_eq!(check(&file), tableau.reply(), "{name}:\n{}", text());
    }
    let ([.., steps, closings, _], [.., fewer, as_many, _]) =
        (made.steps.reply(), made.bck.reply());
    assert_eq!(closings, as_many);
    assert!(fewer <= steps);
    let before = made.steps.first_step();
    assert_eq!(made.steps.lines[..before], made.bck.lines[..before]);
}

/// Nothing is left of the chains: only what splits, and `bck`.
#[test]
fn chains_are_translated_whole() {
    let mut longest = 0;
    let mut used = [0; APPLIED.len()];
    for number in 0..CHAINS {
        let Translated { steps, bck } = translated_chains(SEED, number);
        assert_eq!(count(&steps, |rule| rule == "bck"), 0);
        assert_eq!(count(&bck, |rule| rule != "cut" && rule != "bck"), 0);
        let branches = count(&steps, |rule| rule == "cls");
        assert_eq!(count(&bck, |rule| rule == "bck"), branches);
        assert_eq!(branches, 1 + count(&steps, |rule| rule == "cut"));
        longest = longest.max(count(&steps, |rule| APPLIED.contains(&rule)) / branches);
        for (at, applied) in APPLIED.iter().enumerate() {
            used[at] += count(&steps, |rule| rule == *applied);
        }
    }
    assert!(longest >= 40, "{longest}");
    // A chain needs no `ref`.
    assert!(used[1..].iter().all(|steps| *steps >= 100), "{used:?}");
}

#[test]
fn the_plain_checker_accepts_both() {
    for number in 0..CHAINS {
        expect_replies(PLAIN_RUST, &translated_chains(SEED, number));
    }
    for number in 0..TABLEAUX {
        expect_replies(PLAIN_RUST, &translated_tableau(SEED, number));
    }
}

#[test]
fn every_checker_accepts_both() {
    for checker in CHECKERS {
        for number in 0..CHAINS {
            expect_replies(*checker, &translated_chains(SEED, number));
        }
        for number in 0..TABLEAUX {
            expect_replies(*checker, &translated_tableau(SEED, number));
        }
    }
}

/// In other tableaux chains of every rule are translated, and other closings
/// stay.
#[test]
fn tableaux_are_translated_in_part() {
    let (mut translated, mut kept) = (0, 0);
    let mut gone = [0; APPLIED.len()];
    for number in 0..TABLEAUX {
        let Translated { steps, bck } = translated_tableau(SEED, number);
        let more = count(&bck, |rule| rule == "bck") - count(&steps, |rule| rule == "bck");
        translated += more;
        kept += count(&bck, |rule| rule == "cls" || rule == "emp");
        for (at, applied) in APPLIED.iter().enumerate() {
            let of_rule = |rule: &str| rule == *applied;
            gone[at] += count(&steps, of_rule) - count(&bck, of_rule);
        }
    }
    assert!(translated >= 500 && kept >= 500, "{translated} {kept}");
    assert!(gone.iter().all(|steps| *steps >= 10), "{gone:?}");
}
