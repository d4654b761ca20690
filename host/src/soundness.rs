//! The claim about accepted files, tried on small ones: no finite heap makes
//! all their assumptions true, every A line and a literal of every clause.

use std::collections::BTreeSet;
use std::fmt;

use crate::checkers::Checker;
use crate::generator::{neighbour, small_closure, small_tableau, Tableau};
use crate::models::{Question, Search};
use crate::random::Random;

/// Heaps tried at random on each file. In nearly half of them nothing is
/// allocated.
const TRIES: usize = 80;
/// Heaps tried in turn on each file, for each number of references and classes.
const MOST_IN_TURN: usize = 400;
const NEIGHBOURS: usize = 6;

/// What was tried.
#[derive(Default)]
pub struct Trials {
    /// Accepted files as they were made.
    pub accepted: usize,
    /// Damaged files that a checker accepts all the same.
    pub damaged_accepted: usize,
    /// Accepted files that assume a clause.
    pub with_clauses: usize,
    /// Accepted files with a closing by `bck`.
    pub by_bck: usize,
    /// Refused files with one assumption left out or denied.
    pub changed: usize,
    /// Those of them with a model.
    pub changed_with_model: usize,
    /// Heaps that were tried on accepted files.
    pub heaps: usize,
    /// Accepted files on which all smallest heaps were tried.
    pub complete: usize,
    /// The rules in the accepted files as they were made.
    pub rules: BTreeSet<&'static str>,
}

impl fmt::Display for Trials {
    fn fmt(&self, f: &mut fmt::Formatter) -> fmt::Result {
        writeln!(
            f,
            "no model of {} accepted and {} damaged but accepted files, {} with clauses, {} closed \
             by bck, in {} heaps; all smallest heaps tried on {}",
            self.accepted,
            self.damaged_accepted,
            self.with_clauses,
            self.by_bck,
            self.heaps,
            self.complete
        )?;
        writeln!(
            f,
            "models of {} of {} refused files with one assumption left out or denied",
            self.changed_with_model, self.changed
        )
    }
}

/// One in so many files is a single closing by `bck`.
const FILES_PER_CLOSURE: usize = 4;

/// Tries so many small closed tableaux. An `Err` is an accepted file with a
/// model.
pub fn try_meaning(checker: Checker, tableaux: usize, seed: u64) -> Result<Trials, Vec<u8>> {
    let mut trials = Trials::default();
    for number in 0..tableaux {
        let mut random = Random::of_batch(seed, number as u64);
        let tableau = if number.is_multiple_of(FILES_PER_CLOSURE) {
            small_closure(&mut random)
        } else {
            small_tableau(&mut random)
        };
        try_tableau(checker, &tableau, &mut random, &mut trials)?;
    }
    Ok(trials)
}

fn try_tableau(
    (_, check): Checker,
    tableau: &Tableau,
    random: &mut Random,
    trials: &mut Trials,
) -> Result<(), Vec<u8>> {
    trials.accepted += 1;
    trials.rules.extend(tableau.rules());
    refute_model(&tableau.bytes(), random, trials)?;
    for _ in 0..NEIGHBOURS {
        let file = neighbour(tableau, random).bytes;
        if check(&file)[0] == 0 {
            trials.damaged_accepted += 1;
            refute_model(&file, random, trials)?;
        }
    }
    for file in tableau.with_other_assumptions() {
        let [number, line, ..] = check(&file);
        if number == 0 {
            refute_model(&file, random, trials)?;
            continue;
        }
        trials.changed += 1;
        let has_model = models(&file, random).is_some_and(|search| search.found > 0);
        trials.changed_with_model += usize::from(has_model);
        // An open tree that may have a model: every step in it is right.
        let begun = first_lines(&file, line as usize - 1);
        if has_model && check(begun)[0] == 0 {
            return Err(begun.to_vec());
        }
    }
    Ok(())
}

fn has_line(file: &[u8], start: &[u8]) -> bool {
    let mut lines = file.split(|byte| *byte == b'\n');
    lines.any(|line| line.starts_with(start))
}

fn first_lines(file: &[u8], count: usize) -> &[u8] {
    let lines = file.split_inclusive(|byte| *byte == b'\n').take(count);
    &file[..lines.map(<[u8]>::len).sum()]
}

/// An accepted file must have readable assumptions and no model.
fn refute_model(file: &[u8], random: &mut Random, trials: &mut Trials) -> Result<(), Vec<u8>> {
    match models(file, random) {
        Some(search) if search.found == 0 => {
            trials.heaps += search.tried;
            trials.complete += usize::from(search.complete);
            trials.with_clauses += usize::from(has_line(file, b"C,"));
            trials.by_bck += usize::from(has_line(file, b"S,bck,"));
            Ok(())
        }
        _ => Err(file.to_vec()),
    }
}

/// Tries heaps in turn, then some larger ones at random.
fn models(file: &[u8], random: &mut Random) -> Option<Search> {
    let question = Question::of_file(file)?;
    let mut search = question.all_models(MOST_IN_TURN);
    search.found += question.random_models(TRIES, random);
    search.tried += TRIES;
    Some(search)
}
