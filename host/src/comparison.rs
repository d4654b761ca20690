//! Compares checkers with each other and with what is known of the files made
//! by the generator.

use std::collections::BTreeMap;
use std::fmt;
use std::ops::RangeBounds;

use crate::call::Numbers;
use crate::checkers::Checker;
use crate::generator::{batch, Expected, Sample, FORMER_RULE, RULES};

/// The refusals that a file can get.
pub const REFUSALS: [u32; 18] = [
    1, 2, 3, 4, 5, 6, 7, 8, 9, 10, 11, 12, 13, 14, 15, 16, 17, 21,
];

/// A file on which a checker is wrong, or two of them differ.
#[derive(Debug)]
pub struct Difference {
    pub batch: u64,
    pub sample: Sample,
    pub replies: Vec<(&'static str, Numbers)>,
}

/// What was seen on files on which nothing differs.
#[derive(Default)]
pub struct Summary {
    pub files: usize,
    pub accepted: usize,
    /// Files whose whole reply was known beforehand.
    pub known: usize,
    /// Steps of each rule in accepted files.
    pub rules: BTreeMap<&'static str, usize>,
    /// Files refused with each number.
    pub refusals: BTreeMap<u32, usize>,
    /// Files refused at a step of this rule, with this number.
    pub refused_steps: BTreeMap<(&'static str, u32), usize>,
    /// Files refused with 13 and with each place.
    pub places: BTreeMap<u32, usize>,
}

impl Summary {
    /// The rules that stand in no accepted file.
    pub fn rules_missing(&self) -> Vec<&'static str> {
        let missing = |rule: &&str| !self.rules.contains_key(rule);
        RULES.into_iter().filter(missing).collect()
    }

    /// The refusals that no file got.
    pub fn refusals_missing(&self) -> Vec<u32> {
        let missing = |number: &u32| !self.refusals.contains_key(number);
        REFUSALS.into_iter().filter(missing).collect()
    }

    /// The rules among these of which no step got this refusal.
    pub fn never_refused(&self, rules: &[&'static str], number: u32) -> Vec<&'static str> {
        let never = |rule: &&&'static str| !self.refused_steps.contains_key(&(**rule, number));
        rules.iter().filter(never).copied().collect()
    }

    /// Files refused with 13 and with such a place.
    pub fn with_places(&self, places: impl RangeBounds<u32>) -> usize {
        self.places.range(places).map(|(_, count)| count).sum()
    }

    fn count(&mut self, sample: &Sample, reply: Numbers) {
        self.files += 1;
        self.known += usize::from(matches!(sample.expected, Expected::Reply(_)));
        let mut lines = sample.bytes.split(|byte| *byte == b'\n');
        let [number, line, .., place] = reply;
        if number == 0 {
            self.accepted += 1;
            for rule in lines.filter_map(rule_of) {
                *self.rules.entry(rule).or_default() += 1;
            }
            return;
        }
        *self.refusals.entry(number).or_default() += 1;
        if number == 13 {
            *self.places.entry(place).or_default() += 1;
        }
        let refused = (line as usize).checked_sub(1);
        let text = refused.and_then(|index| lines.nth(index));
        if let Some(rule) = text.and_then(rule_of) {
            *self.refused_steps.entry((rule, number)).or_default() += 1;
        }
    }
}

/// The rule of a step, or the word that was one.
fn rule_of(line: &[u8]) -> Option<&'static str> {
    let rest = line.strip_prefix(b"S,")?;
    let named = |rule: &&str| rest.starts_with(rule.as_bytes());
    RULES.into_iter().chain([FORMER_RULE]).find(named)
}

impl fmt::Display for Summary {
    fn fmt(&self, f: &mut fmt::Formatter) -> fmt::Result {
        writeln!(
            f,
            "{} files, {} accepted, {} with a reply known beforehand",
            self.files, self.accepted, self.known
        )?;
        write!(f, "steps in accepted files:")?;
        for rule in RULES {
            write!(f, " {rule} {}", self.rules.get(rule).unwrap_or(&0))?;
        }
        write!(f, "\nrefused files:")?;
        for number in REFUSALS {
            let count = self.refusals.get(&number).unwrap_or(&0);
            write!(f, " {number}: {count}")?;
        }
        for number in [4, 11, 12, 13, 14] {
            write!(f, "\nsteps refused with {number}:")?;
            for ((rule, given), count) in &self.refused_steps {
                if *given == number {
                    write!(f, " {rule} {count}")?;
                }
            }
        }
        writeln!(
            f,
            "\nfiles refused with 13: {} without a place, {} with place 1, {} with a later one",
            self.with_places(..1),
            self.with_places(1..2),
            self.with_places(2..)
        )
    }
}

/// Whether the reply is what is known of it.
fn as_expected(expected: Expected, reply: Numbers) -> bool {
    match expected {
        Expected::Reply(known) => reply == known,
        Expected::Refused => reply[0] != 0,
        Expected::Unknown => true,
    }
}

/// Runs the checkers on at least so many files. Stops at the first file on
/// which one of them is wrong or differs from the first.
pub fn compare(checkers: &[Checker], files: usize, seed: u64) -> Result<Summary, Box<Difference>> {
    let mut summary = Summary::default();
    let mut number = 0;
    while summary.files < files {
        for sample in batch(seed, number) {
            let replies: Vec<(&str, Numbers)> = checkers
                .iter()
                .map(|(name, check)| (*name, check(&sample.bytes)))
                .collect();
            let first = replies[0].1;
            let same = replies.iter().all(|(_, reply)| *reply == first);
            if !same || !as_expected(sample.expected, first) {
                return Err(Box::new(Difference {
                    batch: number,
                    sample,
                    replies,
                }));
            }
            summary.count(&sample, first);
        }
        number += 1;
    }
    Ok(summary)
}
