//! Pairs of a checker file and a heap file for the evaluators, made from a
//! seed: heaps that fit a file, assumptions that are all true or of which one
//! is false, and damaged neighbours of both files. What is expected comes from
//! how a pair was made and from the meaning of its lines, never from an
//! evaluator.

mod assumptions;
mod blind_damage;
mod checker_damage;
mod fitting;
mod full_pairs;
mod heap_damage;
mod heap_file;
mod heap_limits;
mod truth;

use crate::random::Random;

use super::draft::denial;
use super::tableau::{text, Tableau};
use super::{closed_tableau, near_misses, neighbour, noise, small_tableau};
use blind_damage::blind;
use fitting::{fit, names_of};
use heap_file::HeapFile;

pub use full_pairs::full_pairs;
pub use heap_file::WORDS;

/// What is known of the reply to a pair.
#[derive(Debug, Clone, Copy, PartialEq, Eq)]
pub enum Evaluation {
    /// Number, file, line.
    Reply([u32; 3]),
    /// No refusal, and some assumption is false: those of an accepted file are
    /// never all true.
    SomeFalse,
    /// Nothing; only that all evaluators agree.
    Unknown,
}

impl Evaluation {
    /// Whether a reply is what is known of it.
    pub fn allows(self, reply: [u32; 3]) -> bool {
        match self {
            Evaluation::Reply(known) => reply == known,
            Evaluation::SomeFalse => reply[0] == 0 && reply[2] != 0,
            Evaluation::Unknown => true,
        }
    }
}

/// The reply that refuses a checker file.
fn checker_refusal(number: u32, line: usize) -> Evaluation {
    Evaluation::Reply([number, 1, line as u32])
}

/// The reply that refuses a heap file.
fn heap_refusal(number: u32, line: usize) -> Evaluation {
    Evaluation::Reply([number, 2, line as u32])
}

/// Two files and what is known of their reply.
#[derive(Debug, Clone)]
pub struct Pair {
    /// How it was made.
    pub kind: &'static str,
    pub checker: Vec<u8>,
    pub heap: Vec<u8>,
    pub expected: Evaluation,
}

/// How many batches there are to one with files at the limits.
const BATCHES_PER_LIMIT: u64 = 100;
const DAMAGED_HEAPS: usize = 7;
const DAMAGED_CHECKERS: usize = 4;
const BLIND: usize = 2;

/// The pairs of one batch: a table and a heap that fits it, with other
/// assumptions, other orders and damage; then files with steps.
pub fn pairs(seed: u64, batch: u64) -> Vec<Pair> {
    let mut random = Random::of_batch(seed, batch);
    let good = GoodPair::new(&mut random);
    let mut pairs = Vec::new();
    good.undamaged(&mut random, &mut pairs);
    for _ in 0..DAMAGED_HEAPS {
        pairs.push(heap_damage::neighbour(&good, &mut random));
    }
    for _ in 0..DAMAGED_CHECKERS {
        pairs.push(checker_damage::neighbour(&good, &mut random));
    }
    pairs.push(both_damaged(&good, &mut random));
    for _ in 0..BLIND {
        pairs.push(blind_pair(&good, &mut random));
    }
    with_steps(&mut random, &mut pairs);
    if batch.is_multiple_of(BATCHES_PER_LIMIT) {
        pairs.extend(heap_limits::pairs(&good, &mut random));
    }
    pairs
}

/// T, A and C lines and a heap file, both without fault.
struct GoodPair {
    /// Has no steps.
    table: Tableau,
    heap: HeapFile,
    /// Which literals are true, those of A lines and then those of C lines.
    truths: Vec<bool>,
}

impl GoodPair {
    fn new(random: &mut Random) -> GoodPair {
        let table = assumptions::table(random);
        let heap = fit(&names_of(&table), random);
        GoodPair::of(table, heap)
    }

    fn of(table: Tableau, heap: HeapFile) -> GoodPair {
        let truths = truth::truths(&table, &heap);
        GoodPair {
            table,
            heap,
            truths,
        }
    }

    /// The reply when only so many lines of the checker file are read.
    fn reply_to_lines(&self, lines: usize) -> Evaluation {
        let ranges = self.table.assumed_ranges().into_iter();
        let mut read = ranges
            .filter(|(from, _)| *from < lines)
            .map(|(from, to)| (from, to.min(lines)));
        let is_false = |range: &(usize, usize)| !self.has_true(&self.truths, *range);
        let (_, last_line) = read.find(is_false).unwrap_or((0, 0));
        Evaluation::Reply([0, 0, last_line as u32])
    }

    /// Whether one of the literals on these lines is true.
    fn has_true(&self, truths: &[bool], (from, to): (usize, usize)) -> bool {
        truths[from - self.table.terms..to - self.table.terms].contains(&true)
    }

    fn reply(&self) -> Evaluation {
        self.reply_to_lines(self.table.lines.len())
    }

    fn pair(&self, kind: &'static str) -> Pair {
        Pair {
            kind,
            checker: self.table.bytes(),
            heap: self.heap.bytes(),
            expected: self.reply(),
        }
    }

    /// The checker file with literals denied, so that these are their truths.
    fn with_truths(&self, wanted: &[bool]) -> Vec<u8> {
        let mut lines = self.table.lines.clone();
        let truths = self.truths.iter().zip(wanted);
        for (line, (truth, wanted)) in lines[self.table.terms..].iter_mut().zip(truths) {
            if truth != wanted {
                line.word = denial(line.word);
            }
        }
        text(&lines)
    }

    /// Truths with which all that is assumed is true.
    fn all_true(&self, random: &mut Random) -> Vec<bool> {
        let mut truths = self.truths.clone();
        for (from, to) in self.table.assumed_ranges() {
            if !self.has_true(&truths, (from, to)) {
                truths[from - self.table.terms + random.below(to - from)] = true;
            }
        }
        truths
    }

    fn undamaged(&self, random: &mut Random, pairs: &mut Vec<Pair>) {
        pairs.push(self.pair("assumptions at random"));
        let mut truths = self.all_true(random);
        pairs.push(Pair {
            checker: self.with_truths(&truths),
            expected: Evaluation::Reply([0, 0, 0]),
            ..self.pair("all true")
        });
        pairs.push(Pair {
            checker: self.with_truths(&truths),
            heap: self.heap.in_another_order(random).bytes(),
            expected: Evaluation::Reply([0, 0, 0]),
            ..self.pair("all true, D lines in another order")
        });
        let ranges = self.table.assumed_ranges();
        let mut first_false = usize::MAX;
        for kind in ["one is false", "two are false"] {
            if ranges.is_empty() {
                return;
            }
            let (from, to) = random.pick(&ranges);
            truths[from - self.table.terms..to - self.table.terms].fill(false);
            first_false = first_false.min(to);
            pairs.push(Pair {
                checker: self.with_truths(&truths),
                expected: Evaluation::Reply([0, 0, first_false as u32]),
                ..self.pair(kind)
            });
        }
    }
}

/// The checker file's refusal counts.
fn both_damaged(good: &GoodPair, random: &mut Random) -> Pair {
    let heap = heap_damage::neighbour(good, random).heap;
    let mut pair = checker_damage::neighbour(good, random);
    if matches!(pair.expected, Evaluation::Reply([number, ..]) if number != 0) {
        pair.heap = heap;
    }
    pair
}

fn blind_pair(good: &GoodPair, random: &mut Random) -> Pair {
    let mut pair = Pair {
        expected: Evaluation::Unknown,
        ..good.pair("damaged at random")
    };
    if random.chance(2, 3) {
        pair.heap = blind(&pair.heap, random);
    } else {
        pair.checker = blind(&pair.checker, random);
    }
    pair
}

/// Files for the checkers, accepted and refused, each with a heap that fits.
fn with_steps(random: &mut Random, pairs: &mut Vec<Pair>) {
    let tableau = if random.chance(1, 4) {
        closed_tableau(random)
    } else {
        small_tableau(random)
    };
    let names = names_of(&tableau);
    let mut add = |kind, checker, expected, random: &mut Random| {
        pairs.push(Pair {
            kind,
            checker,
            heap: fit(&names, random).bytes(),
            expected,
        })
    };
    let known = Evaluation::SomeFalse;
    add("closed tableau", tableau.bytes(), known, random);
    let other = tableau.with_other_assumptions();
    if !other.is_empty() {
        let file = other[random.below(other.len())].clone();
        add("other assumptions", file, Evaluation::Unknown, random);
    }
    for sample in [
        neighbour(&tableau, random),
        noise::sample(&tableau, random),
        near_misses::sample(random),
    ] {
        add(sample.kind, sample.bytes, Evaluation::Unknown, random);
    }
}
