//! Files for the checkers, made from a seed: closed tableaux that use every
//! rule, their damaged neighbours, files at the limits, and noise. What is
//! expected of a file comes from how it was made, never from a checker. `heaps`
//! makes pairs of files for the evaluators.

mod aliases;
mod bck_damage;
mod builder;
mod chains;
mod clause_damage;
mod clause_limits;
mod clauses;
mod closable;
mod closures;
mod counting_damage;
mod damage;
mod derivations;
mod draft;
mod entailed;
mod exact_damage;
pub mod full_tables;
mod heap_refutations;
pub mod heaps;
mod identities;
mod limits;
mod near_misses;
mod noise;
mod planted;
mod refutations;
mod relation_refutations;
mod rules;
mod tableau;
mod translation;

use crate::call::Numbers;
use crate::random::Random;

use builder::Builder;
use draft::{Draft, MOST_WAITING};

pub use closures::small as small_closure;
pub use damage::neighbour;
pub use exact_damage::{FORMER_RULE, RULES};
pub use tableau::Tableau;

/// What is known of the reply to a file.
#[derive(Debug, Clone, Copy, PartialEq, Eq)]
pub enum Expected {
    /// This reply, to the last number.
    Reply(Numbers),
    /// Some refusal.
    Refused,
    /// Nothing; only that all checkers agree.
    Unknown,
}

/// The reply that refuses a file, with no place.
pub fn refusal(number: u32, line: usize) -> Expected {
    Expected::Reply([number, line as u32, 0, 0, 0, 0, 0])
}

/// The reply that refuses a file since w is not fresh, with its place: 0 where
/// w is no reference variable, or in a clause only.
pub fn not_fresh(line: usize, place: usize) -> Expected {
    Expected::Reply([13, line as u32, 0, 0, 0, 0, place as u32])
}

/// A file and what is known of its reply.
#[derive(Debug, Clone)]
pub struct Sample {
    /// How it was made.
    pub kind: &'static str,
    pub bytes: Vec<u8>,
    pub expected: Expected,
}

/// How many batches there are to one with files at the limits.
const BATCHES_PER_LIMIT: u64 = 100;
const DAMAGED_PER_TABLEAU: usize = 8;
const NOISE_PER_TABLEAU: usize = 2;
const NEAR_MISSES_PER_TABLEAU: usize = 3;
const CLOSURES_PER_TABLEAU: usize = 2;

/// The samples of one batch: a closed tableau, damaged neighbours, noise,
/// single steps, single closings by `bck`, and now and then the files at the
/// limits.
pub fn batch(seed: u64, batch: u64) -> Vec<Sample> {
    let mut random = Random::of_batch(seed, batch);
    let tableau = closed_tableau(&mut random);
    let mut samples = vec![accepted("closed tableau", &tableau)];
    for _ in 0..DAMAGED_PER_TABLEAU {
        samples.push(neighbour(&tableau, &mut random));
    }
    for _ in 0..NOISE_PER_TABLEAU {
        samples.push(noise::sample(&tableau, &mut random));
    }
    for _ in 0..NEAR_MISSES_PER_TABLEAU {
        samples.push(near_misses::sample(&mut random));
    }
    for _ in 0..CLOSURES_PER_TABLEAU {
        samples.push(closures::sample(&mut random));
    }
    if batch.is_multiple_of(BATCHES_PER_LIMIT) {
        samples.extend(limits::samples(&mut random));
    }
    samples
}

fn accepted(kind: &'static str, tableau: &Tableau) -> Sample {
    Sample {
        kind,
        bytes: tableau.bytes(),
        expected: Expected::Reply(tableau.reply()),
    }
}

/// A closed tableau so small that many heaps can be tried on its assumptions.
pub fn small_tableau(random: &mut Random) -> Tableau {
    let budget = random.below(8);
    let depth = random.below(2);
    let mut builder = Builder::new(random, budget, depth);
    builder.close_branch(1);
    finished(builder.draft, random)
}

/// The tableau of a closed draft, now and then with `bck` in place of chains of
/// steps.
fn finished(mut draft: Draft, random: &mut Random) -> Tableau {
    if random.chance(1, 3) {
        translation::put_bck(&mut draft, || random.chance(1, 2));
    }
    tableau::shuffled(&draft, random)
}

/// A closed tableau, mostly small, now and then large, or with as many
/// alternatives waiting as there may be.
fn closed_tableau(random: &mut Random) -> Tableau {
    let draft = closed_draft(random);
    finished(draft, random)
}

fn closed_draft(random: &mut Random) -> Draft {
    let (budget, depth) = match random.below(20) {
        0..=11 => (random.below(30), random.below(3)),
        12..=17 => (random.below(120), random.below(4)),
        18 => (random.below(60), 6),
        _ => (random.below(800), random.below(4)),
    };
    let height = match random.below(40) {
        0 => MOST_WAITING,
        1 => random.below(MOST_WAITING),
        _ => 0,
    };
    let nesting = random.below(4);
    let mut builder = Builder::new(random, budget, depth);
    builder.tower(height);
    while !builder.draft.is_closed() {
        builder.close_branch(nesting);
    }
    builder.draft
}

/// A closed tableau, and the same with one `bck` in place of every chain of steps
/// of equality and order that ends with `cls`; all else is kept.
pub struct Translated {
    pub steps: Tableau,
    pub bck: Tableau,
}

/// Every branch is closed by such a chain.
pub fn translated_chains(seed: u64, number: u64) -> Translated {
    translated(chains::draft(&mut Random::of_batch(seed, number)))
}

/// Any closed tableau.
pub fn translated_tableau(seed: u64, number: u64) -> Translated {
    translated(closed_draft(&mut Random::of_batch(seed, number)))
}

fn translated(mut draft: Draft) -> Translated {
    let steps = tableau::in_order(&draft);
    translation::put_bck(&mut draft, || true);
    let bck = tableau::in_order(&draft);
    Translated { steps, bck }
}
