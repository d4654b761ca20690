//! Times the evaluators beside the yardstick on full pairs of files, and prints
//! a Markdown table. A program of its own: in one with the checkers it would
//! move the yardstick's code, and by that alone change its times.

use std::hint::black_box;
use std::time::Instant;

use host::evaluators::evaluators;
use host::generator::heaps::{full_pairs, Pair};

const RUNS: usize = 9;
/// Calls that one measurement takes together, so that a tick of the clock
/// doesn't matter.
const CALLS: u32 = 20;

/// What the others are compared with.
const YARDSTICK: &str = "yardstick";

/// Takes a checker file and a heap file.
type Evaluator = fn(&[u8], &[u8]) -> [u32; 3];
type Named = (&'static str, Evaluator);

fn main() {
    let evaluators = yardstick_first(evaluators());
    heading(&evaluators);
    for pair in full_pairs() {
        row(&evaluators, &pair);
    }
}

fn yardstick_first(mut evaluators: Vec<Named>) -> Vec<Named> {
    evaluators.sort_by_key(|(name, _)| *name != YARDSTICK);
    assert_eq!(evaluators[0].0, YARDSTICK);
    evaluators
}

fn heading(evaluators: &[Named]) {
    let mut cells = vec!["pair".to_string(), "bytes".to_string()];
    for (index, (name, _)) in evaluators.iter().enumerate() {
        cells.push(format!("{name}, µs"));
        if index > 0 {
            cells.push("ratio".to_string());
        }
    }
    println!("| {} |", cells.join(" | "));
    let alignments = [vec!["---"], vec!["--:"; cells.len() - 1]].concat();
    println!("| {} |", alignments.join(" | "));
}

fn row(evaluators: &[Named], pair: &Pair) {
    let [checker, heap] = [&pair.checker, &pair.heap].map(Vec::len);
    let mut cells = vec![pair.kind.to_string(), format!("{checker} + {heap}")];
    let times = times(evaluators, pair);
    for (index, time) in times.iter().enumerate() {
        cells.push(format!("{time:.1}"));
        if index > 0 {
            cells.push(format!("{:.2}", time / times[0]));
        }
    }
    println!("| {} |", cells.join(" | "));
}

/// The evaluators take turns, so that a busy moment hits all of them.
fn times(evaluators: &[Named], pair: &Pair) -> Vec<f64> {
    let mut times = vec![Vec::new(); evaluators.len()];
    for evaluator in evaluators {
        expect_reply(evaluator, pair);
    }
    for _ in 0..RUNS {
        for ((_, evaluate), times) in evaluators.iter().zip(&mut times) {
            times.push(time(*evaluate, pair));
        }
    }
    times.into_iter().map(median).collect()
}

/// The reply is right; the call is the one that warms up.
fn expect_reply((name, evaluate): &Named, pair: &Pair) {
    let reply = evaluate(&pair.checker, &pair.heap);
    assert!(pair.expected.allows(reply), "{name}: {}", pair.kind);
}

/// Microseconds for one call.
fn time(evaluate: Evaluator, pair: &Pair) -> f64 {
    let start = Instant::now();
    for _ in 0..CALLS {
        black_box(evaluate(black_box(&pair.checker), black_box(&pair.heap)));
    }
    start.elapsed().as_secs_f64() * 1e6 / f64::from(CALLS)
}

fn median(mut times: Vec<f64>) -> f64 {
    times.sort_by(f64::total_cmp);
    times[times.len() / 2]
}
