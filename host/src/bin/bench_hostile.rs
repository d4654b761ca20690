//! Times the proved checker beside the yardstick on the hostile files, whose
//! steps are closings by `bck`, and prints a Markdown table. A program of its
//! own, as `bench_reading` is.

use std::hint::black_box;
use std::time::Instant;

use host::call::Numbers;
use host::checkers::{PROVED, YARDSTICK};
use host::generator::full_tables::hostile;
use host::generator::{Expected, Sample};

const RUNS: usize = 9;

type Check = fn(&[u8]) -> Numbers;

fn main() {
    println!("| file | reply | bytes | `bck` lines | yardstick, ms | proved, ms | ratio | yardstick, µs a `bck` | proved, µs a `bck` |");
    println!("| --- | --- | --: | --: | --: | --: | --: | --: | --: |");
    for table in hostile::all() {
        row(&table.accepted, "accepted");
        row(&table.refused, "refused");
    }
}

fn row(sample: &Sample, reply: &str) {
    let checkers = [YARDSTICK, PROVED].map(|(name, check)| {
        expect_reply(name, check, sample);
        check
    });
    let closings = closings(&sample.bytes);
    let [yardstick, proved] = times(checkers, &sample.bytes);
    let each = |milliseconds: f64| 1e3 * milliseconds / closings as f64;
    println!(
        "| {} | {reply} | {} | {closings} | {yardstick:.1} | {proved:.1} | {:.2} | {:.2} | {:.2} |",
        sample.kind,
        sample.bytes.len(),
        proved / yardstick,
        each(yardstick),
        each(proved)
    );
}

/// The call is the one that warms up.
fn expect_reply(name: &str, check: Check, sample: &Sample) {
    let reply = Expected::Reply(check(&sample.bytes));
    assert_eq!(reply, sample.expected, "{name}: {}", sample.kind);
}

fn closings(file: &[u8]) -> usize {
    let lines = file.split(|byte| *byte == b'\n');
    lines.filter(|line| line.starts_with(b"S,bck,")).count()
}

/// Milliseconds for one call. The checkers take turns, so that a busy moment
/// hits both.
fn times(checkers: [Check; 2], file: &[u8]) -> [f64; 2] {
    let mut times = [Vec::new(), Vec::new()];
    for _ in 0..RUNS {
        for (check, times) in checkers.into_iter().zip(&mut times) {
            let start = Instant::now();
            black_box(check(black_box(file)));
            times.push(start.elapsed().as_secs_f64() * 1e3);
        }
    }
    times.map(median)
}

fn median(mut times: Vec<f64>) -> f64 {
    times.sort_by(f64::total_cmp);
    times[times.len() / 2]
}
