//! Times the proved reader of lines beside the tight one on files with full
//! tables and on lines with numbers of each length, and prints a Markdown table.
//! A program of its own: in one with the checkers it would move the yardstick's
//! code, and by that alone change its times.

#[cfg(not(reading_alone))]
compile_error!("libreading_alone.a is missing: run `./libraries reading_alone` first");

use std::hint::black_box;
use std::time::Instant;

use host::generator::full_tables;
use host::numbers::MOST_DIGITS;
use host::{proved_reader, tight_reader};

const RUNS: usize = 9;
/// Calls that one measurement takes together, so that a tick of the clock
/// doesn't matter.
const CALLS: u32 = 20;
const MOST_BYTES: usize = 60_000;

type Reader = fn(&[u8]) -> u64;

const TIGHT: Reader = tight_reader::read_lines;
const PROVED: Reader = proved_reader::read_lines;

fn main() {
    println!("| file | bytes | tight reader, µs | proved, µs | ratio |");
    println!("| --- | --: | --: | --: | --: |");
    for table in full_tables::all() {
        row(table.accepted.kind, &table.accepted.bytes);
    }
    for digits in 1..=MOST_DIGITS {
        row(&format!("digits in a number: {digits}"), &lines_of(digits));
    }
}

/// As many lines as a file has room for, all numbers of so many digits.
fn lines_of(digits: usize) -> Vec<u8> {
    let number = "1".repeat(digits);
    let line = format!("S,cls,{number},{number},{number},{number}\n");
    line.repeat(MOST_BYTES / line.len()).into_bytes()
}

fn row(kind: &str, file: &[u8]) {
    expect_lines(kind, file);
    let [tight, proved] = times(file);
    println!(
        "| {kind} | {} | {tight:.1} | {proved:.1} | {:.2} |",
        file.len(),
        proved / tight
    );
}

/// Both read all lines; the calls are those that warm up.
fn expect_lines(kind: &str, file: &[u8]) {
    let [tight, proved] = [TIGHT, PROVED].map(|read| read(file));
    assert_eq!(tight, proved, "{kind}");
    assert_ne!(proved, tight_reader::BAD_SHAPE, "{kind}");
}

/// The readers take turns, so that a busy moment hits both.
fn times(file: &[u8]) -> [f64; 2] {
    let mut times = [Vec::new(), Vec::new()];
    for _ in 0..RUNS {
        for (read, times) in [TIGHT, PROVED].into_iter().zip(&mut times) {
            times.push(time(read, file));
        }
    }
    times.map(median)
}

/// Microseconds for one call.
fn time(read: Reader, file: &[u8]) -> f64 {
    let start = Instant::now();
    for _ in 0..CALLS {
        black_box(read(black_box(file)));
    }
    start.elapsed().as_secs_f64() * 1e6 / f64::from(CALLS)
}

fn median(mut times: Vec<f64>) -> f64 {
    times.sort_by(f64::total_cmp);
    times[times.len() / 2]
}
