//! Times the proved checker beside the yardstick on files with full tables, and
//! prints a Markdown table: `bench [--counts] [--plain]`. With `--counts`
//! valgrind counts the instructions of a call too; with `--plain` the
//! independent checker is timed as well.

use std::hint::black_box;
use std::path::Path;
use std::process::{Command, ExitCode};
use std::time::Instant;

use host::call::Numbers;
use host::checkers::{Checker, CHECKERS, PLAIN_RUST, PROVED, YARDSTICK};
use host::generator::full_tables;
use host::generator::{Expected, Sample};

const RUNS: usize = 9;
/// Calls that one measurement takes together, so that a tick of the clock
/// doesn't matter.
const CALLS: u32 = 20;

struct Bench {
    /// The first is the one that the others are compared with.
    checkers: Vec<Checker>,
    counts: bool,
}

fn main() -> ExitCode {
    let arguments: Vec<String> = std::env::args().skip(1).collect();
    let arguments: Vec<&str> = arguments.iter().map(String::as_str).collect();
    if let [CALL, name, file, calls] = arguments[..] {
        return call(name, file, calls);
    }
    let known = |argument: &&str| matches!(*argument, "--counts" | "--plain");
    if !arguments.iter().all(known) {
        eprintln!("usage: bench [--counts] [--plain]");
        return ExitCode::from(2);
    }
    let mut checkers = vec![YARDSTICK, PROVED];
    if arguments.contains(&"--plain") {
        checkers.push(PLAIN_RUST);
    }
    let counts = arguments.contains(&"--counts");
    if counts && !valgrind_is_there() {
        eprintln!("bench: valgrind, which counts the instructions, is not there");
        return ExitCode::from(2);
    }
    Bench { checkers, counts }.table();
    ExitCode::SUCCESS
}

// The table

impl Bench {
    fn table(&self) {
        self.heading();
        for table in full_tables::all() {
            self.row(&table.accepted, "accepted");
            self.row(&table.refused, "refused");
        }
    }

    fn heading(&self) {
        let mut cells = vec!["file".to_string(), "reply".to_string(), "bytes".to_string()];
        cells.extend(self.titles("µs"));
        if self.counts {
            cells.extend(self.titles("instructions"));
        }
        print_row(&cells);
        let numbers = cells.len() - 2;
        let alignments = [vec!["---"; 2], vec!["--:"; numbers]].concat();
        println!("| {} |", alignments.join(" | "));
    }

    /// The titles of the columns that `compared` fills.
    fn titles(&self, unit: &str) -> Vec<String> {
        let mut titles = Vec::new();
        for (index, (name, _)) in self.checkers.iter().enumerate() {
            titles.push(format!("{name}, {unit}"));
            if index > 0 {
                titles.push("ratio".to_string());
            }
        }
        titles
    }

    fn row(&self, sample: &Sample, reply: &str) {
        let mut cells = vec![sample.kind.to_string(), reply.to_string()];
        cells.push(sample.bytes.len().to_string());
        cells.extend(compared(&self.times(sample)));
        if self.counts {
            cells.extend(compared(&self.instructions(sample)));
        }
        print_row(&cells);
    }

    /// The checkers take turns, so that a busy moment hits all of them.
    fn times(&self, sample: &Sample) -> Vec<f64> {
        let mut times = vec![Vec::new(); self.checkers.len()];
        for checker in &self.checkers {
            expect_reply(checker, sample);
        }
        for _ in 0..RUNS {
            for ((_, check), times) in self.checkers.iter().zip(&mut times) {
                times.push(time(*check, &sample.bytes));
            }
        }
        times.into_iter().map(median).collect()
    }

    fn instructions(&self, sample: &Sample) -> Vec<f64> {
        let path = std::env::temp_dir().join(format!("bench-{}.txt", std::process::id()));
        std::fs::write(&path, &sample.bytes).expect("a file for valgrind's run");
        let counts = self
            .checkers
            .iter()
            .map(|(name, _)| instructions(name, &path));
        let counts = counts.collect();
        std::fs::remove_file(&path).expect("the file for valgrind's run");
        counts
    }
}

/// Each number, and behind all but the first its ratio to that.
fn compared(numbers: &[f64]) -> Vec<String> {
    let mut cells = Vec::new();
    for (index, number) in numbers.iter().enumerate() {
        cells.push(format!("{number:.0}"));
        if index > 0 {
            cells.push(format!("{:.2}", number / numbers[0]));
        }
    }
    cells
}

fn print_row(cells: &[String]) {
    println!("| {} |", cells.join(" | "));
}

// Times

/// The reply is right; the call is the one that warms up.
fn expect_reply((name, check): &Checker, sample: &Sample) {
    let reply = Expected::Reply(check(&sample.bytes));
    assert_eq!(reply, sample.expected, "{name}: {}", sample.kind);
}

/// Microseconds for one call.
fn time(check: fn(&[u8]) -> Numbers, file: &[u8]) -> f64 {
    let start = Instant::now();
    for _ in 0..CALLS {
        black_box(check(black_box(file)));
    }
    start.elapsed().as_secs_f64() * 1e6 / f64::from(CALLS)
}

fn median(mut times: Vec<f64>) -> f64 {
    times.sort_by(f64::total_cmp);
    times[times.len() / 2]
}

// Instructions: valgrind runs this program again, with this first argument

const CALL: &str = "--call";

/// The given checker on the given file, so many times.
fn call(name: &str, file: &str, calls: &str) -> ExitCode {
    let checker = CHECKERS.iter().find(|(known, _)| *known == name);
    let (_, check) = checker.expect("the name of a checker");
    let file = std::fs::read(file).expect("the file to check");
    for _ in 0..calls.parse().expect("a number of calls") {
        black_box(check(black_box(&file)));
    }
    ExitCode::SUCCESS
}

fn valgrind_is_there() -> bool {
    Command::new("valgrind").arg("--version").output().is_ok()
}

/// The instructions of a second call: what the program does besides is the same
/// with one call and with two.
fn instructions(name: &str, file: &Path) -> f64 {
    let [one, two] = ["1", "2"].map(|calls| instructions_of_calls(name, file, calls));
    two - one
}

fn instructions_of_calls(name: &str, file: &Path, calls: &str) -> f64 {
    let program = std::env::current_exe().expect("this program's path");
    let run = Command::new("valgrind")
        .args(["--tool=callgrind", "--callgrind-out-file=/dev/null"])
        .arg(program)
        .args([CALL, name])
        .arg(file)
        .arg(calls)
        .output()
        .expect("valgrind runs");
    let text = String::from_utf8_lossy(&run.stderr);
    let collected = text
        .lines()
        .find_map(|line| line.split("Collected : ").nth(1));
    let count = collected.and_then(|count| count.trim().parse().ok());
    count.unwrap_or_else(|| panic!("no count in what valgrind says:\n{text}"))
}
