//! Compares the checkers on files made from a seed, as many as one likes, and
//! tries the meaning of small accepted ones: `fuzz COUNT SEED`. Ends with 1 on
//! the first difference.

use std::process::ExitCode;

use host::checkers::CHECKERS;
use host::comparison::{compare, Difference};
use host::soundness::try_meaning;

/// Files compared for each small tableau whose meaning is tried.
const FILES_PER_TRIAL: usize = 100;

fn main() -> ExitCode {
    let Some((count, seed)) = arguments() else {
        eprintln!("usage: fuzz COUNT SEED");
        return ExitCode::from(2);
    };
    let names: Vec<&str> = CHECKERS.iter().map(|(name, _)| *name).collect();
    println!("checkers: {}; seed {seed}", names.join(", "));
    match compare(CHECKERS, count, seed) {
        Ok(summary) => print!("{summary}"),
        Err(difference) => {
            report(&difference, seed);
            return ExitCode::FAILURE;
        }
    }
    for checker in CHECKERS {
        match try_meaning(*checker, count / FILES_PER_TRIAL, seed) {
            Ok(trials) => print!("{}: {trials}", checker.0),
            Err(file) => {
                println!("ACCEPTED by {} but with a model", checker.0);
                write(&file, &format!("model-{seed}.txt"));
                return ExitCode::FAILURE;
            }
        }
    }
    println!("no difference");
    ExitCode::SUCCESS
}

fn arguments() -> Option<(usize, u64)> {
    let mut arguments = std::env::args().skip(1);
    let count = arguments.next()?.parse().ok()?;
    let seed = arguments.next()?.parse().ok()?;
    arguments.next().is_none().then_some((count, seed))
}

fn report(difference: &Difference, seed: u64) {
    let Difference {
        batch,
        sample,
        replies,
    } = difference;
    println!("DIFFERENCE in batch {batch}: {}", sample.kind);
    println!("known beforehand: {:?}", sample.expected);
    for (name, reply) in replies {
        println!("{name}: {reply:?}");
    }
    write(&sample.bytes, &format!("difference-{seed}-{batch}.txt"));
}

fn write(file: &[u8], name: &str) {
    let path = std::env::temp_dir().join(name);
    match std::fs::write(&path, file) {
        Ok(()) => println!("file: {}", path.display()),
        Err(error) => println!("file not written to {}: {error}", path.display()),
    }
}
