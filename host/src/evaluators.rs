//! The evaluators that are compared and timed.

use crate::{call, independent_evaluator, yardstick};

/// Refusal number, file (1 checker, 2 heap, 0 without a refusal), line.
pub type Reply = [u32; 3];

/// Takes a checker file and a heap file.
pub type Evaluate = fn(&[u8], &[u8]) -> Reply;

/// Every evaluator and its name; the others are compared with the first.
pub fn evaluators() -> Vec<(&'static str, Evaluate)> {
    vec![
        ("plain Rust", independent_evaluator::evaluate),
        ("yardstick", yardstick::evaluator::evaluate),
        ("proved", call::evaluate),
    ]
}

/// "The reply is one line, parted by commas and ended by LF".
pub fn reply_line(reply: Reply) -> String {
    let [number, file, line] = reply;
    format!("{number},{file},{line}\n")
}
