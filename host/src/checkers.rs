//! The checkers that are compared and timed.

use crate::call::{self, Numbers};
use crate::independent::{self, Closes};
use crate::yardstick;

/// A checker and its name.
pub type Checker = (&'static str, fn(&[u8]) -> Numbers);

/// Every checker; the others are compared with the first.
pub const CHECKERS: &[Checker] = &[PLAIN_RUST, PROVED, YARDSTICK];

pub const PLAIN_RUST: Checker = ("plain Rust", plain_rust);
pub const PROVED: Checker = ("proved", call::check);
pub const YARDSTICK: Checker = ("yardstick", yardstick_numbers);

/// The independent checker.
pub fn plain_rust(file: &[u8]) -> Numbers {
    call::through_buffer(independent::call, file)
}

/// The independent checker with another `bck`.
pub fn plain_rust_by(file: &[u8], closes: Closes) -> Numbers {
    independent::check_by(file, closes).numbers()
}

/// The yardstick, through a buffer like the proved checker.
pub fn yardstick_numbers(file: &[u8]) -> Numbers {
    call::through_buffer(yardstick::call, file)
}

/// The reply line of these numbers.
pub fn reply_line(numbers: Numbers) -> String {
    let answer = if numbers[0] == 0 { "yes" } else { "no" };
    let numbers = numbers.map(|number| number.to_string()).join(",");
    format!("{answer},{numbers}\n")
}
