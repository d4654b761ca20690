//! The numbers of a line, as the generators and the readers written for speed
//! have them. The independent checker says by itself what it takes.

/// How many digits a number has at most.
pub const MOST_DIGITS: usize = 5;

/// The greatest number, and so the greatest name.
pub const GREATEST: u32 = 10_u32.pow(MOST_DIGITS as u32) - 1;
