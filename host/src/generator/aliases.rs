//! Numbers that a checker takes for one another where it keeps too few of their
//! digits or bits.

use crate::numbers::GREATEST;
use crate::random::Random;

/// How many numbers there are with four digits, with 14 bits and with 16.
const CAPACITIES: [u32; 3] = [10_000, 1 << 14, 1 << 16];

/// The last number of each capacity and the first beyond it, and the last of all.
const EDGES: [u32; 7] = [9_999, 10_000, 16_383, 16_384, 65_535, 65_536, GREATEST];

/// A name: at an edge, like one of those known, or any.
pub fn name(known: &[u32], random: &mut Random) -> u32 {
    match random.below(6) {
        0 => random.pick(&EDGES),
        1..=2 if !known.is_empty() => like(random.pick(known), random),
        _ => random.digits(),
    }
}

/// A number like this one: without its last digit, with another one, or with
/// the same end. May be the same.
pub fn like(number: u32, random: &mut Random) -> u32 {
    let start = number / 10;
    match random.below(4) {
        0 if start > 0 => start,
        1 if start > 0 => 10 * start + random.below(10) as u32,
        _ => same_end(number, random),
    }
}

/// Another number with the same last four digits or the same low bits. For a
/// number below 10,000 it is a greater one that has five digits.
pub fn same_end(number: u32, random: &mut Random) -> u32 {
    loop {
        let capacity = random.pick(&CAPACITIES);
        let times = random.below((GREATEST / capacity + 1) as usize) as u32;
        let other = number % capacity + capacity * times;
        if other != number && (1..=GREATEST).contains(&other) {
            return other;
        }
    }
}

/// A number above the last one that names something: the next, one with the
/// same end as the number that it stands for, or any. Both are below 10,000.
pub fn above(last: usize, number: u32, random: &mut Random) -> u32 {
    match random.below(3) {
        0 => last as u32 + 1,
        1 => same_end(number, random),
        _ => loop {
            let any = random.digits();
            if any > last as u32 {
                return any;
            }
        },
    }
}

/// A number that an unused field may not hold.
pub fn not_0(random: &mut Random) -> u32 {
    if random.chance(1, 2) {
        same_end(0, random)
    } else {
        random.digits()
    }
}
