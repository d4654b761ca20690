//! Orders in which little follows from one pass: the last comes first, or the
//! next stands alternately before and behind.

use std::collections::VecDeque;

use crate::random::Random;

/// Which of so many things stands at each position.
pub type Arrange = fn(usize) -> Vec<usize>;

const SEED: u64 = 20_060_606;

pub fn backwards(count: usize) -> Vec<usize> {
    (0..count).rev().collect()
}

pub fn shuffled(count: usize) -> Vec<usize> {
    let mut order: Vec<usize> = (0..count).collect();
    Random::of_batch(SEED, count as u64).shuffle(&mut order);
    order
}

/// The first in the middle, each later one before or behind all earlier ones.
pub fn zigzag(count: usize) -> Vec<usize> {
    let mut order = VecDeque::new();
    for index in 0..count {
        if index % 2 == 0 {
            order.push_back(index);
        } else {
            order.push_front(index);
        }
    }
    order.into()
}

/// The things of which each stands where the arrangement has its index, in the
/// order of their indices.
pub fn placed<T: Copy>(positions: &[T], arrange: Arrange) -> Vec<T> {
    let mut placed = positions.to_vec();
    for (position, index) in positions.iter().zip(arrange(positions.len())) {
        placed[index] = *position;
    }
    placed
}
