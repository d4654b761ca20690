//! The yardstick: an ordinary checker written for speed, which looks a term up
//! by going through the table. It passes over the bytes once, packs a term and
//! a literal into a number each, and changes the tree in place. `evaluator` is
//! the yardstick of the evaluator, with the same reader and table.

mod background;
mod clauses;
pub mod evaluator;
mod literals;
mod mentions;
mod packing;
mod reader;
mod refusal;
mod rules;
mod steps;
mod terms;
mod tree;
mod words;

use crate::call::{Numbers, REPLY_BYTES};
use reader::{refused, Reader};
use refusal::{ensure, Refusal};
use steps::Checker;

const MOST_BYTES: usize = 60_000;

/// Writes the numbers into the reply buffer and returns the first.
pub fn call(file: &[u8], reply: &mut [u8]) -> u32 {
    if reply.len() != REPLY_BYTES {
        return Refusal::Buffer as u32;
    }
    let numbers = check(file);
    for (bytes, number) in reply.chunks_exact_mut(4).zip(numbers) {
        bytes.copy_from_slice(&number.to_le_bytes());
    }
    numbers[0]
}

/// The numbers of the file's reply.
pub fn check(file: &[u8]) -> Numbers {
    if file.len() > MOST_BYTES {
        return [Refusal::TooLong as u32, 0, 0, 0, 0, 0, 0];
    }
    let mut reader = Reader::new(file);
    let mut checker = Checker::new();
    match run(&mut reader, &mut checker) {
        Ok([terms, assumptions, steps, closings]) => [0, 0, terms, assumptions, steps, closings, 0],
        Err(refusal) => [refusal as u32, reader.number, 0, 0, 0, 0, checker.place],
    }
}

/// The T lines, the A lines, the C lines and the S lines in turn: a loop for
/// each letter needs no test of the order. Gives the counts of terms, of what
/// is assumed, of steps and of closings.
#[inline(always)]
fn run(reader: &mut Reader, checker: &mut Checker) -> Result<[u32; 4], Refusal> {
    reader.read()?;
    while reader.line.letter == Some(b'T') {
        checker.terms.add(reader.line)?;
        reader.read()?;
    }
    while reader.line.letter == Some(b'A') {
        checker.assume(reader.line)?;
        reader.read()?;
    }
    while reader.line.letter == Some(b'C') {
        checker.assume_among(reader.line)?;
        reader.read()?;
    }
    let assumptions = checker.assumptions();
    let mut steps = 0;
    while reader.line.letter == Some(b'S') {
        if checker.tree.is_closed() {
            return Err(Checker::refused_when_closed(reader.line.word));
        }
        checker.step(reader.line)?;
        steps += 1;
        reader.read()?;
    }
    if reader.line.letter.is_some() {
        return Err(refused(
            reader.line.letter,
            reader.line.word,
            Refusal::Order,
        ));
    }
    ensure(checker.tree.is_closed(), Refusal::Open)?;
    let closings = checker.tree.closings();
    Ok([checker.terms.count(), assumptions, steps, closings])
}
