//! The yardstick of the evaluator: tries the heap of a heap file against the
//! assumptions of a checker file. A term has one number, a region being a set
//! of bits, and a heap term a row of bytes besides.

mod facts;
mod heap;
mod values;

use super::literals::Literal;
use super::reader::{refused, Reader};
use super::refusal::{ensure, Refusal};
use super::steps::Checker;
use super::MOST_BYTES;
use heap::Heap;
use values::Values;

/// A refusal, the file that it is of, and the line.
type Refused = [u32; 3];

const CHECKER_FILE: u32 = 1;
const HEAP_FILE: u32 = 2;

/// Refusal number, file (1 checker, 2 heap, 0 without a refusal), line: that of
/// the refusal, else that of the first false A line, else the last line of the
/// first clause with no true literal, 0 where there is none.
pub fn evaluate(checker: &[u8], heap: &[u8]) -> [u32; 3] {
    let first_false = || -> Result<u32, Refused> {
        let checker = read_checker_file(checker)?;
        let heap = read_heap_file(heap)?;
        Ok(first_false(&checker, &heap))
    };
    match first_false() {
        Ok(line) => [0, 0, line],
        Err(refused) => refused,
    }
}

/// The line of the first false A line, else the last line of the first clause
/// with no true literal, or 0.
fn first_false(checker: &Checker, heap: &Heap) -> u32 {
    let values = Values::of_terms(&checker.terms, heap);
    let (assumptions, clauses) = (checker.tree.branch(), &checker.clauses);
    let is_false = |literal: &Literal| !values.is_true(*literal, &checker.terms, heap);
    // The A lines come directly after the T lines, the C lines directly after
    // these.
    if let Some(index) = assumptions.iter().position(is_false) {
        return checker.terms.count() + index as u32 + 1;
    }
    match clauses.first_end(is_false) {
        Some(end) => checker.terms.count() + (assumptions.len() + end) as u32,
        None => 0,
    }
}

fn read_checker_file(file: &[u8]) -> Result<Checker, Refused> {
    if file.len() > MOST_BYTES {
        return Err([Refusal::TooLong as u32, CHECKER_FILE, 0]);
    }
    let mut reader = Reader::new(file);
    let mut checker = Checker::new();
    match read_assumptions(&mut reader, &mut checker) {
        Ok(()) => Ok(checker),
        Err(refusal) => Err([refusal as u32, CHECKER_FILE, reader.number]),
    }
}

/// The T lines, the A lines and the C lines.
#[inline(always)]
fn read_assumptions(reader: &mut Reader, checker: &mut Checker) -> Result<(), Refusal> {
    reader.read_before_steps()?;
    while reader.line.letter == Some(b'T') {
        checker.terms.add(reader.line)?;
        reader.read_before_steps()?;
    }
    while reader.line.letter == Some(b'A') {
        checker.assume(reader.line)?;
        reader.read_before_steps()?;
    }
    while reader.line.letter == Some(b'C') {
        checker.assume_among(reader.line)?;
        reader.read_before_steps()?;
    }
    match reader.line.letter {
        None => Ok(()),
        letter => Err(refused(letter, reader.line.word, Refusal::Order)),
    }
}

fn read_heap_file(file: &[u8]) -> Result<Heap, Refused> {
    if file.len() > MOST_BYTES {
        return Err([Refusal::TooLong as u32, HEAP_FILE, 0]);
    }
    let mut reader = Reader::new(file);
    let heap = read_facts(&mut reader, file.len())
        .map_err(|refusal| [refusal as u32, HEAP_FILE, reader.number])?;
    ensure(heap.is_ordered(), Refusal::ClassOrder)
        .map_err(|refusal| [refusal as u32, HEAP_FILE, 0])?;
    Ok(heap)
}

/// The D lines of a heap file with so many bytes.
#[inline(always)]
fn read_facts(reader: &mut Reader, bytes: usize) -> Result<Heap, Refusal> {
    reader.read()?;
    let mut heap = Heap::of_sizes(reader.line, bytes)?;
    reader.read()?;
    while reader.line.letter.is_some() {
        heap.add(reader.line)?;
        reader.read()?;
    }
    Ok(heap)
}
