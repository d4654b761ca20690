//! A reader of lines in ordinary Rust, which the proved one is timed against:
//! every byte is looked at once, and the end of the file is tested for once in
//! a line.

use crate::numbers::MOST_DIGITS;

/// What a file gives that has a badly shaped line.
pub const BAD_SHAPE: u64 = u64::MAX;

/// The bytes of the longest line: a letter, a word of three letters, four
/// numbers, five commas, LF.
const LONGEST: usize = 1 + 3 + 4 * MOST_DIGITS + 5 + 1;

/// So many bytes from the start of a line on. Every position in it is known to
/// be inside, so that none is tested.
type Window = [u8; LONGEST];

/// What is read, and the position after it in the window.
type Read = (u32, usize);

/// Reads all lines of the file: the exclusive or of every word, its first
/// letter lowest, and of every number; `BAD_SHAPE` where a line has not its
/// shape.
pub fn read_lines(file: &[u8]) -> u64 {
    let mut rest = file;
    let mut value = 0;
    while let Some(window) = rest.first_chunk() {
        let Some((mixed, length)) = line(window) else {
            return BAD_SHAPE;
        };
        value ^= u64::from(mixed);
        rest = &rest[length..];
    }
    read_last_lines(rest, value)
}

/// The lines that begin in the last bytes of the file. Behind these the window
/// has zeros, and no line has a byte 0.
#[cold]
fn read_last_lines(mut rest: &[u8], mut value: u64) -> u64 {
    while !rest.is_empty() {
        let mut window = [0; LONGEST];
        window[..rest.len()].copy_from_slice(rest);
        let Some((mixed, length)) = line(&window) else {
            return BAD_SHAPE;
        };
        value ^= u64::from(mixed);
        rest = &rest[length..];
    }
    value
}

#[inline(always)]
fn line(window: &Window) -> Option<Read> {
    let (word, at) = head(window)?;
    let (a, at) = number(window, at, b',')?;
    let (b, at) = number(window, at, b',')?;
    let (c, at) = number(window, at, b',')?;
    let (d, at) = number(window, at, b'\n')?;
    Some((word ^ a ^ b ^ c ^ d, at))
}

/// The letter and the word with their commas.
#[inline(always)]
fn head(window: &Window) -> Option<Read> {
    let &[letter, comma, a, b, c, d, ..] = window;
    let known = letter.is_ascii_uppercase();
    if !known || comma != b',' || !a.is_ascii_lowercase() || !b.is_ascii_lowercase() {
        return None;
    }
    if c.is_ascii_lowercase() {
        (d == b',').then_some((u32::from_le_bytes([a, b, c, 0]), 6))
    } else {
        (c == b',').then_some((u32::from_le_bytes([a, b, 0, 0]), 5))
    }
}

// Written out for five digits: a loop takes half as many instructions again.
const _: () = assert!(MOST_DIGITS == 5);

/// A number, and the byte that ends it.
#[inline(always)]
fn number(window: &Window, at: usize, end: u8) -> Option<Read> {
    let first = digit(window[at])?;
    if window[at + 1] == end {
        return Some((first, at + 2));
    }
    if first == 0 {
        return None;
    }
    let two = 10 * first + digit(window[at + 1])?;
    if window[at + 2] == end {
        return Some((two, at + 3));
    }
    let three = 10 * two + digit(window[at + 2])?;
    if window[at + 3] == end {
        return Some((three, at + 4));
    }
    let four = 10 * three + digit(window[at + 3])?;
    if window[at + 4] == end {
        return Some((four, at + 5));
    }
    let five = 10 * four + digit(window[at + 4])?;
    (window[at + 5] == end).then_some((five, at + 6))
}

#[inline(always)]
fn digit(byte: u8) -> Option<u32> {
    let digit = byte.wrapping_sub(b'0');
    (digit <= 9).then_some(u32::from(digit))
}
