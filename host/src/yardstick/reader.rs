//! Lines taken apart in one pass over the bytes.

use super::refusal::{ensure, Refusal};
use crate::numbers::MOST_DIGITS;

/// The bytes of the longest field: a number, and the byte that ends it.
const LONGEST: usize = MOST_DIGITS + 1;

/// A line with the right numbers and end. Whether its letter and its word have
/// the right shape is asked only when they turn out to be none of those known.
#[derive(Clone, Copy)]
pub struct Line {
    /// None after the last line.
    pub letter: Option<u8>,
    /// As `words` has it.
    pub word: u32,
    pub fields: [u32; 4],
}

pub struct Reader<'a> {
    file: &'a [u8],
    /// Of 32 bits, so that no sum overflows where it is an index.
    position: u32,
    /// The line read last.
    pub line: Line,
    /// Its number, or that after the last.
    pub number: u32,
}

impl<'a> Reader<'a> {
    pub fn new(file: &'a [u8]) -> Reader<'a> {
        Reader {
            file,
            position: 0,
            line: Line {
                letter: None,
                word: 0,
                fields: [0; 4],
            },
            number: 0,
        }
    }

    /// Reads the next line.
    #[inline(always)]
    pub fn read(&mut self) -> Result<(), Refusal> {
        self.number += 1;
        let Some(&[letter, b',', a, b, c, d]) = self.ahead() else {
            self.line.letter = None;
            return end_or_shape(self.file, self.position);
        };
        self.line.letter = Some(letter);
        if c == b',' {
            self.position += 5;
            self.line.word = u32::from_le_bytes([a, b, c, 0]);
        } else {
            self.position += 6;
            self.line.word = u32::from_le_bytes([a, b, c, d]);
        }
        self.line.fields = [
            self.field(b',')?,
            self.field(b',')?,
            self.field(b',')?,
            self.field(b'\n')?,
        ];
        Ok(())
    }

    /// Reads the next line of an evaluator's checker file, which counts as ended
    /// before a line that begins as an S line does, whatever follows.
    #[inline(always)]
    pub fn read_before_steps(&mut self) -> Result<(), Refusal> {
        if let Some(b"S,") = self.ahead() {
            self.line.letter = None;
            return Ok(());
        }
        self.read()
    }

    /// The next bytes, if there are so many.
    #[inline(always)]
    fn ahead<const N: usize>(&self) -> Option<&'a [u8; N]> {
        let start = self.position as usize;
        self.file.get(start..start + N)?.try_into().ok()
    }

    /// A number, and the byte that ends it.
    #[inline(always)]
    fn field(&mut self, end: u8) -> Result<u32, Refusal> {
        let Some(&[a, b, c, d, e, f]) = self.ahead::<LONGEST>() else {
            let (field, bytes) = last_field(self.file, self.position, end)?;
            self.position += bytes;
            return Ok(field);
        };
        if b == end {
            self.position += 2;
            digit(a)
        } else if c == end {
            self.position += 3;
            Ok(10 * first_digit(a)? + digit(b)?)
        } else if d == end {
            self.position += 4;
            Ok(100 * first_digit(a)? + 10 * digit(b)? + digit(c)?)
        } else if e == end {
            self.position += 5;
            let high = 10 * first_digit(a)? + digit(b)?;
            Ok(100 * high + 10 * digit(c)? + digit(d)?)
        } else {
            ensure(f == end, Refusal::Shape)?;
            self.position += 6;
            let high = 100 * first_digit(a)? + 10 * digit(b)? + digit(c)?;
            Ok(100 * high + 10 * digit(d)? + digit(e)?)
        }
    }
}

#[inline(always)]
fn digit(byte: u8) -> Result<u32, Refusal> {
    let digit = byte.wrapping_sub(b'0');
    ensure(digit <= 9, Refusal::Shape)?;
    Ok(u32::from(digit))
}

/// The first of several digits, which is not 0.
#[inline(always)]
fn first_digit(byte: u8) -> Result<u32, Refusal> {
    let less = byte.wrapping_sub(b'1');
    ensure(less <= 8, Refusal::Shape)?;
    Ok(u32::from(less) + 1)
}

// What is rare takes values, so that a reader and a line stay in registers.

/// A field in the last bytes of the file, and how many it has with its end.
#[cold]
fn last_field(file: &[u8], position: u32, end: u8) -> Result<(u32, u32), Refusal> {
    let rest = &file[position as usize..];
    let mut padded = [0; LONGEST];
    padded[..rest.len()].copy_from_slice(rest);
    let mut reader = Reader::new(&padded);
    let field = reader.field(end)?;
    Ok((field, reader.position))
}

/// The end of the file, or a line without its first comma.
#[cold]
fn end_or_shape(file: &[u8], position: u32) -> Result<(), Refusal> {
    ensure(position as usize == file.len(), Refusal::Shape)
}

/// The refusal of a line with a wrong letter or word: its shape comes first.
#[cold]
pub fn refused(letter: Option<u8>, word: u32, refusal: Refusal) -> Refusal {
    let known = matches!(letter, Some(b'T' | b'A' | b'C' | b'S'));
    let small = |letters: &[u8]| letters.iter().all(u8::is_ascii_lowercase);
    let shaped = match word.to_le_bytes() {
        [a, b, b',', _] => small(&[a, b]),
        [a, b, c, comma] => small(&[a, b, c]) && comma == b',',
    };
    if known && shaped {
        refusal
    } else {
        Refusal::Shape
    }
}

/// The same of a line of a heap file, whose only letter is D: its word is
/// judged as that of a line with a known letter.
#[cold]
pub fn refused_fact(letter: Option<u8>, word: u32, refusal: Refusal) -> Refusal {
    let known = letter.filter(|letter| *letter == b'D').map(|_| b'T');
    refused(known, word, refusal)
}
