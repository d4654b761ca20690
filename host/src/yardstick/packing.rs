//! Terms as numbers.

use super::literals::NUMBER_BITS;
use crate::numbers::GREATEST;

/// A term as one number: its head, and above it four fields for term numbers,
/// the first one highest. A name has the first field and all bits above it.
pub type Packed = u64;

const HEAD_BITS: u32 = 8;
const WORD_BITS: u32 = 5;
const FIELDS: u32 = 4;

const _: () = assert!((GREATEST as Packed) < 1 << (Packed::BITS - shift(0)));

#[derive(Clone, Copy, PartialEq, Eq)]
pub enum Sort {
    Reference,
    Region,
    Heap,
    Field,
    Class,
}

/// The word of a term, and above it its sort.
#[derive(Clone, Copy, PartialEq, Eq)]
pub struct Head(Packed);

const fn head(word: Packed, sort: Sort) -> Head {
    Head((sort as Packed) << WORD_BITS | word)
}

// Words with term arguments come last.
pub const RFV: Head = head(0, Sort::Reference);
pub const RGV: Head = head(1, Sort::Region);
pub const ARV: Head = head(2, Sort::Heap);
pub const FNV: Head = head(3, Sort::Field);
pub const CLV: Head = head(4, Sort::Class);
pub const NUL: Head = head(5, Sort::Reference);
pub const EMP: Head = head(6, Sort::Region);
pub const ALL: Head = head(7, Sort::Region);
const FIRST_WITH_ARGUMENTS: Packed = 8;
pub const REA: Head = head(8, Sort::Reference);
pub const CUP: Head = head(9, Sort::Region);
pub const CAP: Head = head(10, Sort::Region);
pub const DIF: Head = head(11, Sort::Region);
pub const SIN: Head = head(12, Sort::Region);
pub const IMG: Head = head(13, Sort::Region);
pub const WRI: Head = head(14, Sort::Heap);
pub const TYP: Head = head(15, Sort::Class);
pub const DTY: Head = head(16, Sort::Class);

/// Each field must be a term number, or the only one a name: nothing is cut off.
#[inline(always)]
pub fn pack<const N: usize>(Head(head): Head, fields: [u32; N]) -> Packed {
    let mut packed = head;
    for (index, field) in fields.into_iter().enumerate() {
        packed |= Packed::from(field) << shift(index);
    }
    packed
}

const fn shift(index: usize) -> u32 {
    HEAD_BITS + (FIELDS - 1 - index as u32) * NUMBER_BITS
}

const fn low_bits(count: u32) -> Packed {
    (1 << count) - 1
}

#[inline(always)]
pub fn head_of(packed: Packed) -> Head {
    Head(packed & low_bits(HEAD_BITS))
}

#[inline(always)]
pub fn has_head(packed: Packed, Head(head): Head) -> bool {
    packed & low_bits(HEAD_BITS) == head
}

#[inline(always)]
pub fn same_head(left: Packed, right: Packed) -> bool {
    (left ^ right) & low_bits(HEAD_BITS) == 0
}

/// The term number in the field of this index, from 0.
#[inline(always)]
pub fn field(packed: Packed, index: usize) -> u32 {
    (packed >> shift(index) & low_bits(NUMBER_BITS)) as u32
}

/// The name of a variable.
#[inline(always)]
pub fn name(packed: Packed) -> u32 {
    (packed >> shift(0)) as u32
}

#[inline(always)]
pub fn has_sort(packed: Packed, sort: Sort) -> bool {
    sort_bits(packed) == sort as Packed
}

#[inline(always)]
pub fn same_sort(left: Packed, right: Packed) -> bool {
    sort_bits(left) == sort_bits(right)
}

#[inline(always)]
fn sort_bits(packed: Packed) -> Packed {
    packed >> WORD_BITS & low_bits(HEAD_BITS - WORD_BITS)
}

/// Whether the term has arguments that are terms.
#[inline(always)]
pub fn has_arguments(packed: Packed) -> bool {
    packed & low_bits(WORD_BITS) >= FIRST_WITH_ARGUMENTS
}
