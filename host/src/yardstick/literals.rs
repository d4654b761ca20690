//! Literals as numbers.

/// A literal as one number: its relation, and below it two term numbers of ten
/// bits.
pub type Literal = u32;

pub const NUMBER_BITS: u32 = 10;
const NUMBER: Literal = (1 << NUMBER_BITS) - 1;
const RELATION: u32 = 2 * NUMBER_BITS;

/// The lowest bit says that the relation is a denial.
#[derive(Clone, Copy, PartialEq, Eq)]
pub enum Relation {
    In = 0,
    Ni = 1,
    Eq = 2,
    Ne = 3,
    Le = 4,
    Nl = 5,
}

const DENIAL: Literal = 1 << RELATION;

/// No literal, as 0 is no term number.
pub const NO_LITERAL: Literal = 0;

#[inline(always)]
pub fn literal(left: u32, relation: Relation, right: u32) -> Literal {
    (relation as Literal) << RELATION | left << NUMBER_BITS | right
}

#[inline(always)]
pub fn left(literal: Literal) -> u32 {
    literal >> NUMBER_BITS & NUMBER
}

#[inline(always)]
pub fn right(literal: Literal) -> u32 {
    literal & NUMBER
}

#[inline(always)]
pub fn relation(literal: Literal) -> Relation {
    match literal >> RELATION {
        0 => Relation::In,
        1 => Relation::Ni,
        2 => Relation::Eq,
        3 => Relation::Ne,
        4 => Relation::Le,
        _ => Relation::Nl,
    }
}

#[inline(always)]
pub fn has_relation(literal: Literal, relation: Relation) -> bool {
    literal >> RELATION == relation as Literal
}

/// Whether the first literal is no denial, and the second denies it.
#[inline(always)]
pub fn denies(affirmed: Literal, denied: Literal) -> bool {
    affirmed & DENIAL == 0 && denied == affirmed | DENIAL
}

/// The literal with its sides changed.
#[inline(always)]
pub fn turned(literal: Literal) -> Literal {
    with_left(with_right(literal, left(literal)), right(literal))
}

#[inline(always)]
pub fn with_left(literal: Literal, left: u32) -> Literal {
    literal & !(NUMBER << NUMBER_BITS) | left << NUMBER_BITS
}

#[inline(always)]
pub fn with_right(literal: Literal, right: u32) -> Literal {
    literal & !NUMBER | right
}
