//! The refusals, with their numbers.

/// As wide as a field, so that a result with either is two registers.
#[repr(u32)]
#[derive(Debug, Clone, Copy, PartialEq, Eq)]
pub enum Refusal {
    TooLong = 1,
    Shape = 2,
    Order = 3,
    Word = 4,
    Closed = 5,
    Unused = 6,
    Terms = 7,
    NoTerm = 8,
    Sort = 9,
    Again = 10,
    Place = 11,
    Need = 12,
    Fresh = 13,
    Missing = 14,
    Room = 15,
    Waiting = 16,
    Open = 17,
    Buffer = 18,
    Fact = 19,
    ClassOrder = 20,
    Clause = 21,
}

/// Refuses where a condition doesn't hold.
#[inline(always)]
pub fn ensure(holds: bool, refusal: Refusal) -> Result<(), Refusal> {
    if holds {
        Ok(())
    } else {
        refuse(refusal)
    }
}

/// A file is refused once, so whatever leads here is unlikely.
#[cold]
#[inline(always)]
fn refuse(refusal: Refusal) -> Result<(), Refusal> {
    Err(refusal)
}

/// Refuses where a field that isn't used holds a number.
#[inline(always)]
pub fn unused<const N: usize>(fields: [u32; N]) -> Result<(), Refusal> {
    let all = fields.iter().fold(0, |all, field| all | field);
    ensure(all == 0, Refusal::Unused)
}
