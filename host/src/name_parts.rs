//! What is left of a name where there is too little room for it.

/// A part of a name, and what it is.
pub type Part = (&'static str, fn(usize) -> usize);

pub const PARTS: [Part; 4] = [
    ("the last four digits", last_four_digits),
    ("the first four digits", first_four_digits),
    ("14 bits", bits_14),
    ("16 bits", bits_16),
];

pub fn last_four_digits(name: usize) -> usize {
    name % 10_000
}

pub fn first_four_digits(name: usize) -> usize {
    if name < 10_000 {
        name
    } else {
        name / 10
    }
}

pub fn bits_14(name: usize) -> usize {
    name % (1 << 14)
}

pub fn bits_16(name: usize) -> usize {
    name % (1 << 16)
}
