//! The hash by which the proved checker finds its terms (`crates/table`). Only
//! the choice of terms hangs on it, no reply.

pub const LOW_FACTOR: u64 = 26_004_655_931;
pub const HIGH_FACTOR: u64 = 33_930_833_365;

/// The hash of a term with these fields: term numbers, or a name.
pub fn hash(word: &str, fields: [u64; 4]) -> u64 {
    let term = packed(word, fields);
    let (low, high) = (term % (1 << 28), (term >> 28) % (1 << 28));
    (low * LOW_FACTOR + high * HIGH_FACTOR) / (1 << 25) % 1024
}

/// A term as the proved checker packs it.
fn packed(word: &str, [a, b, c, d]: [u64; 4]) -> u64 {
    let fields = ((a * 1024 + b) * 1024 + c) * 1024 + d;
    fields * 256 + word_bits(word)
}

/// The word's code and its sort.
fn word_bits(word: &str) -> u64 {
    match word {
        "nul" => 0,
        "rea" => 8,
        "emp" => 17,
        "all" => 25,
        "cup" => 33,
        "cap" => 41,
        "dif" => 49,
        "sin" => 57,
        "img" => 65,
        "wri" => 74,
        "typ" => 84,
        "dty" => 92,
        "rfv" => 96,
        "rgv" => 105,
        "arv" => 114,
        "fnv" => 123,
        _ => 132,
    }
}
