//! The words of T, A and C lines, and numbers of four, five and six digits in
//! every field.

use std::collections::HashSet;

pub const TERM_WORDS: [&str; 17] = [
    "nul", "rfv", "rea", "emp", "all", "rgv", "cup", "cap", "dif", "sin", "img", "arv", "wri",
    "fnv", "clv", "typ", "dty",
];
pub const LITERAL_WORDS: [&str; 6] = ["in", "ni", "eq", "ne", "le", "nl"];

const ENDS: [&str; 4] = ["9999", "10000", "99999", "100000"];

/// Among the lines are some that begin with each letter and word, such as `T,rfv`,
/// with each of the numbers in each of the fields 3 to 6.
pub fn expect_in_every_field(lines: &[String], words: &[String]) {
    let mut seen = HashSet::new();
    for line in lines {
        let fields: Vec<&str> = line.split(',').collect();
        let [letter, word, numbers @ ..] = &fields[..] else {
            continue;
        };
        for (field, number) in (3..).zip(numbers) {
            seen.insert((format!("{letter},{word}"), field, number.to_string()));
        }
    }
    for word in words {
        for field in 3..=6 {
            for number in ENDS {
                let wanted = (word.clone(), field, number.to_string());
                assert!(seen.contains(&wanted), "{wanted:?}");
            }
        }
    }
}
