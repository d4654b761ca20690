//! The shape of a number, in each of the seven fields of a yes and of a no.

use super::{night, second_of_three, Night, NO, YES};

const NAMES: [&str; 7] = [
    "number", "line", "T lines", "A lines", "S lines", "closings", "place",
];

pub fn nights() -> Vec<Night> {
    let mut nights = five_digits();
    for (at, name) in NAMES.iter().enumerate() {
        for (fault, wrong) in WRONG {
            let line = with_field(YES, at, wrong);
            nights.push(bad(format!("yes, {name}: {fault}"), &line));
        }
        for (fault, wrong) in &WRONG[..4] {
            let line = with_field(NO, at, *wrong);
            nights.push(bad(format!("no, {name}: {fault}"), &line));
        }
    }
    nights
}

fn bad(name: String, line: &[u8]) -> Night {
    night(name, second_of_three(line), "2,2")
}

/// Makes a good number one that is badly shaped.
type Wrong = fn(&str) -> Vec<u8>;

/// A reader that isn't strict finds the good number in most of these.
const WRONG: [(&str, Wrong); 13] = [
    ("leading zero", |good| with(b"0", good, b"")),
    ("empty", |_| vec![]),
    ("six digits", six_digits),
    ("2^32 more", |good| more(1 << 32, good)),
    ("2^64 more", |good| more(1 << 64, good)),
    ("minus", |good| with(b"-", good, b"")),
    ("plus", |good| with(b"+", good, b"")),
    ("blank", |good| with(b" ", good, b"")),
    ("NUL", |good| with(b"", good, b"\0")),
    ("255", |good| with(b"", good, b"\xff")),
    ("the byte below 0", |good| with(b"", good, b"/")),
    ("the byte above 9", |good| with(b"", good, b":")),
    ("a letter", |good| with(b"", good, b"o")),
];

fn with(before: &[u8], good: &str, after: &[u8]) -> Vec<u8> {
    [before, good.as_bytes(), after].concat()
}

/// A 0 stays 0.
fn six_digits(good: &str) -> Vec<u8> {
    match good {
        "0" => b"000000".to_vec(),
        _ => b"100000".to_vec(),
    }
}

fn more(most: u128, good: &str) -> Vec<u8> {
    let number: u128 = good.parse().expect(good);
    (most + number).to_string().into_bytes()
}

/// The reply with another number in a field, the first one at 0.
fn with_field(reply: &str, at: usize, wrong: Wrong) -> Vec<u8> {
    let texts: Vec<&str> = reply.trim_end().split(',').collect();
    let mut fields: Vec<Vec<u8>> = texts.iter().copied().map(Vec::from).collect();
    fields[at + 1] = wrong(texts[at + 1]);
    [fields.join(&b','), b"\n".to_vec()].concat()
}

/// The most digits, in each field that may have them.
fn five_digits() -> Vec<Night> {
    let rows = [
        ("T lines", "yes,0,0,10000,6,5,4,0\n", "3,2,5,1,0,1"),
        ("A lines", "yes,0,0,7,10000,5,4,0\n", "3,2,5,1,0,1"),
        // 10005/2, and (9995/2)^2: (10000 - 5)^2 = 100000000 - 100000 + 25.
        (
            "S lines",
            "yes,0,0,7,6,10000,4,0\n",
            "3,2,10005,2,99900025,4",
        ),
        ("closings", "yes,0,0,7,6,5,10000,0\n", "3,2,5,1,0,1"),
        ("number", "no,10000,9,0,0,0,0,0\n", "3,1,5,1,0,1"),
        ("line", "no,13,10000,0,0,0,0,8\n", "3,1,5,1,0,1"),
        ("place", "no,13,9,0,0,0,0,10000\n", "3,1,5,1,0,1"),
    ];
    let nights = rows.iter().map(|(field, line, figures)| {
        let name = format!("five digits: {field}");
        night(name, second_of_three(line.as_bytes()), figures)
    });
    nights.collect()
}
