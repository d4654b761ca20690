//! Files that nobody made to be accepted: bytes at random, lines at random,
//! and the beginning of a closed tableau with steps at random after it.

use crate::random::Random;

use super::exact_damage::{words_of, FORMER_RULE};
use super::tableau::Tableau;
use super::{Expected, Sample};

pub fn sample(tableau: &Tableau, random: &mut Random) -> Sample {
    let (kind, bytes) = match random.below(8) {
        0 => ("bytes at random", random_bytes(random)),
        1 => ("bytes of files at random", bytes_of_files(random)),
        2 => ("lines at random", random_lines(random)),
        _ => ("steps at random", random_steps(tableau, random)),
    };
    Sample {
        kind,
        bytes,
        expected: Expected::Unknown,
    }
}

fn random_bytes(random: &mut Random) -> Vec<u8> {
    let length = random.below(200);
    (0..length).map(|_| random.below(256) as u8).collect()
}

fn bytes_of_files(random: &mut Random) -> Vec<u8> {
    let length = random.below(200);
    (0..length)
        .map(|_| random.pick(b"TTAACCSS,,,,,,,,,,\n\n000123456789inpqrtuwcel"))
        .collect()
}

/// A word known for the letter, now and then one that is not.
fn some_word(letter: char, random: &mut Random) -> &'static str {
    if random.chance(1, 30) {
        return FORMER_RULE;
    }
    random.pick(words_of(letter))
}

fn random_lines(random: &mut Random) -> Vec<u8> {
    let mut text = String::new();
    for letter in ['T', 'A', 'C', 'S'] {
        for _ in 0..random.below(6) {
            let word = some_word(letter, random);
            let used = random.below(5);
            let mut numbers = [0; 4];
            for number in numbers.iter_mut().take(used) {
                *number = if random.chance(1, 20) {
                    random.digits()
                } else {
                    1 + random.below(4) as u32
                };
            }
            let [a, b, c, d] = numbers;
            text += &format!("{letter},{word},{a},{b},{c},{d}\n");
        }
    }
    text.into_bytes()
}

/// Some first lines of a closed tableau, then steps whose unused fields are
/// mostly 0 and whose places and terms mostly exist.
fn random_steps(tableau: &Tableau, random: &mut Random) -> Vec<u8> {
    let first_step = tableau.first_step();
    let kept = first_step + random.below(tableau.steps);
    let mut text: String = tableau.lines[..kept]
        .iter()
        .map(|line| line.text())
        .collect();
    for _ in 0..1 + random.below(3) {
        text += &random_step(tableau, kept - first_step, random);
    }
    text.into_bytes()
}

/// The fields p, q, t, w that a rule uses, or used in older files.
fn used_fields(rule: &str) -> [bool; 4] {
    let used = match rule {
        "eqr" | "eql" | "sep" | "trn" | "let" | "lea" | "cls" => "pq",
        "ext" | "wit" => "pw",
        FORMER_RULE => "w",
        "cpi" | "dfi" | "rep" => "pqt",
        "cui" | "img" => "pt",
        "sgi" | "ref" | "ler" | "rdh" | "rdm" | "cla" => "t",
        "cut" => "tw",
        "sub" => "ptw",
        "bck" => "",
        _ => "p",
    };
    ['p', 'q', 't', 'w'].map(|field| used.contains(field))
}

fn random_step(tableau: &Tableau, steps_before: usize, random: &mut Random) -> String {
    let rule = some_word('S', random);
    let used = used_fields(rule);
    let places = tableau.assumptions + steps_before + 1;
    let mut numbers = [0; 4];
    for (field, number) in numbers.iter_mut().enumerate() {
        if used[field] || random.chance(1, 60) {
            let bound = if field < 2 { places } else { tableau.terms };
            *number = 1 + random.below(bound);
        }
    }
    match rule {
        "rep" => numbers[2] = 1 + random.below(2),
        "cla" => numbers[2] = 1 + random.below(tableau.clauses + 1),
        _ => {}
    }
    let [p, q, t, w] = numbers;
    format!("S,{rule},{p},{q},{t},{w}\n")
}
