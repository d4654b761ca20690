//! The rule `bck` on random branches: every checker against the independent one,
//! which puts in pair after pair.

use host::checkers::{plain_rust, CHECKERS};
use host::random::Random;

const FILES: usize = 20_000;
const SEED: u64 = 20_050_505;

/// Each sort's variables and operations, and the sorts of the arguments.
const OPERATIONS: [(&str, &str, &[&str]); 12] = [
    ("nul", "reference", &[]),
    ("rea", "reference", &["heap", "reference", "field"]),
    ("emp", "region", &[]),
    ("all", "region", &[]),
    ("cup", "region", &["region", "region"]),
    ("cap", "region", &["region", "region"]),
    ("dif", "region", &["region", "region"]),
    ("sin", "region", &["reference"]),
    ("img", "region", &["heap", "region", "field"]),
    ("wri", "heap", &["heap", "reference", "field", "reference"]),
    ("typ", "class", &["reference"]),
    ("dty", "class", &["field"]),
];
const VARIABLES: [(&str, &str); 5] = [
    ("rfv", "reference"),
    ("rgv", "region"),
    ("arv", "heap"),
    ("fnv", "field"),
    ("clv", "class"),
];

/// A file in the making, whose only step is a `bck`.
#[derive(Default)]
struct File {
    text: String,
    sorts: Vec<&'static str>,
    lines: Vec<(&'static str, [usize; 4])>,
}

impl File {
    fn random(random: &mut Random) -> File {
        let mut file = File::default();
        // Few sorts in some files, so that much comes to be equal in them.
        let variables = [&VARIABLES[..], &VARIABLES[4..], &VARIABLES[..4]];
        let variables = variables[random.below(3)];
        for name in 1..=1 + random.below(12) {
            let (word, sort) = random.pick(variables);
            file.add_term(word, sort, [name, 0, 0, 0]);
        }
        for _ in 0..random.below(40) {
            let (word, sort, arguments) = random.pick(&OPERATIONS);
            if let Some(fields) = file.some_fields(random, arguments) {
                file.add_term(word, sort, fields);
            }
        }
        for _ in 0..random.below(40) {
            file.add_literal(random);
        }
        file.text.push_str("S,bck,0,0,0,0\n");
        file
    }

    fn add_term(&mut self, word: &'static str, sort: &'static str, fields: [usize; 4]) {
        if !self.lines.contains(&(word, fields)) {
            self.lines.push((word, fields));
            self.sorts.push(sort);
            self.add_line('T', word, fields);
        }
    }

    fn add_line(&mut self, letter: char, word: &str, [a, b, c, d]: [usize; 4]) {
        let line = format!("{letter},{word},{a},{b},{c},{d}\n");
        self.text.push_str(&line);
    }

    /// The number of a term of this sort, if there is one.
    fn some_term(&self, random: &mut Random, sort: &str) -> Option<usize> {
        let numbers = 1..=self.sorts.len();
        let fitting: Vec<usize> = numbers
            .filter(|number| self.sorts[number - 1] == sort)
            .collect();
        match fitting.is_empty() {
            true => None,
            false => Some(random.pick(&fitting)),
        }
    }

    fn some_fields(&self, random: &mut Random, sorts: &[&str]) -> Option<[usize; 4]> {
        let mut fields = [0; 4];
        for (field, sort) in fields.iter_mut().zip(sorts) {
            *field = self.some_term(random, sort)?;
        }
        Some(fields)
    }

    fn add_literal(&mut self, random: &mut Random) {
        let left = 1 + random.below(self.sorts.len());
        let sort = self.sorts[left - 1];
        let word = match random.below(12) {
            0 if sort == "class" => "nl",
            0 | 1 => "ne",
            2..=7 if sort == "class" => "le",
            8 if sort == "reference" => "in",
            9 if sort == "reference" => "ni",
            _ => "eq",
        };
        let other = match word {
            "in" | "ni" => "region",
            _ => sort,
        };
        if let Some(right) = self.some_term(random, other) {
            self.add_line('A', word, [left, right, 0, 0]);
        }
    }
}

#[test]
fn every_checker_closes_exactly_when_the_independent_one_does() {
    let mut accepted = 0;
    for batch in 0..FILES as u64 {
        let text = File::random(&mut Random::of_batch(SEED, batch)).text;
        let known = plain_rust(text.as_bytes());
        assert!([0, 12].contains(&known[0]), "{text}");
        accepted += usize::from(known[0] == 0);
        for (name, check) in &CHECKERS[1..] {
            assert_eq!(check(text.as_bytes()), known, "{name}:\n{text}");
        }
    }
    assert!((FILES / 4..FILES / 4 * 3).contains(&accepted), "{accepted}");
}

/// Two classes below each other, which are said to differ.
const CLOSABLE: &str = "T,clv,1,0,0,0\nT,clv,2,0,0,0\nA,le,1,2,0,0\nA,le,2,1,0,0\nA,ne,2,1,0,0\n";

/// Fields and the tree are looked at before the branch is.
#[test]
fn what_comes_before_the_closure() {
    for (steps, number, line) in [
        ("S,bck,0,0,0,0\n", 0, 0),
        ("S,bck,1,0,0,0\n", 6, 6),
        ("S,bck,0,1,0,0\n", 6, 6),
        ("S,bck,0,0,1,0\n", 6, 6),
        ("S,bck,0,0,0,1\n", 6, 6),
        ("S,bck,0,0,0,0\nS,bck,0,0,0,0\n", 5, 7),
        ("S,bck,0,0,0,0\nS,bck,1,1,1,1\n", 5, 7),
        ("S,bcl,0,0,0,0\n", 4, 6),
    ] {
        let file = [CLOSABLE, steps].concat();
        for (name, check) in CHECKERS {
            let [given, at, ..] = check(file.as_bytes());
            assert_eq!((given, at), (number, line), "{name}: {steps}");
        }
    }
}
