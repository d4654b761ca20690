//! Heap files without fault, for the variables of a checker file.

use crate::generator::aliases;
use crate::generator::tableau::{Entry, Tableau};
use crate::random::Random;

use super::heap_file::{fact, HeapFile, LIMITS, MOST_BYTES};

/// A variable's word and name.
pub type Name = (&'static str, u32);

const VARIABLES: [&str; 5] = ["rfv", "fnv", "clv", "rgv", "arv"];
/// Entries of one heap variable, so that small files are the rule.
const MOST_ENTRIES: usize = 300;
/// Bytes kept free for damage that makes a file longer.
const SPARE_BYTES: usize = 1_000;

/// The variables on the T lines.
pub fn names_of(tableau: &Tableau) -> Vec<Name> {
    let lines = &tableau.lines[..tableau.terms];
    let names = lines.iter().filter_map(|line| match line.entries[0] {
        Entry::Name(name) => Some((line.word, name)),
        _ => None,
    });
    names.collect()
}

struct Maker<'a> {
    random: &'a mut Random,
    references: usize,
    fields: usize,
    classes: usize,
    allocated: Vec<u32>,
    file: HeapFile,
    bytes: usize,
}

/// A heap of random size with values for most of the variables, and for some
/// that no file has.
pub fn fit(names: &[Name], random: &mut Random) -> HeapFile {
    let [references, fields, classes] = sizes(random);
    let sizes = [references, fields, classes].map(|size| size as u32);
    let mut maker = Maker {
        random,
        references,
        fields,
        classes,
        allocated: Vec::new(),
        file: HeapFile {
            facts: vec![fact("siz", &sizes)],
        },
        bytes: SPARE_BYTES,
    };
    maker.order();
    maker.allocate();
    maker.classify();
    for (word, name) in names {
        if maker.random.chance(7, 8) {
            maker.variable(word, *name);
        }
    }
    maker.other_variables(names);
    let file = maker.file;
    file.in_another_order(random)
}

/// Mostly small, so that much is true; now and then at the limits.
fn sizes(random: &mut Random) -> [usize; 3] {
    let limits = LIMITS.map(|limit| limit as usize);
    match random.below(12) {
        0 => [1, 1, 1],
        1 => limits,
        2 => limits.map(|limit| random.pick(&[1, limit - 1, limit])),
        3 => limits.map(|limit| 1 + random.below(limit)),
        _ => [6, 4, 5].map(|most| 1 + random.below(most)),
    }
}

impl Maker<'_> {
    fn add(&mut self, word: &'static str, used: &[u32]) {
        let fact = fact(word, used);
        self.bytes += fact.text().len();
        if self.bytes < MOST_BYTES {
            self.file.facts.push(fact);
        }
    }

    fn below(&mut self, bound: usize) -> u32 {
        self.random.below(bound) as u32
    }

    /// A partial order: a random one of the pairs that a random line of the
    /// classes allows, and what follows from them.
    fn order(&mut self) {
        let mut line: Vec<usize> = (0..self.classes).collect();
        self.random.shuffle(&mut line);
        let part = self.random.below(4);
        let mut under = vec![vec![false; self.classes]; self.classes];
        for lower in (0..self.classes).rev() {
            for upper in lower + 1..self.classes {
                if self.random.chance(part, 4) {
                    // What is above the upper is complete already.
                    let above = under[upper].clone();
                    under[lower][upper] = true;
                    for (class, is_above) in above.into_iter().enumerate() {
                        under[lower][class] |= is_above;
                    }
                }
            }
        }
        for (lower, row) in under.into_iter().enumerate() {
            for (upper, is_under) in row.into_iter().enumerate() {
                if is_under {
                    self.add("sub", &[line[lower] as u32, line[upper] as u32]);
                }
            }
        }
    }

    fn allocate(&mut self) {
        let part = self.random.pick(&[0, 1, 2, 3, 3, 4, 4]);
        for reference in 1..self.references as u32 {
            if self.random.chance(part, 4) {
                self.allocated.push(reference);
                self.add("alc", &[reference]);
            }
        }
    }

    /// The classes of most references and fields.
    fn classify(&mut self) {
        for (word, count) in [("typ", self.references), ("dty", self.fields)] {
            for number in 0..count as u32 {
                if self.random.chance(3, 4) {
                    let class = self.below(self.classes);
                    self.add(word, &[number, class]);
                }
            }
        }
    }

    fn variable(&mut self, word: &'static str, name: u32) {
        match word {
            "rfv" => self.number(word, name, self.references),
            "fnv" => self.number(word, name, self.fields),
            "clv" => self.number(word, name, self.classes),
            "rgv" => self.region(name),
            _ => self.heap(name),
        }
    }

    fn number(&mut self, word: &'static str, name: u32, bound: usize) {
        let value = self.below(bound);
        self.add(word, &[name, value]);
    }

    fn region(&mut self, name: u32) {
        let part = self.random.below(5);
        for member in self.allocated.clone() {
            if self.random.chance(part, 4) {
                self.add("rgv", &[name, member]);
            }
        }
    }

    fn heap(&mut self, name: u32) {
        let entries = self.references * self.fields;
        let part = self.random.below(entries.min(MOST_ENTRIES) + 1);
        for reference in 0..self.references {
            for field in 0..self.fields {
                if self.random.chance(part, entries) {
                    let value = self.below(self.references);
                    self.add("arv", &[name, reference as u32, field as u32, value]);
                }
            }
        }
    }

    fn other_variables(&mut self, names: &[Name]) {
        for _ in 0..self.random.below(3) {
            let word = self.random.pick(&VARIABLES);
            let of_word = names.iter().filter(|known| known.0 == word);
            let known: Vec<u32> = of_word.map(|known| known.1).collect();
            let name = aliases::name(&known, self.random);
            let given = |known: &Name| *known == (word, name);
            let again = |number: &u32| *number == name;
            let facts = &self.file.facts;
            let made = facts
                .iter()
                .any(|fact| fact.word == word && again(&fact.numbers[0]));
            if !made && !names.iter().any(given) {
                self.variable(word, name);
            }
        }
    }
}
