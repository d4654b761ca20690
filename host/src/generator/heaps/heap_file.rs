//! A heap file in the making: its D lines as words and numbers.

use crate::numbers::GREATEST;
use crate::random::Random;

/// What a field of a D line counts.
#[derive(Debug, Clone, Copy, PartialEq, Eq)]
pub enum Kind {
    Size,
    Name,
    Reference,
    Field,
    Class,
}

/// The words of D lines; `siz` stands on the first line and nowhere else.
pub const WORDS: [&str; 10] = [
    "siz", "alc", "typ", "dty", "sub", "rfv", "fnv", "clv", "rgv", "arv",
];
pub const MOST_BYTES: usize = 60_000;
/// The most references, fields and classes.
pub const LIMITS: [u32; 3] = [64, 16, 16];

#[derive(Debug, Clone, PartialEq, Eq)]
pub struct Fact {
    pub word: &'static str,
    pub numbers: [u32; 4],
}

pub fn fact(word: &'static str, used: &[u32]) -> Fact {
    let mut numbers = [0; 4];
    numbers[..used.len()].copy_from_slice(used);
    Fact { word, numbers }
}

impl Fact {
    /// The fields that are used.
    pub fn kinds(&self) -> &'static [Kind] {
        use Kind::*;
        match self.word {
            "siz" => &[Size, Size, Size],
            "alc" => &[Reference],
            "typ" => &[Reference, Class],
            "dty" => &[Field, Class],
            "sub" => &[Class, Class],
            "rfv" => &[Name, Reference],
            "fnv" => &[Name, Field],
            "clv" => &[Name, Class],
            "rgv" => &[Name, Reference],
            _ => &[Name, Reference, Field, Reference],
        }
    }

    /// The field with the value, which is no part of the subject.
    pub fn value_field(&self) -> Option<usize> {
        match self.word {
            "typ" | "dty" | "rfv" | "fnv" | "clv" => Some(1),
            "arv" => Some(3),
            _ => None,
        }
    }

    /// Whether both speak of the same.
    pub fn same_subject(&self, other: &Fact) -> bool {
        let subject = |fact: &Fact| {
            let mut numbers = fact.numbers;
            if let Some(field) = fact.value_field() {
                numbers[field] = 0;
            }
            numbers
        };
        self.word == other.word && subject(self) == subject(other)
    }

    pub fn text(&self) -> String {
        let [a, b, c, d] = self.numbers;
        format!("D,{},{a},{b},{c},{d}\n", self.word)
    }
}

#[derive(Debug, Clone)]
pub struct HeapFile {
    /// The first is `siz`.
    pub facts: Vec<Fact>,
}

impl HeapFile {
    /// How many there are of a kind; of names as many as there are numbers.
    pub fn count(&self, kind: Kind) -> u32 {
        let [references, fields, classes, _] = self.facts[0].numbers;
        match kind {
            Kind::Reference => references,
            Kind::Field => fields,
            Kind::Class => classes,
            Kind::Name | Kind::Size => GREATEST + 1,
        }
    }

    pub fn bytes(&self) -> Vec<u8> {
        let texts: Vec<String> = self.facts.iter().map(Fact::text).collect();
        texts.concat().into_bytes()
    }

    /// The file with this fact at an index.
    pub fn with(&self, index: usize, fact: Fact) -> HeapFile {
        let mut changed = self.clone();
        changed.facts.insert(index, fact);
        changed
    }

    pub fn without(&self, index: usize) -> HeapFile {
        let mut changed = self.clone();
        changed.facts.remove(index);
        changed
    }

    /// An index at which a fact can be put in.
    pub fn some_index(&self, random: &mut Random) -> usize {
        1 + random.below(self.facts.len())
    }

    /// The indices of the facts that are as asked.
    pub fn all_with(&self, asked: impl Fn(&Fact) -> bool) -> Vec<usize> {
        let all = 0..self.facts.len();
        all.filter(|index| asked(&self.facts[*index])).collect()
    }

    /// The same facts, each `alc` before the `rgv` that need it.
    pub fn in_another_order(&self, random: &mut Random) -> HeapFile {
        let mut changed = self.clone();
        random.shuffle(&mut changed.facts[1..]);
        for index in changed.all_with(|fact| fact.word == "alc") {
            let member = changed.facts[index].numbers[0];
            let needs = |fact: &Fact| fact.word == "rgv" && fact.numbers[1] == member;
            if let Some(first) = changed.facts[..index].iter().position(needs) {
                changed.facts.swap(first, index);
            }
        }
        changed
    }
}
