//! The heap that a heap file describes, and its D lines.

use super::super::reader::{refused_fact, Line};
use super::super::refusal::{ensure, unused, Refusal};
use super::super::words::fact;
use super::facts::{key, Facts, Word};

pub const MOST_REFERENCES: usize = 64;
pub const MOST_FIELDS: usize = 16;
pub const MOST_CLASSES: usize = 16;

type Fields = [u32; 4];
type Checked = Result<(), Refusal>;

pub struct Heap {
    references: u32,
    fields: u32,
    classes: u32,
    /// The references that are allocated, a bit for each.
    pub all: u64,
    /// The class of each reference, and that of each field.
    pub typ: [u8; MOST_REFERENCES],
    pub dty: [u8; MOST_FIELDS],
    /// The classes above each class, itself too.
    pub under: [u16; MOST_CLASSES],
    pub facts: Facts,
}

/// Refuses where what a D line says cannot be.
#[inline(always)]
fn ensure_fact(so: bool) -> Checked {
    ensure(so, Refusal::Fact)
}

#[inline(always)]
fn ensure_name(name: u32) -> Checked {
    ensure_fact(name != 0)
}

impl Heap {
    /// The heap of which only the first line is read, in a file with so many
    /// bytes.
    pub fn of_sizes(line: Line, bytes: usize) -> Result<Heap, Refusal> {
        let Some(letter) = line.letter else {
            return Err(Refusal::Order);
        };
        if letter != b'D' || line.word != fact::SIZ {
            return Err(refused_fact(line.letter, line.word, Refusal::Order));
        }
        let [references, fields, classes, rest] = line.fields;
        unused([rest])?;
        ensure_fact((1..=MOST_REFERENCES as u32).contains(&references))?;
        ensure_fact((1..=MOST_FIELDS as u32).contains(&fields))?;
        ensure_fact((1..=MOST_CLASSES as u32).contains(&classes))?;
        Ok(Heap {
            references,
            fields,
            classes,
            all: 0,
            typ: [0; MOST_REFERENCES],
            dty: [0; MOST_FIELDS],
            under: std::array::from_fn(|class| 1 << class),
            facts: Facts::with_room(bytes),
        })
    }

    /// A later D line.
    #[inline(always)]
    pub fn add(&mut self, line: Line) -> Checked {
        ensure(line.letter == Some(b'D'), Refusal::Shape)?;
        let fields = line.fields;
        match line.word {
            fact::ALC => self.alc(fields),
            fact::TYP => self.typ(fields),
            fact::DTY => self.dty(fields),
            fact::SUB => self.sub(fields),
            fact::RFV => self.variable(Word::Rfv, self.references, fields),
            fact::FNV => self.variable(Word::Fnv, self.fields, fields),
            fact::CLV => self.variable(Word::Clv, self.classes, fields),
            fact::RGV => self.rgv(fields),
            fact::ARV => self.arv(fields),
            fact::SIZ => Err(Refusal::Order),
            _ => Err(refused_fact(line.letter, line.word, Refusal::Word)),
        }
    }

    #[inline(always)]
    fn alc(&mut self, [reference, rest @ ..]: Fields) -> Checked {
        unused(rest)?;
        ensure_fact(reference != 0 && reference < self.references)?;
        self.facts.add(key(Word::Alc, 0, reference, 0), 1)?;
        self.all |= 1 << reference;
        Ok(())
    }

    #[inline(always)]
    fn typ(&mut self, [reference, class, rest @ ..]: Fields) -> Checked {
        unused(rest)?;
        ensure_fact(reference < self.references && class < self.classes)?;
        self.facts.add(key(Word::Typ, 0, reference, 0), class)?;
        self.typ[reference as usize] = class as u8;
        Ok(())
    }

    #[inline(always)]
    fn dty(&mut self, [field, class, rest @ ..]: Fields) -> Checked {
        unused(rest)?;
        ensure_fact(field < self.fields && class < self.classes)?;
        self.facts.add(key(Word::Dty, 0, 0, field), class)?;
        self.dty[field as usize] = class as u8;
        Ok(())
    }

    #[inline(always)]
    fn sub(&mut self, [lower, upper, rest @ ..]: Fields) -> Checked {
        unused(rest)?;
        ensure_fact(lower < self.classes && upper < self.classes && lower != upper)?;
        self.facts.add(key(Word::Sub, 0, lower, upper), 1)?;
        self.under[lower as usize] |= 1 << upper;
        Ok(())
    }

    /// A variable whose value is one number.
    #[inline(always)]
    fn variable(&mut self, word: Word, bound: u32, [name, value, rest @ ..]: Fields) -> Checked {
        unused(rest)?;
        ensure_name(name)?;
        ensure_fact(value < bound)?;
        self.facts.add(key(word, name, 0, 0), value)
    }

    #[inline(always)]
    fn rgv(&mut self, [name, member, rest @ ..]: Fields) -> Checked {
        unused(rest)?;
        ensure_name(name)?;
        ensure_fact(member < self.references && self.all >> member & 1 == 1)?;
        self.facts.add(key(Word::Rgv, name, member, 0), 1)
    }

    #[inline(always)]
    fn arv(&mut self, [name, reference, field, value]: Fields) -> Checked {
        ensure_name(name)?;
        ensure_fact(reference < self.references && field < self.fields && value < self.references)?;
        self.facts
            .add(key(Word::Arv, name, reference, field), value)
    }

    /// Whether the classes are in a partial order.
    pub fn is_ordered(&self) -> bool {
        let classes = 0..self.classes as usize;
        classes.clone().all(|lower| {
            classes
                .clone()
                .filter(|upper| lower != *upper && self.is_under(lower, *upper))
                .all(|upper| {
                    let missing = self.under[upper] & !self.under[lower];
                    missing == 0 && !self.is_under(upper, lower)
                })
        })
    }

    #[inline(always)]
    pub fn is_under(&self, lower: usize, upper: usize) -> bool {
        self.under[lower % MOST_CLASSES] >> (upper % MOST_CLASSES) & 1 == 1
    }

    /// For each field the references that have it: those whose class is under
    /// the field's.
    pub fn having(&self) -> [u64; MOST_FIELDS] {
        let mut having = [0; MOST_FIELDS];
        for (set, class) in having.iter_mut().zip(self.dty).take(self.fields as usize) {
            for reference in 0..self.references as usize {
                let has = self.is_under(self.typ[reference].into(), class.into());
                *set |= u64::from(has) << reference;
            }
        }
        having
    }
}
