//! The values of terms, and the truth of literals.

use super::super::literals::{left, relation, right, Literal, Relation};
use super::super::packing::{
    field, has_sort, head_of, name, Packed, Sort, ALL, ARV, CAP, CLV, CUP, DIF, DTY, FNV, IMG, REA,
    RFV, RGV, SIN, TYP, WRI,
};
use super::super::terms::{Terms, NUMBERS};
use super::facts::{Word, FIELD_BITS};
use super::heap::{Heap, MOST_FIELDS, MOST_REFERENCES};

/// A heap value: an entry for each reference and, counting faster, each field.
const ROW: usize = MOST_REFERENCES * MOST_FIELDS;
type Row = [u8; ROW];

pub struct Values {
    /// The value of each term by its number: a reference, a field or a class; a
    /// region as a set of bits; for a heap term the number of its row.
    numbers: [u64; NUMBERS],
    /// One array with room for every term, of which only the rows of heap terms
    /// are written.
    rows: Vec<Row>,
}

impl Values {
    pub fn of_terms(terms: &Terms, heap: &Heap) -> Values {
        let having = heap.having();
        let mut values = Values {
            numbers: [0; NUMBERS],
            rows: Vec::with_capacity(terms.all().len()),
        };
        for (index, term) in terms.all().iter().enumerate() {
            values.numbers[index + 1] = values.of_term(*term, heap, &having);
        }
        values
    }

    /// The value of a term whose arguments have theirs.
    #[inline(always)]
    fn of_term(&mut self, term: Packed, heap: &Heap, having: &[u64; MOST_FIELDS]) -> u64 {
        let name = name(term);
        let [a, b, c] = [0, 1, 2].map(|index| self.number(field(term, index)));
        match head_of(term) {
            RFV => heap.facts.value(Word::Rfv, name),
            FNV => heap.facts.value(Word::Fnv, name),
            CLV => heap.facts.value(Word::Clv, name),
            RGV => region_variable(name, heap),
            ARV => self.heap_variable(name, heap),
            WRI => self.write(a, b, c, self.number(field(term, 3))),
            REA => self.read(a, b, c),
            IMG => heap.all & self.reached(a, b & having[c as usize % MOST_FIELDS], c),
            ALL => heap.all,
            CUP => a | b,
            CAP => a & b,
            DIF => a & !b,
            SIN => 1 << a & heap.all,
            TYP => heap.typ[a as usize % MOST_REFERENCES].into(),
            DTY => heap.dty[a as usize % MOST_FIELDS].into(),
            // `nul` and `emp`.
            _ => 0,
        }
    }

    #[inline(always)]
    fn number(&self, term: u32) -> u64 {
        self.numbers[term as usize % NUMBERS]
    }

    #[inline(always)]
    fn row(&self, heap_value: u64) -> &Row {
        &self.rows[heap_value as usize]
    }

    #[inline(always)]
    fn read(&self, heap_value: u64, reference: u64, field: u64) -> u64 {
        self.row(heap_value)[entry(reference, field)].into()
    }

    /// The references that those of a set have in a field.
    #[inline(always)]
    fn reached(&self, heap_value: u64, mut set: u64, field: u64) -> u64 {
        let row = self.row(heap_value);
        let mut reached = 0;
        while set != 0 {
            let reference = u64::from(set.trailing_zeros());
            reached |= 1 << (row[entry(reference, field)] % MOST_REFERENCES as u8);
            set &= set - 1;
        }
        reached
    }

    #[inline(always)]
    fn write(&mut self, heap_value: u64, reference: u64, field: u64, value: u64) -> u64 {
        let (from, to) = (heap_value as usize, self.rows.len());
        self.rows.extend_from_within(from..=from);
        self.rows[to][entry(reference, field)] = value as u8;
        to as u64
    }

    fn heap_variable(&mut self, name: u32, heap: &Heap) -> u64 {
        let number = self.rows.len();
        self.rows.push([0; ROW]);
        for (entry, value) in heap.facts.of_variable(Word::Arv, name) {
            self.rows[number][entry % ROW] = value;
        }
        number as u64
    }

    /// The truth of a literal.
    #[inline(always)]
    pub fn is_true(&self, literal: Literal, terms: &Terms, heap: &Heap) -> bool {
        let (a, b) = (self.number(left(literal)), self.number(right(literal)));
        match relation(literal) {
            Relation::In => b >> a & 1 == 1,
            Relation::Ni => b >> a & 1 == 0,
            Relation::Eq => self.are_equal(a, b, terms.get(left(literal))),
            Relation::Ne => !self.are_equal(a, b, terms.get(left(literal))),
            Relation::Le => heap.is_under(a as usize, b as usize),
            Relation::Nl => !heap.is_under(a as usize, b as usize),
        }
    }

    /// Whether two values of the sort of a term are equal.
    #[inline(always)]
    fn are_equal(&self, a: u64, b: u64, term: Packed) -> bool {
        a == b || has_sort(term, Sort::Heap) && self.row(a) == self.row(b)
    }
}

#[inline(always)]
fn entry(reference: u64, field: u64) -> usize {
    (reference << FIELD_BITS | field) as usize % ROW
}

fn region_variable(name: u32, heap: &Heap) -> u64 {
    let members = heap.facts.of_variable(Word::Rgv, name);
    members.fold(0, |set, (entry, _)| set | 1 << (entry >> FIELD_BITS))
}
