//! The table of terms, and the T lines that fill it.

use super::literals::NUMBER_BITS;
use super::packing::{
    has_sort, pack, Head, Packed, Sort, ALL, ARV, CAP, CLV, CUP, DIF, DTY, EMP, FNV, IMG, NUL, REA,
    RFV, RGV, SIN, TYP, WRI,
};
use super::reader::{refused, Line};
use super::refusal::{ensure, unused, Refusal};
use super::words::term as word;

pub const MOST_TERMS: usize = 600;
/// A number of as many bits as a literal holds is an index without a test.
pub const NUMBERS: usize = 1 << NUMBER_BITS;

pub struct Terms {
    count: usize,
    /// The term of each number.
    packed: [Packed; NUMBERS],
}

impl Terms {
    pub fn new() -> Terms {
        Terms {
            count: 0,
            packed: [0; NUMBERS],
        }
    }

    pub fn count(&self) -> u32 {
        self.count as u32
    }

    /// The terms in the order of their numbers, from 1.
    pub fn all(&self) -> &[Packed] {
        &self.packed[1..=self.count]
    }

    /// The term that a field names.
    #[inline(always)]
    pub fn named(&self, number: u32) -> Result<Packed, Refusal> {
        let known = (number as usize).wrapping_sub(1) < self.count;
        ensure(known, Refusal::NoTerm)?;
        Ok(self.get(number))
    }

    /// The term of a number that is known to be one.
    #[inline(always)]
    pub fn get(&self, number: u32) -> Packed {
        self.packed[number as usize % NUMBERS]
    }

    /// The number of a term to be added to the branch.
    #[inline(always)]
    pub fn find<const N: usize>(&self, head: Head, fields: [u32; N]) -> Result<u32, Refusal> {
        self.search(pack(head, fields)).ok_or(Refusal::Missing)
    }

    /// Goes through the table from its start. A function of its own: its loop
    /// is then short, and takes the same time wherever the linker puts it.
    #[inline(never)]
    fn search(&self, packed: Packed) -> Option<u32> {
        let found = self.all().iter().position(|term| *term == packed)?;
        Some(found as u32 + 1)
    }

    /// A T line.
    #[inline(always)]
    pub fn add(&mut self, line: Line) -> Result<(), Refusal> {
        use Sort::*;
        let fields = line.fields;
        match line.word {
            word::NUL => self.operation(NUL, [], fields),
            word::RFV => self.variable(RFV, fields),
            word::REA => self.operation(REA, [Heap, Reference, Field], fields),
            word::EMP => self.operation(EMP, [], fields),
            word::ALL => self.operation(ALL, [], fields),
            word::RGV => self.variable(RGV, fields),
            word::CUP => self.operation(CUP, [Region, Region], fields),
            word::CAP => self.operation(CAP, [Region, Region], fields),
            word::DIF => self.operation(DIF, [Region, Region], fields),
            word::SIN => self.operation(SIN, [Reference], fields),
            word::IMG => self.operation(IMG, [Heap, Region, Field], fields),
            word::ARV => self.variable(ARV, fields),
            word::WRI => self.operation(WRI, [Heap, Reference, Field, Reference], fields),
            word::FNV => self.variable(FNV, fields),
            word::CLV => self.variable(CLV, fields),
            word::TYP => self.operation(TYP, [Reference], fields),
            word::DTY => self.operation(DTY, [Field], fields),
            _ => Err(refused(line.letter, line.word, Refusal::Word)),
        }
    }

    #[inline(always)]
    fn variable(&mut self, head: Head, [name, rest @ ..]: [u32; 4]) -> Result<(), Refusal> {
        unused(rest)?;
        self.ensure_room()?;
        ensure(name != 0, Refusal::NoTerm)?;
        self.push(pack(head, [name]))
    }

    #[inline(always)]
    fn operation<const N: usize>(
        &mut self,
        head: Head,
        sorts: [Sort; N],
        fields: [u32; 4],
    ) -> Result<(), Refusal> {
        let (used, rest) = fields.split_at(N);
        ensure(rest.iter().all(|field| *field == 0), Refusal::Unused)?;
        self.ensure_room()?;
        // All fields must name terms before any sort is asked.
        let mut arguments = [0; N];
        for (argument, number) in arguments.iter_mut().zip(used) {
            *argument = self.named(*number)?;
        }
        let mut pairs = arguments.into_iter().zip(sorts);
        ensure(
            pairs.all(|(argument, sort)| has_sort(argument, sort)),
            Refusal::Sort,
        )?;
        self.push(pack(head, fields))
    }

    #[inline(always)]
    fn ensure_room(&self) -> Result<(), Refusal> {
        ensure(self.count < MOST_TERMS, Refusal::Terms)
    }

    fn push(&mut self, packed: Packed) -> Result<(), Refusal> {
        ensure(self.search(packed).is_none(), Refusal::Again)?;
        self.count += 1;
        self.packed[self.count] = packed;
        Ok(())
    }
}
