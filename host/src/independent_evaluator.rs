//! An evaluator of assumptions in a heap, written from document 01 and from the
//! requests "Try a heap against the assumptions", "Assumptions with an or in
//! them" and "More names" alone, for plainness only. Sentences in quotes are
//! theirs; brackets have what the last of them changed, `[..]` leaves words out.

use std::collections::BTreeSet;

use crate::independent::{all_zero, check_length, each_line, read_before_steps, six_fields};
use crate::independent::{Assumed, Refusal, TermWord};
use crate::meaning::{clause_true, literal_true, values_of_terms, variables_of};
use crate::meaning::{Heap, Value, Values, Variable};

/// "`D,siz` [..] gives references, fields, classes (1 to 64, 16, 16)"
const MOST_REFERENCES: u32 = 64;
const MOST_FIELDS: u32 = 16;
const MOST_CLASSES: u32 = 16;

// ---------------------------------------------------------------------------
// The reply
// ---------------------------------------------------------------------------

/// "refusal number, file (1 checker, 2 heap, 0 without a refusal) and line:
/// that of the refusal, else of the first false A line, 0 where all hold". Any
/// bytes get one reply.
pub fn evaluate(checker: &[u8], heap: &[u8]) -> [u32; 3] {
    // "The checker file's T and A lines are checked first, as by the checker
    // (1 by its whole length, 17 never), then the heap file"; C lines with them.
    let assumed = match read_before_steps(checker) {
        Ok(assumed) => assumed,
        Err((number, line)) => return [number, 1, line],
    };
    let said = match read_heap(heap) {
        Ok(said) => said,
        Err((number, line)) => return [number, 2, line],
    };
    [0, 0, first_false_line(&assumed, &said)]
}

/// The line of the first A line that is false. "Where no A line is false, the
/// heap evaluator reports the last line of the first clause with no true
/// literal", and 0 where all hold.
fn first_false_line(assumed: &Assumed, said: &Said) -> u32 {
    let terms = &assumed.terms;
    let heap = said.heap();
    let values = said.values(&variables_of(terms));
    let known = values_of_terms(terms, &heap, &values).expect("every term has a value");
    // The lines read are the T lines, then the A lines, then the C lines.
    let mut line = terms.len();
    for literal in &assumed.literals {
        line += 1;
        if !literal_true(literal, &known, &heap).expect("every literal is true or false") {
            return line as u32;
        }
    }
    for clause in &assumed.clauses {
        line += clause.len();
        if !clause_true(clause, &known, &heap).expect("every literal is true or false") {
            return line as u32;
        }
    }
    0
}

// ---------------------------------------------------------------------------
// The heap file
// ---------------------------------------------------------------------------

/// What all lines of a good heap file say.
fn read_heap(file: &[u8]) -> Result<Said, Refusal> {
    // 1: "as usual"
    check_length(file)?;
    let mut said = Said::default();
    let lines = each_line(file, |text| check_line(&mut said, text))?;
    // 3: "none at all (line 1)"
    if lines == 0 {
        return Err((3, 1));
    }
    // 20: "after all of them, an order that isn't transitive and
    // antisymmetric, with line 0"
    if !said.heap().order_is_partial() {
        return Err((20, 0));
    }
    Ok(said)
}

/// Checks a line in the order of the numbers. An `Err` holds the refusal
/// number.
fn check_line(said: &mut Said, text: &[u8]) -> Result<(), u32> {
    // 2: "checked by the same line shape with D as the only letter"
    let Some(fields) = six_fields(text) else {
        return Err(2);
    };
    if fields.letter != b"D" {
        return Err(2);
    }
    // 3: "a first line that isn't `siz`, [..] or a later `siz`"
    let first = said.facts.is_empty();
    if first != (fields.word == b"siz") {
        return Err(3);
    }
    // 4: "word not known for this letter"
    let Some(word) = heap_word(fields.word) else {
        return Err(4);
    };
    let (used, unused) = fields.numbers.split_at(kinds(word).len());
    // 6: "unused field not 0"
    if !all_zero(unused) {
        return Err(6);
    }
    let fact = Fact {
        word,
        numbers: used.to_vec(),
    };
    // 19
    if out_of_ranges(said, &fact)
        || given_twice(said, &fact)
        || class_under_itself(&fact)
        || allocated_0(&fact)
        || member_not_allocated(said, &fact)
    {
        return Err(19);
    }
    said.facts.push(fact);
    Ok(())
}

// ---------------------------------------------------------------------------
// D lines
// ---------------------------------------------------------------------------

#[derive(Debug, Clone, Copy, PartialEq, Eq)]
enum HeapWord {
    Siz,
    Alc,
    Typ,
    Dty,
    Sub,
    Rfv,
    Fnv,
    Clv,
    Rgv,
    Arv,
}

/// What a good D line says: its word and the numbers in the fields it uses.
#[derive(Debug, Clone, PartialEq, Eq)]
struct Fact {
    word: HeapWord,
    numbers: Vec<u32>,
}

/// What a number on a D line is.
#[derive(Debug, Clone, Copy, PartialEq, Eq)]
enum Kind {
    /// A size, 1 to so many.
    UpTo(u32),
    Reference,
    Field,
    Class,
    Name,
}

fn heap_word(word: &[u8]) -> Option<HeapWord> {
    match word {
        b"siz" => Some(HeapWord::Siz),
        b"alc" => Some(HeapWord::Alc),
        b"typ" => Some(HeapWord::Typ),
        b"dty" => Some(HeapWord::Dty),
        b"sub" => Some(HeapWord::Sub),
        b"rfv" => Some(HeapWord::Rfv),
        b"fnv" => Some(HeapWord::Fnv),
        b"clv" => Some(HeapWord::Clv),
        b"rgv" => Some(HeapWord::Rgv),
        b"arv" => Some(HeapWord::Arv),
        _ => None,
    }
}

/// The numbers that each word holds, from field 3 on.
fn kinds(word: HeapWord) -> Vec<Kind> {
    use Kind::*;
    match word {
        // "references, fields, classes (1 to 64, 16, 16)"
        HeapWord::Siz => vec![UpTo(MOST_REFERENCES), UpTo(MOST_FIELDS), UpTo(MOST_CLASSES)],
        // "`alc` reference"
        HeapWord::Alc => vec![Reference],
        // "`typ` reference, class"
        HeapWord::Typ => vec![Reference, Class],
        // "`dty` field, class"
        HeapWord::Dty => vec![Field, Class],
        // "`sub` lower, upper"
        HeapWord::Sub => vec![Class, Class],
        // "`rfv`, `fnv`, `clv` name, value"
        HeapWord::Rfv => vec![Name, Reference],
        HeapWord::Fnv => vec![Name, Field],
        HeapWord::Clv => vec![Name, Class],
        // "`rgv` name, member, already allocated"
        HeapWord::Rgv => vec![Name, Reference],
        // "`arv` name, reference, field, value"
        HeapWord::Arv => vec![Name, Reference, Field, Reference],
    }
}

/// How many of the numbers, from the first on, say what the line is about: "a
/// subject (for `alc`, `sub`, `rgv` a whole line, for `arv` all but the value)".
fn numbers_of_subject(word: HeapWord) -> usize {
    match word {
        HeapWord::Alc => 1,
        HeapWord::Sub | HeapWord::Rgv => 2,
        HeapWord::Arv => 3,
        HeapWord::Typ | HeapWord::Dty => 1,
        HeapWord::Rfv | HeapWord::Fnv | HeapWord::Clv => 1,
        // The sizes are about the whole heap, and stand on the first line only.
        HeapWord::Siz => 0,
    }
}

fn subject(fact: &Fact) -> &[u32] {
    &fact.numbers[..numbers_of_subject(fact.word)]
}

// ---------------------------------------------------------------------------
// The five parts of 19
// ---------------------------------------------------------------------------

/// 19: "a D line out of its ranges (a name 0 too)"
fn out_of_ranges(said: &Said, fact: &Fact) -> bool {
    for (number, kind) in fact.numbers.iter().zip(kinds(fact.word)) {
        let good = match kind {
            Kind::UpTo(most) => 1 <= *number && *number <= most,
            // "all counted from 0"
            Kind::Reference => *number < said.references(),
            Kind::Field => *number < said.fields(),
            Kind::Class => *number < said.classes(),
            // "A name is 1 to [99,999]"; a number has five digits at most.
            Kind::Name => *number != 0,
        };
        if !good {
            return true;
        }
    }
    false
}

/// 19: "a subject [..] given twice"
fn given_twice(said: &Said, fact: &Fact) -> bool {
    let earlier = said.with_word(fact.word);
    earlier.iter().any(|other| subject(other) == subject(fact))
}

/// 19: "a class put under itself"
fn class_under_itself(fact: &Fact) -> bool {
    fact.word == HeapWord::Sub && fact.numbers[0] == fact.numbers[1]
}

/// 19: "an allocated 0"
fn allocated_0(fact: &Fact) -> bool {
    fact.word == HeapWord::Alc && fact.numbers[0] == 0
}

/// 19: "a member not yet allocated"
fn member_not_allocated(said: &Said, fact: &Fact) -> bool {
    fact.word == HeapWord::Rgv && !said.is_allocated(fact.numbers[1])
}

// ---------------------------------------------------------------------------
// What has been said
// ---------------------------------------------------------------------------

/// The facts of the lines so far, in their order.
#[derive(Default)]
struct Said {
    facts: Vec<Fact>,
}

impl Said {
    fn with_word(&self, word: HeapWord) -> Vec<&Fact> {
        let facts = self.facts.iter();
        facts.filter(|fact| fact.word == word).collect()
    }

    /// One of the three sizes. Before the first line there is nothing to count.
    fn size(&self, index: usize) -> u32 {
        match self.with_word(HeapWord::Siz).first() {
            Some(fact) => fact.numbers[index],
            None => 0,
        }
    }

    fn references(&self) -> u32 {
        self.size(0)
    }

    fn fields(&self) -> u32 {
        self.size(1)
    }

    fn classes(&self) -> u32 {
        self.size(2)
    }

    fn is_allocated(&self, reference: u32) -> bool {
        let allocations = self.with_word(HeapWord::Alc);
        allocations.iter().any(|fact| fact.numbers[0] == reference)
    }

    /// Whether one class is put under another. "a class is always under itself"
    fn is_under(&self, lower: u32, upper: u32) -> bool {
        let orders = self.with_word(HeapWord::Sub);
        lower == upper || orders.iter().any(|fact| fact.numbers == [lower, upper])
    }

    /// The second number of the line with this word and this first number.
    /// "What isn't said is 0"
    fn value(&self, word: HeapWord, about: u32) -> usize {
        for fact in self.with_word(word) {
            if fact.numbers[0] == about {
                return fact.numbers[1] as usize;
            }
        }
        0
    }
}

// ---------------------------------------------------------------------------
// The heap and the values
// ---------------------------------------------------------------------------

impl Said {
    /// The finite heap of document 01.
    fn heap(&self) -> Heap {
        let references = 0..self.references();
        let fields = 0..self.fields();
        let classes = 0..self.classes();
        let order_row = |lower| {
            let uppers = 0..self.classes();
            uppers.map(|upper| self.is_under(lower, upper)).collect()
        };
        Heap {
            references: references.len(),
            fields: fields.len(),
            classes: classes.len(),
            order: classes.map(order_row).collect(),
            allocated: references.clone().map(|a| self.is_allocated(a)).collect(),
            typ: references.map(|a| self.value(HeapWord::Typ, a)).collect(),
            dty: fields.map(|f| self.value(HeapWord::Dty, f)).collect(),
        }
    }

    /// A value for each variable, said or not.
    fn values(&self, variables: &[Variable]) -> Values {
        let given = variables.iter();
        Values {
            given: given.map(|one| (*one, self.value_of(*one))).collect(),
        }
    }

    /// "What isn't said is 0 or absent"
    fn value_of(&self, variable: Variable) -> Value {
        let name = variable.name;
        match variable.word {
            TermWord::Rgv => Value::Region(self.members(name)),
            TermWord::Arv => Value::HeapValue(self.table(name)),
            TermWord::Fnv => Value::Field(self.value(HeapWord::Fnv, name)),
            TermWord::Clv => Value::Class(self.value(HeapWord::Clv, name)),
            _ => Value::Reference(self.value(HeapWord::Rfv, name)),
        }
    }

    fn members(&self, name: u32) -> BTreeSet<usize> {
        let mut members = BTreeSet::new();
        for fact in self.with_word(HeapWord::Rgv) {
            if fact.numbers[0] == name {
                members.insert(fact.numbers[1] as usize);
            }
        }
        members
    }

    /// `table[reference][field]` is a reference.
    fn table(&self, name: u32) -> Vec<Vec<usize>> {
        let row = vec![0; self.fields() as usize];
        let mut table = vec![row; self.references() as usize];
        for fact in self.with_word(HeapWord::Arv) {
            let [of, reference, field, value] = fact.numbers[..] else {
                continue;
            };
            if of == name {
                table[reference as usize][field as usize] = value as usize;
            }
        }
        table
    }
}
