//! "Meaning" of document 01 for small concrete heaps. Sentences in quotes are
//! the document's. Its clause that some reference is allocated is struck; what
//! clauses mean comes from the request "Assumptions with an or in them".

use std::collections::BTreeSet;

use crate::independent::{read_assumed, sort_of_word, takes_name};
use crate::independent::{Assumed, Literal, LiteralWord, Sort, Term, TermWord};

/// "A finite heap has a finite set of references with `nul` in it, non-empty
/// finite sets of fields and classes, and a partial order `le` on classes."
/// References, fields and classes are counted from 0; reference 0 is `nul`.
#[derive(Debug, Clone, PartialEq, Eq)]
pub struct Heap {
    pub references: usize,
    pub fields: usize,
    pub classes: usize,
    /// `order[a][b]` says that class a `le` class b.
    pub order: Vec<Vec<bool>>,
    /// Which references are in `all`.
    pub allocated: Vec<bool>,
    /// The class of each reference.
    pub typ: Vec<usize>,
    /// The class of each field.
    pub dty: Vec<usize>,
}

/// The value of a term.
#[derive(Debug, Clone, PartialEq, Eq)]
pub enum Value {
    Reference(usize),
    Region(BTreeSet<usize>),
    /// `table[reference][field]` is a reference: "A heap value gives a
    /// reference for every reference and field".
    HeapValue(Vec<Vec<usize>>),
    Field(usize),
    Class(usize),
}

/// "A variable is an `rfv`, `rgv`, `arv`, `fnv` or `clv` with its name."
#[derive(Debug, Clone, Copy, PartialEq, Eq)]
pub struct Variable {
    pub word: TermWord,
    pub name: u32,
}

/// A value for each variable.
#[derive(Debug, Clone, PartialEq, Eq)]
pub struct Values {
    pub given: Vec<(Variable, Value)>,
}

// ---------------------------------------------------------------------------
// Heaps and values of variables
// ---------------------------------------------------------------------------

impl Heap {
    /// Whether this is a finite heap of the document.
    pub fn is_finite_heap(&self) -> bool {
        self.references >= 1
            && self.fields >= 1
            && self.classes >= 1
            && self.order_is_partial()
            && self.allocation_fits()
            && self.typ_and_dty_are_total()
    }

    /// "a partial order `le` on classes"
    pub fn order_is_partial(&self) -> bool {
        if self.order.len() != self.classes {
            return false;
        }
        for row in &self.order {
            if row.len() != self.classes {
                return false;
            }
        }
        for a in 0..self.classes {
            if !self.order[a][a] {
                return false;
            }
            for b in 0..self.classes {
                if a != b && self.order[a][b] && self.order[b][a] {
                    return false;
                }
                for c in 0..self.classes {
                    if self.order[a][b] && self.order[b][c] && !self.order[a][c] {
                        return false;
                    }
                }
            }
        }
        true
    }

    /// "`all` is a set of references without `nul`". It may be empty: the
    /// clause after it, "at least one reference is allocated", is struck.
    fn allocation_fits(&self) -> bool {
        self.allocated.len() == self.references && self.allocated.first() == Some(&false)
    }

    /// "`typ` and `dty` are total."
    fn typ_and_dty_are_total(&self) -> bool {
        self.typ.len() == self.references
            && self.dty.len() == self.fields
            && self.typ.iter().all(|class| *class < self.classes)
            && self.dty.iter().all(|class| *class < self.classes)
    }

    /// The set `all`.
    pub fn all(&self) -> BTreeSet<usize> {
        let mut set = BTreeSet::new();
        for reference in 0..self.references {
            if self.allocated.get(reference) == Some(&true) {
                set.insert(reference);
            }
        }
        set
    }

    /// Whether class a `le` class b.
    fn le(&self, a: usize, b: usize) -> Option<bool> {
        self.order.get(a)?.get(b).copied()
    }
}

/// Whether a value is one of its sort in this heap.
pub fn value_fits(heap: &Heap, value: &Value) -> bool {
    match value {
        Value::Reference(a) => *a < heap.references,
        // "Regions are subsets of `all`."
        Value::Region(set) => set.is_subset(&heap.all()),
        Value::HeapValue(table) => {
            table.len() == heap.references
                && table.iter().all(|row| row.len() == heap.fields)
                && table.iter().flatten().all(|a| *a < heap.references)
        }
        Value::Field(f) => *f < heap.fields,
        Value::Class(c) => *c < heap.classes,
    }
}

fn sort_of_value(value: &Value) -> Sort {
    match value {
        Value::Reference(_) => Sort::Reference,
        Value::Region(_) => Sort::Region,
        Value::HeapValue(_) => Sort::Heap,
        Value::Field(_) => Sort::Field,
        Value::Class(_) => Sort::Class,
    }
}

impl Values {
    /// "It may have any value of its sort, the same wherever it stands; that of
    /// an `rfv` need not be allocated."
    pub fn fit(&self, heap: &Heap) -> bool {
        for (variable, value) in &self.given {
            if !takes_name(variable.word)
                || sort_of_word(variable.word) != sort_of_value(value)
                || !value_fits(heap, value)
            {
                return false;
            }
        }
        true
    }

    /// The value of a variable. If it is given twice, the first counts.
    pub fn get(&self, wanted: Variable) -> Option<Value> {
        for (variable, value) in &self.given {
            if *variable == wanted {
                return Some(value.clone());
            }
        }
        None
    }
}

/// The variables on the T lines of a well formed file, in their order.
pub fn variables(file: &[u8]) -> Option<Vec<Variable>> {
    let assumed = read_assumed(file)?;
    Some(variables_of(&assumed.terms))
}

/// The variables among the terms of a table, in their order.
pub fn variables_of(terms: &[Term]) -> Vec<Variable> {
    terms.iter().filter_map(variable_of).collect()
}

fn variable_of(term: &Term) -> Option<Variable> {
    if !takes_name(term.word) {
        return None;
    }
    let [name] = term.arguments.as_slice() else {
        return None;
    };
    Some(Variable {
        word: term.word,
        name: *name,
    })
}

// ---------------------------------------------------------------------------
// Values of terms
// ---------------------------------------------------------------------------

/// The values of all terms of a table, in their order: "A finite heap and a
/// value for each variable give every term one value". `None` if a variable has
/// no value or a term is not well formed.
pub fn values_of_terms(terms: &[Term], heap: &Heap, values: &Values) -> Option<Vec<Value>> {
    let mut known = Vec::new();
    for term in terms {
        // Arguments are earlier terms, so their values are known already.
        let value = value_of_term(term, &known, heap, values)?;
        known.push(value);
    }
    Some(known)
}

/// The value of one term, when those of the earlier terms are known.
pub fn value_of_term(term: &Term, known: &[Value], heap: &Heap, values: &Values) -> Option<Value> {
    match (term.word, term.arguments.as_slice()) {
        (TermWord::Nul, []) => Some(Value::Reference(0)),
        (TermWord::Rfv, [_]) => values.get(variable_of(term)?),
        (TermWord::Rea, [h, u, f]) => {
            let table = heap_value(known, *h)?;
            let u = reference(known, *u)?;
            let f = field(known, *f)?;
            Some(Value::Reference(rea(&table, u, f)?))
        }
        (TermWord::Emp, []) => Some(Value::Region(BTreeSet::new())),
        (TermWord::All, []) => Some(Value::Region(heap.all())),
        (TermWord::Rgv, [_]) => values.get(variable_of(term)?),
        (TermWord::Cup, [r, s]) => {
            let r = region(known, *r)?;
            let s = region(known, *s)?;
            Some(Value::Region(r.union(&s).copied().collect()))
        }
        (TermWord::Cap, [r, s]) => {
            let r = region(known, *r)?;
            let s = region(known, *s)?;
            Some(Value::Region(r.intersection(&s).copied().collect()))
        }
        (TermWord::Dif, [r, s]) => {
            let r = region(known, *r)?;
            let s = region(known, *s)?;
            Some(Value::Region(r.difference(&s).copied().collect()))
        }
        (TermWord::Sin, [u]) => {
            let u = reference(known, *u)?;
            Some(Value::Region(sin(heap, u)))
        }
        (TermWord::Img, [h, r, f]) => {
            let table = heap_value(known, *h)?;
            let r = region(known, *r)?;
            let f = field(known, *f)?;
            Some(Value::Region(img(heap, &table, &r, f)?))
        }
        (TermWord::Arv, [_]) => values.get(variable_of(term)?),
        (TermWord::Wri, [h, u, f, v]) => {
            let table = heap_value(known, *h)?;
            let u = reference(known, *u)?;
            let f = field(known, *f)?;
            let v = reference(known, *v)?;
            Some(Value::HeapValue(wri(&table, u, f, v)?))
        }
        (TermWord::Fnv, [_]) => values.get(variable_of(term)?),
        (TermWord::Clv, [_]) => values.get(variable_of(term)?),
        (TermWord::Typ, [u]) => {
            let u = reference(known, *u)?;
            Some(Value::Class(*heap.typ.get(u)?))
        }
        (TermWord::Dty, [f]) => {
            let f = field(known, *f)?;
            Some(Value::Class(*heap.dty.get(f)?))
        }
        _ => None,
    }
}

/// "A heap value gives a reference for every reference and field"
fn rea(table: &[Vec<usize>], u: usize, f: usize) -> Option<usize> {
    table.get(u)?.get(f).copied()
}

/// "`wri` changes one entry."
fn wri(table: &[Vec<usize>], u: usize, f: usize, v: usize) -> Option<Vec<Vec<usize>>> {
    let mut changed = table.to_vec();
    *changed.get_mut(u)?.get_mut(f)? = v;
    Some(changed)
}

/// "`sin`(u) holds u if u is in `all`, else nothing."
fn sin(heap: &Heap, u: usize) -> BTreeSet<usize> {
    let mut set = BTreeSet::new();
    if heap.all().contains(&u) {
        set.insert(u);
    }
    set
}

/// "`img`(h,r,f) holds those `rea`(h,a,f) that are in `all`, for a in r with
/// `typ`(a) `le` `dty`(f)."
fn img(
    heap: &Heap,
    table: &[Vec<usize>],
    r: &BTreeSet<usize>,
    f: usize,
) -> Option<BTreeSet<usize>> {
    let all = heap.all();
    let mut set = BTreeSet::new();
    for a in r {
        let typ = *heap.typ.get(*a)?;
        let dty = *heap.dty.get(f)?;
        let target = rea(table, *a, f)?;
        if heap.le(typ, dty)? && all.contains(&target) {
            set.insert(target);
        }
    }
    Some(set)
}

fn value(known: &[Value], number: u32) -> Option<&Value> {
    let index = (number as usize).checked_sub(1)?;
    known.get(index)
}

fn reference(known: &[Value], number: u32) -> Option<usize> {
    match value(known, number)? {
        Value::Reference(a) => Some(*a),
        _ => None,
    }
}

fn region(known: &[Value], number: u32) -> Option<BTreeSet<usize>> {
    match value(known, number)? {
        Value::Region(set) => Some(set.clone()),
        _ => None,
    }
}

fn heap_value(known: &[Value], number: u32) -> Option<Vec<Vec<usize>>> {
    match value(known, number)? {
        Value::HeapValue(table) => Some(table.clone()),
        _ => None,
    }
}

fn field(known: &[Value], number: u32) -> Option<usize> {
    match value(known, number)? {
        Value::Field(f) => Some(*f),
        _ => None,
    }
}

fn class(known: &[Value], number: u32) -> Option<usize> {
    match value(known, number)? {
        Value::Class(c) => Some(*c),
        _ => None,
    }
}

// ---------------------------------------------------------------------------
// Truth of literals
// ---------------------------------------------------------------------------

/// Whether a literal is true, when the values of all terms are known. "`ni`,
/// `ne` and `nl` deny `in`, `eq` and `le`."
pub fn literal_true(literal: &Literal, known: &[Value], heap: &Heap) -> Option<bool> {
    let left = literal.left;
    let right = literal.right;
    match literal.word {
        LiteralWord::In => is_in(known, left, right),
        LiteralWord::Ni => Some(!is_in(known, left, right)?),
        LiteralWord::Eq => is_equal(known, left, right),
        LiteralWord::Ne => Some(!is_equal(known, left, right)?),
        LiteralWord::Le => is_below(known, heap, left, right),
        LiteralWord::Nl => Some(!is_below(known, heap, left, right)?),
    }
}

fn is_in(known: &[Value], left: u32, right: u32) -> Option<bool> {
    let u = reference(known, left)?;
    let r = region(known, right)?;
    Some(r.contains(&u))
}

/// "two are equal when they agree everywhere": tables are compared entry by
/// entry.
fn is_equal(known: &[Value], left: u32, right: u32) -> Option<bool> {
    let a = value(known, left)?;
    let b = value(known, right)?;
    if sort_of_value(a) != sort_of_value(b) {
        return None;
    }
    Some(a == b)
}

fn is_below(known: &[Value], heap: &Heap, left: u32, right: u32) -> Option<bool> {
    let a = class(known, left)?;
    let b = class(known, right)?;
    heap.le(a, b)
}

/// Whether at least one literal of a clause is true.
pub fn clause_true(clause: &[Literal], known: &[Value], heap: &Heap) -> Option<bool> {
    let mut one_true = false;
    for literal in clause {
        if literal_true(literal, known, heap)? {
            one_true = true;
        }
    }
    Some(one_true)
}

/// Whether "all A lines and at least one literal of every clause" are true, when
/// the values of all terms are known.
pub fn assumed_true(assumed: &Assumed, known: &[Value], heap: &Heap) -> Option<bool> {
    // "where a file assumes nothing, all that it assumes counts as true"
    let mut all_true = true;
    for literal in &assumed.literals {
        if !literal_true(literal, known, heap)? {
            all_true = false;
        }
    }
    for clause in &assumed.clauses {
        if !clause_true(clause, known, heap)? {
            all_true = false;
        }
    }
    Some(all_true)
}

/// Whether all that a file assumes is true. `None` when the question makes no
/// sense: the T, A and C lines are not well formed, the heap is no finite heap,
/// a value does not fit, or a variable has none.
pub fn assumptions(file: &[u8], heap: &Heap, values: &Values) -> Option<bool> {
    let assumed = read_assumed(file)?;
    if !heap.is_finite_heap() || !values.fit(heap) {
        return None;
    }
    let known = values_of_terms(&assumed.terms, heap, values)?;
    assumed_true(&assumed, &known, heap)
}

/// Whether all that a well formed file assumes is true. False also where
/// `assumptions` gives no answer.
pub fn assumptions_true(file: &[u8], heap: &Heap, values: &Values) -> bool {
    assumptions(file, heap, values) == Some(true)
}
