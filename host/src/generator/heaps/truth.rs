//! What a pair of files without fault means.

use std::collections::BTreeSet;

use crate::independent::{read, TermWord};
use crate::meaning::{literal_true, values_of_terms, variables, Heap, Value, Values, Variable};

use super::heap_file::{Fact, HeapFile, Kind};
use crate::generator::tableau::{text, Entry, Tableau};

/// The truth of each literal, of A lines and then of C lines.
pub fn truths(table: &Tableau, file: &HeapFile) -> Vec<bool> {
    let checker = &with_clauses_apart(table);
    let heap = heap_of(file);
    let variables = variables(checker).expect("T lines without fault");
    let given = variables.into_iter().map(|one| (one, value(file, one)));
    let values = Values {
        given: given.collect(),
    };
    assert!(heap.is_finite_heap() && values.fit(&heap));
    let (terms, literals) = read(checker).expect("A lines without fault");
    let known = values_of_terms(&terms, &heap, &values).expect("terms have values");
    literals
        .iter()
        .map(|literal| literal_true(literal, &known, &heap).expect("true or false"))
        .collect()
}

/// The file with an A line for each C line: a literal has one meaning on both.
fn with_clauses_apart(table: &Tableau) -> Vec<u8> {
    let mut lines = table.lines.clone();
    for line in &mut lines[table.first_clause_line()..] {
        line.letter = 'A';
        line.entries[2] = Entry::Unused;
    }
    text(&lines)
}

fn facts_of<'a>(file: &'a HeapFile, word: &'a str) -> impl Iterator<Item = &'a Fact> {
    file.facts.iter().filter(move |fact| fact.word == word)
}

fn count(file: &HeapFile, kind: Kind) -> usize {
    file.count(kind) as usize
}

fn heap_of(file: &HeapFile) -> Heap {
    let [references, fields, classes] =
        [Kind::Reference, Kind::Field, Kind::Class].map(|kind| count(file, kind));
    let class_itself = |class: usize| (0..classes).map(|other| other == class).collect();
    let mut heap = Heap {
        references,
        fields,
        classes,
        order: (0..classes).map(class_itself).collect(),
        allocated: vec![false; references],
        typ: vec![0; references],
        dty: vec![0; fields],
    };
    for fact in &file.facts {
        let [a, b, ..] = fact.numbers.map(|number| number as usize);
        match fact.word {
            "sub" => heap.order[a][b] = true,
            "alc" => heap.allocated[a] = true,
            "typ" => heap.typ[a] = b,
            "dty" => heap.dty[a] = b,
            _ => {}
        }
    }
    heap
}

/// "What isn't said is 0 or absent".
fn value(file: &HeapFile, variable: Variable) -> Value {
    let about = |word| facts_of(file, word).filter(|fact| fact.numbers[0] == variable.name);
    let number = |word| {
        let found = about(word).next();
        found.map_or(0, |fact| fact.numbers[1] as usize)
    };
    match variable.word {
        TermWord::Rfv => Value::Reference(number("rfv")),
        TermWord::Fnv => Value::Field(number("fnv")),
        TermWord::Clv => Value::Class(number("clv")),
        TermWord::Rgv => {
            let members = about("rgv").map(|fact| fact.numbers[1] as usize);
            Value::Region(members.collect::<BTreeSet<usize>>())
        }
        _ => {
            let row = vec![0; count(file, Kind::Field)];
            let mut table = vec![row; count(file, Kind::Reference)];
            for fact in about("arv") {
                let [_, reference, field, value] = fact.numbers.map(|number| number as usize);
                table[reference][field] = value;
            }
            Value::HeapValue(table)
        }
    }
}
