//! The meaning on small heaps worked out by hand, and every accepted example and
//! case against many heaps.

mod examples;

use std::collections::BTreeSet;

use examples::{file, rule_files, ALLOCATED, F, IMG, OR, STRUCK};
use host::independent::{check, read_assumed, TermWord};
use host::meaning::{
    assumptions, assumptions_true, values_of_terms, variables, Heap, Value, Values, Variable,
};
use host::models::Question;
use host::random::Random;

fn set(references: &[usize]) -> BTreeSet<usize> {
    references.iter().copied().collect()
}

fn variable(word: TermWord, name: u32) -> Variable {
    Variable { word, name }
}

/// References nul, 1, 2, 3, of which 1 and 2 are allocated; fields 0 and 1;
/// classes 0 and 1 with 0 le 1. typ: 0 for nul and 1, 1 for 2 and 3. dty: 0
/// for field 0, 1 for field 1.
fn small_heap() -> Heap {
    Heap {
        references: 4,
        fields: 2,
        classes: 2,
        order: vec![vec![true, true], vec![false, true]],
        allocated: vec![false, true, true, false],
        typ: vec![0, 0, 1, 1],
        dty: vec![0, 1],
    }
}

/// u = 1, r = {1, 2}, f = field 0, h sends reference 1 to 2 and 3, reference 2
/// to 1 and 1, all else to nul.
fn small_values() -> Values {
    Values {
        given: vec![
            (variable(TermWord::Rfv, 1), Value::Reference(1)),
            (variable(TermWord::Rfv, 2), Value::Reference(3)),
            (variable(TermWord::Rgv, 1), Value::Region(set(&[1, 2]))),
            (variable(TermWord::Rgv, 2), Value::Region(set(&[2]))),
            (
                variable(TermWord::Arv, 1),
                Value::HeapValue(vec![vec![0, 0], vec![2, 3], vec![1, 1], vec![0, 0]]),
            ),
            (variable(TermWord::Fnv, 1), Value::Field(0)),
            (variable(TermWord::Fnv, 2), Value::Field(1)),
            (variable(TermWord::Clv, 1), Value::Class(1)),
        ],
    }
}

#[test]
fn values_of_small_terms() {
    let lines = [
        ("T,nul,0,0,0,0", Value::Reference(0)),
        ("T,rfv,1,0,0,0", Value::Reference(1)),
        ("T,rfv,2,0,0,0", Value::Reference(3)),
        ("T,rgv,1,0,0,0", Value::Region(set(&[1, 2]))),
        ("T,rgv,2,0,0,0", Value::Region(set(&[2]))),
        (
            "T,arv,1,0,0,0",
            Value::HeapValue(vec![vec![0, 0], vec![2, 3], vec![1, 1], vec![0, 0]]),
        ),
        ("T,fnv,1,0,0,0", Value::Field(0)),
        ("T,fnv,2,0,0,0", Value::Field(1)),
        ("T,clv,1,0,0,0", Value::Class(1)),
        ("T,emp,0,0,0,0", Value::Region(set(&[]))),
        ("T,all,0,0,0,0", Value::Region(set(&[1, 2]))),
        ("T,cup,10,5,0,0", Value::Region(set(&[2]))),
        ("T,cap,4,5,0,0", Value::Region(set(&[2]))),
        ("T,dif,4,5,0,0", Value::Region(set(&[1]))),
        ("T,sin,2,0,0,0", Value::Region(set(&[1]))),
        // Neither 3 nor nul is allocated.
        ("T,sin,3,0,0,0", Value::Region(set(&[]))),
        ("T,sin,1,0,0,0", Value::Region(set(&[]))),
        ("T,rea,6,2,7,0", Value::Reference(2)),
        ("T,rea,6,2,8,0", Value::Reference(3)),
        ("T,rea,6,1,7,0", Value::Reference(0)),
        // Field 0 has class 0: only reference 1 counts, and gives 2.
        ("T,img,6,4,7,0", Value::Region(set(&[2]))),
        // Field 1 has class 1: both count, but 3 is not allocated.
        ("T,img,6,4,8,0", Value::Region(set(&[1]))),
        ("T,img,6,5,7,0", Value::Region(set(&[]))),
        (
            "T,wri,6,2,8,1",
            Value::HeapValue(vec![vec![0, 0], vec![2, 0], vec![1, 1], vec![0, 0]]),
        ),
        // An entry of nul may be written too.
        (
            "T,wri,6,1,7,3",
            Value::HeapValue(vec![vec![3, 0], vec![2, 3], vec![1, 1], vec![0, 0]]),
        ),
        ("T,typ,2,0,0,0", Value::Class(0)),
        ("T,typ,3,0,0,0", Value::Class(1)),
        ("T,typ,1,0,0,0", Value::Class(0)),
        ("T,dty,7,0,0,0", Value::Class(0)),
        ("T,dty,8,0,0,0", Value::Class(1)),
    ];
    let text: Vec<&str> = lines.iter().map(|(line, _)| *line).collect();
    let terms = read_assumed(&file(&text)).unwrap().terms;
    let values = values_of_terms(&terms, &small_heap(), &small_values()).unwrap();
    for ((line, expected), value) in lines.iter().zip(&values) {
        assert_eq!(expected, value, "{line}");
    }
}

#[test]
fn truth_of_small_literals() {
    let terms = [
        "T,rfv,1,0,0,0",
        "T,rfv,2,0,0,0",
        "T,rgv,1,0,0,0",
        "T,rgv,2,0,0,0",
        "T,typ,1,0,0,0",
        "T,typ,2,0,0,0",
        "T,arv,1,0,0,0",
        "T,fnv,1,0,0,0",
        "T,rea,7,1,8,0",
        "T,wri,7,1,8,9",
        "T,wri,7,1,8,1",
    ];
    let literals = [
        ("in,1,3", true),
        ("in,1,4", false),
        ("in,2,3", false),
        ("eq,1,1", true),
        ("eq,1,2", false),
        ("eq,3,4", false),
        ("le,5,6", true),
        ("le,6,5", false),
        ("le,6,6", true),
        // Writing what is there already changes nothing.
        ("eq,7,10", true),
        ("eq,7,11", false),
    ];
    for (literal, truth) in literals {
        let denial = literal
            .replace("in", "ni")
            .replace("eq", "ne")
            .replace("le", "nl");
        for (text, expected) in [(literal, truth), (denial.as_str(), !truth)] {
            let line = format!("A,{text},0,0");
            let mut lines = terms.to_vec();
            lines.push(&line);
            let answer = assumptions(&file(&lines), &small_heap(), &small_values());
            assert_eq!(answer, Some(expected), "{line}");
        }
    }
}

#[test]
fn all_assumptions_count() {
    let (heap, values) = (small_heap(), small_values());
    // "where a file assumes nothing, all that it assumes counts as true"
    assert!(assumptions_true(b"", &heap, &values));
    assert!(assumptions_true(b"T,rfv,1,0,0,0\n", &heap, &values));
    let lines = ["T,rfv,1,0,0,0", "A,eq,1,1,0,0", "A,ne,1,1,0,0"];
    assert!(assumptions_true(&file(&lines[..2]), &heap, &values));
    assert!(!assumptions_true(&file(&lines), &heap, &values));
    // What the S lines say does not matter, clauses or not.
    let lines = ["T,rfv,1,0,0,0", "C,eq,1,1,1,0", "S,cla,0,0,9,9"];
    assert!(assumptions_true(&file(&lines), &heap, &values));
    let lines = ["T,rfv,1,0,0,0", "A,eq,1,1,0,0", "S,cls,1,1,0,0"];
    assert!(assumptions_true(&file(&lines), &heap, &values));
}

/// A t stands for u eq u, which is true, an f for u ne u.
#[test]
fn one_literal_of_every_clause_counts() {
    let (heap, values) = (small_heap(), small_values());
    let word = |truth: char| if truth == 't' { "eq" } else { "ne" };
    let rows: [(&str, &[&str], bool); 14] = [
        ("", &["t"], true),
        ("", &["f"], false),
        ("", &["tf"], true),
        ("", &["ft"], true),
        ("", &["ff"], false),
        ("", &["ffffffft"], true),
        ("", &["ffffffff"], false),
        ("", &["t", "f"], false),
        ("", &["f", "t"], false),
        ("", &["ft", "tf"], true),
        ("", &["tt", "ff", "t"], false),
        ("t", &["ft"], true),
        ("t", &["ff"], false),
        ("f", &["tt"], false),
    ];
    for (literals, clauses, expected) in rows {
        let mut text = String::from("T,rfv,1,0,0,0\n");
        for truth in literals.chars() {
            text += &format!("A,{},1,1,0,0\n", word(truth));
        }
        for (index, clause) in clauses.iter().enumerate() {
            for truth in clause.chars() {
                text += &format!("C,{},1,1,{},0\n", word(truth), index + 1);
            }
        }
        let answer = assumptions(text.as_bytes(), &heap, &values);
        assert_eq!(answer, Some(expected), "{text}");
        let question = Question::of_file(text.as_bytes()).unwrap();
        assert_eq!(question.holds(&heap, &values), expected, "{text}");
    }
}

/// u = 1 and v = 3, r = {1, 2} and s = {2}.
#[test]
fn truth_of_small_clauses() {
    let terms = [
        "T,rfv,1,0,0,0",
        "T,rfv,2,0,0,0",
        "T,rgv,1,0,0,0",
        "T,rgv,2,0,0,0",
    ];
    let clauses: [(&[&str], bool); 6] = [
        (&["C,in,1,3,1,0", "C,in,1,4,1,0"], true),
        (&["C,in,1,4,1,0", "C,in,1,3,1,0"], true),
        (&["C,in,1,4,1,0", "C,in,2,3,1,0"], false),
        (&["C,in,2,3,1,0", "C,in,2,4,1,0", "C,eq,1,2,1,0"], false),
        (&["C,in,2,3,1,0", "C,in,2,4,1,0", "C,ne,3,4,1,0"], true),
        (&["C,in,1,3,1,0", "C,in,1,4,2,0"], false),
    ];
    for (clause, expected) in clauses {
        let lines = [&terms[..], clause].concat();
        let answer = assumptions(&file(&lines), &small_heap(), &small_values());
        assert_eq!(answer, Some(expected), "{clause:?}");
    }
}

#[test]
fn questions_without_sense() {
    let (heap, values) = (small_heap(), small_values());
    for line in [
        "C,eq,1,1,0,0",
        "C,eq,1,1,2,0",
        "C,eq,1,2,1,0",
        "C,in,1,1,1,0",
    ] {
        let lines = ["T,rfv,1,0,0,0", line];
        assert_eq!(assumptions(&file(&lines), &heap, &values), None, "{line}");
    }
    assert_eq!(assumptions(b"T,nul\n", &heap, &values), None);
    assert_eq!(assumptions(b"T,rfv,3,0,0,0\n", &heap, &values), None);
    let after_s = ["S,ref,0,0,1,0", "T,nul,0,0,0,0"];
    assert_eq!(assumptions(&file(&after_s), &heap, &values), None);
    let mut wrong = small_values();
    wrong.given[2].1 = Value::Region(set(&[3]));
    assert_eq!(assumptions(b"", &heap, &wrong), None);
    let mut wrong = small_values();
    wrong.given[0].1 = Value::Field(0);
    assert_eq!(assumptions(b"", &heap, &wrong), None);
}

#[test]
fn finite_heaps() {
    assert!(small_heap().is_finite_heap());
    let mut heap = small_heap();
    heap.allocated = vec![true, true, true, false];
    assert!(!heap.is_finite_heap());
    heap.allocated = vec![true, false, false, false];
    assert!(!heap.is_finite_heap());
    heap.allocated = vec![false; 3];
    assert!(!heap.is_finite_heap());
    let mut heap = small_heap();
    heap.order = vec![vec![true, true], vec![true, true]];
    assert!(!heap.is_finite_heap());
    heap.order = vec![vec![true, false], vec![false, false]];
    assert!(!heap.is_finite_heap());
    let mut heap = small_heap();
    heap.typ = vec![0, 0, 2, 1];
    assert!(!heap.is_finite_heap());
    heap.typ = vec![0, 0, 1];
    assert!(!heap.is_finite_heap());
    let mut heap = small_heap();
    heap.fields = 0;
    heap.dty = vec![];
    assert!(!heap.is_finite_heap());
}

// ---------------------------------------------------------------------------
// Heaps in which nothing is allocated
// ---------------------------------------------------------------------------

/// The small heap before the first allocation.
fn started_heap() -> Heap {
    Heap {
        allocated: vec![false; 4],
        ..small_heap()
    }
}

/// The small values, but for the regions: only the empty one is left.
fn started_values() -> Values {
    let mut values = small_values();
    values.given[2].1 = Value::Region(set(&[]));
    values.given[3].1 = Value::Region(set(&[]));
    values
}

/// `nul` is the only reference; one field, one class.
fn nul_heap() -> Heap {
    Heap {
        references: 1,
        fields: 1,
        classes: 1,
        order: vec![vec![true]],
        allocated: vec![false],
        typ: vec![0],
        dty: vec![0],
    }
}

/// Every variable has the only value there is.
fn nul_values() -> Values {
    Values {
        given: vec![
            (variable(TermWord::Rfv, 1), Value::Reference(0)),
            (variable(TermWord::Rfv, 2), Value::Reference(0)),
            (variable(TermWord::Rgv, 1), Value::Region(set(&[]))),
            (variable(TermWord::Rgv, 2), Value::Region(set(&[]))),
            (variable(TermWord::Arv, 1), Value::HeapValue(vec![vec![0]])),
            (variable(TermWord::Fnv, 1), Value::Field(0)),
            (variable(TermWord::Fnv, 2), Value::Field(0)),
            (variable(TermWord::Clv, 1), Value::Class(0)),
        ],
    }
}

#[test]
fn heaps_with_nothing_allocated() {
    assert!(started_heap().is_finite_heap());
    assert!(nul_heap().is_finite_heap());
    assert_eq!(started_heap().all(), set(&[]));
    assert_eq!(nul_heap().all(), set(&[]));
    // `nul` is a reference and is never allocated.
    let mut heap = nul_heap();
    heap.allocated = vec![true];
    assert!(!heap.is_finite_heap());
    let mut heap = nul_heap();
    heap.references = 0;
    heap.allocated = vec![];
    heap.typ = vec![];
    assert!(!heap.is_finite_heap());
    // Fields and classes must still be there.
    let mut heap = nul_heap();
    heap.fields = 0;
    heap.dty = vec![];
    assert!(!heap.is_finite_heap());
    let mut heap = nul_heap();
    heap.classes = 0;
    heap.order = vec![];
    assert!(!heap.is_finite_heap());
    // Regions are subsets of all, so empty; an `rfv` may have any reference.
    assert!(started_values().fit(&started_heap()));
    assert!(!small_values().fit(&started_heap()));
    assert!(nul_values().fit(&nul_heap()));
    for (index, value) in [
        (0, Value::Reference(1)),
        (2, Value::Region(set(&[0]))),
        (4, Value::HeapValue(vec![vec![1]])),
        (5, Value::Field(1)),
        (7, Value::Class(1)),
    ] {
        let mut values = nul_values();
        values.given[index].1 = value;
        assert!(!values.fit(&nul_heap()), "{index}");
    }
}

#[test]
fn values_with_nothing_allocated() {
    // The terms, and their values in the started heap and in that of `nul`.
    let empty = || Value::Region(set(&[]));
    let lines = [
        ("T,nul,0,0,0,0", Value::Reference(0), Value::Reference(0)),
        ("T,rfv,1,0,0,0", Value::Reference(1), Value::Reference(0)),
        ("T,rfv,2,0,0,0", Value::Reference(3), Value::Reference(0)),
        (
            "T,arv,1,0,0,0",
            Value::HeapValue(vec![vec![0, 0], vec![2, 3], vec![1, 1], vec![0, 0]]),
            Value::HeapValue(vec![vec![0]]),
        ),
        ("T,fnv,1,0,0,0", Value::Field(0), Value::Field(0)),
        ("T,fnv,2,0,0,0", Value::Field(1), Value::Field(0)),
        // 7 r, 8 emp, 9 all.
        ("T,rgv,1,0,0,0", empty(), empty()),
        ("T,emp,0,0,0,0", empty(), empty()),
        ("T,all,0,0,0,0", empty(), empty()),
        ("T,cup,7,9,0,0", empty(), empty()),
        ("T,cap,9,9,0,0", empty(), empty()),
        ("T,dif,9,8,0,0", empty(), empty()),
        ("T,sin,1,0,0,0", empty(), empty()),
        ("T,sin,2,0,0,0", empty(), empty()),
        ("T,img,4,9,5,0", empty(), empty()),
        ("T,img,4,9,6,0", empty(), empty()),
        // Reading and writing need nothing allocated.
        ("T,rea,4,2,5,0", Value::Reference(2), Value::Reference(0)),
        ("T,rea,4,2,6,0", Value::Reference(3), Value::Reference(0)),
        (
            "T,wri,4,2,5,3",
            Value::HeapValue(vec![vec![0, 0], vec![3, 3], vec![1, 1], vec![0, 0]]),
            Value::HeapValue(vec![vec![0]]),
        ),
        ("T,typ,3,0,0,0", Value::Class(1), Value::Class(0)),
        ("T,dty,6,0,0,0", Value::Class(1), Value::Class(0)),
    ];
    let text: Vec<&str> = lines.iter().map(|(line, _, _)| *line).collect();
    let terms = read_assumed(&file(&text)).unwrap().terms;
    let started = values_of_terms(&terms, &started_heap(), &started_values()).unwrap();
    let nul = values_of_terms(&terms, &nul_heap(), &nul_values()).unwrap();
    for (number, (line, of_started, of_nul)) in lines.iter().enumerate() {
        assert_eq!(*of_started, started[number], "{line}");
        assert_eq!(*of_nul, nul[number], "{line}");
    }
}

#[test]
fn truth_with_nothing_allocated() {
    let terms = [
        "T,rfv,1,0,0,0",
        "T,rfv,2,0,0,0",
        "T,nul,0,0,0,0",
        "T,all,0,0,0,0",
        "T,emp,0,0,0,0",
        "T,rgv,1,0,0,0",
        "T,sin,1,0,0,0",
        "T,arv,1,0,0,0",
        "T,fnv,1,0,0,0",
        "T,img,8,4,9,0",
        "T,wri,8,1,9,2",
    ];
    // Truth in the small heap, in the started heap, in that of `nul`.
    let literals = [
        ("eq,4,5", [false, true, true]),
        ("in,1,4", [true, false, false]),
        ("in,3,4", [false, false, false]),
        ("in,1,7", [true, false, false]),
        ("eq,6,4", [true, true, true]),
        ("eq,7,5", [false, true, true]),
        ("eq,10,5", [false, true, true]),
        ("eq,1,3", [false, false, true]),
        ("eq,1,2", [false, false, true]),
        ("eq,8,11", [false, false, true]),
    ];
    let models = [
        (small_heap(), small_values()),
        (started_heap(), started_values()),
        (nul_heap(), nul_values()),
    ];
    for (literal, truths) in literals {
        let denial = literal.replace("in", "ni").replace("eq", "ne");
        for ((heap, values), truth) in models.iter().zip(truths) {
            for (text, expected) in [(literal, truth), (denial.as_str(), !truth)] {
                let line = format!("A,{text},0,0");
                let mut lines = terms.to_vec();
                lines.push(&line);
                let answer = assumptions(&file(&lines), heap, values);
                assert_eq!(answer, Some(expected), "{line}");
            }
        }
    }
}

#[test]
fn an_allocated_object_is_assumed() {
    let nothing = file(&["T,all,0,0,0,0", "T,emp,0,0,0,0", "A,eq,1,2,0,0"]);
    let something = file(&["T,all,0,0,0,0", "T,emp,0,0,0,0", "A,ne,1,2,0,0"]);
    for (heap, values) in [
        (started_heap(), started_values()),
        (nul_heap(), nul_values()),
    ] {
        assert_eq!(assumptions(&nothing, &heap, &values), Some(true));
        assert_eq!(assumptions(&something, &heap, &values), Some(false));
        // The file that the struck rule closed has these models.
        assert_eq!(assumptions(&file(&STRUCK), &heap, &values), Some(true));
        // So has the accepted one, once it no longer assumes all ne emp.
        assert_eq!(assumptions(&file(&ALLOCATED), &heap, &values), Some(false));
        let mut weaker = ALLOCATED.to_vec();
        weaker.remove(5);
        assert_eq!(assumptions(&file(&weaker), &heap, &values), Some(true));
    }
    let (heap, values) = (small_heap(), small_values());
    assert_eq!(assumptions(&nothing, &heap, &values), Some(false));
    assert_eq!(assumptions(&something, &heap, &values), Some(true));
    assert_eq!(assumptions(&file(&STRUCK), &heap, &values), Some(false));
    // One allocated reference is enough.
    let mut heap = started_heap();
    heap.allocated[3] = true;
    let values = started_values();
    assert_eq!(assumptions(&nothing, &heap, &values), Some(false));
    assert_eq!(assumptions(&something, &heap, &values), Some(true));
}

// ---------------------------------------------------------------------------
// Many heaps
// ---------------------------------------------------------------------------

struct Dice(u64);

impl Dice {
    fn below(&mut self, bound: usize) -> usize {
        self.0 = self.0.wrapping_mul(6364136223846793005).wrapping_add(1);
        (self.0 >> 33) as usize % bound
    }

    fn list(&mut self, length: usize, bound: usize) -> Vec<usize> {
        (0..length).map(|_| self.below(bound)).collect()
    }
}

/// Classes are ordered as numbers, or not at all, or all above class 0.
fn some_order(dice: &mut Dice, classes: usize) -> Vec<Vec<bool>> {
    let kind = dice.below(3);
    let mut order = vec![vec![false; classes]; classes];
    for a in 0..classes {
        for b in 0..classes {
            order[a][b] = match kind {
                0 => a <= b,
                1 => a == b,
                _ => a == b || a == 0,
            };
        }
    }
    order
}

/// `nul` and up to three more references; nothing need be allocated.
fn some_heap(dice: &mut Dice) -> Heap {
    let references = 1 + dice.below(4);
    let fields = 1 + dice.below(2);
    let classes = 1 + dice.below(3);
    let mut allocated = vec![false];
    for _ in 1..references {
        allocated.push(dice.below(3) > 0);
    }
    Heap {
        references,
        fields,
        classes,
        order: some_order(dice, classes),
        allocated,
        typ: dice.list(references, classes),
        dty: dice.list(fields, classes),
    }
}

fn some_value(dice: &mut Dice, heap: &Heap, word: TermWord) -> Value {
    match word {
        TermWord::Rfv => Value::Reference(dice.below(heap.references)),
        TermWord::Rgv => {
            let all = heap.all().into_iter();
            Value::Region(all.filter(|_| dice.below(2) == 0).collect())
        }
        TermWord::Arv => {
            let mut table = Vec::new();
            for _ in 0..heap.references {
                table.push(dice.list(heap.fields, heap.references));
            }
            Value::HeapValue(table)
        }
        TermWord::Fnv => Value::Field(dice.below(heap.fields)),
        _ => Value::Class(dice.below(heap.classes)),
    }
}

fn some_values(dice: &mut Dice, heap: &Heap, text: &[u8]) -> Values {
    let mut given = Vec::new();
    for variable in variables(text).unwrap() {
        given.push((variable, some_value(dice, heap, variable.word)));
    }
    Values { given }
}

/// Those of many heaps that make all assumptions true.
fn models(text: &[u8]) -> Vec<Heap> {
    let mut dice = Dice(1);
    let mut found = Vec::new();
    for _ in 0..3_000 {
        let heap = some_heap(&mut dice);
        let values = some_values(&mut dice, &heap, text);
        let answer = assumptions(text, &heap, &values);
        assert!(answer.is_some());
        assert_eq!(assumptions_true(text, &heap, &values), answer == Some(true));
        if answer == Some(true) {
            found.push(heap);
        }
    }
    found
}

#[test]
fn accepted_files_have_no_model() {
    for example in rule_files() {
        let text = file(&example.lines);
        let reply = check(&text);
        assert!(reply.yes, "{}", example.rule);
        let assumed = read_assumed(&text).unwrap();
        let count = assumed.literals.len() + assumed.clauses.len();
        assert_eq!(example.counts[0], assumed.terms.len() as u32);
        assert_eq!(example.counts[1], count as u32);
        assert!(models(&text).is_empty(), "{}", example.rule);
    }
    assert!(check(&file(&ALLOCATED)).yes);
    assert!(models(&file(&ALLOCATED)).is_empty());
}

#[test]
fn accepted_cases_have_no_model() {
    let mut with_clauses = 0;
    for case in cases::all() {
        if !case.reply.starts_with("yes") {
            continue;
        }
        let question = Question::of_file(&case.file).expect(case.name);
        assert_eq!(question.all_models(200).found, 0, "{}", case.name);
        let at_random = question.random_models(50, &mut Random::new(1));
        assert_eq!(at_random, 0, "{}", case.name);
        let clauses = read_assumed(&case.file).expect(case.name).clauses;
        with_clauses += usize::from(!clauses.is_empty());
    }
    assert!(with_clauses > 100, "{with_clauses}");
}

/// Accepted files with clauses, each alternative closed.
const CLAUSES: [&[&str]; 3] = [
    &OR,
    // u eq nul or v eq nul; u in all, v in all. Terms: 1 u, 2 v, 3 nul, 4 all.
    &[
        "T,rfv,1,0,0,0",
        "T,rfv,2,0,0,0",
        "T,nul,0,0,0,0",
        "T,all,0,0,0,0",
        "A,in,1,4,0,0",
        "A,in,2,4,0,0",
        "C,eq,1,3,1,0",
        "C,eq,2,3,1,0",
        "S,nul,1,0,0,0",
        "S,nul,2,0,0,0",
        "S,cla,0,0,1,0",
        "S,cls,5,3,0,0",
        "S,cls,5,4,0,0",
    ],
    // u in r or u in s, and u ni r or u ni s; r eq s.
    &[
        "T,rfv,1,0,0,0",
        "T,rgv,1,0,0,0",
        "T,rgv,2,0,0,0",
        "A,eq,2,3,0,0",
        "C,in,1,2,1,0",
        "C,in,1,3,1,0",
        "C,ni,1,2,2,0",
        "C,ni,1,3,2,0",
        "S,cla,0,0,1,0", // 2 u in r
        "S,eqr,1,2,0,0", // 3 u in s
        "S,cla,0,0,2,0", // 4 u ni r
        "S,cls,2,4,0,0", // 4 u ni s
        "S,cls,3,4,0,0", // 2 u in s
        "S,eql,1,2,0,0", // 3 u in r
        "S,cla,0,0,2,0", // 4 u ni r
        "S,cls,3,4,0,0", // 4 u ni s
        "S,cls,2,4,0,0",
    ],
];

#[test]
fn closed_clauses_have_no_model() {
    for lines in CLAUSES {
        let text = file(lines);
        assert!(check(&text).yes, "{lines:?}");
        assert!(models(&text).is_empty(), "{lines:?}");
        let search = Question::of_file(&text).unwrap().all_models(1_000);
        assert_eq!((search.found, search.complete), (0, true), "{lines:?}");
    }
}

/// An A line or a whole clause left out, or a literal u eq u more in the last
/// clause.
#[test]
fn weaker_clauses_have_models() {
    let clause_number = |line: &str| line.split(',').nth(4).map(str::to_string);
    for lines in CLAUSES {
        let mut weaker = Vec::new();
        for (index, line) in lines.iter().enumerate() {
            if line.starts_with("A,") {
                let mut rest = lines.to_vec();
                rest.remove(index);
                weaker.push(rest);
            }
        }
        let last = lines.iter().rposition(|line| line.starts_with("C,"));
        let last = last.expect("there is a clause");
        let number = clause_number(lines[last]);
        let mut rest = lines.to_vec();
        rest.retain(|line| !line.starts_with("C,") || clause_number(line) != number);
        weaker.push(rest);
        let literal = format!("C,eq,1,1,{},0", number.expect("five fields"));
        let mut longer = lines.to_vec();
        longer.insert(last + 1, &literal);
        weaker.push(longer);
        for lines in &weaker {
            assert!(!check(&file(lines)).yes, "{lines:?}");
            assert!(!models(&file(lines)).is_empty(), "{lines:?}");
        }
    }
}

#[test]
fn weaker_files_have_models() {
    // F without its second assumption, `img` without any one of its four.
    let mut lines = F.to_vec();
    lines.remove(5);
    assert!(!models(&file(&lines)).is_empty());
    for number in 9..13 {
        let mut lines = IMG.to_vec();
        lines.remove(number);
        assert!(!models(&file(&lines)).is_empty(), "{}", IMG[number]);
    }
    // u ni sin(u): true where u is not allocated.
    let lines = ["T,rfv,1,0,0,0", "T,sin,1,0,0,0", "A,ni,1,2,0,0"];
    assert!(!models(&file(&lines)).is_empty());
}

#[test]
fn models_with_and_without_an_allocated_object() {
    // Any heap is a model of no assumption: the heaps tried are of each kind.
    let heaps = models(b"");
    assert_eq!(heaps.len(), 3_000);
    let many = |kind: fn(&Heap) -> bool| heaps.iter().filter(|heap| kind(heap)).count() > 200;
    assert!(many(|heap| heap.references == 1));
    assert!(many(|heap| heap.references > 1 && heap.all().is_empty()));
    assert!(many(|heap| !heap.all().is_empty()));
    // All eq emp, and what is left of the accepted file without all ne emp,
    // are true only where nothing is allocated.
    let mut weaker = ALLOCATED.to_vec();
    weaker.remove(5);
    for text in [file(&STRUCK), file(&weaker)] {
        let heaps = models(&text);
        assert!(heaps.iter().any(|heap| heap.references == 1));
        assert!(heaps.iter().any(|heap| heap.references > 1));
        assert!(heaps.iter().all(|heap| heap.all().is_empty()));
    }
    // Each of the other assumptions may go as well.
    for number in [6, 7] {
        let mut weaker = ALLOCATED.to_vec();
        weaker.remove(number);
        let heaps = models(&file(&weaker));
        assert!(!heaps.is_empty());
        assert!(heaps.iter().all(|heap| !heap.all().is_empty()));
    }
}

// ---------------------------------------------------------------------------
// Heaps in turn
// ---------------------------------------------------------------------------

/// What `all_models` found and tried, and whether it tried all.
fn in_turn(lines: &[&str], most: usize) -> (usize, usize, bool) {
    let search = Question::of_file(&file(lines)).unwrap().all_models(most);
    (search.found, search.tried, search.complete)
}

#[test]
fn every_smallest_heap_is_tried_once() {
    // One field. With one class there is nothing more to choose. With two there
    // are two orders, two values of dty, and two of typ for each reference: 8
    // for `nul` alone, 16 with a reference more. That one is allocated or not:
    // 1 + 8 + 2 * (1 + 16) = 43 heaps, 17 of them with something allocated.
    let terms = ["T,all,0,0,0,0", "T,emp,0,0,0,0"];
    assert_eq!(in_turn(&terms, 1_000), (43, 43, true));
    let nothing = [&terms[..], &["A,eq,1,2,0,0"]].concat();
    assert_eq!(in_turn(&nothing, 1_000), (26, 43, true));
    let something = [&terms[..], &["A,ne,1,2,0,0"]].concat();
    assert_eq!(in_turn(&something, 1_000), (17, 43, true));
    // u has one value or two, r two where something is allocated: 9 + 17 * 2 +
    // 17 * 4 tried, and u is in r for one of the last four.
    let lines = ["T,rfv,1,0,0,0", "T,rgv,1,0,0,0", "A,in,1,2,0,0"];
    assert_eq!(in_turn(&lines, 1_000), (17, 111, true));
    // One literal of the clause is true everywhere, none, or where u is in r.
    let (u_in_r, u_eq_u, u_ne_u) = ("C,in,1,2,1,0", "C,eq,1,1,1,0", "C,ne,1,1,1,0");
    let terms_of_clause = &lines[..2];
    let with = |clause: &[&'static str]| [terms_of_clause, clause].concat();
    assert_eq!(in_turn(&with(&[u_in_r, u_eq_u]), 1_000), (111, 111, true));
    assert_eq!(in_turn(&with(&[u_ne_u]), 1_000), (0, 111, true));
    assert_eq!(in_turn(&with(&[u_ne_u, u_in_r]), 1_000), (17, 111, true));
    // h has one value, or four.
    assert_eq!(in_turn(&["T,arv,1,0,0,0"], 1_000), (145, 145, true));
    // At most so many of the 1, 8, 2 and 32.
    assert_eq!(in_turn(&terms, 32), (43, 43, true));
    assert_eq!(in_turn(&terms, 31), (42, 42, false));
    assert_eq!(in_turn(&terms, 5), (13, 13, false));
}

#[test]
fn random_heaps_are_of_each_kind() {
    let nothing = ["T,all,0,0,0,0", "T,emp,0,0,0,0", "A,eq,1,2,0,0"];
    let something = ["T,all,0,0,0,0", "T,emp,0,0,0,0", "A,ne,1,2,0,0"];
    for lines in [nothing, something] {
        let question = Question::of_file(&file(&lines)).unwrap();
        let found = question.random_models(1_000, &mut Random::new(1));
        assert!(found > 300, "{found}");
    }
}

// ---------------------------------------------------------------------------
// A region inside its image, in all small heaps
// ---------------------------------------------------------------------------

/// Terms: 1 r, 2 h, 3 f, 4 i = img(h,r,f), 5 cup(r,i), 6 cup(i,r), 7 emp.
const IMAGE: &str = "T,rgv,1,0,0,0 T,arv,1,0,0,0 T,fnv,1,0,0,0 T,img,2,1,3,0
                     T,cup,1,4,0,0 T,cup,4,1,0,0 T,emp,0,0,0,0";

/// What `fin` needs and what it adds, each with its denial.
const INSIDE: &str = "A,eq,5,4,0,0";
const NOT_INSIDE: &str = "A,ne,5,4,0,0";
const NOT_LARGER: &str = "A,eq,6,1,0,0";
const LARGER: &str = "A,ne,6,1,0,0";

/// References with `nul`, fields, classes.
const SIZES: [[usize; 3]; 8] = [
    [1, 1, 1],
    [1, 1, 2],
    [2, 1, 1],
    [2, 1, 2],
    [3, 1, 1],
    [3, 1, 2],
    [3, 2, 1],
    [4, 1, 1],
];

/// The models among all heaps of these sizes.
fn models_of_sizes(sizes: &[[usize; 3]], text: &str) -> usize {
    let lines: Vec<&str> = text.split_whitespace().collect();
    let question = Question::of_file(&file(&lines)).unwrap();
    let searches = sizes.iter().map(|size| {
        let search = question.models_of_size(*size, 100_000);
        assert!(search.complete, "{size:?}");
        search.found
    });
    searches.sum()
}

#[test]
fn all_heaps_of_a_size_are_tried() {
    // One class and one field. A reference beside `nul` is not allocated, or it
    // is, and then in r or not: 3 choices. h has 2 times 2 values, or 3 times 3
    // times 3.
    assert_eq!(models_of_sizes(&[[2, 1, 1]], IMAGE), 3 * 4);
    assert_eq!(models_of_sizes(&[[3, 1, 1]], IMAGE), 9 * 27);
    // Two classes: two orders, dty, and typ of each reference.
    assert_eq!(models_of_sizes(&[[3, 1, 2]], IMAGE), 9 * 27 * 2 * 2 * 8);
}

#[test]
fn a_region_inside_its_image_is_no_smaller() {
    let count = |literals: &str| models_of_sizes(&SIZES, &format!("{IMAGE} {literals}"));
    assert_eq!(count(&format!("{INSIDE} {LARGER}")), 0);
    let inside = count(INSIDE);
    assert_eq!(count(&format!("{INSIDE} {NOT_LARGER}")), inside);
    // Also where the region has members.
    let empty = count(&format!("{INSIDE} A,eq,1,7,0,0"));
    assert!(empty > 0 && inside > empty, "{empty} {inside}");
}

/// What `fin` adds isn't so without what it needs, and doesn't give it back.
#[test]
fn what_fin_adds_breaks_without_its_need() {
    let count = |literals: &str| models_of_sizes(&[[3, 1, 1]], &format!("{IMAGE} {literals}"));
    assert!(count(LARGER) > 0);
    assert!(count(&format!("{NOT_LARGER} {NOT_INSIDE}")) > 0);
    // An image needs a second reference to be larger: with `nul` and one more
    // it never is, so those heaps alone would say nothing of `fin`.
    let small = |literals: &str| models_of_sizes(&SIZES[..4], &format!("{IMAGE} {literals}"));
    assert_eq!(small(LARGER), 0);
    assert!(small(&format!("{NOT_LARGER} {NOT_INSIDE}")) > 0);
}

/// r inside another region, which may then be larger than r.
#[test]
fn another_region_than_the_image_may_be_larger() {
    for text in [
        // s. Terms: 1 r, 2 s, 3 cup(r,s), 4 cup(s,r).
        "T,rgv,1,0,0,0 T,rgv,2,0,0,0 T,cup,1,2,0,0 T,cup,2,1,0,0
         A,eq,3,2,0,0 A,ne,4,1,0,0",
        // img(h,s,f), for s. Terms: 5 img, 6 cup(r,5), 7 cup(5,r).
        "T,rgv,1,0,0,0 T,rgv,2,0,0,0 T,arv,1,0,0,0 T,fnv,1,0,0,0 T,img,3,2,4,0
         T,cup,1,5,0,0 T,cup,5,1,0,0
         A,eq,6,5,0,0 A,ne,7,1,0,0",
        // img(k,r,f) for img(h,r,f). Terms: 5 img(h,r,f), 6 img(k,r,f),
        // 7 cup(r,5), 8 cup(6,r).
        "T,rgv,1,0,0,0 T,arv,1,0,0,0 T,arv,2,0,0,0 T,fnv,1,0,0,0
         T,img,2,1,4,0 T,img,3,1,4,0 T,cup,1,5,0,0 T,cup,6,1,0,0
         A,eq,7,5,0,0 A,ne,8,1,0,0",
        // img(h,r,g) for img(h,r,f), of two fields.
        "T,rgv,1,0,0,0 T,arv,1,0,0,0 T,fnv,1,0,0,0 T,fnv,2,0,0,0
         T,img,2,1,3,0 T,img,2,1,4,0 T,cup,1,5,0,0 T,cup,6,1,0,0
         A,eq,7,5,0,0 A,ne,8,1,0,0",
    ] {
        let fields = text.matches("T,fnv,").count().max(1);
        assert!(models_of_sizes(&[[3, fields, 1]], text) > 0, "{text}");
    }
}

/// 1 leads to 2, and both are allocated. The image of {1} is {2}: neither is
/// inside the other. Where 2 leads to 1 besides, {1, 2} is its own image; where
/// it leads to `nul`, the image {2} is smaller.
#[test]
fn images_worked_out_by_hand() {
    let heap = Heap {
        references: 3,
        fields: 1,
        classes: 1,
        order: vec![vec![true]],
        allocated: vec![false, true, true],
        typ: vec![0; 3],
        dty: vec![0],
    };
    for (region, last, inside, larger) in [
        (set(&[1]), 0, false, true),
        (set(&[1, 2]), 1, true, false),
        (set(&[1, 2]), 0, false, false),
        (set(&[]), 1, true, false),
    ] {
        let values = Values {
            given: vec![
                (variable(TermWord::Rgv, 1), Value::Region(region)),
                (
                    variable(TermWord::Arv, 1),
                    Value::HeapValue(vec![vec![0], vec![2], vec![last]]),
                ),
                (variable(TermWord::Fnv, 1), Value::Field(0)),
            ],
        };
        for (literal, truth) in [(INSIDE, inside), (LARGER, larger)] {
            let text = format!("{IMAGE} {literal}");
            let lines: Vec<&str> = text.split_whitespace().collect();
            let answer = assumptions(&file(&lines), &heap, &values);
            assert_eq!(answer, Some(truth), "{values:?} {literal}");
        }
    }
}
