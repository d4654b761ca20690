//! Looks for small finite heaps that make all assumptions of a file true, its A
//! lines and its clauses.

use std::collections::BTreeSet;

use crate::independent::{read_assumed, takes_name, Assumed, TermWord};
use crate::meaning::{assumed_true, values_of_terms, Heap, Value, Values, Variable};
use crate::random::Random;

/// Where the numbers come from that a heap and values are made of.
trait Choices {
    /// A number from 0 up to the bound, the bound left out.
    fn below(&mut self, bound: usize) -> usize;
}

impl Choices for Random {
    fn below(&mut self, bound: usize) -> usize {
        Random::below(self, bound)
    }
}

/// Goes through all choices in turn: each digit counts one choice up to its
/// bound, the last one fastest.
#[derive(Default)]
struct Odometer {
    digits: Vec<(usize, usize)>,
    position: usize,
}

impl Choices for Odometer {
    fn below(&mut self, bound: usize) -> usize {
        if self.position == self.digits.len() {
            self.digits.push((0, bound));
        }
        self.position += 1;
        self.digits[self.position - 1].0
    }
}

impl Odometer {
    /// Goes on to the next choices; false when there are no more.
    fn advance(&mut self) -> bool {
        self.position = 0;
        while let Some((digit, bound)) = self.digits.pop() {
            if digit + 1 < bound {
                self.digits.push((digit + 1, bound));
                return true;
            }
        }
        false
    }
}

/// How many references (`nul` among them), fields and classes there are.
struct Size {
    references: usize,
    fields: usize,
    classes: usize,
}

/// The most references, fields and classes of a small heap.
pub const SMALL: [usize; 3] = [4, 2, 3];

/// A heap and a value for each variable.
pub type Model = (Heap, Values);

/// What a search through heaps came to.
pub struct Search {
    pub found: usize,
    pub tried: usize,
    /// Whether it went through all there are.
    pub complete: bool,
    /// The first that was found.
    pub first: Option<Model>,
}

impl Search {
    fn new() -> Search {
        Search {
            found: 0,
            tried: 0,
            complete: true,
            first: None,
        }
    }
}

/// The terms and assumptions of a file.
pub struct Question {
    assumed: Assumed,
}

impl Question {
    /// `None` when the T, A and C lines are not well formed.
    pub fn of_file(file: &[u8]) -> Option<Question> {
        let assumed = read_assumed(file)?;
        Some(Question { assumed })
    }

    /// Of so many heaps and values at random, those that are a model.
    pub fn random_models(&self, tries: usize, random: &mut Random) -> usize {
        let mut found = 0;
        for _ in 0..tries {
            let (heap, values) = self.random(SMALL, random);
            found += usize::from(self.holds(&heap, &values));
        }
        found
    }

    /// A heap and values at random, a model or not. There are at most so many
    /// references, fields and classes.
    pub fn random(&self, most: [usize; 3], random: &mut Random) -> Model {
        let [references, fields, classes] = most;
        let size = Size {
            references: 1 + random.below(references),
            fields: 1 + random.below(fields),
            classes: 1 + random.below(classes),
        };
        self.chosen(&size, random)
    }

    /// Goes through all heaps with at most one reference beside `nul`, one
    /// field and at most two classes, and all values, but no more than `most`
    /// of them for each number of references and classes. Of two classes in
    /// order class 0 is the lower: their names make no difference.
    pub fn all_models(&self, most: usize) -> Search {
        let mut search = Search::new();
        for references in 1..=2 {
            for classes in 1..=2 {
                let size = Size {
                    references,
                    fields: 1,
                    classes,
                };
                self.search(&size, most, &mut search);
            }
        }
        search
    }

    /// Goes through all heaps with just so many references, fields and classes,
    /// and all values, but no more than `most` of them.
    pub fn models_of_size(&self, size: [usize; 3], most: usize) -> Search {
        let [references, fields, classes] = size;
        let size = Size {
            references,
            fields,
            classes,
        };
        let mut search = Search::new();
        self.search(&size, most, &mut search);
        search
    }

    fn search(&self, size: &Size, most: usize, search: &mut Search) {
        let mut odometer = Odometer::default();
        for _ in 0..most {
            let (heap, values) = self.chosen(size, &mut odometer);
            search.tried += 1;
            if self.holds(&heap, &values) {
                search.found += 1;
                search.first.get_or_insert((heap, values));
            }
            if !odometer.advance() {
                return;
            }
        }
        search.complete = false;
    }

    /// The heap and values that the choices make.
    fn chosen(&self, size: &Size, choices: &mut impl Choices) -> Model {
        let heap = heap(size, choices);
        let values = self.values(&heap, choices);
        assert!(heap.is_finite_heap() && values.fit(&heap));
        (heap, values)
    }

    /// Whether all assumptions are true in this heap, with these values.
    pub fn holds(&self, heap: &Heap, values: &Values) -> bool {
        let known = values_of_terms(&self.assumed.terms, heap, values).expect("terms have values");
        assumed_true(&self.assumed, &known, heap).expect("assumptions are true or false")
    }

    fn values(&self, heap: &Heap, choices: &mut impl Choices) -> Values {
        let mut given = Vec::new();
        for term in &self.assumed.terms {
            if takes_name(term.word) {
                let variable = Variable {
                    word: term.word,
                    name: term.arguments[0],
                };
                given.push((variable, value(term.word, heap, choices)));
            }
        }
        Values { given }
    }
}

fn list(choices: &mut impl Choices, length: usize, bound: usize) -> Vec<usize> {
    (0..length).map(|_| choices.below(bound)).collect()
}

fn heap(size: &Size, choices: &mut impl Choices) -> Heap {
    let Size {
        references,
        fields,
        classes,
    } = *size;
    let mut allocated = vec![false; references];
    // `nul` is not allocated; of the others some, all or none.
    for one in allocated.iter_mut().skip(1) {
        *one = choices.below(2) == 0;
    }
    Heap {
        references,
        fields,
        classes,
        order: order(classes, choices),
        allocated,
        typ: list(choices, references, classes),
        dty: list(choices, fields, classes),
    }
}

/// A partial order: by size, none at all, or all above class 0. With one class
/// these are the same; with two, all above class 0 is by size.
fn order(classes: usize, choices: &mut impl Choices) -> Vec<Vec<bool>> {
    let kind = choices.below(classes.min(3));
    let below = |a: usize, b: usize| match kind {
        0 => a <= b,
        1 => a == b,
        _ => a == b || a == 0,
    };
    let row = |a: usize| (0..classes).map(|b| below(a, b)).collect();
    (0..classes).map(row).collect()
}

fn value(word: TermWord, heap: &Heap, choices: &mut impl Choices) -> Value {
    match word {
        TermWord::Rfv => Value::Reference(choices.below(heap.references)),
        TermWord::Rgv => {
            let members = heap.all().into_iter();
            let members: BTreeSet<usize> = members.filter(|_| choices.below(2) == 0).collect();
            Value::Region(members)
        }
        TermWord::Arv => {
            let rows = 0..heap.references;
            let table = rows.map(|_| list(choices, heap.fields, heap.references));
            Value::HeapValue(table.collect())
        }
        TermWord::Fnv => Value::Field(choices.below(heap.fields)),
        _ => Value::Class(choices.below(heap.classes)),
    }
}
