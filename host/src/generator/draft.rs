//! A tableau in the making: its terms, the branch, the alternatives that wait,
//! and the steps so far. Numbers are given at the end, when all terms and
//! assumptions are known.

use std::collections::{HashMap, HashSet};

pub const MOST_TERMS: usize = 600;
pub const MOST_PLACES: usize = 1_000;
pub const MOST_WAITING: usize = 200;
pub const MOST_IN_CLAUSE: usize = 8;
pub const MOST_CLAUSE_LINES: usize = 400;

#[derive(Debug, Clone, Copy, PartialEq, Eq, Hash)]
pub struct TermId(pub usize);

#[derive(Debug, Clone, Copy, PartialEq, Eq)]
pub enum Sort {
    Reference,
    Region,
    Heap,
    Field,
    Class,
}

/// A word with arguments, and their sorts.
pub type Operation = (&'static str, &'static [Sort]);

pub const OPERATIONS: [Operation; 9] = [
    ("rea", &[Sort::Heap, Sort::Reference, Sort::Field]),
    ("cup", &[Sort::Region, Sort::Region]),
    ("cap", &[Sort::Region, Sort::Region]),
    ("dif", &[Sort::Region, Sort::Region]),
    ("sin", &[Sort::Reference]),
    ("img", &[Sort::Heap, Sort::Region, Sort::Field]),
    (
        "wri",
        &[Sort::Heap, Sort::Reference, Sort::Field, Sort::Reference],
    ),
    ("typ", &[Sort::Reference]),
    ("dty", &[Sort::Field]),
];

/// A term: its word, and its arguments or (for a variable) its name.
#[derive(Debug, Clone, PartialEq, Eq, Hash)]
pub struct Term {
    pub word: &'static str,
    pub arguments: Vec<TermId>,
    pub name: Option<u32>,
}

#[derive(Debug, Clone, Copy, PartialEq, Eq)]
pub struct Literal {
    pub left: TermId,
    pub word: &'static str,
    pub right: TermId,
}

pub fn lit(left: TermId, word: &'static str, right: TermId) -> Literal {
    Literal { left, word, right }
}

/// The word that denies a literal's word.
pub fn denial(word: &'static str) -> &'static str {
    match word {
        "in" => "ni",
        "ni" => "in",
        "eq" => "ne",
        "ne" => "eq",
        "le" => "nl",
        _ => "le",
    }
}

/// A place on the branch. Assumptions come before all derived literals, but
/// more of them may still be made, so the two are counted apart.
#[derive(Debug, Clone, Copy, PartialEq, Eq)]
pub enum Place {
    Assumed(usize),
    Derived(usize),
}

impl Place {
    /// The place of a literal added together with the one here, further on.
    pub fn after(self, further: usize) -> Place {
        match self {
            Place::Assumed(index) => Place::Assumed(index + further),
            Place::Derived(index) => Place::Derived(index + further),
        }
    }
}

/// A clause by its index, from 0 on.
#[derive(Debug, Clone, Copy, PartialEq, Eq)]
pub struct ClauseId(pub usize);

/// What a field of a step holds.
#[derive(Debug, Clone, Copy, PartialEq, Eq)]
pub enum Field {
    Unused,
    Place(Place),
    Term(TermId),
    /// The t of `rep`: 1 left, 2 right.
    Side(u32),
    /// The t of `cla`.
    Clause(ClauseId),
}

pub struct Step {
    pub rule: &'static str,
    pub fields: [Field; 4],
    /// The alternatives added; none when the step closes.
    pub alternatives: Vec<Vec<Literal>>,
}

struct Waiting {
    length: usize,
    literals: Vec<Literal>,
}

#[derive(Default)]
pub struct Draft {
    pub terms: Vec<Term>,
    pub assumptions: Vec<Literal>,
    /// Of each, at least one literal is assumed.
    pub clauses: Vec<Vec<Literal>>,
    pub steps: Vec<Step>,
    numbers: HashMap<Term, TermId>,
    /// For each term the reference variables in it.
    variables: Vec<HashSet<TermId>>,
    /// Variables that a step has taken as fresh; no assumption and no clause
    /// may hold one.
    witnesses: HashSet<TermId>,
    branch: Vec<Literal>,
    waiting: Vec<Waiting>,
    closed: bool,
    closings: usize,
}

impl Draft {
    // Terms

    /// The term with this word and these arguments, made if it is new.
    pub fn term(&mut self, word: &'static str, arguments: &[TermId]) -> TermId {
        self.intern(Term {
            word,
            arguments: arguments.to_vec(),
            name: None,
        })
    }

    /// The variable with this name, made if it is new.
    pub fn variable(&mut self, word: &'static str, name: u32) -> TermId {
        self.intern(Term {
            word,
            arguments: Vec::new(),
            name: Some(name),
        })
    }

    fn intern(&mut self, term: Term) -> TermId {
        if let Some(known) = self.numbers.get(&term) {
            return *known;
        }
        let id = TermId(self.terms.len());
        let mut variables = HashSet::new();
        if term.word == "rfv" {
            variables.insert(id);
        }
        for argument in &term.arguments {
            variables.extend(&self.variables[argument.0]);
        }
        self.variables.push(variables);
        self.numbers.insert(term.clone(), id);
        self.terms.push(term);
        id
    }

    pub fn has_variable(&self, word: &'static str, name: u32) -> bool {
        self.numbers.contains_key(&Term {
            word,
            arguments: Vec::new(),
            name: Some(name),
        })
    }

    /// The names that variables of this word have.
    pub fn names(&self, word: &str) -> Vec<u32> {
        let variables = self.terms.iter().filter(|term| term.word == word);
        variables.filter_map(|term| term.name).collect()
    }

    pub fn word(&self, term: TermId) -> &'static str {
        self.terms[term.0].word
    }

    pub fn argument(&self, term: TermId, index: usize) -> TermId {
        self.terms[term.0].arguments[index]
    }

    pub fn sort(&self, term: TermId) -> Sort {
        sort_of_word(self.word(term))
    }

    pub fn terms_of_sort(&self, sort: Sort) -> Vec<TermId> {
        let all = (0..self.terms.len()).map(TermId);
        all.filter(|term| self.sort(*term) == sort).collect()
    }

    // The branch

    /// The number of literals on the branch, the assumed ones too.
    pub fn length(&self) -> usize {
        self.assumptions.len() + self.branch.len()
    }

    pub fn waiting(&self) -> usize {
        self.waiting.len()
    }

    pub fn is_closed(&self) -> bool {
        self.closed
    }

    pub fn closings(&self) -> usize {
        self.closings
    }

    pub fn literal(&self, place: Place) -> Literal {
        match place {
            Place::Assumed(index) => self.assumptions[index],
            Place::Derived(index) => self.branch[index],
        }
    }

    /// The sides of the literal at a place, which must have this word.
    pub fn sides(&self, place: Place, word: &'static str) -> (TermId, TermId) {
        let literal = self.literal(place);
        assert_eq!(literal.word, word);
        (literal.left, literal.right)
    }

    pub fn find(&self, wanted: Literal) -> Option<Place> {
        let derived = self.branch.iter().position(|literal| *literal == wanted);
        let assumed = || self.assumptions.iter().position(|other| *other == wanted);
        derived
            .map(Place::Derived)
            .or_else(|| assumed().map(Place::Assumed))
    }

    /// The places whose literals have one of these words.
    pub fn places_with(&self, words: &[&str]) -> Vec<Place> {
        let assumed = (0..self.assumptions.len()).map(Place::Assumed);
        let derived = (0..self.branch.len()).map(Place::Derived);
        assumed
            .chain(derived)
            .filter(|place| words.contains(&self.literal(*place).word))
            .collect()
    }

    pub fn is_fresh(&self, variable: TermId) -> bool {
        let holds = |literal: &Literal| self.holds(literal, variable);
        !self.assumptions.iter().any(holds)
            && !self.clauses.iter().flatten().any(holds)
            && !self.branch.iter().any(holds)
    }

    fn holds(&self, literal: &Literal, variable: TermId) -> bool {
        self.variables[literal.left.0].contains(&variable)
            || self.variables[literal.right.0].contains(&variable)
    }

    // What changes the tree

    /// Assumes a literal, even if it is assumed already.
    pub fn assume(&mut self, literal: Literal) -> Place {
        self.expect_no_witness(&literal);
        self.assumptions.push(literal);
        Place::Assumed(self.assumptions.len() - 1)
    }

    /// Assumes that one of some literals is true. They take no place.
    pub fn assume_among(&mut self, literals: Vec<Literal>) -> ClauseId {
        for literal in &literals {
            self.expect_no_witness(literal);
        }
        assert!((1..=MOST_IN_CLAUSE).contains(&literals.len()));
        assert!(self.clause_lines() + literals.len() <= MOST_CLAUSE_LINES);
        self.clauses.push(literals);
        ClauseId(self.clauses.len() - 1)
    }

    /// How many literals the clauses have together.
    pub fn clause_lines(&self) -> usize {
        self.clauses.iter().map(Vec::len).sum()
    }

    fn expect_no_witness(&self, literal: &Literal) {
        for witness in &self.witnesses {
            assert!(!self.holds(literal, *witness), "a witness is assumed of");
        }
    }

    /// A step with these alternatives. Gives the place of the first literal
    /// added.
    pub fn add(
        &mut self,
        rule: &'static str,
        fields: [Field; 4],
        alternatives: Vec<Vec<Literal>>,
    ) -> Place {
        let length = self.branch.len();
        self.branch.extend(&alternatives[0]);
        for literals in alternatives[1..].iter().rev() {
            self.waiting.push(Waiting {
                length,
                literals: literals.clone(),
            });
        }
        self.steps.push(Step {
            rule,
            fields,
            alternatives,
        });
        Place::Derived(length)
    }

    /// Notes that the step about to be made takes a variable as fresh.
    pub fn take_fresh(&mut self, variable: TermId) {
        assert!(self.is_fresh(variable));
        self.witnesses.insert(variable);
    }

    /// A step that closes the branch.
    pub fn close(&mut self, rule: &'static str, fields: [Field; 4]) {
        assert!(!self.closed);
        self.closings += 1;
        match self.waiting.pop() {
            Some(next) => {
                self.branch.truncate(next.length);
                self.branch.extend(next.literals);
            }
            None => self.closed = true,
        }
        self.steps.push(Step {
            rule,
            fields,
            alternatives: Vec::new(),
        });
    }
}

pub fn sort_of_word(word: &str) -> Sort {
    match word {
        "nul" | "rfv" | "rea" => Sort::Reference,
        "arv" | "wri" => Sort::Heap,
        "fnv" => Sort::Field,
        "clv" | "typ" | "dty" => Sort::Class,
        _ => Sort::Region,
    }
}
