//! A finished tableau: numbered lines, and what is known of each.

use crate::call::Numbers;
use crate::random::Random;

use super::draft::{denial, ClauseId, Draft, Field, Literal, Place, Step, TermId};

/// What a field of a line holds.
#[derive(Debug, Clone, Copy, PartialEq, Eq, Hash)]
pub enum Entry {
    Unused,
    Name(u32),
    Term(u32),
    Place(u32),
    Side(u32),
    Clause(u32),
}

impl Entry {
    pub fn number(self) -> u32 {
        match self {
            Entry::Unused => 0,
            Entry::Name(number) | Entry::Term(number) => number,
            Entry::Place(number) | Entry::Side(number) | Entry::Clause(number) => number,
        }
    }
}

#[derive(Debug, Clone, PartialEq, Eq)]
pub struct Line {
    pub letter: char,
    pub word: &'static str,
    pub entries: [Entry; 4],
    /// The terms in the literals that a step adds.
    pub mentions: Vec<u32>,
    /// How many literals a step adds in each alternative; none where it closes.
    pub adds: Vec<usize>,
}

impl Line {
    pub fn text(&self) -> String {
        let [a, b, c, d] = self.entries.map(Entry::number);
        format!("{},{},{a},{b},{c},{d}\n", self.letter, self.word)
    }

    /// The number of the clause of a C line.
    pub fn clause(&self) -> u32 {
        self.entries[2].number()
    }

    /// How many alternatives begin to wait.
    pub fn pushes(&self) -> usize {
        self.adds.len().saturating_sub(1)
    }

    pub fn closes(&self) -> bool {
        self.letter == 'S' && self.adds.is_empty()
    }

    /// Whether the step takes a fresh variable.
    pub fn takes_fresh(&self) -> bool {
        self.letter == 'S' && matches!(self.word, "ext" | "wit")
    }
}

/// A closed tableau.
pub struct Tableau {
    pub lines: Vec<Line>,
    pub terms: usize,
    /// The A lines.
    pub assumptions: usize,
    pub clauses: usize,
    pub clause_lines: usize,
    pub steps: usize,
    pub closings: usize,
}

impl Tableau {
    pub fn bytes(&self) -> Vec<u8> {
        text(&self.lines)
    }

    /// The reply that a closed tableau gets: a yes and its counts.
    pub fn reply(&self) -> Numbers {
        let assumed = self.assumptions + self.clauses;
        let [terms, assumed, steps, closings] =
            [self.terms, assumed, self.steps, self.closings].map(|count| count as u32);
        [0, 0, terms, assumed, steps, closings, 0]
    }

    /// Where the C lines begin.
    pub fn first_clause_line(&self) -> usize {
        self.terms + self.assumptions
    }

    /// Where the steps begin.
    pub fn first_step(&self) -> usize {
        self.first_clause_line() + self.clause_lines
    }

    /// The lines (from, up to) of all that is assumed: of every A line, and of
    /// every clause.
    pub fn assumed_ranges(&self) -> Vec<(usize, usize)> {
        let lines = &self.lines[self.terms..self.first_step()];
        let one_clause =
            |one: &Line, next: &Line| one.letter == 'C' && one.clause() == next.clause();
        let mut end = self.terms;
        let ranges = lines.chunk_by(one_clause).map(|assumed| {
            end += assumed.len();
            (end - assumed.len(), end)
        });
        ranges.collect()
    }

    /// The lines (from, up to) of every clause.
    pub fn clause_ranges(&self) -> Vec<(usize, usize)> {
        self.assumed_ranges().split_off(self.assumptions)
    }

    /// The rule of each step.
    pub fn rules(&self) -> impl Iterator<Item = &'static str> + '_ {
        let steps = self.lines.iter().filter(|line| line.letter == 'S');
        steps.map(|line| line.word)
    }

    /// The files with one assumption or one clause left out, and those with one
    /// literal denied. Their steps fit no more, but their assumptions may be
    /// true.
    pub fn with_other_assumptions(&self) -> Vec<Vec<u8>> {
        let mut files = Vec::new();
        for index in self.terms..self.first_step() {
            let mut lines = self.lines.clone();
            lines[index].word = denial(lines[index].word);
            files.push(text(&lines));
            if index < self.first_clause_line() {
                lines.remove(index);
                files.push(text(&lines));
            }
        }
        for (from, to) in self.clause_ranges() {
            files.push(text(&self.without_clause(from, to)));
        }
        files
    }

    /// The lines without those of one clause, the later ones renumbered on the
    /// C lines.
    fn without_clause(&self, from: usize, to: usize) -> Vec<Line> {
        let mut lines = self.lines.clone();
        for line in &mut lines[to..self.first_step()] {
            line.entries[2] = Entry::Clause(line.clause() - 1);
        }
        lines.drain(from..to);
        lines
    }

    /// How many alternatives wait before this line.
    pub fn waiting_before(&self, index: usize) -> usize {
        let lines = &self.lines[..index];
        let began: usize = lines.iter().map(Line::pushes).sum();
        let closings = lines.iter().filter(|line| line.closes()).count();
        began - closings
    }

    /// How many literals are on the branch before each line, and after the last.
    pub fn lengths(&self) -> Vec<usize> {
        let mut length = 0;
        let mut lengths = vec![length];
        // The length that each alternative which waits will make.
        let mut waiting = Vec::new();
        for line in &self.lines {
            match (line.letter, line.adds.as_slice()) {
                ('A', _) => length += 1,
                ('S', [first, rest @ ..]) => {
                    waiting.extend(rest.iter().rev().map(|more| length + more));
                    length += first;
                }
                ('S', []) => length = waiting.pop().unwrap_or(length),
                _ => {}
            }
            lengths.push(length);
        }
        lengths
    }

    /// The place of the first literal that this line adds.
    pub fn place_added(&self, index: usize) -> usize {
        self.lengths()[index] + 1
    }

    /// The lines (from, up to) of every alternative that once waited. It ends
    /// where as many branches have been closed as it opened.
    pub fn alternatives(&self) -> Vec<(usize, usize)> {
        let mut found = Vec::new();
        for (index, line) in self.lines.iter().enumerate() {
            if line.closes() && index + 1 < self.lines.len() {
                found.push((index + 1, self.end_of_subtree(index + 1)));
            }
        }
        found
    }

    /// Where the branch that a step goes on with, and all that it splits into,
    /// has been closed.
    pub fn end_of_subtree(&self, start: usize) -> usize {
        let mut open = 1;
        let mut index = start;
        while open > 0 {
            open += self.lines[index].pushes();
            open -= usize::from(self.lines[index].closes());
            index += 1;
        }
        index
    }
}

pub fn text(lines: &[Line]) -> Vec<u8> {
    let texts: Vec<String> = lines.iter().map(Line::text).collect();
    texts.concat().into_bytes()
}

/// The order in which terms, assumptions and clauses stand.
struct Order {
    terms: Vec<usize>,
    assumptions: Vec<usize>,
    clauses: Vec<usize>,
}

/// Numbers for terms, assumed places and clauses.
struct Numbering {
    terms: Vec<u32>,
    assumed: Vec<u32>,
    clauses: Vec<u32>,
}

impl Numbering {
    fn term(&self, term: TermId) -> u32 {
        self.terms[term.0]
    }

    fn place(&self, place: Place) -> u32 {
        match place {
            Place::Assumed(index) => self.assumed[index],
            Place::Derived(index) => (self.assumed.len() + index + 1) as u32,
        }
    }

    fn clause(&self, clause: ClauseId) -> Entry {
        Entry::Clause(self.clauses[clause.0])
    }

    fn entry(&self, field: Field) -> Entry {
        match field {
            Field::Unused => Entry::Unused,
            Field::Place(place) => Entry::Place(self.place(place)),
            Field::Term(term) => Entry::Term(self.term(term)),
            Field::Side(side) => Entry::Side(side),
            Field::Clause(clause) => self.clause(clause),
        }
    }
}

/// The numbers 1 and up of things that stand in this order.
fn numbers_in(order: &[usize]) -> Vec<u32> {
    let mut numbers = vec![0; order.len()];
    for (position, index) in order.iter().enumerate() {
        numbers[*index] = position as u32 + 1;
    }
    numbers
}

/// Finishes a closed draft whose terms, assumptions and clauses keep their
/// order.
pub fn in_order(draft: &Draft) -> Tableau {
    assert!(draft.is_closed());
    counted(draft, lines_in_order(draft))
}

/// The lines of a draft, closed or not, whose terms, assumptions and clauses
/// keep their order.
pub fn lines_in_order(draft: &Draft) -> Vec<Line> {
    let order = Order {
        terms: (0..draft.terms.len()).collect(),
        assumptions: (0..draft.assumptions.len()).collect(),
        clauses: (0..draft.clauses.len()).collect(),
    };
    number(draft, &order)
}

/// Finishes a closed draft with its terms, assumptions and clauses in a random
/// order.
pub fn shuffled(draft: &Draft, random: &mut Random) -> Tableau {
    assert!(draft.is_closed());
    counted(draft, shuffled_lines(draft, random))
}

/// The same of a draft without steps.
pub fn without_steps(draft: &Draft, random: &mut Random) -> Tableau {
    assert!(draft.steps.is_empty());
    counted(draft, shuffled_lines(draft, random))
}

/// The lines of a draft, closed or not, with its terms, assumptions and clauses
/// in a random order.
pub fn shuffled_lines(draft: &Draft, random: &mut Random) -> Vec<Line> {
    let mut order = Order {
        terms: random_order_of_terms(draft, random),
        assumptions: (0..draft.assumptions.len()).collect(),
        clauses: (0..draft.clauses.len()).collect(),
    };
    random.shuffle(&mut order.assumptions);
    random.shuffle(&mut order.clauses);
    number(draft, &order)
}

fn counted(draft: &Draft, lines: Vec<Line>) -> Tableau {
    Tableau {
        lines,
        terms: draft.terms.len(),
        assumptions: draft.assumptions.len(),
        clauses: draft.clauses.len(),
        clause_lines: draft.clause_lines(),
        steps: draft.steps.len(),
        closings: draft.closings(),
    }
}

/// Any order in which arguments come before the terms they are in.
fn random_order_of_terms(draft: &Draft, random: &mut Random) -> Vec<usize> {
    let mut missing: Vec<usize> = draft.terms.iter().map(|t| t.arguments.len()).collect();
    let mut users = vec![Vec::new(); draft.terms.len()];
    for (index, term) in draft.terms.iter().enumerate() {
        for argument in &term.arguments {
            users[argument.0].push(index);
        }
    }
    let all = 0..draft.terms.len();
    let mut ready: Vec<usize> = all.filter(|index| missing[*index] == 0).collect();
    let mut order = Vec::new();
    while !ready.is_empty() {
        let next = ready.swap_remove(random.below(ready.len()));
        order.push(next);
        for user in &users[next] {
            missing[*user] -= 1;
            if missing[*user] == 0 {
                ready.push(*user);
            }
        }
    }
    order
}

fn number(draft: &Draft, order: &Order) -> Vec<Line> {
    let numbering = Numbering {
        terms: numbers_in(&order.terms),
        assumed: numbers_in(&order.assumptions),
        clauses: numbers_in(&order.clauses),
    };
    let mut lines = Vec::new();
    for index in &order.terms {
        lines.push(term_line(draft, TermId(*index), &numbering));
    }
    for index in &order.assumptions {
        let literal = &draft.assumptions[*index];
        lines.push(literal_line('A', literal, Entry::Unused, &numbering));
    }
    for index in &order.clauses {
        let clause = numbering.clause(ClauseId(*index));
        for literal in &draft.clauses[*index] {
            lines.push(literal_line('C', literal, clause, &numbering));
        }
    }
    for step in &draft.steps {
        lines.push(step_line(step, &numbering));
    }
    lines
}

/// A line that adds nothing.
pub fn plain_line(letter: char, word: &'static str, entries: [Entry; 4]) -> Line {
    Line {
        letter,
        word,
        entries,
        mentions: Vec::new(),
        adds: Vec::new(),
    }
}

fn term_line(draft: &Draft, id: TermId, numbering: &Numbering) -> Line {
    let term = &draft.terms[id.0];
    let mut entries = [Entry::Unused; 4];
    if let Some(name) = term.name {
        entries[0] = Entry::Name(name);
    }
    for (entry, argument) in entries.iter_mut().zip(&term.arguments) {
        *entry = Entry::Term(numbering.term(*argument));
    }
    plain_line('T', term.word, entries)
}

/// An A line or a C line.
fn literal_line(letter: char, literal: &Literal, clause: Entry, numbering: &Numbering) -> Line {
    let left = Entry::Term(numbering.term(literal.left));
    let right = Entry::Term(numbering.term(literal.right));
    plain_line(letter, literal.word, [left, right, clause, Entry::Unused])
}

fn step_line(step: &Step, numbering: &Numbering) -> Line {
    let literals = step.alternatives.iter().flatten();
    let terms = literals.flat_map(|literal| [literal.left, literal.right]);
    Line {
        letter: 'S',
        word: step.rule,
        entries: step.fields.map(|field| numbering.entry(field)),
        mentions: terms.map(|term| numbering.term(term)).collect(),
        adds: step.alternatives.iter().map(Vec::len).collect(),
    }
}
