//! Damage by lines planted into a closed tableau: errors in freshness and in
//! `sub` that few random changes would hit, and a rule that is none any more.
//! All but one are refused at a known line.

use crate::random::Random;

use super::draft::{MOST_PLACES, MOST_TERMS, MOST_WAITING};
use super::exact_damage::{some_line, Damaged, FORMER_RULE};
use super::tableau::{plain_line, text, Entry, Line, Tableau};
use super::{not_fresh, refusal};

const NONE: Entry = Entry::Unused;
/// More terms than any of these plants.
const SPARE_TERMS: usize = 5;
/// As many assumptions with w in them as are planted at the most.
const MOST_WITH_W: usize = 3;

type Literal = (Entry, &'static str, Entry);

/// The lines of a tableau with more planted.
struct Planted {
    lines: Vec<Line>,
    terms: usize,
    assumptions: usize,
    /// Lines planted before the steps.
    before_steps: usize,
}

impl Planted {
    fn new(tableau: &Tableau) -> Option<Planted> {
        let room = tableau.terms + SPARE_TERMS <= MOST_TERMS;
        room.then(|| Planted {
            lines: tableau.lines.clone(),
            terms: tableau.terms,
            assumptions: tableau.assumptions,
            before_steps: 0,
        })
    }

    /// This term, which is planted as the last one if it is new.
    fn term(&mut self, word: &'static str, argument: Entry) -> Entry {
        let line = plain_line('T', word, [argument, NONE, NONE, NONE]);
        let terms = &self.lines[..self.terms];
        let known = terms.iter().position(|old| *old == line);
        let index = known.unwrap_or_else(|| {
            self.lines.insert(self.terms, line);
            self.terms += 1;
            self.before_steps += 1;
            self.terms - 1
        });
        Entry::Term(index as u32 + 1)
    }

    /// A literal with w in it, itself or inside a larger term.
    fn literal_with(&mut self, w: Entry, random: &mut Random) -> Literal {
        match random.below(3) {
            0 => (w, "ni", self.term("all", NONE)),
            1 => (self.term("nul", NONE), "in", self.term("sin", w)),
            _ => {
                let typ = self.term("typ", w);
                (typ, "le", typ)
            }
        }
    }

    /// Plants an assumption as the last one. Gives its place.
    fn assume(&mut self, literal: Literal) -> Entry {
        let place = self.assumptions + 1;
        self.assume_at(place, literal);
        Entry::Place(place as u32)
    }

    /// Plants an assumption at a place, so that what stood there and after
    /// stands one place further on.
    fn assume_at(&mut self, new: usize, (left, word, right): Literal) {
        for entry in self.lines.iter_mut().flat_map(|line| &mut line.entries) {
            if let Entry::Place(place) = entry {
                *place += u32::from(*place >= new as u32);
            }
        }
        let line = plain_line('A', word, [left, right, NONE, NONE]);
        self.lines.insert(self.terms + new - 1, line);
        self.assumptions += 1;
        self.before_steps += 1;
    }

    /// Plants so many assumptions with w in them. Gives the place of the first.
    fn assume_with(&mut self, w: Entry, count: usize, random: &mut Random) -> usize {
        let somewhere = 1 + random.below(self.assumptions + 1);
        let first = random.pick(&[1, somewhere]);
        let mut place = first;
        for _ in 0..count {
            let literal = self.literal_with(w, random);
            self.assume_at(place, literal);
            place += 1 + random.below(self.assumptions + 1 - place);
        }
        first
    }

    /// Plants a clause of one literal as the last one.
    fn assume_alone(&mut self, tableau: &Tableau, (left, word, right): Literal) {
        let clause = Entry::Clause(tableau.clauses as u32 + 1);
        let line = plain_line('C', word, [left, right, clause, NONE]);
        let index = self.before_steps + tableau.first_step();
        self.lines.insert(index, line);
        self.before_steps += 1;
    }

    /// Plants a step before the line that had this index. Gives the number of
    /// the planted line.
    fn step(&mut self, before: usize, rule: &'static str, entries: [Entry; 4]) -> usize {
        let index = before + self.before_steps;
        self.lines.insert(index, plain_line('S', rule, entries));
        index + 1
    }

    fn refused(&self, number: u32, line: usize) -> Damaged {
        Some((text(&self.lines), refusal(number, line)))
    }

    fn not_fresh(&self, line: usize, place: usize) -> Damaged {
        Some((text(&self.lines), not_fresh(line, place)))
    }
}

/// The place of an assumption a eq b, with a and b.
fn equation(tableau: &Tableau, random: &mut Random) -> Option<(Entry, u32, u32)> {
    let is_equation = |line: &Line| line.letter == 'A' && line.word == "eq";
    let index = some_line(tableau, random, is_equation)?;
    let [left, right, ..] = tableau.lines[index].entries.map(Entry::number);
    let place = (index - tableau.terms) as u32 + 1;
    Some((Entry::Place(place), left, right))
}

/// `sub` as the first step, where it may not be.
fn refused_sub(tableau: &Tableau, mut planted: Planted, entries: [Entry; 4]) -> Damaged {
    let line = planted.step(tableau.first_step(), "sub", entries);
    planted.refused(12, line)
}

/// `sub` on two variables whose names are the numbers of equal terms.
pub fn names_taken_for_terms(tableau: &Tableau, random: &mut Random) -> Damaged {
    let (place, a, b) = equation(tableau, random)?;
    let mut planted = Planted::new(tableau)?;
    let word = random.pick(&["rfv", "rgv", "arv", "fnv", "clv"]);
    let t = planted.term(word, Entry::Name(a));
    let w = planted.term(word, Entry::Name(b));
    refused_sub(tableau, planted, [place, NONE, t, w])
}

/// `sub` on a term that has no arguments and itself.
pub fn no_arguments(tableau: &Tableau, random: &mut Random) -> Damaged {
    let (place, ..) = equation(tableau, random)?;
    let mut planted = Planted::new(tableau)?;
    let word = random.pick(&["nul", "emp", "all"]);
    let t = planted.term(word, NONE);
    refused_sub(tableau, planted, [place, NONE, t, t])
}

/// A step that takes a term as fresh which is no reference variable.
pub fn no_variable(tableau: &Tableau, random: &mut Random) -> Damaged {
    let index = some_line(tableau, random, Line::takes_fresh)?;
    let is_other = |line: &Line| line.letter == 'T' && line.word != "rfv";
    let other = some_line(tableau, random, is_other)?;
    let mut lines = tableau.lines.clone();
    lines[index].entries[3] = Entry::Term(other as u32 + 1);
    Some((text(&lines), not_fresh(index + 1, 0)))
}

/// A step that takes w as fresh, with w, where one more alternative may wait.
fn taking_fresh(tableau: &Tableau, random: &mut Random) -> Option<(usize, Entry)> {
    let index = some_line(tableau, random, Line::takes_fresh)?;
    let room = tableau.waiting_before(index) < MOST_WAITING;
    room.then(|| (index, tableau.lines[index].entries[3]))
}

/// The first step that takes some w as fresh, with w.
fn first_taking(tableau: &Tableau, random: &mut Random) -> Option<(usize, Entry)> {
    let index = some_line(tableau, random, Line::takes_fresh)?;
    let w = tableau.lines[index].entries[3];
    let takes_w = |line: &Line| line.takes_fresh() && line.entries[3] == w;
    let first = tableau.lines.iter().position(takes_w)?;
    Some((first, w))
}

/// Before w is taken as fresh, a cut brings it in, inside a term on the right.
pub fn inside_on_the_right(tableau: &Tableau, random: &mut Random) -> Damaged {
    let (index, w) = taking_fresh(tableau, random)?;
    let mut planted = Planted::new(tableau)?;
    let nul = planted.term("nul", NONE);
    let sin = planted.term("sin", w);
    let line = planted.step(index, "cut", [NONE, NONE, nul, sin]);
    planted.not_fresh(line + 1, tableau.place_added(index))
}

/// The same, inside a term that is on both sides.
pub fn inside_on_both_sides(tableau: &Tableau, random: &mut Random) -> Damaged {
    let (index, w) = taking_fresh(tableau, random)?;
    let mut planted = Planted::new(tableau)?;
    let typ = planted.term("typ", w);
    let rule = random.pick(&["ref", "ler"]);
    let line = planted.step(index, rule, [NONE, NONE, typ, NONE]);
    planted.not_fresh(line + 1, tableau.place_added(index))
}

/// The same, with w itself as the left side.
pub fn on_the_left(tableau: &Tableau, random: &mut Random) -> Damaged {
    let (index, w) = taking_fresh(tableau, random)?;
    let mut planted = Planted::new(tableau)?;
    let all = planted.term("all", NONE);
    let line = planted.step(index, "cut", [NONE, NONE, w, all]);
    planted.not_fresh(line + 1, tableau.place_added(index))
}

/// A clause that no step splits has w in it, itself or inside a larger term. So
/// w is not fresh where it is first taken.
pub fn in_a_clause_only(tableau: &Tableau, random: &mut Random) -> Damaged {
    let (first, w) = first_taking(tableau, random)?;
    let mut planted = Planted::new(tableau)?;
    let literal = planted.literal_with(w, random);
    planted.assume_alone(tableau, literal);
    planted.not_fresh(first + planted.before_steps + 1, 0)
}

/// The same, and a step before brings w onto the branch too.
pub fn in_a_clause_too(tableau: &Tableau, random: &mut Random) -> Damaged {
    let (first, w) = first_taking(tableau, random)?;
    let mut planted = Planted::new(tableau)?;
    let literal = planted.literal_with(w, random);
    planted.assume_alone(tableau, literal);
    let line = planted.step(first, "ref", [NONE, NONE, w, NONE]);
    planted.not_fresh(line + 1, tableau.place_added(first))
}

/// Assumptions have w in them, so w is not fresh where it is first taken.
pub fn in_assumptions(tableau: &Tableau, random: &mut Random) -> Damaged {
    let (first, w) = first_taking(tableau, random)?;
    let count = 1 + random.below(MOST_WITH_W);
    let longest = *tableau.lengths()[..=first].iter().max()?;
    if longest + count > MOST_PLACES {
        return None;
    }
    let mut planted = Planted::new(tableau)?;
    let place = planted.assume_with(w, count, random);
    planted.not_fresh(first + planted.before_steps + 1, place)
}

/// A step by a word that is no rule any more, with the fields that older files
/// have or with others: among the steps, or after the last, where the tree is
/// closed.
pub fn former_rule(tableau: &Tableau, random: &mut Random) -> Damaged {
    let is_variable = |line: &Line| line.letter == 'T' && line.word == "rfv";
    let w = some_line(tableau, random, is_variable).map_or(0, |index| index as u32 + 1);
    let mut numbers = [0, 0, 0, w];
    for number in &mut numbers {
        if random.chance(1, 4) {
            *number = random.below(2) as u32 * random.digits();
        }
    }
    let steps_before = if random.chance(1, 4) {
        tableau.steps
    } else {
        random.below(tableau.steps)
    };
    let index = tableau.first_step() + steps_before;
    let mut lines = tableau.lines.clone();
    let entries = numbers.map(Entry::Name);
    lines.insert(index, plain_line('S', FORMER_RULE, entries));
    Some((text(&lines), refusal(4, index + 1)))
}

/// From some step on, a branch is closed by `ext` with a variable at random, on
/// all ne emp, which is assumed besides with its denial. So the file is still a
/// closed tableau if the variable is fresh there; whether it is, is not known.
pub fn variable_at_random(tableau: &Tableau, random: &mut Random) -> Option<Vec<u8>> {
    let is_variable = |line: &Line| line.letter == 'T' && line.word == "rfv";
    let w = Entry::Term(some_line(tableau, random, is_variable)? as u32 + 1);
    let from = some_line(tableau, random, |line| line.letter == 'S')?;
    let to = tableau.end_of_subtree(from);
    let mut planted = Planted::new(tableau)?;
    let all = planted.term("all", NONE);
    let emp = planted.term("emp", NONE);
    let equal = planted.assume((all, "eq", emp));
    let unequal = planted.assume((all, "ne", emp));
    let moved = planted.before_steps;
    planted.lines.drain(from + moved..to + moved);
    for _ in 0..2 {
        planted.step(from, "cls", [equal, unequal, NONE, NONE]);
    }
    planted.step(from, "ext", [unequal, NONE, NONE, w]);
    Some(text(&planted.lines))
}
