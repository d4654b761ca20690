//! Damage to the clauses of a closed tableau, and to the steps that split them.

use crate::random::Random;

use super::aliases;
use super::draft::MOST_IN_CLAUSE;
use super::exact_damage::{changed, miscounted, some_line, without, Damaged};
use super::refusal;
use super::tableau::{text, Entry, Line, Tableau};

/// Where a C line, or a step that splits a clause, has the clause's number.
const NUMBER: usize = 2;

/// A C line, and the number of the clause on the line before it, or 0.
fn some_clause_line(tableau: &Tableau, random: &mut Random) -> Option<(usize, usize)> {
    let index = some_line(tableau, random, |line| line.letter == 'C')?;
    let before = tableau.lines[..index].last()?;
    let is_clause = before.letter == 'C';
    let last = if is_clause { before.clause() } else { 0 };
    Some((index, last as usize))
}

/// The file with another number on a C line, refused there.
fn renumbered(tableau: &Tableau, index: usize, number: u32) -> Damaged {
    changed(tableau, index, NUMBER, Entry::Clause(number), 21)
}

pub fn number_0(tableau: &Tableau, random: &mut Random) -> Damaged {
    let (index, _) = some_clause_line(tableau, random)?;
    renumbered(tableau, index, 0)
}

pub fn gap(tableau: &Tableau, random: &mut Random) -> Damaged {
    let (index, last) = some_clause_line(tableau, random)?;
    let old = tableau.lines[index].clause();
    renumbered(tableau, index, aliases::above(last + 1, old, random))
}

pub fn going_back(tableau: &Tableau, random: &mut Random) -> Damaged {
    let (index, last) = some_clause_line(tableau, random)?;
    if last < 2 {
        return None;
    }
    let further = random.below(last - 1);
    let number = last - 1 - random.pick(&[0, further]);
    renumbered(tableau, index, number as u32)
}

pub fn ninth_literal(tableau: &Tableau, random: &mut Random) -> Damaged {
    let clauses = tableau.clause_ranges();
    if clauses.is_empty() {
        return None;
    }
    let (from, to) = random.pick(&clauses);
    let mut lines = tableau.lines.clone();
    let more = MOST_IN_CLAUSE + 1 - (to - from);
    lines.splice(to..to, vec![lines[from].clone(); more]);
    Some((text(&lines), refusal(21, from + MOST_IN_CLAUSE + 1)))
}

/// A T or A line among the C lines, or directly after them.
pub fn earlier_kind_among(tableau: &Tableau, random: &mut Random) -> Damaged {
    if tableau.clauses == 0 {
        return None;
    }
    let mut lines = tableau.lines.clone();
    let moved = lines[random.below(tableau.first_clause_line())].clone();
    let index = tableau.first_clause_line() + 1 + random.below(tableau.clause_lines);
    lines.insert(index, moved);
    Some((text(&lines), refusal(3, index + 1)))
}

/// The first C line before an A line, which then comes too late.
pub fn clause_before_assumption(tableau: &Tableau, random: &mut Random) -> Damaged {
    if tableau.clauses == 0 || tableau.assumptions == 0 {
        return None;
    }
    let mut lines = tableau.lines.clone();
    let moved = lines[tableau.first_clause_line()].clone();
    let index = tableau.terms + random.below(tableau.assumptions);
    lines.insert(index, moved);
    Some((text(&lines), refusal(3, index + 2)))
}

fn some_split(tableau: &Tableau, random: &mut Random) -> Option<usize> {
    some_line(tableau, random, |line: &Line| line.word == "cla")
}

pub fn no_such_clause(tableau: &Tableau, random: &mut Random) -> Damaged {
    let index = some_split(tableau, random)?;
    let old = tableau.lines[index].clause();
    let above = aliases::above(tableau.clauses, old, random);
    let number = random.pick(&[0, above]);
    changed(tableau, index, NUMBER, Entry::Clause(number), 11)
}

/// The lines of the last alternative of a clause left out, which is what a
/// split without its last literal would accept.
pub fn last_alternative_left_out(tableau: &Tableau, random: &mut Random) -> Damaged {
    let index = some_split(tableau, random)?;
    let mut from = index + 1;
    for _ in 0..tableau.lines[index].pushes() {
        from = tableau.end_of_subtree(from);
    }
    let to = tableau.end_of_subtree(from);
    let bytes = without(tableau, from, to);
    if to == tableau.lines.len() {
        return Some((bytes, refusal(17, from + 1)));
    }
    miscounted(bytes)
}
