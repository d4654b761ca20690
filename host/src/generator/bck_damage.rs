//! Damage to a closed tableau by `bck`: a field where it has none, after the tree
//! is closed, as a word of other letters, and where nobody knows whether it
//! closes.

use crate::random::Random;

use super::aliases;
use super::exact_damage::{changed, some_line, Damaged};
use super::refusal;
use super::tableau::{plain_line, text, Entry, Line, Tableau};

fn is_bck(line: &Line) -> bool {
    line.word == "bck"
}

/// `bck` with one of its fields, or with some of them.
fn with_fields(random: &mut Random) -> Line {
    let mut entries = [Entry::Unused; 4];
    for _ in 0..random.below(4) {
        entries[random.below(4)] = Entry::Name(aliases::not_0(random));
    }
    plain_line('S', "bck", entries)
}

pub fn field_used(tableau: &Tableau, random: &mut Random) -> Damaged {
    let index = some_line(tableau, random, is_bck)?;
    let some_term = 1 + random.below(tableau.terms) as u32;
    let any = aliases::not_0(random);
    let number = random.pick(&[1, some_term, any]);
    changed(tableau, index, random.below(4), Entry::Name(number), 6)
}

/// On the closed tree 5 comes before 6 and 12.
pub fn after_the_end(tableau: &Tableau, random: &mut Random) -> Damaged {
    let mut lines = tableau.lines.clone();
    lines.push(with_fields(random));
    Some((text(&lines), refusal(5, lines.len())))
}

pub fn word_of_another_letter(tableau: &Tableau, random: &mut Random) -> Damaged {
    let index = some_line(tableau, random, |line| line.letter != 'S')?;
    let mut lines = tableau.lines.clone();
    lines[index].word = "bck";
    Some((text(&lines), refusal(4, index + 1)))
}

/// Before some step, where the branch may be closed by it or not.
pub fn put_in(tableau: &Tableau, random: &mut Random) -> Vec<u8> {
    let mut lines = tableau.lines.clone();
    let index = tableau.first_step() + random.below(tableau.steps + 1);
    let line = plain_line('S', "bck", [Entry::Unused; 4]);
    lines.insert(index, line);
    text(&lines)
}

/// In place of another closing, which may be one of members.
pub fn for_another_closing(tableau: &Tableau, random: &mut Random) -> Vec<u8> {
    let mut lines = tableau.lines.clone();
    let is_other = |line: &Line| line.closes() && !is_bck(line);
    if let Some(index) = some_line(tableau, random, is_other) {
        lines[index] = plain_line('S', "bck", [Entry::Unused; 4]);
    }
    text(&lines)
}
