//! Damage to the steps by `fin` of a closed tableau, and to what they need.

use crate::random::Random;

use super::draft::denial;
use super::exact_damage::{some_line, Damaged};
use super::refusal;
use super::tableau::{plain_line, text, Entry, Line, Tableau};

/// An assumption cup(r,i) eq i, by its line, and the first step that uses it,
/// which is one by `fin`. A `bck` names no place, and may use it too.
fn assumed_premise(tableau: &Tableau, random: &mut Random) -> Option<(usize, usize)> {
    let is_assumed = |place: u32| place as usize <= tableau.assumptions;
    let by_assumption = |line: &Line| line.word == "fin" && is_assumed(line.entries[0].number());
    let index = some_line(tableau, random, by_assumption)?;
    let place = tableau.lines[index].entries[0];
    let uses_it = |line: &Line| line.entries.contains(&place) || line.word == "bck";
    let first = tableau.lines.iter().position(uses_it)?;
    let assumption = tableau.terms + place.number() as usize - 1;
    (tableau.lines[first].word == "fin").then_some((assumption, first))
}

/// An assumption that `fin` needs becomes another of the same variables: its
/// sides exchanged, denied, with the union turned around, or what `fin` adds.
pub fn premise_changed(tableau: &Tableau, random: &mut Random) -> Damaged {
    let (assumption, step) = assumed_premise(tableau, random)?;
    let [turned, r] = tableau.lines[step].mentions[..] else {
        return None;
    };
    let mut lines = tableau.lines.clone();
    let line = &mut lines[assumption];
    match random.below(4) {
        0 => line.entries.swap(0, 1),
        1 => line.word = denial(line.word),
        2 => line.entries[0] = Entry::Term(turned),
        _ => line.entries[..2].copy_from_slice(&[turned, r].map(Entry::Term)),
    }
    Some((text(&lines), refusal(12, step + 1)))
}

/// `fin` again, on the literal that it has just added.
pub fn on_its_conclusion(tableau: &Tableau, random: &mut Random) -> Damaged {
    let index = some_line(tableau, random, |line| line.word == "fin")?;
    let place = Entry::Place(tableau.place_added(index) as u32);
    let entries = [place, Entry::Unused, Entry::Unused, Entry::Unused];
    let mut lines = tableau.lines.clone();
    lines.insert(index + 1, plain_line('S', "fin", entries));
    Some((text(&lines), refusal(12, index + 2)))
}
