//! Damaged neighbours of a closed tableau. Where the refusal isn't known from
//! the damage, the checkers still have to agree.

use crate::random::Random;

use super::aliases;
use super::bck_damage;
use super::exact_damage::{words_of, EXACT};
use super::planted;
use super::tableau::{text, Entry, Line, Tableau};
use super::{Expected, Sample};

type Blind = fn(&Tableau, &mut Random) -> Vec<u8>;

const BLIND: [(&str, Blind); 16] = [
    ("a number changed", number_changed),
    ("a number changed", number_changed),
    ("two fields exchanged", fields_exchanged),
    ("a word changed", word_changed),
    ("a line dropped", line_dropped),
    ("a line doubled", line_doubled),
    ("two lines exchanged", lines_exchanged),
    ("a line moved", line_moved),
    ("two alternatives exchanged", alternatives_exchanged),
    ("a variable taken at random", variable_at_random),
    ("bck put in", bck_damage::put_in),
    ("bck for another closing", bck_damage::for_another_closing),
    ("a byte changed", byte_changed),
    ("a byte dropped", byte_dropped),
    ("a byte doubled", byte_doubled),
    ("two bytes exchanged", bytes_exchanged),
];

pub fn neighbour(tableau: &Tableau, random: &mut Random) -> Sample {
    if random.chance(1, 2) {
        let (kind, damage) = random.pick(&EXACT);
        if let Some((bytes, expected)) = damage(tableau, random) {
            return Sample {
                kind,
                bytes,
                expected,
            };
        }
    }
    let (kind, damage) = random.pick(&BLIND);
    Sample {
        kind,
        bytes: damage(tableau, random),
        expected: Expected::Unknown,
    }
}

/// A number near the old one, one like it, or any.
fn other_number(old: u32, random: &mut Random) -> u32 {
    match random.below(5) {
        0 => old + 1,
        1 => old.saturating_sub(1),
        2 => random.below(old as usize + 5) as u32,
        3 => aliases::like(old, random),
        _ => random.digits(),
    }
}

/// A used field gets another number.
fn number_changed(tableau: &Tableau, random: &mut Random) -> Vec<u8> {
    let mut lines = tableau.lines.clone();
    for _ in 0..10 {
        let line = random.below(lines.len());
        let entry = &mut lines[line].entries[random.below(4)];
        *entry = match *entry {
            Entry::Unused => continue,
            Entry::Name(old) => Entry::Name(other_number(old, random)),
            Entry::Term(old) => Entry::Term(other_number(old, random)),
            Entry::Place(old) => Entry::Place(other_number(old, random)),
            Entry::Side(old) => Entry::Side(3 - old.min(3)),
            Entry::Clause(old) => Entry::Clause(other_number(old, random)),
        };
        break;
    }
    text(&lines)
}

fn fields_exchanged(tableau: &Tableau, random: &mut Random) -> Vec<u8> {
    let mut lines = tableau.lines.clone();
    let line = random.below(lines.len());
    lines[line].entries.swap(random.below(4), random.below(4));
    text(&lines)
}

/// Another word of the same letter, its fields as they were.
fn word_changed(tableau: &Tableau, random: &mut Random) -> Vec<u8> {
    let mut lines = tableau.lines.clone();
    let line = random.below(lines.len());
    lines[line].word = random.pick(words_of(lines[line].letter));
    text(&lines)
}

fn line_dropped(tableau: &Tableau, random: &mut Random) -> Vec<u8> {
    let mut lines = tableau.lines.clone();
    lines.remove(random.below(lines.len()));
    text(&lines)
}

fn line_doubled(tableau: &Tableau, random: &mut Random) -> Vec<u8> {
    let mut lines = tableau.lines.clone();
    let line = random.below(lines.len());
    lines.insert(line, lines[line].clone());
    text(&lines)
}

/// Two lines of the same kind, so that more than the order of kinds is tried.
fn lines_exchanged(tableau: &Tableau, random: &mut Random) -> Vec<u8> {
    let mut lines = tableau.lines.clone();
    let one = random.below(lines.len());
    let same = |other: &usize| lines[*other].letter == lines[one].letter;
    let others: Vec<usize> = (0..lines.len()).filter(same).collect();
    lines.swap(one, random.pick(&others));
    text(&lines)
}

fn line_moved(tableau: &Tableau, random: &mut Random) -> Vec<u8> {
    let mut lines = tableau.lines.clone();
    let line: Line = lines.remove(random.below(lines.len()));
    lines.insert(random.below(lines.len() + 1), line);
    text(&lines)
}

/// The lines of one alternative put before those of another.
fn alternatives_exchanged(tableau: &Tableau, random: &mut Random) -> Vec<u8> {
    let alternatives = tableau.alternatives();
    if alternatives.is_empty() {
        return line_moved(tableau, random);
    }
    let (from, to) = random.pick(&alternatives);
    let (before, _) = random.pick(&alternatives);
    let mut lines = tableau.lines.clone();
    let moved: Vec<Line> = lines.drain(from..to).collect();
    let place = if before <= from {
        before
    } else {
        before.saturating_sub(to - from).max(from)
    };
    lines.splice(place..place, moved);
    text(&lines)
}

fn variable_at_random(tableau: &Tableau, random: &mut Random) -> Vec<u8> {
    planted::variable_at_random(tableau, random).unwrap_or_else(|| word_changed(tableau, random))
}

const BYTES: &[u8] = b"TACS,,,\n\n0123456789abcdefghilmnprstuwy -\r\0\xff";

fn byte_changed(tableau: &Tableau, random: &mut Random) -> Vec<u8> {
    let mut bytes = tableau.bytes();
    let index = random.below(bytes.len());
    bytes[index] = if random.chance(3, 4) {
        random.pick(BYTES)
    } else {
        random.below(256) as u8
    };
    bytes
}

fn byte_dropped(tableau: &Tableau, random: &mut Random) -> Vec<u8> {
    let mut bytes = tableau.bytes();
    bytes.remove(random.below(bytes.len()));
    bytes
}

fn byte_doubled(tableau: &Tableau, random: &mut Random) -> Vec<u8> {
    let mut bytes = tableau.bytes();
    let index = random.below(bytes.len());
    bytes.insert(index, bytes[index]);
    bytes
}

fn bytes_exchanged(tableau: &Tableau, random: &mut Random) -> Vec<u8> {
    let mut bytes = tableau.bytes();
    let index = random.below(bytes.len() - 1);
    bytes.swap(index, index + 1);
    bytes
}
