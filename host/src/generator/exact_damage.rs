//! Damage to a closed tableau whose refusal is known from what was damaged.
//! Each gives `None` when the tableau has nothing to damage in this way.

use std::collections::HashSet;

use crate::numbers::GREATEST;
use crate::random::Random;

use super::aliases;
use super::bck_damage;
use super::clause_damage;
use super::counting_damage;
use super::draft::{MOST_PLACES, MOST_TERMS};
use super::planted;
use super::tableau::{text, Entry, Line, Tableau};
use super::{not_fresh, refusal, Expected};

pub type Damaged = Option<(Vec<u8>, Expected)>;
pub type Damage = fn(&Tableau, &mut Random) -> Damaged;

pub const EXACT: [(&str, Damage); 43] = [
    ("last closing dropped", last_closing_dropped),
    ("last closing doubled", last_closing_doubled),
    ("a line misshapen", misshapen),
    ("last LF dropped", last_lf_dropped),
    ("a line of an earlier kind at the end", earlier_kind),
    ("an unknown word", unknown_word),
    ("an unused field", unused_field),
    ("a term doubled", term_doubled),
    ("a number of no term", no_such_term),
    ("sides of wrong sorts", wrong_sorts),
    ("a place not on the branch", no_such_place),
    ("a closing turned around", closing_turned),
    ("no side of a literal", no_such_side),
    ("a fresh variable taken twice", taken_twice),
    ("a term looked up left out", looked_up_left_out),
    ("a closing dropped", closing_dropped),
    ("a closing doubled", closing_doubled),
    ("a split dropped", split_dropped),
    ("a split doubled", split_doubled),
    ("an alternative left out", alternative_left_out),
    ("names taken for terms", planted::names_taken_for_terms),
    ("no arguments to substitute in", planted::no_arguments),
    ("no variable taken as fresh", planted::no_variable),
    ("w inside a right side", planted::inside_on_the_right),
    ("w inside both sides", planted::inside_on_both_sides),
    ("w as a left side", planted::on_the_left),
    ("w in a clause only", planted::in_a_clause_only),
    ("w in a clause too", planted::in_a_clause_too),
    ("w in assumptions", planted::in_assumptions),
    ("a step by fir", planted::former_rule),
    ("a field of bck", bck_damage::field_used),
    ("bck on a closed tree", bck_damage::after_the_end),
    (
        "bck under another letter",
        bck_damage::word_of_another_letter,
    ),
    ("a clause numbered 0", clause_damage::number_0),
    ("a gap in the clauses", clause_damage::gap),
    ("clauses going back", clause_damage::going_back),
    ("a ninth literal", clause_damage::ninth_literal),
    (
        "a T or A line among the clauses",
        clause_damage::earlier_kind_among,
    ),
    (
        "a clause before an A line",
        clause_damage::clause_before_assumption,
    ),
    ("a split of no clause", clause_damage::no_such_clause),
    (
        "a clause without its last alternative",
        clause_damage::last_alternative_left_out,
    ),
    (
        "an assumption for fin changed",
        counting_damage::premise_changed,
    ),
    (
        "fin on its own conclusion",
        counting_damage::on_its_conclusion,
    ),
];

/// A random line that is as asked.
pub fn some_line(
    tableau: &Tableau,
    random: &mut Random,
    asked: impl Fn(&Line) -> bool,
) -> Option<usize> {
    let all = 0..tableau.lines.len();
    let found: Vec<usize> = all.filter(|index| asked(&tableau.lines[*index])).collect();
    if found.is_empty() {
        return None;
    }
    Some(random.pick(&found))
}

/// A random field, by its line and its number from 0, that is as asked.
fn some_entry(
    tableau: &Tableau,
    random: &mut Random,
    asked: impl Fn(&Line, Entry) -> bool,
) -> Option<(usize, usize)> {
    let fits = |line: &Line, field: usize| asked(line, line.entries[field]);
    let index = some_line(tableau, random, |line| {
        (0..4).any(|field| fits(line, field))
    })?;
    let fields: Vec<usize> = (0..4)
        .filter(|field| fits(&tableau.lines[index], *field))
        .collect();
    Some((index, random.pick(&fields)))
}

/// The file with one field changed, refused at that line.
pub fn changed(tableau: &Tableau, index: usize, field: usize, new: Entry, number: u32) -> Damaged {
    let mut lines = tableau.lines.clone();
    lines[index].entries[field] = new;
    Some((text(&lines), refusal(number, index + 1)))
}

fn with_doubled(tableau: &Tableau, index: usize) -> Vec<u8> {
    let mut lines = tableau.lines.clone();
    lines.insert(index, lines[index].clone());
    text(&lines)
}

pub fn without(tableau: &Tableau, from: usize, to: usize) -> Vec<u8> {
    let mut lines = tableau.lines.clone();
    lines.drain(from..to);
    text(&lines)
}

fn last_closing_dropped(tableau: &Tableau, _: &mut Random) -> Damaged {
    let last = tableau.lines.len() - 1;
    Some((without(tableau, last, last + 1), refusal(17, last + 1)))
}

fn last_closing_doubled(tableau: &Tableau, _: &mut Random) -> Damaged {
    let last = tableau.lines.len() - 1;
    Some((with_doubled(tableau, last), refusal(5, last + 2)))
}

fn misshapen(tableau: &Tableau, random: &mut Random) -> Damaged {
    let index = random.below(tableau.lines.len());
    let mut texts: Vec<String> = tableau.lines.iter().map(Line::text).collect();
    let bad = bad_shape(&texts[index], random);
    texts[index] = bad;
    Some((texts.concat().into_bytes(), refusal(2, index + 1)))
}

/// The line, LF and all, changed so that it has a bad shape.
pub fn bad_shape(line: &str, random: &mut Random) -> String {
    let mut fields: Vec<&str> = line.trim_end().split(',').collect();
    let field = 2 + random.below(4);
    let bad_number = random.pick(&[
        "", "00", "01", "0001", "00000", "00001", "-1", "+1", " 1", "1 ", "1a", "a", "1.0",
        "\"1\"", "1\r",
    ]);
    let too_long = too_many_digits(random);
    match random.below(6) {
        0 => fields[0] = random.pick(&["", "t", "a", "s", "B", "TT", "0", " T"]),
        1 => fields[1] = random.pick(&["", "a", "cuts", "Cut", "IN", "r1f", "in ", "no-"]),
        2 => {
            fields.remove(field);
        }
        3 => fields.insert(field, "0"),
        4 => fields[field] = bad_number,
        _ => fields[field] = &too_long,
    }
    fields.join(",") + "\n"
}

/// Six digits, or so many that 32 bits have no room for the number.
fn too_many_digits(random: &mut Random) -> String {
    let least = GREATEST as usize + 1;
    let six = least + random.below(9 * least);
    let beyond = (1 << 32) + random.below(1_000);
    random.pick(&[six, six, six, beyond]).to_string()
}

fn last_lf_dropped(tableau: &Tableau, _: &mut Random) -> Damaged {
    let mut bytes = tableau.bytes();
    bytes.pop();
    Some((bytes, refusal(2, tableau.lines.len())))
}

/// A T, A or C line after the steps, even a good one.
fn earlier_kind(tableau: &Tableau, random: &mut Random) -> Damaged {
    let index = some_line(tableau, random, |line| line.letter != 'S')?;
    let mut lines = tableau.lines.clone();
    lines.push(lines[index].clone());
    Some((text(&lines), refusal(3, lines.len())))
}

const TERM_WORDS: [&str; 17] = [
    "nul", "rfv", "rea", "emp", "all", "rgv", "cup", "cap", "dif", "sin", "img", "arv", "wri",
    "fnv", "clv", "typ", "dty",
];
const LITERAL_WORDS: [&str; 6] = ["in", "ni", "eq", "ne", "le", "nl"];
/// The rules.
pub const RULES: [&str; 32] = [
    "eqr", "eql", "ext", "cpe", "cpi", "cue", "cui", "dfe", "dfi", "sge", "sgi", "cut", "all",
    "nul", "sep", "img", "wit", "ref", "sym", "trn", "sub", "rep", "ler", "let", "lea", "rdh",
    "rdm", "cla", "fin", "cls", "emp", "bck",
];
/// A rule in older files; now no letter has the word.
pub const FORMER_RULE: &str = "fir";

/// The words known for a letter.
pub fn words_of(letter: char) -> &'static [&'static str] {
    match letter {
        'T' => &TERM_WORDS,
        'A' | 'C' => &LITERAL_WORDS,
        _ => &RULES,
    }
}

fn unknown_word(tableau: &Tableau, random: &mut Random) -> Damaged {
    let index = random.below(tableau.lines.len());
    let letter = tableau.lines[index].letter;
    let other = random.pick(&['T', 'A', 'S']);
    let mut word = random.pick(words_of(other));
    if words_of(letter).contains(&word) {
        word = random.pick(&["zz", "aa", "zzz", "cuu", "inn", "eqs", "nu", "tw"]);
    }
    let mut lines = tableau.lines.clone();
    lines[index].word = word;
    Some((text(&lines), refusal(4, index + 1)))
}

fn unused_field(tableau: &Tableau, random: &mut Random) -> Damaged {
    let unused = |_: &Line, entry: Entry| entry == Entry::Unused;
    let (index, field) = some_entry(tableau, random, unused)?;
    let number = aliases::not_0(random);
    changed(tableau, index, field, Entry::Name(number), 6)
}

fn term_doubled(tableau: &Tableau, random: &mut Random) -> Damaged {
    if tableau.terms >= MOST_TERMS {
        return None;
    }
    let index = random.below(tableau.terms);
    Some((with_doubled(tableau, index), refusal(10, index + 2)))
}

/// A term field with a number too high, or 0; a name 0.
fn no_such_term(tableau: &Tableau, random: &mut Random) -> Damaged {
    let of_term = |_: &Line, entry: Entry| matches!(entry, Entry::Term(_) | Entry::Name(_));
    let (index, field) = some_entry(tableau, random, of_term)?;
    let line = &tableau.lines[index];
    let known = if line.letter == 'T' {
        index
    } else {
        tableau.terms
    };
    let new = match line.entries[field] {
        Entry::Term(old) if random.chance(3, 4) => aliases::above(known, old, random),
        _ => 0,
    };
    changed(tableau, index, field, Entry::Term(new), 8)
}

/// Both sides of `in`, `ni` or `cut` exchanged.
fn wrong_sorts(tableau: &Tableau, random: &mut Random) -> Damaged {
    let asked = |line: &Line| match line.letter {
        'A' | 'C' => matches!(line.word, "in" | "ni"),
        'S' => line.word == "cut",
        _ => false,
    };
    let index = some_line(tableau, random, asked)?;
    let mut lines = tableau.lines.clone();
    let entries = &mut lines[index].entries;
    match tableau.lines[index].letter {
        'A' | 'C' => entries.swap(0, 1),
        _ => entries.swap(2, 3),
    }
    Some((text(&lines), refusal(9, index + 1)))
}

fn no_such_place(tableau: &Tableau, random: &mut Random) -> Damaged {
    let of_place = |_: &Line, entry: Entry| matches!(entry, Entry::Place(_));
    let (index, field) = some_entry(tableau, random, of_place)?;
    let old = tableau.lines[index].entries[field].number();
    let above = aliases::above(MOST_PLACES, old, random);
    let new = random.pick(&[0, above]);
    changed(tableau, index, field, Entry::Place(new), 11)
}

/// `cls` with the denial first.
fn closing_turned(tableau: &Tableau, random: &mut Random) -> Damaged {
    let index = some_line(tableau, random, |line| line.word == "cls")?;
    let mut lines = tableau.lines.clone();
    lines[index].entries.swap(0, 1);
    Some((text(&lines), refusal(12, index + 1)))
}

fn no_such_side(tableau: &Tableau, random: &mut Random) -> Damaged {
    let of_side = |_: &Line, entry: Entry| matches!(entry, Entry::Side(_));
    let (index, field) = some_entry(tableau, random, of_side)?;
    let old = tableau.lines[index].entries[field].number();
    let above = aliases::above(2, old, random);
    let new = random.pick(&[0, above]);
    changed(tableau, index, field, Entry::Side(new), 12)
}

/// The step again, before all its branches are closed. The first literal of
/// each of its alternatives has its variable in it, and no literal before.
fn taken_twice(tableau: &Tableau, random: &mut Random) -> Damaged {
    let index = some_line(tableau, random, Line::takes_fresh)?;
    let mut again = index + 1;
    if random.chance(2, 3) {
        again += random.below(tableau.end_of_subtree(index) - again);
    }
    let mut lines = tableau.lines.clone();
    lines.insert(again, lines[index].clone());
    let place = tableau.place_added(index);
    Some((text(&lines), not_fresh(again + 1, place)))
}

/// Leaves out a term that no line names and that a step finds in the table.
fn looked_up_left_out(tableau: &Tableau, random: &mut Random) -> Damaged {
    let entries = tableau.lines.iter().flat_map(|line| line.entries);
    let named: HashSet<Entry> = entries.collect();
    let steps = tableau.lines.iter().flat_map(|line| &line.mentions);
    let unnamed: Vec<u32> = steps
        .copied()
        .filter(|number| !named.contains(&Entry::Term(*number)))
        .collect();
    if unnamed.is_empty() {
        return None;
    }
    let gone = random.pick(&unnamed);
    let first = tableau
        .lines
        .iter()
        .position(|line| line.mentions.contains(&gone))?;
    let mut lines = tableau.lines.clone();
    lines.remove(gone as usize - 1);
    for entry in lines.iter_mut().flat_map(|line| &mut line.entries) {
        if let Entry::Term(number) = entry {
            *number -= u32::from(*number > gone);
        }
    }
    // One line less stands before the step.
    Some((text(&lines), refusal(14, first)))
}

/// As many closings are needed as alternatives were added, and one. So a file
/// that lacks or has one too many can't be accepted.
pub fn miscounted(bytes: Vec<u8>) -> Damaged {
    Some((bytes, Expected::Refused))
}

fn closing_dropped(tableau: &Tableau, random: &mut Random) -> Damaged {
    let index = some_line(tableau, random, |line| line.closes())?;
    miscounted(without(tableau, index, index + 1))
}

fn closing_doubled(tableau: &Tableau, random: &mut Random) -> Damaged {
    let index = some_line(tableau, random, |line| line.closes())?;
    miscounted(with_doubled(tableau, index))
}

fn split_dropped(tableau: &Tableau, random: &mut Random) -> Damaged {
    let index = some_line(tableau, random, |line| line.pushes() > 0)?;
    miscounted(without(tableau, index, index + 1))
}

fn split_doubled(tableau: &Tableau, random: &mut Random) -> Damaged {
    let index = some_line(tableau, random, |line| line.pushes() > 0)?;
    miscounted(with_doubled(tableau, index))
}

fn alternative_left_out(tableau: &Tableau, random: &mut Random) -> Damaged {
    let alternatives = tableau.alternatives();
    if alternatives.is_empty() {
        return None;
    }
    let (from, to) = random.pick(&alternatives);
    let bytes = without(tableau, from, to);
    if to == tableau.lines.len() {
        return Some((bytes, refusal(17, from + 1)));
    }
    miscounted(bytes)
}
