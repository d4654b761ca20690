//! Changes of a checker file whose reply is known: damage to its T, A and C
//! lines, and lines that begin an S line or nearly so.

use crate::generator::draft::sort_of_word;
use crate::generator::exact_damage::EXACT;
use crate::generator::tableau::{text, Entry};
use crate::generator::Expected;
use crate::random::Random;

use super::{checker_refusal, Evaluation, GoodPair, Pair};

type Damaged = Option<(Vec<u8>, Evaluation)>;
type Damage = fn(&GoodPair, &mut Random) -> Damaged;

/// The damage for checkers that T, A and C lines alone can have.
const BEFORE_STEPS: [&str; 13] = [
    "a line misshapen",
    "last LF dropped",
    "an unknown word",
    "an unused field",
    "a term doubled",
    "a number of no term",
    "sides of wrong sorts",
    "a clause numbered 0",
    "a gap in the clauses",
    "clauses going back",
    "a ninth literal",
    "a T or A line among the clauses",
    "a clause before an A line",
];

const CHANGES: [(&str, Damage); 8] = [
    ("a line before the steps damaged", line_damaged),
    ("a line before the steps damaged", line_damaged),
    ("a T line after an A or C line", term_late),
    ("a term of a wrong sort", wrong_sort),
    ("an S line put in", step_put_in),
    ("what comes after an S line", after_steps),
    ("nearly an S line put in", nearly_step_put_in),
    ("a D line in the checker file", fact_put_in),
];

/// Lines that begin an S line, whatever their shape.
const STEPS: [&[u8]; 8] = [
    b"S,",
    b"S,\n",
    b"S,cls,1,2,0,0\n",
    b"S,ref,0,0,1,0",
    b"S,fir,0,0,0,0,0\n",
    b"S,,,,,\n",
    b"S,in,00,01\n",
    b"S,\0\xff\r\n",
];

/// Lines that are read, and have no line's shape.
const NEARLY_STEPS: [&[u8]; 8] = [
    b"S\n",
    b"Sx,cls,1,2,0,0\n",
    b"SS,cls,1,2,0,0\n",
    b"s,cls,1,2,0,0\n",
    b" S,cls,1,2,0,0\n",
    b"S cls,1,2,0,0\n",
    b",S,cls,1,2,0\n",
    b"\n",
];

pub fn neighbour(good: &GoodPair, random: &mut Random) -> Pair {
    loop {
        let (kind, change) = random.pick(&CHANGES);
        if let Some((checker, expected)) = change(good, random) {
            return Pair {
                checker,
                expected,
                ..good.pair(kind)
            };
        }
    }
}

fn line_damaged(good: &GoodPair, random: &mut Random) -> Damaged {
    let wanted = random.pick(&BEFORE_STEPS);
    let (_, damage) = EXACT.iter().find(|(kind, _)| *kind == wanted)?;
    match damage(&good.table, random)? {
        (bytes, Expected::Reply([number, line, ..])) => {
            Some((bytes, checker_refusal(number, line as usize)))
        }
        _ => None,
    }
}

/// Even one with other faults.
fn term_late(good: &GoodPair, random: &mut Random) -> Damaged {
    let literals = good.truths.len();
    if literals == 0 {
        return None;
    }
    let mut lines = good.table.lines.clone();
    let mut line = lines[random.below(good.table.terms)].clone();
    if random.chance(1, 2) {
        line.word = random.pick(&["in", "zzz", "rfv"]);
        line.entries[3] = Entry::Name(1);
    }
    let index = good.table.terms + 1 + random.below(literals);
    lines.insert(index, line);
    Some((text(&lines), checker_refusal(3, index + 1)))
}

/// An argument or a side exchanged for a term of another sort.
fn wrong_sort(good: &GoodPair, random: &mut Random) -> Damaged {
    let mut lines = good.table.lines.clone();
    let index = random.below(lines.len());
    let terms = &good.table.lines[..index.min(good.table.terms)];
    let field = random.below(2);
    let Entry::Term(old) = lines[index].entries[field] else {
        return None;
    };
    let sort = |number: u32| sort_of_word(terms[number as usize - 1].word);
    let numbers = 1..=terms.len() as u32;
    let others: Vec<u32> = numbers.filter(|other| sort(*other) != sort(old)).collect();
    if others.is_empty() {
        return None;
    }
    lines[index].entries[field] = Entry::Term(random.pick(&others));
    Some((text(&lines), checker_refusal(9, index + 1)))
}

// Lines put in

/// The file with a line put in, or another text at its end.
fn with_line(good: &GoodPair, index: usize, line: &[u8]) -> Vec<u8> {
    let (before, after) = good.table.lines.split_at(index);
    [&text(before), line, &text(after)].concat()
}

fn some_index(good: &GoodPair, random: &mut Random) -> usize {
    random.below(good.table.lines.len() + 1)
}

/// What stands before it is read, and nothing more.
fn step_put_in(good: &GoodPair, random: &mut Random) -> Damaged {
    let index = some_index(good, random);
    let bytes = with_line(good, index, random.pick(&STEPS));
    Some((bytes, good.reply_to_lines(index)))
}

fn after_steps(good: &GoodPair, random: &mut Random) -> Damaged {
    let mut bytes = [good.table.bytes(), random.pick(&STEPS).to_vec()].concat();
    for _ in 0..random.below(40) {
        bytes.push(random.below(256) as u8);
    }
    Some((bytes, good.reply()))
}

fn nearly_step_put_in(good: &GoodPair, random: &mut Random) -> Damaged {
    let index = some_index(good, random);
    let mut line = random.pick(&NEARLY_STEPS);
    if index == good.table.lines.len() && random.chance(1, 2) {
        line = b"S";
    }
    Some((with_line(good, index, line), checker_refusal(2, index + 1)))
}

fn fact_put_in(good: &GoodPair, random: &mut Random) -> Damaged {
    let index = some_index(good, random);
    let line = good.heap.facts[random.below(good.heap.facts.len())].text();
    let bytes = with_line(good, index, line.as_bytes());
    Some((bytes, checker_refusal(2, index + 1)))
}
