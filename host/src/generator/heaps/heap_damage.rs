//! Damage to a heap file whose refusal is known from what was damaged. Each
//! gives `None` when the file has nothing to damage in this way.

use crate::generator::aliases;
use crate::generator::exact_damage::bad_shape;
use crate::numbers::GREATEST;
use crate::random::Random;

use super::heap_file::{fact, Fact, HeapFile, Kind, LIMITS};
use super::{heap_refusal, Evaluation, GoodPair, Pair};

type Damaged = Option<(Vec<u8>, Evaluation)>;
type Damage = fn(&HeapFile, &mut Random) -> Damaged;

const EXACT: [(&str, Damage); 23] = [
    ("a D line misshapen", misshapen),
    ("a D line with another letter", another_letter),
    ("an empty line", empty_line),
    ("last LF of the heap file dropped", last_lf_dropped),
    ("no D line", no_lines),
    ("sizes missing", sizes_missing),
    ("sizes not first", sizes_later),
    ("sizes again", sizes_again),
    ("an unknown word of a D line", unknown_word),
    ("an unused field of a D line", unused_field),
    ("a size out of range", size_out_of_range),
    ("a number out of range", out_of_range),
    ("a number out of range", out_of_range),
    ("the last of a range", last_of_range),
    ("a subject given twice", given_twice),
    ("a subject given twice", given_twice),
    ("a class under itself", class_under_itself),
    ("`nul` allocated", nul_allocated),
    ("a member that is never allocated", never_allocated),
    ("a member allocated later", allocated_later),
    ("an order that isn't transitive", not_transitive),
    ("an order that isn't antisymmetric", not_antisymmetric),
    ("no order, and a bad D line", no_order_and_bad_line),
];

pub fn neighbour(good: &GoodPair, random: &mut Random) -> Pair {
    loop {
        let (kind, damage) = random.pick(&EXACT);
        if let Some((heap, expected)) = damage(&good.heap, random) {
            return Pair {
                heap,
                expected,
                ..good.pair(kind)
            };
        }
    }
}

/// The file, refused at the fact of this index.
fn refused(file: &HeapFile, number: u32, index: usize) -> Damaged {
    Some((file.bytes(), heap_refusal(number, index + 1)))
}

fn some_of(indices: &[usize], random: &mut Random) -> Option<usize> {
    (!indices.is_empty()).then(|| random.pick(indices))
}

/// The index of a fact other than the sizes.
fn some_fact(file: &HeapFile, random: &mut Random) -> Option<usize> {
    some_of(&file.all_with(|fact| fact.word != "siz"), random)
}

// Lines

/// The file with another text for one line.
fn with_text(file: &HeapFile, index: usize, text: String) -> Vec<u8> {
    let mut texts: Vec<String> = file.facts.iter().map(Fact::text).collect();
    texts[index] = text;
    texts.concat().into_bytes()
}

fn misshapen(file: &HeapFile, random: &mut Random) -> Damaged {
    let index = random.below(file.facts.len());
    let text = bad_shape(&file.facts[index].text(), random);
    Some((with_text(file, index, text), heap_refusal(2, index + 1)))
}

fn another_letter(file: &HeapFile, random: &mut Random) -> Damaged {
    let index = random.below(file.facts.len());
    let letter = random.pick(&["T", "A", "S", "C", "E", "d", "DD", ""]);
    let text = file.facts[index].text().replacen('D', letter, 1);
    Some((with_text(file, index, text), heap_refusal(2, index + 1)))
}

fn empty_line(file: &HeapFile, random: &mut Random) -> Damaged {
    let index = random.below(file.facts.len());
    let text = format!("\n{}", file.facts[index].text());
    Some((with_text(file, index, text), heap_refusal(2, index + 1)))
}

fn last_lf_dropped(file: &HeapFile, _: &mut Random) -> Damaged {
    let mut bytes = file.bytes();
    bytes.pop();
    Some((bytes, heap_refusal(2, file.facts.len())))
}

fn no_lines(_: &HeapFile, _: &mut Random) -> Damaged {
    Some((Vec::new(), heap_refusal(3, 1)))
}

// The sizes

fn sizes_missing(file: &HeapFile, _: &mut Random) -> Damaged {
    refused(&file.without(0), 3, 0)
}

fn sizes_later(file: &HeapFile, random: &mut Random) -> Damaged {
    let index = some_fact(file, random)?;
    let mut changed = file.clone();
    changed.facts.swap(0, index);
    refused(&changed, 3, 0)
}

/// Whatever its fields.
fn sizes_again(file: &HeapFile, random: &mut Random) -> Damaged {
    let index = file.some_index(random);
    let mut again = file.facts[0].clone();
    if random.chance(1, 2) {
        again.numbers[random.below(4)] = random.pick(&[0, 1, 99, GREATEST]);
    }
    refused(&file.with(index, again), 3, index)
}

fn size_out_of_range(file: &HeapFile, random: &mut Random) -> Damaged {
    let mut changed = file.clone();
    let field = random.below(LIMITS.len());
    let size = &mut changed.facts[0].numbers[field];
    let above = aliases::above(LIMITS[field] as usize, *size, random);
    *size = random.pick(&[0, above]);
    refused(&changed, 19, 0)
}

// Words and fields

/// On the first line it is the sizes that are missed.
fn unknown_word(file: &HeapFile, random: &mut Random) -> Damaged {
    let index = random.below(file.facts.len());
    let mut changed = file.clone();
    changed.facts[index].word = random.pick(&[
        "zz", "zzz", "in", "eq", "all", "nul", "wri", "al", "sia", "fir",
    ]);
    refused(&changed, if index == 0 { 3 } else { 4 }, index)
}

fn unused_field(file: &HeapFile, random: &mut Random) -> Damaged {
    let index = some_of(&file.all_with(|fact| fact.kinds().len() < 4), random)?;
    let mut changed = file.clone();
    let fact = &mut changed.facts[index];
    let used = fact.kinds().len();
    fact.numbers[used + random.below(4 - used)] = aliases::not_0(random);
    // A field out of its range too is no matter.
    if random.chance(1, 4) {
        fact.numbers[0] = GREATEST;
    }
    refused(&changed, 6, index)
}

fn out_of_range(file: &HeapFile, random: &mut Random) -> Damaged {
    let index = some_fact(file, random)?;
    let mut changed = file.clone();
    let fact = &mut changed.facts[index];
    let field = random.below(fact.kinds().len());
    fact.numbers[field] = match fact.kinds()[field] {
        Kind::Name => 0,
        kind => {
            let last = file.count(kind) as usize - 1;
            aliases::above(last, fact.numbers[field], random)
        }
    };
    refused(&changed, 19, index)
}

/// A value at the end of its range, which is no damage; what is true then is
/// not known.
fn last_of_range(file: &HeapFile, random: &mut Random) -> Damaged {
    let index = some_of(&file.all_with(|fact| fact.value_field().is_some()), random)?;
    let mut changed = file.clone();
    let fact = &mut changed.facts[index];
    let field = fact.value_field()?;
    fact.numbers[field] = file.count(fact.kinds()[field]) - 1;
    Some((changed.bytes(), Evaluation::Unknown))
}

// What a line speaks of

/// With the same value or another, anywhere behind.
fn given_twice(file: &HeapFile, random: &mut Random) -> Damaged {
    let index = some_fact(file, random)?;
    let mut again = file.facts[index].clone();
    if let Some(field) = again.value_field() {
        let count = file.count(again.kinds()[field]);
        again.numbers[field] = random.below(count as usize) as u32;
    }
    assert!(again.same_subject(&file.facts[index]));
    let behind = index + 1 + random.below(file.facts.len() - index);
    refused(&file.with(behind, again), 19, behind)
}

fn class_under_itself(file: &HeapFile, random: &mut Random) -> Damaged {
    let index = file.some_index(random);
    let class = random.below(file.count(Kind::Class) as usize) as u32;
    refused(&file.with(index, fact("sub", &[class, class])), 19, index)
}

fn nul_allocated(file: &HeapFile, random: &mut Random) -> Damaged {
    let index = file.some_index(random);
    refused(&file.with(index, fact("alc", &[0])), 19, index)
}

fn never_allocated(file: &HeapFile, random: &mut Random) -> Damaged {
    let allocated = |reference: u32| {
        let mut facts = file.facts.iter();
        facts.any(|fact| fact.word == "alc" && fact.numbers[0] == reference)
    };
    let references = 0..file.count(Kind::Reference);
    let others: Vec<u32> = references.filter(|one| !allocated(*one)).collect();
    let member = random.pick(&others);
    let index = file.some_index(random);
    let name = random.digits();
    refused(&file.with(index, fact("rgv", &[name, member])), 19, index)
}

/// The `alc` of a member moved behind the first line that needs it, or left
/// out.
fn allocated_later(file: &HeapFile, random: &mut Random) -> Damaged {
    let index = some_of(&file.all_with(|fact| fact.word == "rgv"), random)?;
    let member = file.facts[index].numbers[1];
    let needs = |fact: &Fact| fact.word == "rgv" && fact.numbers[1] == member;
    let gives = |fact: &Fact| fact.word == "alc" && fact.numbers[0] == member;
    let allocation = file.facts.iter().position(gives)?;
    let mut changed = file.without(allocation);
    let first = changed.facts.iter().position(needs)?;
    if random.chance(2, 3) {
        let behind = first + 1 + random.below(changed.facts.len() - first);
        changed = changed.with(behind, fact("alc", &[member]));
    }
    refused(&changed, 19, first)
}

// The order of the classes

fn is_under(file: &HeapFile, lower: u32, upper: u32) -> bool {
    file.facts.contains(&fact("sub", &[lower, upper]))
}

/// A pair left out that follows from two others.
fn not_transitive(file: &HeapFile, random: &mut Random) -> Damaged {
    let follows = |fact: &Fact| {
        let [lower, upper, ..] = fact.numbers;
        let mut between = 0..file.count(Kind::Class);
        fact.word == "sub"
            && between.any(|class| is_under(file, lower, class) && is_under(file, class, upper))
    };
    let index = some_of(&file.all_with(follows), random)?;
    Some((file.without(index).bytes(), heap_refusal(20, 0)))
}

/// The file with a pair turned around put in.
fn with_circle(file: &HeapFile, random: &mut Random) -> Option<HeapFile> {
    let index = some_of(&file.all_with(|fact| fact.word == "sub"), random)?;
    let [lower, upper, ..] = file.facts[index].numbers;
    Some(file.with(file.some_index(random), fact("sub", &[upper, lower])))
}

fn not_antisymmetric(file: &HeapFile, random: &mut Random) -> Damaged {
    let changed = with_circle(file, random)?;
    Some((changed.bytes(), heap_refusal(20, 0)))
}

/// The line counts, even where it comes last.
fn no_order_and_bad_line(file: &HeapFile, random: &mut Random) -> Damaged {
    let changed = with_circle(file, random)?;
    let index = if random.chance(1, 2) {
        changed.some_index(random)
    } else {
        changed.facts.len()
    };
    refused(&changed.with(index, fact("alc", &[0])), 19, index)
}
