//! Pairs at the limits, and the neighbours just beyond.

use std::collections::HashSet;

use crate::generator::draft::{MOST_CLAUSE_LINES, MOST_IN_CLAUSE, MOST_PLACES, MOST_TERMS};
use crate::numbers::{GREATEST, MOST_DIGITS};
use crate::random::Random;

use super::heap_file::{fact, Fact, HeapFile, LIMITS, MOST_BYTES};
use super::{checker_refusal, heap_refusal, Evaluation, GoodPair, Pair};

pub fn pairs(good: &GoodPair, random: &mut Random) -> Vec<Pair> {
    let mut pairs = Vec::new();
    heap_bytes(good, random, &mut pairs);
    checker_bytes(good, random, &mut pairs);
    terms(good, &mut pairs);
    assumptions(good, &mut pairs);
    clauses(good, &mut pairs);
    pairs.push(largest_heap());
    pairs
}

/// 60,000 bytes, and more.
fn heap_bytes(good: &GoodPair, random: &mut Random, pairs: &mut Vec<Pair>) {
    let heap = filled(&good.heap, random).bytes();
    assert_eq!(heap.len(), MOST_BYTES);
    let with_heap = |kind, heap, expected| Pair {
        heap,
        expected,
        ..good.pair(kind)
    };
    let mut longer = heap.clone();
    longer.insert(random.below(MOST_BYTES), random.pick(b"\n0D"));
    let refused = heap_refusal(1, 0);
    pairs.push(with_heap("60,000 bytes of D lines", heap, good.reply()));
    pairs.push(with_heap(
        "60,001 bytes of D lines",
        longer.clone(),
        refused,
    ));
    // The lines of the checker file come before.
    pairs.push(Pair {
        checker: [good.table.bytes(), b"x\n".to_vec()].concat(),
        ..with_heap(
            "a bad line, and too many bytes of D lines",
            longer,
            checker_refusal(2, good.table.lines.len() + 1),
        )
    });
}

/// "D,rfv,1,0,0,0" and LF; names with more digits make it longer.
const SHORT: usize = 14;
const LONG: usize = SHORT + MOST_DIGITS - 1;

/// The file with as many variables more as make it 60,000 bytes long.
fn filled(file: &HeapFile, random: &mut Random) -> HeapFile {
    let mut filled = file.clone();
    let mut given: HashSet<(&str, u32)> = file
        .facts
        .iter()
        .map(|fact| (fact.word, fact.numbers[0]))
        .collect();
    let mut room = MOST_BYTES - file.bytes().len();
    let mut lines = room.div_ceil(LONG);
    while lines > 0 {
        // What is left must fit into lines that are long enough.
        let length = SHORT.max(room.saturating_sub(LONG * (lines - 1)));
        let new = loop {
            let new = some_variable(length - SHORT, random);
            if given.insert((new.word, new.numbers[0])) {
                break new;
            }
        };
        filled.facts.push(new);
        room -= length;
        lines -= 1;
    }
    filled
}

/// A variable whose name has so many digits more than one.
fn some_variable(digits: usize, random: &mut Random) -> Fact {
    let least = 10_usize.pow(digits as u32);
    let name = least + random.below(9 * least);
    fact(random.pick(&["rfv", "fnv", "clv"]), &[name as u32, 0])
}

/// The whole length counts, though the S lines are not read.
fn checker_bytes(good: &GoodPair, random: &mut Random, pairs: &mut Vec<Pair>) {
    for (kind, length) in [
        ("60,000 bytes", MOST_BYTES),
        ("60,001 bytes", MOST_BYTES + 1),
        ("over 60,000 bytes", MOST_BYTES + 1 + random.below(100)),
    ] {
        let mut checker = [good.table.bytes(), b"S,".to_vec()].concat();
        checker.resize(length, random.pick(b"x\n,T"));
        let long = length > MOST_BYTES;
        pairs.push(Pair {
            heap: if long {
                checker.clone()
            } else {
                good.heap.bytes()
            },
            checker,
            expected: if long {
                checker_refusal(1, 0)
            } else {
                good.reply()
            },
            ..good.pair(kind)
        });
    }
}

/// 600 terms, and one more.
fn terms(good: &GoodPair, pairs: &mut Vec<Pair>) {
    let lines = (1..=MOST_TERMS).map(|name| format!("T,clv,{name},0,0,0\n"));
    let full: String = lines.collect();
    // Values that the heap file gives change nothing.
    let reflexive = format!("A,le,{MOST_TERMS},{MOST_TERMS},0,0\n");
    let mut add = |kind, last: &str, expected| {
        pairs.push(Pair {
            checker: format!("{full}{last}").into_bytes(),
            expected,
            ..good.pair(kind)
        })
    };
    add("600 terms", &reflexive, Evaluation::Reply([0, 0, 0]));
    for (last, number) in [
        ("T,nul,0,0,0,0\n", 7),
        ("T,clv,1,0,0,0\n", 7),
        ("T,rfv,0,0,0,0\n", 7),
        ("T,nul,0,0,0,1\n", 6),
    ] {
        add("601 terms", last, checker_refusal(number, MOST_TERMS + 1));
    }
}

/// 1,000 assumptions, and one more.
fn assumptions(good: &GoodPair, pairs: &mut Vec<Pair>) {
    let full = format!(
        "T,nul,0,0,0,0\n{}",
        "A,eq,1,1,0,0\n".repeat(MOST_PLACES - 1)
    );
    let mut add = |kind, last: &str, expected| {
        pairs.push(Pair {
            checker: format!("{full}{last}").into_bytes(),
            expected,
            ..good.pair(kind)
        })
    };
    let lines = MOST_PLACES as u32 + 1;
    let all_true = Evaluation::Reply([0, 0, 0]);
    let last_false = Evaluation::Reply([0, 0, lines]);
    add("1,000 assumptions", "A,eq,1,1,0,0\n", all_true);
    add("1,000 assumptions", "A,ne,1,1,0,0\n", last_false);
    for (last, number) in [
        ("A,eq,1,1,0,0\n", 15),
        ("A,le,1,1,0,0\n", 9),
        ("A,eq,1,2,0,0\n", 8),
    ] {
        let last = format!("A,eq,1,1,0,0\n{last}");
        let expected = checker_refusal(number, MOST_PLACES + 2);
        add("1,001 assumptions", &last, expected);
    }
}

/// So many C lines with a true literal, in clauses of eight.
fn clause_lines(count: usize) -> String {
    let clauses = (0..count).map(|index| index / MOST_IN_CLAUSE + 1);
    let lines = clauses.map(|clause| format!("C,eq,1,1,{clause},0\n"));
    lines.collect()
}

/// 400 C lines and one more, eight literals and one more.
fn clauses(good: &GoodPair, pairs: &mut Vec<Pair>) {
    let mut add = |kind, lines: usize, last: &str, expected| {
        let lines = clause_lines(lines);
        pairs.push(Pair {
            checker: format!("T,nul,0,0,0,0\n{lines}{last}").into_bytes(),
            expected,
            ..good.pair(kind)
        })
    };
    let all_true = Evaluation::Reply([0, 0, 0]);
    let last_false = Evaluation::Reply([0, 0, MOST_CLAUSE_LINES as u32 + 1]);
    let false_clause = "C,ne,1,1,50,0\n".repeat(MOST_IN_CLAUSE);
    let before_it = MOST_CLAUSE_LINES - MOST_IN_CLAUSE;
    add("400 C lines", MOST_CLAUSE_LINES, "", all_true);
    add("400 C lines", before_it, &false_clause, last_false);
    for (last, number) in [("C,eq,1,1,51,0\n", 21), ("C,le,1,1,51,0\n", 9)] {
        let expected = checker_refusal(number, MOST_CLAUSE_LINES + 2);
        add("401 C lines", MOST_CLAUSE_LINES, last, expected);
    }
    let expected = checker_refusal(21, MOST_IN_CLAUSE + 2);
    add("9 literals", MOST_IN_CLAUSE, "C,eq,1,1,1,0\n", expected);
}

/// The largest heap, its last reference, field and class used, and the greatest
/// name.
fn largest_heap() -> Pair {
    let [x, f, c] = LIMITS.map(|limit| limit - 1);
    let heap = HeapFile {
        facts: vec![
            fact("siz", &LIMITS),
            fact("alc", &[x]),
            fact("typ", &[x, c]),
            fact("dty", &[f, c]),
            fact("rfv", &[GREATEST, x]),
            fact("fnv", &[GREATEST, f]),
            fact("rgv", &[GREATEST, x]),
            fact("arv", &[GREATEST, x, f, x]),
        ],
    };
    let variables = ["rfv", "rgv", "arv", "fnv"].map(|word| format!("T,{word},{GREATEST},0,0,0\n"));
    let rest = "T,img,3,2,4,0\nT,sin,1,0,0,0\nA,eq,5,6,0,0\nA,in,1,5,0,0\nA,ni,1,5,0,0\n";
    Pair {
        kind: "the largest heap",
        checker: (variables.concat() + rest).into_bytes(),
        heap: heap.bytes(),
        expected: Evaluation::Reply([0, 0, 9]),
    }
}
