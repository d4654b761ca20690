//! The pairs that the evaluators are timed on are what they are said to be, and
//! all evaluators agree on them.

use host::evaluators::evaluators;
use host::generator::heaps::{full_pairs, Pair};

fn expect_reply(pair: &Pair, reply: [u32; 3]) {
    for (name, evaluate) in evaluators() {
        let given = evaluate(&pair.checker, &pair.heap);
        assert_eq!(given, reply, "{name}: {}", pair.kind);
    }
}

/// How many lines begin so.
fn count(file: &[u8], start: &str) -> usize {
    let lines = file.split(|byte| *byte == b'\n');
    lines
        .filter(|line| line.starts_with(start.as_bytes()))
        .count()
}

fn pair(kind: &str) -> Pair {
    let mut pairs = full_pairs().into_iter();
    pairs.find(|pair| pair.kind == kind).expect(kind)
}

#[test]
fn all_is_true_in_each() {
    for pair in full_pairs() {
        expect_reply(&pair, [0, 0, 0]);
        assert!(pair.expected.allows([0, 0, 0]), "{}", pair.kind);
    }
}

/// With its word denied, the last line is the first false one: so all others
/// are looked at before it. A clause has no true literal but its last.
#[test]
fn every_assumption_counts() {
    for mut pair in full_pairs() {
        let text = String::from_utf8(pair.checker).expect("a file is ASCII");
        let lines = text.lines().count();
        let (before, last) = text.trim_end().rsplit_once('\n').expect("two lines");
        let denied = match &last[2..5] {
            "eq," => last.replacen("eq", "ne", 1),
            "ne," => last.replacen("ne", "eq", 1),
            "in," => last.replacen("in", "ni", 1),
            "ni," => last.replacen("ni", "in", 1),
            "le," => last.replacen("le", "nl", 1),
            _ => last.replacen("nl", "le", 1),
        };
        pair.checker = format!("{before}\n{denied}\n").into_bytes();
        expect_reply(&pair, [0, 0, lines as u32]);
    }
}

#[test]
fn full_files_are_full() {
    let mixture = pair("600 terms, 1,000 A lines, full heap file");
    assert_eq!(count(&mixture.checker, "T,"), 600);
    assert_eq!(count(&mixture.checker, "A,"), 1_000);
    let all_facts = count(&mixture.heap, "D,");
    let clauses = pair("600 terms, 400 C lines, full heap file");
    assert_eq!(count(&clauses.checker, "T,"), 600);
    assert_eq!(count(&clauses.checker, "C,"), 400);
    assert_eq!(count(&clauses.heap, "D,"), all_facts);
    for kind in ["the most subjects", "600 `arv`, full heap file"] {
        assert_eq!(pair(kind).heap.len(), 60_000);
        assert_eq!(count(&pair(kind).heap, "D,"), all_facts);
    }
    // 1,082 lines of 14 bytes, and as many of 15 as fit besides the sizes.
    assert_eq!(all_facts, 1 + 1_082 + (60_000 - 17 - 1_082 * 14) / 15);
    for (kind, word) in [
        ("600 `arv`, full heap file", "T,arv,"),
        ("600 `rgv`, full heap file", "T,rgv,"),
        ("600 `rfv` that are not given", "T,rfv,"),
        ("600 `rfv`, names of five digits", "T,rfv,"),
    ] {
        assert_eq!(count(&pair(kind).checker, word), 600);
    }
}

#[test]
fn images_and_comparisons_are_many_and_deep() {
    let images = pair("`img` under 300 `wri`");
    assert_eq!(count(&images.checker, "T,wri,"), 300);
    assert!(count(&images.checker, "T,img,") > 250);
    assert_eq!(count(&images.checker, "A,ne,"), 1_000);
    let comparisons = pair("1,000 `eq` and `ne` of heaps");
    assert!(count(&comparisons.checker, "T,wri,") > 590);
    assert_eq!(count(&comparisons.checker, "A,eq,"), 500);
    assert_eq!(count(&comparisons.checker, "A,ne,"), 500);
}
