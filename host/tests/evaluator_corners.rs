//! Pairs of files whose replies are worked out by hand.

use host::evaluators::evaluators;

const TERMS: &str = "T,rfv,1,0,0,0\nT,rgv,1,0,0,0\n";

fn expect(checker: &str, heap: &str, reply: [u32; 3]) {
    for (name, evaluate) in evaluators() {
        let given = evaluate(checker.as_bytes(), heap.as_bytes());
        assert_eq!(given, reply, "{name}:\n{checker}\n{heap}");
    }
}

/// A heap file refused with a line.
fn refused(heap: &str, number: u32, line: u32) {
    expect("", heap, [number, 2, line]);
}

#[test]
fn nothing_is_assumed() {
    expect("", "D,siz,1,1,1,0\n", [0, 0, 0]);
    expect("S,", "D,siz,64,16,16,0\n", [0, 0, 0]);
    expect(TERMS, "D,siz,1,1,1,0\n", [0, 0, 0]);
}

#[test]
fn the_first_false_line_is_given() {
    let checker = format!("{TERMS}A,ni,1,2,0,0\nA,in,1,2,0,0\nA,in,1,2,0,0\nS,x");
    let member = "D,siz,2,1,1,0\nD,alc,1,0,0,0\nD,rfv,1,1,0,0\nD,rgv,1,1,0,0\n";
    expect(&checker, member, [0, 0, 3]);
    expect(&checker, "D,siz,1,1,1,0\n", [0, 0, 4]);
    expect(&format!("{TERMS}A,in,1,2,0,0\n"), member, [0, 0, 0]);
}

/// A clause is named by its last line, and after all A lines.
#[test]
fn the_first_clause_with_no_true_literal_is_given() {
    let member = "D,siz,2,1,1,0\nD,alc,1,0,0,0\nD,rfv,1,1,0,0\nD,rgv,1,1,0,0\n";
    let clauses = |lines: &str| format!("{TERMS}A,in,1,2,0,0\n{lines}");
    expect(&clauses("C,ni,1,2,1,0\nC,in,1,2,1,0\n"), member, [0, 0, 0]);
    expect(&clauses("C,ni,1,2,1,0\nC,ne,1,1,1,0\n"), member, [0, 0, 5]);
    let second = "C,ni,1,2,1,0\nC,in,1,2,1,0\nC,ni,1,2,2,0\nC,ne,1,1,2,0\nC,ne,1,1,3,0\n";
    expect(&clauses(second), member, [0, 0, 7]);
    expect(&clauses(second), "D,siz,1,1,1,0\n", [0, 0, 3]);
    // What is read of a clause counts, up to a line that begins an S line.
    expect(
        &clauses("C,ni,1,2,1,0\nS,C,in,1,2,1,0\n"),
        member,
        [0, 0, 4],
    );
}

#[test]
fn c_lines_are_checked_as_by_the_checker() {
    let heap = "D,siz,1,1,1,0\n";
    for (line, number) in [
        ("C,in,1,2,1\n", 2),
        ("C,cla,1,2,1,0\n", 4),
        ("C,in,1,2,0,1\n", 6),
        ("C,in,1,3,0,0\n", 8),
        ("C,in,2,1,0,0\n", 9),
        ("C,in,1,2,0,0\n", 21),
        ("C,in,1,2,2,0\n", 21),
    ] {
        expect(&format!("{TERMS}{line}"), heap, [number, 1, 3]);
    }
    for late in ["T,nul,0,0,0,0\n", "A,in,1,2,0,0\n"] {
        expect(&format!("{TERMS}C,in,1,2,1,0\n{late}"), heap, [3, 1, 4]);
    }
}

#[test]
fn the_checker_file_is_read_up_to_its_steps() {
    let heap = "D,siz,1,1,1,0\n";
    expect(&format!("{TERMS}S,\nT,nul,0,0,0,0\nzzz"), heap, [0, 0, 0]);
    expect(&format!("{TERMS}S"), heap, [2, 1, 3]);
    expect(&format!("{TERMS}Sx,ref\n"), heap, [2, 1, 3]);
    expect(&format!("{TERMS}D,siz,1,1,1,0\n"), heap, [2, 1, 3]);
    expect(
        "T,nul,0,0,0,0\nA,eq,1,1,0,0\nT,emp,0,0,0,0\n",
        heap,
        [3, 1, 3],
    );
    expect(
        "T,nul,0,0,0,0\nA,eq,1,1,0,0\nT,xyz,0,0,0,0\n",
        heap,
        [3, 1, 3],
    );
    expect("T,nul,0,0,0,0\nT,nul,0,0,0,0\n", "", [10, 1, 2]);
}

#[test]
fn lengths_are_tested_before_the_lines_of_a_file() {
    let long = "\n".repeat(60_001);
    let steps = format!("S,{}", "x".repeat(59_998));
    expect(&long, &long, [1, 1, 0]);
    expect(&format!("{steps}x"), "D,siz,1,1,1,0\n", [1, 1, 0]);
    expect(&steps, "D,siz,1,1,1,0\n", [0, 0, 0]);
    expect("\n", &long, [2, 1, 1]);
    expect("", &long, [1, 2, 0]);
    expect("", &long[1..], [2, 2, 1]);
}

#[test]
fn the_first_line_gives_the_sizes() {
    refused("", 3, 1);
    refused("\n", 2, 1);
    refused("D,siz,1,1,1,0", 2, 1);
    refused("T,siz,1,1,1,0\n", 2, 1);
    refused("D,xyz,1,1,1,1\n", 3, 1);
    refused("D,alc,1,0,0,0\n", 3, 1);
    refused("D,siz,0,1,1,1\n", 6, 1);
    for sizes in ["0,1,1", "1,0,1", "1,1,0", "65,1,1", "1,17,1", "1,1,17"] {
        refused(&format!("D,siz,{sizes},0\n"), 19, 1);
    }
    refused("D,siz,1,1,1,0\nD,siz,9,9,9,9\n", 3, 2);
    refused("D,siz,1,1,1,0\nD,siz,01,1,1,0\n", 2, 2);
}

#[test]
fn a_line_is_checked_in_the_order_of_the_numbers() {
    let sizes = "D,siz,3,2,2,0\n";
    for (line, number) in [
        ("A,alc,1,0,0,0\n", 2),
        ("D,alc,1,0,0,0", 2),
        ("D,xyz,1,0,0,0\n", 4),
        ("D,in,0,0,0,9\n", 4),
        ("D,alc,0,1,0,0\n", 6),
        ("D,typ,9,0,0,1\n", 6),
        ("D,rgv,0,9,1,0\n", 6),
        ("D,alc,0,0,0,0\n", 19),
        ("D,alc,3,0,0,0\n", 19),
        ("D,typ,3,0,0,0\n", 19),
        ("D,typ,0,2,0,0\n", 19),
        ("D,dty,2,0,0,0\n", 19),
        ("D,dty,0,2,0,0\n", 19),
        ("D,sub,1,1,0,0\n", 19),
        ("D,sub,0,2,0,0\n", 19),
        ("D,rfv,0,0,0,0\n", 19),
        ("D,rfv,1,3,0,0\n", 19),
        ("D,fnv,1,2,0,0\n", 19),
        ("D,clv,1,2,0,0\n", 19),
        ("D,rgv,1,0,0,0\n", 19),
        ("D,rgv,1,1,0,0\n", 19),
        ("D,rgv,1,99999,0,0\n", 19),
        ("D,rgv,1,65537,0,0\n", 19),
        ("D,rfv,100000,0,0,0\n", 2),
        ("D,rfv,1,100000,0,0\n", 2),
        ("D,arv,0,0,0,0\n", 19),
        ("D,arv,1,3,0,0\n", 19),
        ("D,arv,1,0,2,0\n", 19),
        ("D,arv,1,0,0,3\n", 19),
    ] {
        refused(&format!("{sizes}{line}"), number, 2);
    }
}

#[test]
fn a_subject_is_given_once() {
    let sizes = "D,siz,3,2,3,0\n";
    for (one, other, number) in [
        ("D,alc,1,0,0,0\n", "D,alc,1,0,0,0\n", 19),
        ("D,alc,1,0,0,0\n", "D,alc,2,0,0,0\n", 0),
        ("D,typ,1,0,0,0\n", "D,typ,1,1,0,0\n", 19),
        ("D,typ,1,0,0,0\n", "D,dty,1,0,0,0\n", 0),
        ("D,dty,0,0,0,0\n", "D,dty,0,0,0,0\n", 19),
        ("D,sub,0,1,0,0\n", "D,sub,0,1,0,0\n", 19),
        ("D,sub,0,1,0,0\n", "D,sub,0,2,0,0\n", 0),
        ("D,rfv,7,1,0,0\n", "D,rfv,7,2,0,0\n", 19),
        ("D,rfv,7,1,0,0\n", "D,fnv,7,1,0,0\n", 0),
        ("D,fnv,99999,1,0,0\n", "D,fnv,99999,1,0,0\n", 19),
        ("D,fnv,99999,1,0,0\n", "D,fnv,9999,1,0,0\n", 0),
        ("D,rfv,10001,1,0,0\n", "D,rfv,1,1,0,0\n", 0),
        ("D,rfv,12345,1,0,0\n", "D,rfv,12346,1,0,0\n", 0),
        ("D,clv,16385,1,0,0\n", "D,clv,1,1,0,0\n", 0),
        ("D,arv,65537,1,0,1\n", "D,arv,1,1,0,1\n", 0),
        ("D,clv,7,1,0,0\n", "D,clv,7,1,0,0\n", 19),
        ("D,arv,7,1,0,1\n", "D,arv,7,1,0,0\n", 19),
        ("D,arv,7,1,0,1\n", "D,arv,7,1,1,1\n", 0),
        ("D,arv,7,0,1,1\n", "D,arv,7,1,0,1\n", 0),
    ] {
        let line = if number == 0 { 0 } else { 3 };
        let file = if number == 0 { 0 } else { 2 };
        expect("", &format!("{sizes}{one}{other}"), [number, file, line]);
    }
    let regions = format!("{sizes}D,alc,1,0,0,0\nD,alc,2,0,0,0\nD,rgv,1,1,0,0\nD,rgv,1,2,0,0\n");
    expect("", &regions, [0, 0, 0]);
    refused(&format!("{regions}D,rgv,1,2,0,0\n"), 19, 6);
}

#[test]
fn classes_are_in_a_partial_order() {
    let sizes = "D,siz,1,1,4,0\n";
    refused(&format!("{sizes}D,sub,0,1,0,0\nD,sub,1,2,0,0\n"), 20, 0);
    refused(&format!("{sizes}D,sub,0,1,0,0\nD,sub,1,0,0,0\n"), 20, 0);
    let order = format!("{sizes}D,sub,0,1,0,0\nD,sub,1,2,0,0\nD,sub,0,2,0,0\n");
    expect("", &order, [0, 0, 0]);
    refused(&format!("{order}D,alc,1,0,0,0\n"), 19, 5);
}

/// A value is that of the whole name, not of one that shares digits or bits.
#[test]
fn names_are_told_apart() {
    let heap = "D,siz,3,1,1,0\nD,alc,1,0,0,0\nD,alc,2,0,0,0\n";
    for (name, other) in [
        (1, 10_001),
        (1, 16_385),
        (1, 65_537),
        (9_999, 99_999),
        (1_234, 12_345),
        (12_345, 12_346),
    ] {
        for [name, other] in [[name, other], [other, name]] {
            let checker = format!(
                "T,rfv,{name},0,0,0\nT,rgv,{name},0,0,0\nT,rfv,{other},0,0,0\nT,nul,0,0,0,0\n\
                 A,in,1,2,0,0\nA,ne,1,3,0,0\nA,ne,1,4,0,0\nA,eq,3,4,0,0\n"
            );
            let given = format!("{heap}D,rfv,{name},1,0,0\nD,rgv,{name},1,0,0\n");
            expect(&checker, &given, [0, 0, 0]);
            let elsewhere = format!("{given}D,rfv,{other},2,0,0\nD,rgv,{other},2,0,0\n");
            expect(&checker, &elsewhere, [0, 0, 8]);
        }
    }
}

/// Reference 1 of class 0, 2 of class 1; field 0 is of class 0, which is under
/// class 1, the class of field 1. In heap 1 both references have 2 in field 1,
/// and 1 in field 0.
const HEAP: &str = "D,siz,4,2,2,0\nD,sub,0,1,0,0\nD,typ,2,1,0,0\nD,dty,1,1,0,0\n\
    D,alc,1,0,0,0\nD,alc,2,0,0,0\nD,rgv,1,1,0,0\nD,rgv,1,2,0,0\nD,rgv,2,2,0,0\n\
    D,arv,1,1,0,1\nD,arv,1,2,0,1\nD,arv,1,1,1,2\nD,arv,1,2,1,2\n\
    D,rfv,1,1,0,0\nD,rfv,2,2,0,0\nD,rfv,3,3,0,0\nD,fnv,2,1,0,0\nD,clv,2,1,0,0\n";

/// 1 to 3 references 1 to 3, 4 `nul`; 5 region {1, 2}, 6 {2}, 7 `all`, 8
/// `emp`; 9 heap, 10 and 11 fields 0 and 1, 12 and 13 classes 0 and 1.
const VARIABLES: &str = "T,rfv,1,0,0,0\nT,rfv,2,0,0,0\nT,rfv,3,0,0,0\nT,nul,0,0,0,0\n\
    T,rgv,1,0,0,0\nT,rgv,2,0,0,0\nT,all,0,0,0,0\nT,emp,0,0,0,0\n\
    T,arv,1,0,0,0\nT,fnv,1,0,0,0\nT,fnv,2,0,0,0\nT,clv,1,0,0,0\nT,clv,2,0,0,0\n";

/// The further terms are numbered from 14; each literal has its truth.
fn expect_truth(terms: &str, literals: &[(&str, bool)]) {
    for (literal, truth) in literals {
        let checker = format!("{VARIABLES}{terms}A,{literal},0,0\n");
        let line = if *truth { 0 } else { checker.lines().count() };
        expect(&checker, HEAP, [0, 0, line as u32]);
    }
}

#[test]
fn literals_mean_what_they_say() {
    expect_truth(
        "",
        &[
            ("in,1,6", false),
            ("in,2,6", true),
            ("ni,3,7", true),
            ("in,4,7", false),
            ("eq,5,7", true),
            ("ne,6,8", true),
            ("eq,10,11", false),
            ("le,12,13", true),
            ("le,13,12", false),
            ("nl,12,12", false),
        ],
    );
}

#[test]
fn regions_mean_what_they_say() {
    // 14 {1}, 15 {}, 16 {}, 17 {2}, 18 {1, 2}
    expect_truth(
        "T,sin,1,0,0,0\nT,sin,3,0,0,0\nT,sin,4,0,0,0\nT,dif,5,14,0,0\nT,cup,14,17,0,0\n",
        &[
            ("in,1,14", true),
            ("eq,15,8", true),
            ("eq,16,8", true),
            ("eq,17,6", true),
            ("eq,18,7", true),
        ],
    );
    // Class 1 is not under class 0, so reference 2 doesn't have field 0.
    expect_truth(
        "T,img,9,6,10,0\nT,img,9,5,10,0\nT,img,9,6,11,0\nT,sin,1,0,0,0\n",
        &[("eq,14,8", true), ("eq,15,17", true), ("eq,16,6", true)],
    );
}

#[test]
fn heaps_mean_what_they_say() {
    // 14 writes 1 to entry (2, 1), 15 puts it back; 16 and 17 read it.
    expect_truth(
        "T,wri,9,2,11,1\nT,wri,14,2,11,2\nT,rea,14,2,11,0\nT,rea,15,2,11,0\nT,rea,14,1,11,0\n",
        &[
            ("eq,9,14", false),
            ("eq,9,15", true),
            ("ne,14,15", true),
            ("eq,16,1", true),
            ("eq,17,2", true),
            ("eq,18,2", true),
        ],
    );
    // What an image reaches may be unallocated or `nul`, and is left out.
    expect_truth(
        "T,wri,9,1,11,3\nT,wri,9,1,11,4\nT,img,14,5,11,0\nT,img,15,5,11,0\n",
        &[("eq,16,6", true), ("eq,17,6", true)],
    );
}

#[test]
fn classes_mean_what_they_say() {
    expect_truth(
        "T,typ,1,0,0,0\nT,typ,2,0,0,0\nT,typ,3,0,0,0\nT,dty,10,0,0,0\nT,dty,11,0,0,0\n",
        &[
            ("eq,14,12", true),
            ("eq,15,13", true),
            ("eq,16,12", true),
            ("eq,17,12", true),
            ("eq,18,13", true),
            ("nl,15,17", true),
        ],
    );
}
