//! The rule `cla`: what it splits into, what it is refused for, and how clauses
//! are counted.

use super::clauses::{or_with, OR};
use super::rules_accept::IMG;
use super::{case, lines, runs, with_line, with_line_case, with_lines, with_more, Case};
use super::{EMP, F, G, R, S, U, V};

pub fn cases() -> Vec<Case> {
    let groups = [
        no_clause(),
        no_clause_without_c_lines(),
        clause_number_past_terms_and_places(),
        unused_fields(),
        closed(),
        every_size(),
        every_closing_checked(),
        order_of_alternatives(),
        one_literal(),
        every_relation(),
        premises_of_other_rules(),
        split_twice(),
        nested(),
        eight_in_each_of_eight(),
        among_other_splits(),
        inside_and_around_img(),
        literals_and_clauses_repeated(),
        never_split(),
        counts(),
        no_place(),
        places(),
        waiting(),
        waiting_again(),
        places_and_waiting(),
    ];
    groups.into_iter().flatten().collect()
}

/// t is no term and no place: what is missing is a clause.
fn no_clause() -> Vec<Case> {
    let mut cases = Vec::new();
    // OR has clause 1, terms 1 to 3 and places 1 and 2.
    for clause in [0, 2, 3, 4, 400, 9999] {
        let line = format!("S,cla,0,0,{clause},0");
        cases.push(or_with(8, &line, "no,11,8,0,0,0,0,0"));
    }
    // Now with place 3.
    cases.push(or_with(9, "S,cla,0,0,3,0", "no,11,9,0,0,0,0,0"));
    cases.push(or_with(9, "S,cla,0,0,0,0", "no,11,9,0,0,0,0,0"));
    // Two clauses: the second, and one past it.
    let two = [(7, "C,in,1,3,2,0")];
    let with = |line| with_lines(&OR, &[&two[..], &[(8, line)]].concat());
    cases.push(case(
        "cla: the last of two",
        with("S,cla,0,0,2,0"),
        "no,12,9,0,0,0,0,0", // 3: u in s, so place 1 does not deny it
    ));
    cases.push(case(
        "cla: one past the last of two",
        with("S,cla,0,0,3,0"),
        "no,11,8,0,0,0,0,0",
    ));
    cases
}

fn no_clause_without_c_lines() -> Vec<Case> {
    let mut cases = Vec::new();
    // F has terms 1 to 4 and places 1 and 2, and then 3 and 4.
    for clause in [0, 1, 2, 3, 4, 5, 9999] {
        let line = format!("S,cla,0,0,{clause},0");
        for (number, reply) in [(7, "no,11,7,0,0,0,0,0"), (8, "no,11,8,0,0,0,0,0")] {
            let name = format!("cla: F, line {number} {line}");
            cases.push(case(&name, with_line(&F, number, &line), reply));
        }
    }
    for (number, reply) in [(8, "no,11,8,0,0,0,0,0"), (10, "no,11,10,0,0,0,0,0")] {
        cases.push(case(
            &format!("cla: G, line {number}"),
            with_line(&G, number, "S,cla,0,0,1,0"),
            reply,
        ));
    }
    cases
}

/// Two terms, one place, and clauses 1 to 9: t need not be a term or a place.
fn clause_number_past_terms_and_places() -> Vec<Case> {
    let file = |clause: usize| {
        let mut file: Vec<String> = [U, R, "A,ni,1,2,0,0"].map(String::from).to_vec();
        file.extend((1..=9).map(|number| format!("C,in,1,2,{number},0")));
        file.push(format!("S,cla,0,0,{clause},0")); // line 13, 2: u in r
        file.push("S,cls,2,1,0,0".into());
        lines(&file)
    };
    let mut cases: Vec<Case> = (1..=9)
        .map(|clause| {
            let name = format!("cla: clause {clause} of 9");
            case(&name, file(clause), "yes,0,0,2,10,2,1,0")
        })
        .collect();
    cases.push(case("cla: clause 10 of 9", file(10), "no,11,13,0,0,0,0,0"));
    cases
}

fn unused_fields() -> Vec<Case> {
    let mut cases = Vec::new();
    for fields in [
        "1,0,1,0",
        "0,1,1,0",
        "0,0,1,1",
        "1,1,1,1",
        "9999,0,1,0",
        // 6 and 11
        "1,0,0,0",
        "0,1,2,0",
        "0,0,9999,1",
    ] {
        let line = format!("S,cla,{fields}");
        cases.push(or_with(8, &line, "no,6,8,0,0,0,0,0"));
    }
    cases
}

/// 5 comes before 6 and 11.
fn closed() -> Vec<Case> {
    let mut cases = Vec::new();
    for line in [
        "S,cla,0,0,1,0",
        "S,cla,0,0,0,0",
        "S,cla,0,0,2,0",
        "S,cla,1,0,1,0",
        "S,ref,0,0,1,0",
        "S,cls,3,2,0,0",
    ] {
        cases.push(or_with(11, line, "no,5,11,0,0,0,0,0"));
    }
    cases.push(case(
        "cla: after F",
        with_more(&F, &["S,cla,0,0,1,0"]),
        "no,5,9,0,0,0,0,0",
    ));
    cases
}

/// The clause u in r(1), .., u in r(size), each denied at place i: size + 1 T
/// lines, then size A lines and as many C lines, then `cla` on line 3 size + 2,
/// which takes place size + 1. The closings follow.
fn all_denied(size: usize) -> Vec<String> {
    let mut file = vec![U.to_string()];
    file.extend((1..=size).map(|name| format!("T,rgv,{name},0,0,0"))); // term 1 + name
    file.extend((2..=size + 1).map(|term| format!("A,ni,1,{term},0,0")));
    file.extend((2..=size + 1).map(|term| format!("C,in,1,{term},1,0")));
    file.push("S,cla,0,0,1,0".into());
    file.extend((1..=size).map(|place| format!("S,cls,{},{place},0,0", size + 1)));
    file
}

/// Accepted whole; without the last closing 17; from the right, and with a
/// closing more.
fn every_size() -> Vec<Case> {
    let rows = [
        (
            1,
            "yes,0,0,2,2,2,1,0",
            "no,17,6,0,0,0,0,0",
            "no,5,7,0,0,0,0,0",
        ),
        (
            2,
            "yes,0,0,3,3,3,2,0",
            "no,17,10,0,0,0,0,0",
            "no,5,11,0,0,0,0,0",
        ),
        (
            3,
            "yes,0,0,4,4,4,3,0",
            "no,17,14,0,0,0,0,0",
            "no,5,15,0,0,0,0,0",
        ),
        (
            4,
            "yes,0,0,5,5,5,4,0",
            "no,17,18,0,0,0,0,0",
            "no,5,19,0,0,0,0,0",
        ),
        (
            5,
            "yes,0,0,6,6,6,5,0",
            "no,17,22,0,0,0,0,0",
            "no,5,23,0,0,0,0,0",
        ),
        (
            6,
            "yes,0,0,7,7,7,6,0",
            "no,17,26,0,0,0,0,0",
            "no,5,27,0,0,0,0,0",
        ),
        (
            7,
            "yes,0,0,8,8,8,7,0",
            "no,17,30,0,0,0,0,0",
            "no,5,31,0,0,0,0,0",
        ),
        (
            8,
            "yes,0,0,9,9,9,8,0",
            "no,17,34,0,0,0,0,0",
            "no,5,35,0,0,0,0,0",
        ),
    ];
    let mut cases = Vec::new();
    for (size, accepted, open, closed) in rows {
        let file = all_denied(size);
        let last = file.len();
        let longer = [&file[..], &file[last - 1..]].concat();
        cases.extend([
            case(&format!("cla: {size} literals"), lines(&file), accepted),
            case(
                &format!("cla: {size} literals, the last alternative open"),
                lines(&file[..last - 1]),
                open,
            ),
            case(
                &format!("cla: {size} literals, one closing more"),
                lines(&longer),
                closed,
            ),
        ]);
    }
    cases
}

/// `all_denied(8)` has its closings on lines 27 to 34. Each in turn denies
/// another literal than the one that is due.
fn every_closing_checked() -> Vec<Case> {
    let file = all_denied(8);
    let rows = [
        (27, "S,cls,9,2,0,0", "no,12,27,0,0,0,0,0"),
        (28, "S,cls,9,1,0,0", "no,12,28,0,0,0,0,0"),
        (29, "S,cls,9,4,0,0", "no,12,29,0,0,0,0,0"),
        (30, "S,cls,9,3,0,0", "no,12,30,0,0,0,0,0"),
        (31, "S,cls,9,6,0,0", "no,12,31,0,0,0,0,0"),
        (32, "S,cls,9,5,0,0", "no,12,32,0,0,0,0,0"),
        (33, "S,cls,9,8,0,0", "no,12,33,0,0,0,0,0"),
        (34, "S,cls,9,7,0,0", "no,12,34,0,0,0,0,0"),
        (34, "S,cls,9,1,0,0", "no,12,34,0,0,0,0,0"),
        (34, "S,cls,10,8,0,0", "no,11,34,0,0,0,0,0"), // every alternative has place 9
        (34, "S,cls,9,10,0,0", "no,11,34,0,0,0,0,0"),
    ];
    let mut cases: Vec<Case> = rows
        .into_iter()
        .map(|(number, line, reply)| {
            let name = format!("cla: 8 literals, line {number} {line}");
            case(&name, with_line(&file, number, line), reply)
        })
        .collect();
    // One assumption that denies a literal left out: A lines are 10 to 17.
    // Place i then denies literal i + 1 from there on.
    let without = |number: usize| {
        let mut rest = file.clone();
        rest.remove(number - 1);
        lines(&rest)
    };
    // Places 1 to 7, and `cla` on line 25 takes place 8: there is no place 9.
    for number in [10, 13, 17] {
        cases.push(case(
            &format!("cla: 8 literals, A line {number} left out"),
            without(number),
            "no,11,26,0,0,0,0,0",
        ));
    }
    // A literal left out: C lines are 18 to 25, and the closings begin on 26.
    for (number, reply) in [
        (18, "no,12,26,0,0,0,0,0"), // literal 2 comes first
        (21, "no,12,29,0,0,0,0,0"), // literal 5 comes after 3
        (25, "no,5,33,0,0,0,0,0"),  // the seventh closing closes the tree
    ] {
        cases.push(case(
            &format!("cla: 8 literals, C line {number} left out"),
            without(number),
            reply,
        ));
    }
    cases
}

/// "the leftmost first": three literals, place 4 in each alternative.
fn order_of_alternatives() -> Vec<Case> {
    let file = all_denied(3); // closings on lines 12 to 14
    let closings = ["S,cls,4,1,0,0", "S,cls,4,2,0,0", "S,cls,4,3,0,0"];
    let rows = [
        ([0, 1, 2], "yes,0,0,4,4,4,3,0"),
        ([0, 2, 1], "no,12,13,0,0,0,0,0"),
        ([1, 0, 2], "no,12,12,0,0,0,0,0"),
        ([1, 2, 0], "no,12,12,0,0,0,0,0"),
        ([2, 0, 1], "no,12,12,0,0,0,0,0"),
        ([2, 1, 0], "no,12,12,0,0,0,0,0"),
        ([0, 0, 0], "no,12,13,0,0,0,0,0"),
        ([0, 1, 1], "no,12,14,0,0,0,0,0"),
        ([0, 1, 0], "no,12,14,0,0,0,0,0"),
    ];
    let mut cases: Vec<Case> = rows
        .into_iter()
        .map(|(order, reply)| {
            let steps = [12, 13, 14].into_iter().zip(order.map(|one| closings[one]));
            let changes: Vec<(usize, &str)> = steps.collect();
            let name = format!("cla: 3 literals closed as {order:?}");
            case(&name, with_lines(&file, &changes), reply)
        })
        .collect();
    // The literals in another order: C lines are 8 to 10.
    let turned = [
        (8, "C,in,1,4,1,0"),
        (10, "C,in,1,2,1,0"),
        (12, closings[2]),
        (14, closings[0]),
    ];
    cases.push(case(
        "cla: 3 literals turned round",
        with_lines(&file, &turned),
        "yes,0,0,4,4,4,3,0",
    ));
    cases.push(case(
        "cla: 3 literals turned round, the closings not",
        with_lines(&file, &turned[..2]),
        "no,12,12,0,0,0,0,0",
    ));
    cases
}

/// A clause of one literal is added, and nothing waits.
fn one_literal() -> Vec<Case> {
    let file = [
        U,
        R,
        "A,ni,1,2,0,0",  // 1: u ni r
        "C,in,1,2,1,0",  // 4, clause 1
        "S,cla,0,0,1,0", // 5, 2: u in r
        "S,cls,2,1,0,0", // 6
    ];
    let full = |cuts: usize, more: &[(usize, &str)]| {
        let open = [(1, U), (1, R), (1, "A,ni,1,2,0,0"), (1, "C,in,1,2,1,0")];
        runs(&[&open[..], &[(cuts, "S,cut,0,0,1,2")], more].concat())
    };
    vec![
        case("cla: one literal", lines(&file), "yes,0,0,2,2,2,1,0"),
        case(
            "cla: one literal, a step after the closing",
            with_more(&file, &["S,cls,2,1,0,0"]),
            "no,5,7,0,0,0,0,0",
        ),
        case(
            "cla: one literal, split three times",
            with_more(&file[..5], &[file[4], file[4], "S,cls,4,1,0,0"]),
            "yes,0,0,2,2,4,1,0",
        ),
        case(
            "cla: one literal, not split",
            lines(&[&file[..4], &["S,cls,2,1,0,0"]].concat()),
            "no,11,5,0,0,0,0,0",
        ),
        // Places 2 to 201: u in r by the cuts, 202 by `cla`. Then the last cut
        // comes back with 201: u ni r, which place 2 denies, and so on. At the
        // last, 2: u ni r, and `cla` gives 3: u in r.
        case(
            "cla: one literal beside 200 waiting",
            full(
                200,
                &[
                    (1, "S,cla,0,0,1,0"),
                    (1, "S,cls,202,1,0,0"),
                    (199, "S,cls,2,1,0,0"),
                    (1, "S,cla,0,0,1,0"),
                    (1, "S,cls,3,1,0,0"),
                ],
            ),
            "yes,0,0,2,2,403,201,0",
        ),
    ]
}

/// The literal and its denial, one of them on an A line.
fn every_relation() -> Vec<Case> {
    // u, r, c
    let terms = [U, R, "T,clv,1,0,0,0"];
    let mut cases = Vec::new();
    for (affirming, denying, sides) in [
        ("in", "ni", "1,2"),
        ("eq", "ne", "1,1"),
        ("eq", "ne", "2,2"),
        ("eq", "ne", "3,3"),
        ("le", "nl", "3,3"),
    ] {
        for (assumed, literal, closing) in [
            (denying, affirming, "S,cls,2,1,0,0"),
            (affirming, denying, "S,cls,1,2,0,0"),
        ] {
            let a = format!("A,{assumed},{sides},0,0"); // place 1
            let c = format!("C,{literal},{sides},1,0");
            let steps = ["S,cla,0,0,1,0", closing]; // place 2
            cases.push(case(
                &format!("cla: {a} {c}"),
                lines(&[&terms[..], &[&a, &c], &steps].concat()),
                "yes,0,0,3,2,2,1,0",
            ));
            // The closing finds no place 2 before `cla`.
            cases.push(case(
                &format!("cla: {a} {c}, not split"),
                lines(&[&terms[..], &[&a, &c], &steps[1..]].concat()),
                "no,11,6,0,0,0,0,0",
            ));
        }
    }
    cases
}

/// What `cla` adds serves as any literal does.
fn premises_of_other_rules() -> Vec<Case> {
    let file = [
        U,
        V,
        R,
        S,
        "T,cap,3,4,0,0", // 5, cap(r,s)
        "A,ni,1,3,0,0",  // 6, 1: u ni r
        "A,ni,2,3,0,0",  // 7, 2: v ni r
        "A,in,1,4,0,0",  // 8, 3: u in s
        "C,in,1,5,1,0",  // 9, clause 1: u in cap(r,s)
        "C,ne,1,1,1,0",  // 10, or u ne u
        "C,eq,4,3,1,0",  // 11, or s eq r
        "S,cla,0,0,1,0", // 12, 4: u in cap(r,s)
        "S,cpe,4,0,0,0", // 13, 5: u in r, 6: u in s
        "S,cls,5,1,0,0", // 14, 4: u ne u
        "S,ref,0,0,1,0", // 15, 5: u eq u
        "S,cls,5,4,0,0", // 16, 4: s eq r
        "S,eqr,4,3,0,0", // 17, 5: u in r
        "S,cls,5,1,0,0", // 18
    ];
    let changed =
        |number, line, reply| with_line_case("cla: premises", &file, (number, line), reply);
    vec![
        case("cla: premises", lines(&file), "yes,0,0,5,4,7,3,0"),
        changed(13, "S,cpe,3,0,0,0", "no,12,13,0,0,0,0,0"), // u in s
        changed(13, "S,cpe,5,0,0,0", "no,11,13,0,0,0,0,0"),
        changed(15, "S,cpe,4,0,0,0", "no,12,15,0,0,0,0,0"), // that is closed
        changed(15, "S,cls,5,1,0,0", "no,11,15,0,0,0,0,0"), // so place 5 is gone
        changed(16, "S,cls,4,5,0,0", "no,12,16,0,0,0,0,0"), // eq comes first
        changed(17, "S,eqr,4,6,0,0", "no,11,17,0,0,0,0,0"),
        changed(17, "S,eql,4,3,0,0", "no,12,17,0,0,0,0,0"), // 3 is in s, not r
        changed(18, "S,cls,5,2,0,0", "no,12,18,0,0,0,0,0"), // v is another
        changed(11, "C,eq,3,4,1,0", "no,12,17,0,0,0,0,0"),  // r eq s
    ]
}

fn split_twice() -> Vec<Case> {
    let or_then = |steps: &[&str]| with_more(&OR[..7], steps);
    let cla = "S,cla,0,0,1,0";
    vec![
        case(
            "cla: split in the first alternative again",
            or_then(&[
                cla,             // 8, 3: u in r
                cla,             // 9, 4: u in r
                "S,cls,4,1,0,0", // 10, 4: u in s
                "S,cls,4,2,0,0", // 11, 3: u in s
                "S,cls,3,2,0,0", // 12
            ]),
            "yes,0,0,3,3,5,3,0",
        ),
        case(
            "cla: split in the second alternative again",
            or_then(&[
                cla,             // 8, 3: u in r
                "S,cls,3,1,0,0", // 9, 3: u in s
                cla,             // 10, 4: u in r
                "S,cls,4,1,0,0", // 11, 4: u in s
                "S,cls,4,2,0,0", // 12
            ]),
            "yes,0,0,3,3,5,3,0",
        ),
        case(
            "cla: split in both alternatives again",
            or_then(&[
                cla,             // 8, 3: u in r
                cla,             // 9, 4: u in r
                "S,cls,4,1,0,0", // 10, 4: u in s
                "S,cls,3,1,0,0", // 11, by place 3; 3: u in s
                cla,             // 12, 4: u in r
                "S,cls,3,2,0,0", // 13, by place 3; 4: u in s
                "S,cls,4,2,0,0", // 14
            ]),
            "yes,0,0,3,3,7,4,0",
        ),
        case(
            "cla: split twice, closed once too few",
            or_then(&[cla, cla, "S,cls,4,1,0,0", "S,cls,4,2,0,0"]),
            "no,17,12,0,0,0,0,0",
        ),
        case(
            "cla: split twice, the first split's alternative first",
            or_then(&[cla, cla, "S,cls,4,1,0,0", "S,cls,3,2,0,0"]),
            "no,12,11,0,0,0,0,0", // place 3 is still u in r
        ),
        case(
            "cla: split twice, place 4 after the cut back",
            or_then(&[cla, cla, "S,cls,4,1,0,0", "S,cls,4,2,0,0", "S,cls,4,2,0,0"]),
            "no,11,12,0,0,0,0,0",
        ),
        case(
            "cla: split three times",
            or_then(&[
                cla,
                cla,
                cla,             // 10, 5: u in r
                "S,cls,5,1,0,0", // 11, 5: u in s
                "S,cls,5,2,0,0", // 12, 4: u in s
                "S,cls,4,2,0,0", // 13, 3: u in s
                "S,cls,3,2,0,0", // 14
            ]),
            "yes,0,0,3,3,7,4,0",
        ),
    ]
}

/// Clause 1 is about u, clause 2 about v.
const TWO: [&str; 16] = [
    U,
    V,
    R,               // 3
    S,               // 4
    "A,ni,2,3,0,0",  // 5, 1: v ni r
    "A,ni,2,4,0,0",  // 6, 2: v ni s
    "A,ni,1,4,0,0",  // 7, 3: u ni s
    "C,in,1,3,1,0",  // 8, clause 1: u in r
    "C,in,1,4,1,0",  // 9, or u in s
    "C,in,2,3,2,0",  // 10, clause 2: v in r
    "C,in,2,4,2,0",  // 11, or v in s
    "S,cla,0,0,1,0", // 12, 4: u in r
    "S,cla,0,0,2,0", // 13, 5: v in r
    "S,cls,5,1,0,0", // 14, 5: v in s; place 4 stays
    "S,cls,5,2,0,0", // 15, 4: u in s
    "S,cls,4,3,0,0", // 16
];

fn nested() -> Vec<Case> {
    let changed = |changes: &[(usize, &str)], reply| {
        let name = format!("cla: two clauses, {changes:?}");
        case(&name, with_lines(&TWO, changes), reply)
    };
    // Clause 2 first: 4: v in r closes, 4: v in s closes.
    let second_alone = [
        &TWO[..11],
        &["S,cla,0,0,2,0", "S,cls,4,1,0,0", "S,cls,4,2,0,0"],
    ]
    .concat();
    // Clause 2 in the second alternative of clause 1.
    let in_the_second = [
        &TWO[..11],
        &[
            "S,cla,0,0,1,0", // 12, 4: u in r
            "S,cla,0,0,2,0", // 13, 5: v in r
            "S,cls,5,1,0,0", // 14, 5: v in s
            "S,cls,5,2,0,0", // 15, 4: u in s
            "S,cla,0,0,2,0", // 16, 5: v in r
            "S,cls,4,3,0,0", // 17, 5: v in s
            "S,cls,5,2,0,0", // 18
        ],
    ]
    .concat();
    vec![
        changed(&[], "yes,0,0,4,5,5,3,0"),
        case(
            "cla: two clauses, the second alone",
            lines(&second_alone),
            "yes,0,0,4,5,3,2,0",
        ),
        case(
            "cla: two clauses, the second in both alternatives",
            lines(&in_the_second),
            "yes,0,0,4,5,7,4,0",
        ),
        // The second clause again in place of the first, then back at v in s
        // of the outer split, which place 3 does not deny.
        changed(&[(12, "S,cla,0,0,2,0")], "no,12,16,0,0,0,0,0"),
        changed(
            &[(12, "S,cla,0,0,2,0"), (16, "S,cls,4,2,0,0")],
            "yes,0,0,4,5,5,3,0",
        ),
        // 5: u in r is not denied.
        changed(&[(13, "S,cla,0,0,1,0")], "no,12,14,0,0,0,0,0"),
        // The alternative of clause 1 is not due.
        changed(&[(15, "S,cls,4,3,0,0")], "no,12,15,0,0,0,0,0"),
        changed(&[(15, "S,cls,5,3,0,0")], "no,12,15,0,0,0,0,0"),
        // Both alternatives of clause 2 have place 5, the second of clause 1
        // place 4.
        changed(&[(15, "S,cls,6,2,0,0")], "no,11,15,0,0,0,0,0"),
        changed(&[(16, "S,cls,5,3,0,0")], "no,11,16,0,0,0,0,0"),
        changed(&[(16, "S,cls,4,2,0,0")], "no,12,16,0,0,0,0,0"),
        case(
            "cla: two clauses, two alternatives open",
            lines(&TWO[..14]),
            "no,17,15,0,0,0,0,0",
        ),
        case(
            "cla: two clauses, one alternative open",
            lines(&TWO[..15]),
            "no,17,16,0,0,0,0,0",
        ),
        case(
            "cla: two clauses, one step more",
            with_more(&TWO, &["S,cla,0,0,2,0"]),
            "no,5,17,0,0,0,0,0",
        ),
    ]
}

/// `all_denied(8)`, and a second clause split in each alternative of the first:
/// 64 closings, each by the literal of the first clause, at place 9.
fn eight_in_each_of_eight() -> Vec<Case> {
    let mut file = all_denied(8)[..25].to_vec(); // 9 T, 8 A, 8 C lines
    file.extend((2..=9).map(|term| format!("C,ni,1,{term},2,0"))); // to line 33
    file.push("S,cla,0,0,1,0".into()); // 34
    for place in 1..=8 {
        file.push("S,cla,0,0,2,0".into());
        file.extend(vec![format!("S,cls,9,{place},0,0"); 8]);
    }
    // 33 + 1 + 8 * 9 lines.
    let last = file.len();
    vec![
        case("cla: 8 in each of 8", lines(&file), "yes,0,0,9,10,73,64,0"),
        case(
            "cla: 8 in each of 8, one open",
            lines(&file[..last - 1]),
            "no,17,106,0,0,0,0,0",
        ),
        // Line 42 closes u ni r(7), so that u ni r(8) is left beside u in r(1).
        case(
            "cla: 8 in each of 8, the second literal too early",
            with_line(&file, 43, "S,cls,9,2,0,0"),
            "no,12,43,0,0,0,0,0",
        ),
    ]
}

/// Alternatives of `cla` wait beside those of `cue` and `cut`.
fn among_other_splits() -> Vec<Case> {
    // u in cup(r,s) is split in the first two alternatives of the clause.
    let file = [
        U,
        V,               // 2
        R,               // 3
        S,               // 4
        "T,cup,3,4,0,0", // 5, cup(r,s)
        "A,in,1,5,0,0",  // 6, 1: u in cup(r,s)
        "A,ni,1,3,0,0",  // 7, 2: u ni r
        "A,ni,1,4,0,0",  // 8, 3: u ni s
        "C,in,2,3,1,0",  // 9, clause 1: v in r
        "C,ne,3,3,1,0",  // 10, or r ne r
        "C,in,1,3,1,0",  // 11, or u in r
        "S,cla,0,0,1,0", // 12, 4: v in r
        "S,cue,1,0,0,0", // 13, 5: u in r
        "S,cls,5,2,0,0", // 14, 5: u in s
        "S,cls,5,3,0,0", // 15, 4: r ne r
        "S,cut,0,0,2,4", // 16, 5: v in s
        "S,cue,1,0,0,0", // 17, 6: u in r
        "S,cls,6,2,0,0", // 18, 6: u in s
        "S,cls,6,3,0,0", // 19, 5: v ni s
        "S,ref,0,0,3,0", // 20, 6: r eq r
        "S,cls,6,4,0,0", // 21, 4: u in r
        "S,cls,4,2,0,0", // 22
    ];
    let changed =
        |number, line, reply| with_line_case("cla: among splits", &file, (number, line), reply);
    // `cla` inside the alternatives of a cut.
    let inside = [
        &OR[..7],
        &[
            "S,cut,0,0,1,2", // 8, 3: u in r
            "S,cls,3,1,0,0", // 9, 3: u ni r
            "S,cla,0,0,1,0", // 10, 4: u in r
            "S,cls,4,3,0,0", // 11, 4: u in s
            "S,cut,0,0,1,3", // 12, 5: u in s
            "S,cls,5,2,0,0", // 13, 5: u ni s
            "S,cls,4,5,0,0", // 14
        ],
    ]
    .concat();
    vec![
        case("cla: among splits", lines(&file), "yes,0,0,5,4,11,6,0"),
        changed(14, "S,cls,4,2,0,0", "no,12,14,0,0,0,0,0"), // 4 is v in r
        changed(15, "S,cls,4,2,0,0", "no,12,15,0,0,0,0,0"), // the third is not due
        changed(16, "S,cls,5,3,0,0", "no,11,16,0,0,0,0,0"), // no place 5 now
        changed(16, "S,cls,4,2,0,0", "no,12,16,0,0,0,0,0"), // the second comes first
        changed(20, "S,cls,4,2,0,0", "no,12,20,0,0,0,0,0"), // and is not closed
        changed(22, "S,cls,6,4,0,0", "no,11,22,0,0,0,0,0"), // places 5, 6 are gone
        changed(22, "S,cls,4,3,0,0", "no,12,22,0,0,0,0,0"),
        case("cla: inside a cut", lines(&inside), "yes,0,0,3,3,7,4,0"),
        case(
            "cla: inside a cut, place 3 in the wrong alternative",
            with_line(&inside, 9, "S,cla,0,0,1,0"), // 4: u in r, 3: u in r
            "no,12,11,0,0,0,0,0",
        ),
    ]
}

/// A split into three inside one into two, and the other way round.
fn inside_and_around_img() -> Vec<Case> {
    let base = [
        &IMG[..13],        // places 1 to 4
        &["C,in,1,2,1,0"], // 14, clause 1: u in r
        &["C,ni,1,2,1,0"], // 15, or u ni r
    ]
    .concat();
    let inside = [
        &base[..],
        &[
            "S,img,1,0,5,0", // 16, 5: typ(u) nl dty(f)
            "S,cla,0,0,1,0", // 17, 6: u in r
            "S,cls,2,5,0,0", // 18, 6: u ni r; place 5 stays
            "S,cls,1,6,0,0", // 19, 5: rea(h,u,f) ni all
            "S,cla,0,0,1,0", // 20, 6: u in r
            "S,cls,3,5,0,0", // 21, 6: u ni r; place 5 stays
            "S,cls,1,6,0,0", // 22, 5: rea(h,u,f) in img(h,r,f)
            "S,cls,5,4,0,0", // 23
        ],
    ]
    .concat();
    let around = [
        &base[..],
        &[
            "S,cla,0,0,1,0", // 16, 5: u in r
            "S,img,1,0,5,0", // 17, 6: typ(u) nl dty(f)
            "S,cls,2,6,0,0", // 18, 6: rea(h,u,f) ni all
            "S,cls,3,6,0,0", // 19, 6: rea(h,u,f) in img(h,r,f)
            "S,cls,6,4,0,0", // 20, 5: u ni r
            "S,cls,1,5,0,0", // 21
        ],
    ]
    .concat();
    let inside_with = |number, line, reply| {
        let name = format!("cla: inside img, line {number} {line}");
        case(&name, with_line(&inside, number, line), reply)
    };
    let around_with = |number, line, reply| {
        let name = format!("cla: around img, line {number} {line}");
        case(&name, with_line(&around, number, line), reply)
    };
    vec![
        case("cla: inside img", lines(&inside), "yes,0,0,9,5,8,5,0"),
        inside_with(19, "S,cls,3,5,0,0", "no,12,19,0,0,0,0,0"), // u ni r is due
        inside_with(20, "S,cls,5,4,0,0", "no,12,20,0,0,0,0,0"), // third before second
        inside_with(22, "S,cls,5,4,0,0", "no,12,22,0,0,0,0,0"), // u ni r is due
        inside_with(23, "S,cls,1,6,0,0", "no,11,23,0,0,0,0,0"), // no place 6 now
        case("cla: around img", lines(&around), "yes,0,0,9,5,6,4,0"),
        around_with(19, "S,cls,1,5,0,0", "no,12,19,0,0,0,0,0"), // 5 is still u in r
        around_with(20, "S,cls,1,5,0,0", "no,12,20,0,0,0,0,0"),
        around_with(21, "S,cls,6,4,0,0", "no,11,21,0,0,0,0,0"), // no place 6 now
        around_with(21, "S,cls,5,4,0,0", "no,12,21,0,0,0,0,0"),
    ]
}

fn literals_and_clauses_repeated() -> Vec<Case> {
    let twice = [
        U,
        R,
        "A,ni,1,2,0,0",  // 1: u ni r
        "C,in,1,2,1,0",  // 4
        "C,in,1,2,1,0",  // 5, the same literal
        "S,cla,0,0,1,0", // 6, 2: u in r
        "S,cls,2,1,0,0", // 7, 2: u in r
        "S,cls,2,1,0,0", // 8
    ];
    let two_clauses = [
        U,
        R,
        "A,ni,1,2,0,0",  // 1: u ni r
        "C,in,1,2,1,0",  // 4
        "C,in,1,2,2,0",  // 5, the same clause
        "S,cla,0,0,2,0", // 6, 2: u in r
        "S,cls,2,1,0,0", // 7
    ];
    // u in r or u ni r: each of them is denied.
    let or_not = with_lines(
        &OR,
        &[
            (5, "A,in,1,2,0,0"),   // 2: u in r
            (7, "C,ni,1,2,1,0"),   // or u ni r
            (10, "S,cls,2,3,0,0"), // 3: u ni r
        ],
    );
    // The clause says again what is assumed.
    let assumed_too = with_line(&OR, 6, "C,ni,1,2,1,0");
    vec![
        case("cla: a literal twice", lines(&twice), "yes,0,0,2,2,3,2,0"),
        case(
            "cla: a literal twice, closed once",
            lines(&twice[..7]),
            "no,17,8,0,0,0,0,0",
        ),
        case(
            "cla: a clause twice",
            lines(&two_clauses),
            "yes,0,0,2,3,2,1,0",
        ),
        case("cla: a literal or its denial", or_not, "yes,0,0,3,3,3,2,0"),
        case(
            "cla: a literal that is assumed",
            assumed_too,
            "no,12,9,0,0,0,0,0",
        ),
    ]
}

/// A clause that no step names is assumed all the same.
fn never_split() -> Vec<Case> {
    let f_with = |clauses: &[&str]| lines(&[&F[..6], clauses, &F[6..]].concat());
    let eight = ["C,in,1,2,1,0"; 8];
    vec![
        case(
            "cla: never, one literal",
            f_with(&["C,in,1,2,1,0"]),
            "yes,0,0,4,3,2,1,0",
        ),
        case(
            "cla: never, eight literals",
            f_with(&eight),
            "yes,0,0,4,3,2,1,0",
        ),
        case(
            "cla: never, two clauses",
            f_with(&["C,in,1,2,1,0", "C,ne,2,3,1,0", "C,eq,4,4,2,0"]),
            "yes,0,0,4,4,2,1,0",
        ),
        // Of two clauses only the second, only the first.
        case(
            "cla: the second of two",
            lines(
                &[
                    &OR[..5],
                    &["C,eq,1,1,1,0", "C,in,1,2,2,0", "C,in,1,3,2,0"],
                    &["S,cla,0,0,2,0"],
                    &OR[8..],
                ]
                .concat(),
            ),
            "yes,0,0,3,4,3,2,0",
        ),
        case(
            "cla: the first of two",
            lines(&[&OR[..7], &["C,eq,1,1,2,0"], &OR[7..]].concat()),
            "yes,0,0,3,4,3,2,0",
        ),
        // Nothing else is contradictory, so the branch stays open.
        case(
            "cla: never, and open",
            lines(&[&OR[..7], &["S,cut,0,0,1,2", "S,cls,3,1,0,0"]].concat()),
            "no,17,10,0,0,0,0,0",
        ),
        case(
            "cla: never, cls on its literal",
            lines(&[&OR[..7], &["S,cls,3,1,0,0"]].concat()),
            "no,11,8,0,0,0,0,0",
        ),
    ]
}

/// A lines plus clauses, whatever the clauses hold and whether they are split.
fn counts() -> Vec<Case> {
    // u in emp or u ne u, with nothing else assumed.
    let no_a_lines = [
        U,
        EMP,
        "C,in,1,2,1,0",  // 3, clause 1: u in emp
        "C,ne,1,1,1,0",  // 4, or u ne u
        "S,cla,0,0,1,0", // 5, 1: u in emp
        "S,emp,1,0,0,0", // 6, 1: u ne u
        "S,ref,0,0,1,0", // 7, 2: u eq u
        "S,cls,2,1,0,0", // 8
    ];
    // Two clauses that contradict each other.
    let two_clauses = [
        U,
        R,
        "C,in,1,2,1,0",  // 3, clause 1
        "C,ni,1,2,2,0",  // 4, clause 2
        "S,cla,0,0,1,0", // 5, 1: u in r
        "S,cla,0,0,2,0", // 6, 2: u ni r
        "S,cls,1,2,0,0", // 7
    ];
    let other_way = [
        (5, "S,cla,0,0,2,0"),
        (6, "S,cla,0,0,1,0"),
        (7, "S,cls,2,1,0,0"),
    ];
    vec![
        case("cla: no A lines", lines(&no_a_lines), "yes,0,0,2,1,4,2,0"),
        case(
            "cla: no A lines, one alternative open",
            lines(&no_a_lines[..6]),
            "no,17,7,0,0,0,0,0",
        ),
        case(
            "cla: no A lines, not split",
            lines(&[&no_a_lines[..4], &["S,emp,1,0,0,0"]].concat()),
            "no,11,5,0,0,0,0,0",
        ),
        case(
            "cla: no A lines, no steps",
            lines(&no_a_lines[..4]),
            "no,17,5,0,0,0,0,0",
        ),
        case(
            "cla: no A lines, two clauses",
            lines(&two_clauses),
            "yes,0,0,2,2,3,1,0",
        ),
        case(
            "cla: no A lines, two clauses, the second first",
            with_lines(&two_clauses, &other_way),
            "yes,0,0,2,2,3,1,0",
        ),
        case(
            "cla: no A lines, two clauses, one split",
            lines(&[&two_clauses[..5], &["S,cls,1,2,0,0"]].concat()),
            "no,11,6,0,0,0,0,0",
        ),
        // Three clauses of 1, 2 and 3 literals beside F's two A lines.
        case(
            "cla: F, clauses of 1, 2 and 3",
            lines(
                &[
                    &F[..6],
                    &["C,in,1,2,1,0", "C,in,1,2,2,0", "C,in,1,3,2,0"],
                    &["C,eq,2,2,3,0", "C,eq,2,3,3,0", "C,eq,2,4,3,0"],
                    &F[6..],
                ]
                .concat(),
            ),
            "yes,0,0,4,5,2,1,0",
        ),
    ]
}

/// Places count A lines and what steps add.
fn no_place() -> Vec<Case> {
    vec![
        or_with(8, "S,cls,3,1,0,0", "no,11,8,0,0,0,0,0"),
        or_with(8, "S,sym,3,0,0,0", "no,11,8,0,0,0,0,0"),
        or_with(8, "S,cls,4,2,0,0", "no,11,8,0,0,0,0,0"),
        or_with(9, "S,cls,4,1,0,0", "no,11,9,0,0,0,0,0"),
        or_with(9, "S,cls,5,1,0,0", "no,11,9,0,0,0,0,0"),
        // The first place that a step takes is 3, whatever C lines there are.
        case(
            "cla: a step before it takes place 3",
            lines(
                &[
                    &OR[..7],
                    &["S,ref,0,0,1,0", "S,cla,0,0,1,0"], // 3: u eq u, 4: u in r
                    &["S,cls,4,1,0,0", "S,cls,4,2,0,0"],
                ]
                .concat(),
            ),
            "yes,0,0,3,3,4,2,0",
        ),
        case(
            "cla: a step before it takes no other place",
            lines(&[&OR[..7], &["S,ref,0,0,1,0"], &OR[7..]].concat()),
            "no,12,10,0,0,0,0,0", // 3 is u eq u
        ),
    ]
}

const IN: &str = "A,in,1,2,0,0";
const NI: &str = "A,ni,1,2,0,0";
const CLAUSE: &str = "C,in,1,2,1,0";
const CLA: &str = "S,cla,0,0,1,0";
const CUT: &str = "S,cut,0,0,1,2";
const REF: &str = "S,ref,0,0,1,0";
const CLS: &str = "S,cls,1,2,0,0";

/// u in r and u ni r are places 1 and 2; then more A lines, a clause with so
/// many literals u in r, and steps. The first C line is line 5 + more.
fn filled(more: usize, literals: usize, steps: &[(usize, &str)]) -> Vec<u8> {
    let first = [
        (1, U),
        (1, R),
        (1, IN),
        (1, NI),
        (more, IN),
        (literals, CLAUSE),
    ];
    runs(&[&first[..], steps].concat())
}

fn places() -> Vec<Case> {
    let rows: [(&str, Vec<u8>, &'static str); 10] = [
        // 999 A lines, and `cla` takes place 1,000.
        (
            "place 1,000",
            filled(997, 1, &[(1, CLA), (1, "S,cls,1000,2,0,0")]),
            "yes,0,0,2,1000,2,1,0",
        ),
        // Line 2 + 1,000 + 1 + 1.
        (
            "place 1,001",
            filled(998, 1, &[(1, CLA), (1, CLS)]),
            "no,15,1004,0,0,0,0,0",
        ),
        (
            "place 1,000 in each of 8",
            filled(997, 8, &[(1, CLA), (8, "S,cls,1000,2,0,0")]),
            "yes,0,0,2,1000,9,8,0",
        ),
        (
            "place 1,001 in each of 8",
            filled(998, 8, &[(1, CLA), (8, CLS)]),
            "no,15,1011,0,0,0,0,0",
        ),
        // After the first `cla` there is no room for a second.
        (
            "place 1,001 by the second",
            filled(997, 2, &[(2, CLA), (1, CLS)]),
            "no,15,1005,0,0,0,0,0",
        ),
        (
            "place 1,001 by the second, in the second alternative",
            filled(997, 2, &[(1, CLA), (1, CLS), (1, CLA)]),
            "no,15,1006,0,0,0,0,0",
        ),
        // 2 A lines, 997 steps, and `cla` takes place 1,000.
        (
            "place 1,000 after steps",
            filled(0, 2, &[(997, REF), (1, CLA), (2, CLS)]),
            "yes,0,0,2,3,1000,2,0",
        ),
        (
            "place 1,001 after steps",
            filled(0, 2, &[(998, REF), (1, CLA), (2, CLS)]),
            "no,15,1005,0,0,0,0,0",
        ),
        // Place 3 and 997 more in each alternative.
        (
            "1,000 places in both alternatives",
            filled(
                0,
                2,
                &[(1, CLA), (997, REF), (1, CLS), (997, REF), (1, CLS)],
            ),
            "yes,0,0,2,3,1997,2,0",
        ),
        // Line 4 + 2 + 1 + 997 + 1 + 998.
        (
            "1,001 places in the second alternative",
            filled(
                0,
                2,
                &[(1, CLA), (997, REF), (1, CLS), (998, REF), (1, CLS)],
            ),
            "no,15,2003,0,0,0,0,0",
        ),
    ];
    rows.into_iter()
        .map(|(what, file, reply)| case(&format!("cla: {what}"), file, reply))
        .collect()
}

/// `cla` leaves one alternative less waiting than its clause has literals.
/// Places 1 and 2 close whatever comes.
fn waiting() -> Vec<Case> {
    let rows: [(&str, Vec<u8>, &'static str); 13] = [
        (
            "200 waiting by 2 each",
            filled(0, 2, &[(200, CLA), (201, CLS)]),
            "yes,0,0,2,3,401,201,0",
        ),
        (
            "201 waiting by 2 each",
            filled(0, 2, &[(201, CLA), (202, CLS)]),
            "no,16,207,0,0,0,0,0",
        ),
        // 28 times 7 are 196.
        (
            "196 waiting by 8 each",
            filled(0, 8, &[(28, CLA), (197, CLS)]),
            "yes,0,0,2,3,225,197,0",
        ),
        (
            "203 waiting by 8 each",
            filled(0, 8, &[(29, CLA), (204, CLS)]),
            "no,16,41,0,0,0,0,0",
        ),
        (
            "200 waiting by 8 each and cuts",
            filled(0, 8, &[(28, CLA), (4, CUT), (201, CLS)]),
            "yes,0,0,2,3,233,201,0",
        ),
        (
            "201 waiting by 8 each and cuts",
            filled(0, 8, &[(28, CLA), (5, CUT), (202, CLS)]),
            "no,16,45,0,0,0,0,0",
        ),
        (
            "193 cuts and 8",
            filled(0, 8, &[(193, CUT), (1, CLA), (201, CLS)]),
            "yes,0,0,2,3,395,201,0",
        ),
        (
            "194 cuts and 8",
            filled(0, 8, &[(194, CUT), (1, CLA), (202, CLS)]),
            "no,16,207,0,0,0,0,0",
        ),
        (
            "199 cuts and 2",
            filled(0, 2, &[(199, CUT), (1, CLA), (201, CLS)]),
            "yes,0,0,2,3,401,201,0",
        ),
        (
            "200 cuts and 2",
            filled(0, 2, &[(200, CUT), (1, CLA), (202, CLS)]),
            "no,16,207,0,0,0,0,0",
        ),
        (
            "198 cuts and 3",
            filled(0, 3, &[(198, CUT), (1, CLA), (201, CLS)]),
            "yes,0,0,2,3,400,201,0",
        ),
        (
            "199 cuts and 3",
            filled(0, 3, &[(199, CUT), (1, CLA), (202, CLS)]),
            "no,16,207,0,0,0,0,0",
        ),
        // A clause of one literal leaves nothing waiting.
        (
            "200 cuts and 1",
            filled(0, 1, &[(200, CUT), (9, CLA), (201, CLS)]),
            "yes,0,0,2,3,410,201,0",
        ),
    ];
    rows.into_iter()
        .map(|(what, file, reply)| case(&format!("cla: {what}"), file, reply))
        .collect()
}

/// A closing makes room for one alternative more.
fn waiting_again() -> Vec<Case> {
    vec![
        case(
            "cla: 200 waiting again after a closing",
            filled(0, 2, &[(200, CLA), (1, CLS), (1, CLA), (201, CLS)]),
            "yes,0,0,2,3,403,202,0",
        ),
        case(
            "cla: 201 waiting after a closing",
            filled(0, 2, &[(200, CLA), (1, CLS), (2, CLA)]),
            "no,16,209,0,0,0,0,0",
        ),
        // Seven closings make room for the seven alternatives of one more.
        case(
            "cla: 8 after 7 closings",
            filled(0, 8, &[(200, CUT), (7, CLS), (1, CLA), (201, CLS)]),
            "yes,0,0,2,3,409,208,0",
        ),
        case(
            "cla: 8 after 6 closings",
            filled(0, 8, &[(200, CUT), (6, CLS), (1, CLA)]),
            "no,16,219,0,0,0,0,0",
        ),
    ]
}

/// 800 A lines and 200 cuts fill the branch and the places to wait.
fn places_and_waiting() -> Vec<Case> {
    let file = |a_lines: usize, literals: usize, step: &str| {
        filled(a_lines - 2, literals, &[(200, CUT), (1, step)])
    };
    vec![
        // 15 and 16
        case("cla: both full", file(800, 2, CLA), "no,15,1005,0,0,0,0,0"),
        // 15 alone, 16 alone, neither
        case(
            "cla: both full, 1",
            file(800, 1, CLA),
            "no,15,1004,0,0,0,0,0",
        ),
        case(
            "cla: only waiting full",
            file(799, 2, CLA),
            "no,16,1004,0,0,0,0,0",
        ),
        case("cla: room for 1", file(799, 1, CLA), "no,17,1004,0,0,0,0,0"),
        // 11 and 15, 16
        case(
            "cla: both full, no clause",
            file(800, 2, "S,cla,0,0,2,0"),
            "no,11,1005,0,0,0,0,0",
        ),
        // 6 and 15, 16
        case(
            "cla: both full, unused field",
            file(800, 2, "S,cla,0,0,1,1"),
            "no,6,1005,0,0,0,0,0",
        ),
    ]
}
