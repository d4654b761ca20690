//! The closing `bck` among the other steps: the numbers that it gets and their
//! order, the counts after a yes, alternatives and clauses, and the limits.

use super::bck::{assumed, variables};
use super::{case, lines, with_line, with_line_case, with_lines, with_more, without_line, Case};
use super::{ALL, F, FIELD, HEAP, R, S, U, V, WITNESS_TERMS};

pub fn cases() -> Vec<Case> {
    let groups = [
        unused_fields(),
        shapes_and_letters(),
        tree_closed(),
        nothing_there(),
        only_what_is_on_the_branch(),
        an_alternative_closed(),
        after_sge(),
        three_alternatives(),
        witness(),
        one_split_after_the_other(),
        derived_literals(),
        from_clauses(),
        clauses_alone(),
        many_places(),
        many_waiting(),
        many_terms(),
        sixty_thousand_bytes(),
        other_closings_beside_it(),
    ];
    groups.into_iter().flatten().collect()
}

const BCK: &str = "S,bck,0,0,0,0";

/// Closed by one equation.
const CLOSED: [&str; 5] = [
    U,              // 1
    V,              // 2
    "A,eq,1,2,0,0", // 3, 1: u eq v
    "A,ne,2,1,0,0", // 4, 2: v ne u
    BCK,            // 5
];

/// Not closed: place 2 says nothing against place 1.
const OPEN: [&str; 5] = [
    U,              // 1
    V,              // 2
    "A,eq,1,2,0,0", // 3, 1: u eq v
    "A,eq,2,1,0,0", // 4, 2: v eq u
    BCK,            // 5
];

/// Each nonzero field: 6, where `bck` would close and where it wouldn't.
fn unused_fields() -> Vec<Case> {
    let mut cases = vec![case("bck: closed", lines(&CLOSED), "yes,0,0,2,2,1,1,0")];
    cases.push(case("bck: open", lines(&OPEN), "no,12,5,0,0,0,0,0"));
    for step in [
        "S,bck,1,0,0,0",
        "S,bck,0,1,0,0",
        "S,bck,0,0,1,0",
        "S,bck,0,0,0,1",
        "S,bck,2,0,0,0",
        "S,bck,0,2,0,0",
        "S,bck,0,0,2,0",
        "S,bck,0,0,0,2",
        "S,bck,1,2,0,0", // the places that contradict each other
        "S,bck,2,1,0,0",
        "S,bck,0,0,1,2", // the terms
        "S,bck,1,2,1,2",
        "S,bck,3,0,0,0", // no such place
        "S,bck,0,9999,0,0",
        "S,bck,0,0,9999,0", // no such term
        "S,bck,0,0,0,9999",
        "S,bck,99999,99999,99999,99999",
    ] {
        let reply = "no,6,5,0,0,0,0,0";
        cases.push(with_line_case("bck: closed", &CLOSED, (5, step), reply));
        cases.push(with_line_case("bck: open", &OPEN, (5, step), reply));
    }
    cases
}

fn shapes_and_letters() -> Vec<Case> {
    let mut cases = Vec::new();
    for (line, number) in [
        ("S,bck,0,0,0", 2),
        ("S,bck,0,0,0,", 2),
        ("S,bck,0,0,0,0,0", 2),
        ("S,bck", 2),
        ("S,bck,,,,", 2),
        ("S,bck,00,0,0,0", 2),
        ("S,bck,0,0,0,00", 2),
        ("S,bck,0,0,0,100000", 2),
        ("S,bck,0,0,0,-1", 2),
        ("S,bck,0,0,0,0\r", 2),
        ("S,bck ,0,0,0,0", 2),
        ("S, bck,0,0,0,0", 2),
        ("S,bcks,0,0,0,0", 2),
        ("S,Bck,0,0,0,0", 2),
        ("S,BCK,0,0,0,0", 2),
        ("s,bck,0,0,0,0", 2),
        ("B,bck,0,0,0,0", 2),
        ("S,bc,0,0,0,0", 4),
        ("S,ck,0,0,0,0", 4),
        ("S,bk,0,0,0,0", 4),
        ("S,bcc,0,0,0,0", 4),
        ("S,bkc,0,0,0,0", 4),
        ("S,cbk,0,0,0,0", 4),
        ("S,kcb,0,0,0,0", 4),
        ("S,bcl,1,0,0,0", 4), // and 6, were it a rule
        ("S,clo,0,0,0,0", 4),
        ("S,eq,0,0,0,0", 4),
        ("T,bck,0,0,0,0", 3),
        ("A,bck,0,0,0,0", 4),
        ("A,bck,1,2,0,0", 4),
        ("C,bck,0,0,0,0", 4),
        ("C,bck,1,2,1,0", 4),
    ] {
        let reply = format!("no,{number},5,0,0,0,0,0").leak();
        cases.push(with_line_case("bck: line", &CLOSED, (5, line), reply));
    }
    for (number, line, reply) in [
        (1, "T,bck,0,0,0,0", "no,4,1,0,0,0,0,0"),
        (1, "T,bck,1,0,0,0", "no,4,1,0,0,0,0,0"),
        (2, "T,bck,1,1,0,0", "no,4,2,0,0,0,0,0"),
        (3, "A,bck,1,2,0,0", "no,4,3,0,0,0,0,0"),
        (3, "C,bck,1,2,1,0", "no,4,3,0,0,0,0,0"),
        (4, "T,bck,1,2,0,0", "no,3,4,0,0,0,0,0"), // T after A
        (4, "C,bck,1,2,1,0", "no,4,4,0,0,0,0,0"),
        (2, BCK, "no,12,2,0,0,0,0,0"),            // before the A lines
        (3, BCK, "no,12,3,0,0,0,0,0"),            // before the second
        (4, BCK, "no,12,4,0,0,0,0,0"),            // nothing is denied
        (4, "A,ne,2,2,0,0", "yes,0,0,2,2,1,1,0"), // ref
        (4, "A,nl,2,1,0,0", "no,9,4,0,0,0,0,0"),  // no classes
    ] {
        cases.push(with_line_case("bck: early", &CLOSED, (number, line), reply));
    }
    // After the A lines, with a line more: 3 comes before 4.
    for (line, number) in [
        ("T,bck,0,0,0,0", 3),
        ("A,bck,1,2,0,0", 3),
        ("C,bck,1,2,1,0", 3),
        ("S,bck,0,0,0", 2),
        ("S,bcc,0,0,0,0", 4),
    ] {
        let reply = format!("no,{number},6,0,0,0,0,0").leak();
        let file = with_more(&CLOSED, &[line]);
        cases.push(case(&format!("bck: closed, then {line}"), file, reply));
    }
    let mut unended = lines(&CLOSED);
    unended.pop();
    cases.push(case("bck: no LF", unended, "no,2,5,0,0,0,0,0"));
    cases
}

/// 5 comes before 6 and 12.
fn tree_closed() -> Vec<Case> {
    let mut cases = Vec::new();
    for step in [
        BCK,
        "S,bck,1,0,0,0",
        "S,bck,0,1,0,0",
        "S,bck,0,0,1,0",
        "S,bck,0,0,0,1",
        "S,bck,9999,9999,9999,9999",
    ] {
        let again = with_more(&CLOSED, &[step]);
        let name = format!("bck: {step} on a tree that bck has closed");
        cases.push(case(&name, again, "no,5,6,0,0,0,0,0"));
        // Nothing would contradict in F.
        let name = format!("bck: {step} on F, closed");
        cases.push(case(&name, with_more(&F, &[step]), "no,5,9,0,0,0,0,0"));
    }
    for step in ["S,ref,0,0,1,0", "S,cls,1,2,0,0", "S,cut,0,0,1,2"] {
        let name = format!("bck: {step} on a tree that bck has closed");
        let file = with_more(&CLOSED, &[step]);
        cases.push(case(&name, file, "no,5,6,0,0,0,0,0"));
    }
    cases
}

/// No terms, no literals, or none that are denied.
fn nothing_there() -> Vec<Case> {
    vec![
        case("bck: no terms", lines(&[BCK]), "no,12,1,0,0,0,0,0"),
        case(
            "bck: no terms, a field",
            lines(&["S,bck,1,0,0,0"]),
            "no,6,1,0,0,0,0,0",
        ),
        case("bck: no literals", lines(&[U, V, BCK]), "no,12,3,0,0,0,0,0"),
        case(
            "bck: no literals, cut",
            lines(&[U, R, "S,cut,0,0,1,2", BCK]),
            "no,12,4,0,0,0,0,0",
        ),
        case(
            "bck: F before cpe",
            with_line(&F, 7, BCK),
            "no,12,7,0,0,0,0,0",
        ),
        // cls closes it.
        case(
            "bck: F after cpe",
            with_line(&F, 8, BCK),
            "no,12,8,0,0,0,0,0",
        ),
        case("bck: not asked", lines(&CLOSED[..4]), "no,17,5,0,0,0,0,0"),
        // The first line that is bad.
        case(
            "bck: twice in vain",
            lines(&[U, BCK, BCK]),
            "no,12,2,0,0,0,0,0",
        ),
    ]
}

/// Literals that a step adds later don't count before it.
fn only_what_is_on_the_branch() -> Vec<Case> {
    let file = [
        U,               // 1
        V,               // 2
        "T,sin,2,0,0,0", // 3, sin(v)
        "A,in,1,3,0,0",  // 4, 1: u in sin(v)
        "A,ne,1,2,0,0",  // 5, 2: u ne v
        "S,sge,1,0,0,0", // 6, 3: u eq v
        BCK,             // 7
    ];
    vec![
        case("bck: after sge", lines(&file), "yes,0,0,3,2,2,1,0"),
        case(
            "bck: before sge",
            with_lines(&file, &[(6, BCK), (7, "S,sge,1,0,0,0")]),
            "no,12,6,0,0,0,0,0",
        ),
        case(
            "bck: without sge",
            without_line(&file, 6),
            "no,12,6,0,0,0,0,0",
        ),
        case(
            "bck: sge and no bck",
            lines(&file[..6]),
            "no,17,7,0,0,0,0,0",
        ),
    ]
}

/// A clause u eq v or x eq y, and denials of both.
const TWO: [&str; 11] = [
    U,               // 1
    V,               // 2
    "T,rfv,3,0,0,0", // 3, x
    "T,rfv,4,0,0,0", // 4, y
    "A,ne,2,1,0,0",  // 5, 1: v ne u
    "A,ne,3,4,0,0",  // 6, 2: x ne y
    "C,eq,1,2,1,0",  // 7
    "C,eq,3,4,1,0",  // 8
    "S,cla,0,0,1,0", // 9, 3: u eq v
    BCK,             // 10, 3: x eq y
    BCK,             // 11
];

/// What stands in a closed alternative no longer counts; what stands in the
/// current one does.
fn an_alternative_closed() -> Vec<Case> {
    let changed =
        |name: &str, changes: &[(usize, &str)], reply| case(name, with_lines(&TWO, changes), reply);
    vec![
        case("bck: alternatives", lines(&TWO), "yes,0,0,4,3,3,2,0"),
        case(
            "bck: alternatives, a branch open",
            lines(&TWO[..10]),
            "no,17,11,0,0,0,0,0",
        ),
        case(
            "bck: alternatives, one more",
            with_more(&TWO, &[BCK]),
            "no,5,12,0,0,0,0,0",
        ),
        // x eq y is not denied: u eq v and v ne u are no longer both there.
        changed(
            "bck: alternatives, the second not denied",
            &[(6, "A,ne,2,1,0,0")],
            "no,12,11,0,0,0,0,0",
        ),
        // u eq v is not denied, though x eq y is: it waits.
        changed(
            "bck: alternatives, the first not denied",
            &[(5, "A,ne,3,4,0,0")],
            "no,12,10,0,0,0,0,0",
        ),
        changed(
            "bck: alternatives, before the split",
            &[(9, BCK)],
            "no,12,9,0,0,0,0,0",
        ),
        changed(
            "bck: alternatives, a field in the second",
            &[(11, "S,bck,0,0,0,1")],
            "no,6,11,0,0,0,0,0",
        ),
        // Denials in the alternatives, and equations on A lines.
        changed(
            "bck: alternatives that deny",
            &[
                (5, "A,eq,2,1,0,0"),
                (6, "A,eq,3,4,0,0"),
                (7, "C,ne,1,2,1,0"),
                (8, "C,ne,4,3,1,0"),
            ],
            "yes,0,0,4,3,3,2,0",
        ),
        changed(
            "bck: alternatives that deny, the second nothing",
            &[
                (5, "A,eq,2,1,0,0"),
                (6, "A,eq,3,4,0,0"),
                (7, "C,ne,1,2,1,0"),
                (8, "C,ne,1,3,1,0"),
            ],
            "no,12,11,0,0,0,0,0",
        ),
        // v eq x, x ne u, and u eq v or u eq x.
        changed(
            "bck: alternatives in a chain",
            &[
                (5, "A,eq,2,3,0,0"),
                (6, "A,ne,3,1,0,0"),
                (8, "C,eq,1,3,1,0"),
            ],
            "yes,0,0,4,3,3,2,0",
        ),
        // Both alternatives are needed at once: u eq v and v eq x for u ne x.
        changed(
            "bck: alternatives together",
            &[
                (5, "A,ne,1,3,0,0"),
                (7, "C,eq,1,2,1,0"),
                (8, "C,eq,2,3,1,0"),
            ],
            "no,12,10,0,0,0,0,0",
        ),
    ]
}

/// u in sin(v) in the first alternative gives u eq v; in the second it is gone.
fn after_sge() -> Vec<Case> {
    let file = [
        U,               // 1
        V,               // 2
        "T,sin,2,0,0,0", // 3, sin(v)
        "A,ne,1,2,0,0",  // 4, 1: u ne v
        "A,in,1,3,0,0",  // 5, 2: u in sin(v)
        "S,cut,0,0,1,3", // 6, 3: u in sin(v)
        "S,sge,3,0,0,0", // 7, 4: u eq v
        BCK,             // 8, 3: u ni sin(v)
        "S,cls,2,3,0,0", // 9
    ];
    let changed = |number, line, reply| with_line_case("bck: sge", &file, (number, line), reply);
    vec![
        case("bck: sge", lines(&file), "yes,0,0,3,2,4,2,0"),
        changed(9, BCK, "no,12,9,0,0,0,0,0"),
        changed(9, "S,cls,4,1,0,0", "no,11,9,0,0,0,0,0"),
        // Place 2 gives it again.
        case(
            "bck: sge in both",
            with_line(&file, 9, "S,sge,2,0,0,0"),
            "no,17,10,0,0,0,0,0",
        ),
        case(
            "bck: sge in both, closed",
            with_more(&file[..8], &["S,sge,2,0,0,0", BCK]),
            "yes,0,0,3,2,5,2,0",
        ),
        case(
            "bck: sge before the cut",
            lines(&[
                U,
                V,
                "T,sin,2,0,0,0",
                "A,ne,1,2,0,0",
                "A,in,1,3,0,0",
                "S,sge,2,0,0,0", // 3: u eq v
                "S,cut,0,0,1,3", // 4: u in sin(v)
                BCK,             // 4: u ni sin(v)
                BCK,
            ]),
            "yes,0,0,3,2,4,2,0",
        ),
    ]
}

/// `img` adds typ(u) nl dty(f) in its first alternative; le denies it.
fn three_alternatives() -> Vec<Case> {
    let file = [
        U,               // 1
        R,               // 2
        HEAP,            // 3
        FIELD,           // 4
        "T,img,3,2,4,0", // 5, i = img(h,r,f)
        "T,typ,1,0,0,0", // 6, typ(u)
        "T,dty,4,0,0,0", // 7, dty(f)
        "T,rea,3,1,4,0", // 8, rea(h,u,f)
        ALL,             // 9
        "T,clv,1,0,0,0", // 10, c
        "A,in,1,2,0,0",  // 11, 1: u in r
        "A,le,6,10,0,0", // 12, 2: typ(u) le c
        "A,le,10,7,0,0", // 13, 3: c le dty(f)
        "A,in,8,9,0,0",  // 14, 4: rea(h,u,f) in all
        "A,ni,8,5,0,0",  // 15, 5: rea(h,u,f) ni i
        "S,img,1,0,5,0", // 16, 6: typ(u) nl dty(f)
        BCK,             // 17, 6: rea(h,u,f) ni all
        "S,cls,4,6,0,0", // 18, 6: rea(h,u,f) in i
        "S,cls,6,5,0,0", // 19
    ];
    let changed = |number, line, reply| with_line_case("bck: img", &file, (number, line), reply);
    vec![
        case("bck: img", lines(&file), "yes,0,0,10,5,4,3,0"),
        changed(18, BCK, "no,12,18,0,0,0,0,0"),
        changed(19, BCK, "no,12,19,0,0,0,0,0"),
        changed(13, "A,le,7,10,0,0", "no,12,17,0,0,0,0,0"), // dty(f) le c
        changed(12, "A,eq,10,6,0,0", "yes,0,0,10,5,4,3,0"), // c eq typ(u)
        changed(13, "A,eq,7,10,0,0", "yes,0,0,10,5,4,3,0"),
        changed(12, "A,le,10,6,0,0", "no,12,17,0,0,0,0,0"),
        changed(12, "A,ne,10,10,0,0", "yes,0,0,10,5,4,3,0"), // another contradiction
        // It is there in every alternative.
        case(
            "bck: img, three times",
            with_lines(&file, &[(12, "A,ne,10,10,0,0"), (18, BCK), (19, BCK)]),
            "yes,0,0,10,5,4,3,0",
        ),
    ]
}

/// `wit` adds typ(w) le dty(f) and rea(h,w,f) eq u, which deny what `img` and
/// `sep` add.
fn witness() -> Vec<Case> {
    let rest = [
        ALL,             // 10
        "A,in,1,6,0,0",  // 11, 1: u in i, which is img(h,r,f)
        "A,ni,1,6,0,0",  // 12, 2: u ni i
        "S,wit,1,0,0,2", // 13, 3: w in r, 4: typ(w) le dty(f), 5: rea(h,w,f) eq u
        "S,img,3,0,6,0", // 14, 6: typ(w) nl dty(f)
        BCK,             // 15, 6: rea(h,w,f) ni all
        "S,all,1,0,0,0", // 16, 7: u in all
        "S,sep,7,6,0,0", // 17, 8: u ne rea(h,w,f)
        BCK,             // 18, 6: rea(h,w,f) in i
        "S,sep,6,2,0,0", // 19, 7: rea(h,w,f) ne u
        BCK,             // 20
    ];
    let file = [&WITNESS_TERMS[..], &rest].concat();
    let changed = |number, line, reply| with_line_case("bck: wit", &file, (number, line), reply);
    vec![
        case("bck: wit", lines(&file), "yes,0,0,10,2,8,3,0"),
        changed(14, BCK, "no,12,14,0,0,0,0,0"),
        changed(15, "S,cls,4,6,0,0", "yes,0,0,10,2,8,3,0"),
        changed(16, BCK, "no,12,16,0,0,0,0,0"),
        changed(17, BCK, "no,12,17,0,0,0,0,0"),
        changed(18, "S,cls,5,8,0,0", "no,12,18,0,0,0,0,0"), // sides changed over
        changed(19, BCK, "no,12,19,0,0,0,0,0"),
        changed(20, "S,cls,5,7,0,0", "yes,0,0,10,2,8,3,0"),
    ]
}

/// Four cuts, and `bck` between them.
fn one_split_after_the_other() -> Vec<Case> {
    let base = [
        U,               // 1
        V,               // 2
        R,               // 3
        "A,eq,1,2,0,0",  // 4, 1: u eq v
        "A,ne,2,1,0,0",  // 5, 2: v ne u
        "S,cut,0,0,1,3", // 6
        BCK,             // 7
        "S,cut,0,0,2,3", // 8
        "S,cut,0,0,2,3", // 9
        BCK,             // 10
        BCK,             // 11
        "S,cut,0,0,1,3", // 12
        BCK,             // 13
        BCK,             // 14
    ];
    vec![
        case("bck: splits", lines(&base), "yes,0,0,3,2,9,5,0"),
        case(
            "bck: splits, the last open",
            lines(&base[..13]),
            "no,17,14,0,0,0,0,0",
        ),
        case(
            "bck: splits, one more",
            with_more(&base, &[BCK]),
            "no,5,15,0,0,0,0,0",
        ),
        case(
            "bck: splits, a field in the fourth",
            with_line(&base, 13, "S,bck,0,0,0,2"),
            "no,6,13,0,0,0,0,0",
        ),
        case(
            "bck: splits, nothing denied",
            with_line(&base, 5, "A,eq,2,1,0,0"),
            "no,12,7,0,0,0,0,0",
        ),
        case(
            "bck: splits, cls with sides changed over",
            with_line(&base, 10, "S,cls,1,2,0,0"),
            "no,12,10,0,0,0,0,0",
        ),
        case(
            "bck: splits, cls after sym",
            lines(&[
                U,
                V,
                R,
                "A,eq,1,2,0,0",
                "A,ne,2,1,0,0",
                "S,sym,1,0,0,0", // 3: v eq u
                "S,cut,0,0,1,3", // 4
                "S,cls,3,2,0,0", // 4
                "S,cut,0,0,2,3", // 5
                BCK,             // 5
                "S,cls,3,2,0,0",
            ]),
            "yes,0,0,3,2,6,3,0",
        ),
    ]
}

/// Steps add what `bck` needs: each of the rules of equality and order, and some
/// others; and `bck` needs none of those.
fn derived_literals() -> Vec<Case> {
    let file = [
        "T,clv,1,0,0,0", // 1, a
        "T,clv,2,0,0,0", // 2, b
        "T,clv,3,0,0,0", // 3, c
        "A,le,1,2,0,0",  // 4, 1: a le b
        "A,le,2,1,0,0",  // 5, 2: b le a
        "A,eq,2,3,0,0",  // 6, 3: b eq c
        "A,ne,1,3,0,0",  // 7, 4: a ne c
        "S,lea,1,2,0,0", // 8, 5: a eq b
        "S,trn,5,3,0,0", // 9, 6: a eq c
        BCK,             // 10
    ];
    let mut cases = vec![
        case("bck: after lea and trn", lines(&file), "yes,0,0,3,4,3,1,0"),
        case(
            "bck: after lea",
            without_line(&file, 9),
            "yes,0,0,3,4,2,1,0",
        ),
        case(
            "bck: without lea",
            with_more(&file[..7], &[BCK]),
            "yes,0,0,3,4,1,1,0",
        ),
        case(
            "bck: beside cls",
            with_line(&file, 10, "S,cls,6,4,0,0"),
            "yes,0,0,3,4,3,1,0",
        ),
    ];
    // Steps of every rule of equality and order before it change nothing.
    for step in [
        "S,ref,0,0,1,0",
        "S,sym,3,0,0,0",
        "S,sym,4,0,0,0",
        "S,trn,3,3,0,0",
        "S,ler,0,0,2,0",
        "S,let,1,2,0,0",
        "S,let,2,1,0,0",
        "S,lea,2,1,0,0",
        "S,rep,1,3,2,0",
        "S,rep,2,3,1,0",
    ] {
        let changed = with_lines(&file, &[(8, "S,ref,0,0,3,0"), (9, step)]);
        let reply = match step {
            // trn needs b eq c, and then c on the left.
            "S,trn,3,3,0,0" => "no,12,9,0,0,0,0,0",
            _ => "yes,0,0,3,4,3,1,0",
        };
        cases.push(case(&format!("bck: after {step}"), changed, reply));
    }
    // sep adds u ne v; with u eq v that closes.
    let sep = [
        U,               // 1
        V,               // 2
        R,               // 3
        "A,in,1,3,0,0",  // 4, 1: u in r
        "A,ni,2,3,0,0",  // 5, 2: v ni r
        "A,eq,2,1,0,0",  // 6, 3: v eq u
        "S,sep,1,2,0,0", // 7, 4: u ne v
        BCK,             // 8
    ];
    cases.extend(after_and_before("sep", &sep, "yes,0,0,3,3,2,1,0"));
    // nul adds u ne nul.
    let nul = [
        U,               // 1
        "T,nul,0,0,0,0", // 2
        R,               // 3
        "A,in,1,3,0,0",  // 4, 1: u in r
        "A,eq,2,1,0,0",  // 5, 2: nul eq u
        "S,nul,1,0,0,0", // 6, 3: u ne nul
        BCK,             // 7
    ];
    cases.extend(after_and_before("nul", &nul, "yes,0,0,3,2,2,1,0"));
    // rdh adds rea(k,u,f) eq v, rdm splits.
    let read = [
        U,                // 1
        V,                // 2
        HEAP,             // 3
        FIELD,            // 4
        "T,wri,3,1,4,2",  // 5, k = wri(h,u,f,v)
        "T,rea,5,1,4,0",  // 6, rea(k,u,f)
        "T,rfv,3,0,0,0",  // 7, y
        "T,rea,5,7,4,0",  // 8, rea(k,y,f)
        "T,rea,3,7,4,0",  // 9, rea(h,y,f)
        "T,typ,6,0,0,0",  // 10, typ(rea(k,u,f))
        "T,typ,2,0,0,0",  // 11, typ(v)
        "A,nl,10,11,0,0", // 12, 1: typ(rea(k,u,f)) nl typ(v)
        "S,rdh,0,0,6,0",  // 13, 2: rea(k,u,f) eq v
        BCK,              // 14
    ];
    cases.extend(after_and_before("rdh", &read, "yes,0,0,11,1,2,1,0"));
    let moved = [
        &read[..11],
        &[
            "A,ne,8,9,0,0",  // 12, 1: rea(k,y,f) ne rea(h,y,f)
            "A,ne,7,1,0,0",  // 13, 2: y ne u
            "S,rdm,0,0,8,0", // 14, 3: u eq y, 4: f eq f
            BCK,             // 15, 3: rea(k,y,f) eq rea(h,y,f)
            BCK,             // 16
        ],
    ]
    .concat();
    cases.push(case("bck: after rdm", lines(&moved), "yes,0,0,11,2,3,2,0"));
    cases.push(case(
        "bck: after rdm, y may be u",
        with_line(&moved, 13, "A,ne,7,2,0,0"),
        "no,12,15,0,0,0,0,0",
    ));
    cases.push(case(
        "bck: after rdm, the read not denied",
        with_line(&moved, 12, "A,ne,7,1,0,0"),
        "no,12,16,0,0,0,0,0",
    ));
    // fin adds cup(i,r) eq r.
    let fin = [
        R,               // 1
        HEAP,            // 2
        FIELD,           // 3
        "T,img,2,1,3,0", // 4, i = img(h,r,f)
        "T,cup,1,4,0,0", // 5, cup(r,i)
        "T,cup,4,1,0,0", // 6, cup(i,r)
        "A,eq,5,4,0,0",  // 7, 1: cup(r,i) eq i
        "A,ne,1,6,0,0",  // 8, 2: r ne cup(i,r)
        "S,fin,1,0,0,0", // 9, 3: cup(i,r) eq r
        BCK,             // 10
    ];
    cases.extend(after_and_before("fin", &fin, "yes,0,0,6,2,2,1,0"));
    cases
}

/// `bck` on the last line closes after the step by this rule on the line before,
/// and not without it.
fn after_and_before(rule: &str, file: &[&str], reply: &'static str) -> [Case; 2] {
    let step = file.len() - 1;
    let refused = format!("no,12,{step},0,0,0,0,0").leak();
    [
        case(&format!("bck: after {rule}"), lines(file), reply),
        case(
            &format!("bck: before {rule}"),
            without_line(file, step),
            refused,
        ),
    ]
}

/// A clause of three, each literal against another denial.
fn from_clauses() -> Vec<Case> {
    let file = [
        "T,clv,1,0,0,0", // 1, a
        "T,clv,2,0,0,0", // 2, b
        U,               // 3
        V,               // 4
        "T,typ,3,0,0,0", // 5, typ(u)
        "T,typ,4,0,0,0", // 6, typ(v)
        "A,nl,1,2,0,0",  // 7, 1: a nl b
        "A,ne,5,6,0,0",  // 8, 2: typ(u) ne typ(v)
        "C,le,1,2,1,0",  // 9
        "C,eq,3,4,1,0",  // 10
        "C,eq,2,1,1,0",  // 11
        "S,cla,0,0,1,0", // 12, 3: a le b
        BCK,             // 13, 3: u eq v
        BCK,             // 14, 3: b eq a
        BCK,             // 15
    ];
    let changed = |number, line, reply| with_line_case("bck: clause", &file, (number, line), reply);
    vec![
        case("bck: clause", lines(&file), "yes,0,0,6,3,4,3,0"),
        changed(9, "C,le,2,1,1,0", "no,12,13,0,0,0,0,0"),
        changed(10, "C,eq,5,1,1,0", "no,12,14,0,0,0,0,0"),
        changed(11, "C,ne,2,1,1,0", "no,12,15,0,0,0,0,0"),
        changed(11, "C,ne,2,2,1,0", "yes,0,0,6,3,4,3,0"),
        changed(12, BCK, "no,12,12,0,0,0,0,0"),
        changed(7, "A,nl,2,1,0,0", "no,12,13,0,0,0,0,0"),
        changed(8, "A,nl,6,5,0,0", "yes,0,0,6,3,4,3,0"),
        changed(8, "A,ne,3,4,0,0", "yes,0,0,6,3,4,3,0"),
        changed(13, "S,cls,3,1,0,0", "yes,0,0,6,3,4,3,0"),
        changed(14, "S,cls,3,2,0,0", "no,12,14,0,0,0,0,0"),
        case(
            "bck: clause, two alternatives open",
            lines(&file[..13]),
            "no,17,14,0,0,0,0,0",
        ),
    ]
}

/// Literals of clauses play no part before they are split.
fn clauses_alone() -> Vec<Case> {
    let terms = [U, V, "T,clv,1,0,0,0", "T,clv,2,0,0,0"];
    let mut cases = Vec::new();
    for (assumption, clause, split) in [
        ("A,ne,1,2,0,0", "C,eq,1,2,1,0", "yes,0,0,4,2,2,1,0"),
        ("A,eq,1,2,0,0", "C,ne,1,2,1,0", "yes,0,0,4,2,2,1,0"),
        ("A,eq,1,2,0,0", "C,ne,1,1,1,0", "yes,0,0,4,2,2,1,0"),
        ("A,le,3,4,0,0", "C,nl,3,4,1,0", "yes,0,0,4,2,2,1,0"),
        ("A,nl,3,4,0,0", "C,le,3,4,1,0", "yes,0,0,4,2,2,1,0"),
        ("A,nl,3,4,0,0", "C,eq,4,3,1,0", "yes,0,0,4,2,2,1,0"),
        ("A,eq,3,4,0,0", "C,nl,3,3,1,0", "yes,0,0,4,2,2,1,0"),
        ("A,nl,3,4,0,0", "C,le,4,3,1,0", "no,12,8,0,0,0,0,0"),
        ("A,ne,3,4,0,0", "C,le,4,3,1,0", "no,12,8,0,0,0,0,0"),
    ] {
        let assumed = [&terms[..], &[assumption, clause]].concat();
        let name = format!("bck: {assumption}, {clause}");
        cases.push(case(
            &format!("{name}, not split"),
            with_more(&assumed, &[BCK]),
            "no,12,7,0,0,0,0,0",
        ));
        // The step is on line 8, after cla on line 7.
        cases.push(case(
            &format!("{name}, split"),
            with_more(&assumed, &["S,cla,0,0,1,0", BCK]),
            split,
        ));
    }
    cases
}

/// 1,000 places: `bck` adds none. It looks at the first and at the last.
fn many_places() -> Vec<Case> {
    let mut cases = Vec::new();
    let filler = "A,eq,1,1,0,0";
    for (what, first, last, reply) in [
        (
            "the denial last",
            "A,eq,1,2,0,0",
            "A,ne,2,1,0,0",
            "yes,0,0,3,1000,1,1,0",
        ),
        (
            "the denial first",
            "A,ne,2,1,0,0",
            "A,eq,1,2,0,0",
            "yes,0,0,3,1000,1,1,0",
        ),
        (
            "nothing denied",
            "A,eq,1,2,0,0",
            "A,eq,2,1,0,0",
            "no,12,1004,0,0,0,0,0",
        ),
        (
            "another denied",
            "A,eq,1,2,0,0",
            "A,ne,1,3,0,0",
            "no,12,1004,0,0,0,0,0",
        ),
        (
            "itself denied last",
            "A,eq,1,2,0,0",
            "A,ne,3,3,0,0",
            "yes,0,0,3,1000,1,1,0",
        ),
    ] {
        let mut file = vec![U, V, "T,rfv,3,0,0,0", first];
        file.extend(vec![filler; 998]);
        file.extend([last, BCK]);
        cases.push(case(
            &format!("bck: 1,000 places, {what}"),
            lines(&file),
            reply,
        ));
    }
    // 999 places and one that a step adds; then `bck` on a full branch.
    let mut file = vec![U, V, "T,rfv,3,0,0,0", "A,ne,2,1,0,0", "A,eq,1,2,0,0"];
    file.extend(vec![filler; 997]);
    file.extend(["S,ref,0,0,3,0", BCK]);
    cases.push(case(
        "bck: 1,000 places, the last derived",
        lines(&file),
        "yes,0,0,3,999,2,1,0",
    ));
    // Of 1,000 literals 998 are a chain, and the first and the last deny it.
    let mut chain: Vec<String> = variables("rgv", 500);
    chain.push("A,ne,1,500,0,0".into());
    chain.extend((1..500).map(|from| format!("A,eq,{from},{},0,0", from + 1)));
    chain.extend((1..500).map(|from| format!("A,eq,{},{from},0,0", from + 1)));
    chain.push("A,ne,500,1,0,0".into());
    chain.push(BCK.into());
    cases.push(case(
        "bck: 1,000 places, a chain both ways",
        lines(&chain),
        "yes,0,0,500,1000,1,1,0",
    ));
    // 999 denials in vain, and the 1,000th literal makes the last one true.
    let mut file: Vec<String> = variables("rfv", 40);
    let mut denials = Vec::new();
    for left in 1..=40 {
        for right in left + 1..=40 {
            denials.push(format!("A,ne,{left},{right},0,0"));
        }
    }
    // 780 pairs, 219 of them again.
    denials.extend(denials.clone().into_iter().take(219));
    file.extend(denials);
    file.push("A,eq,39,40,0,0".into());
    file.push(BCK.into());
    cases.push(case(
        "bck: 1,000 places, 999 denials",
        lines(&file),
        "yes,0,0,40,1000,1,1,0",
    ));
    file[1039] = "A,eq,40,40,0,0".into();
    cases.push(case(
        "bck: 1,000 places, 999 denials in vain",
        lines(&file),
        "no,12,1041,0,0,0,0,0",
    ));
    cases
}

/// 200 alternatives wait, and 201 closings by `bck` close the tree.
fn many_waiting() -> Vec<Case> {
    let mut file = vec![U, V, R, "A,eq,1,2,0,0", "A,ne,2,1,0,0"];
    file.extend(vec!["S,cut,0,0,1,3"; 200]);
    file.extend(vec![BCK; 201]);
    let mut cases = vec![
        case("bck: 200 waiting", lines(&file), "yes,0,0,3,2,401,201,0"),
        // The last line is 5 + 200 + 200.
        case(
            "bck: 200 waiting, one open",
            lines(&file[..405]),
            "no,17,406,0,0,0,0,0",
        ),
        case(
            "bck: 200 waiting, one too many",
            with_more(&file, &[BCK]),
            "no,5,407,0,0,0,0,0",
        ),
    ];
    let mut split = file[..205].to_vec();
    split.extend(["S,cut,0,0,1,3", BCK]);
    cases.push(case(
        "bck: 201 waiting",
        lines(&split),
        "no,16,206,0,0,0,0,0",
    ));
    // One place is free again after a closing.
    let mut again = file[..205].to_vec();
    again.extend([BCK, "S,cut,0,0,1,3"]);
    again.extend(vec![BCK; 201]);
    cases.push(case(
        "bck: 200 waiting, one closed, one more split",
        lines(&again),
        "yes,0,0,3,2,403,202,0",
    ));
    cases
}

/// These lines, the literals of a row, and `bck`.
fn closed_by_bck(start: &[String], row: &str) -> Vec<u8> {
    lines(&[start, &assumed(row), &[BCK.into()]].concat())
}

/// 600 terms, of which only the first and the last matter.
fn many_terms() -> Vec<Case> {
    let mut cases = Vec::new();
    for (row, reply) in [
        ("1 eq 600, 600 ne 1", "yes,0,0,600,2,1,1,0"),
        ("1 ne 600, 600 eq 1", "yes,0,0,600,2,1,1,0"),
        ("600 ne 600", "yes,0,0,600,1,1,1,0"),
        ("1 ne 1", "yes,0,0,600,1,1,1,0"),
        ("1 eq 599, 600 ne 1", "no,12,603,0,0,0,0,0"),
        ("1 eq 599, 599 eq 600, 600 ne 1", "yes,0,0,600,3,1,1,0"),
        ("1 eq 256, 1 ne 512", "no,12,603,0,0,0,0,0"),
        ("", "no,12,601,0,0,0,0,0"),
    ] {
        let file = closed_by_bck(&variables("rfv", 600), row);
        cases.push(case(&format!("bck: 600 terms: {row}"), file, reply));
    }
    // 1 to 300 are references, 301 to 600 their classes.
    let mut terms: Vec<String> = variables("rfv", 300);
    terms.extend((1..=300).map(|of| format!("T,typ,{of},0,0,0")));
    let mut equal = terms.clone();
    equal.extend((1..300).map(|of| format!("A,eq,{of},{},0,0", of + 1)));
    cases.push(case(
        "bck: 300 equal references, their classes",
        closed_by_bck(&equal, "301 nl 600"),
        "yes,0,0,600,300,1,1,0",
    ));
    cases.push(case(
        "bck: 300 equal references, their classes the other way",
        closed_by_bck(&equal, "600 ne 301"),
        "yes,0,0,600,300,1,1,0",
    ));
    let mut circle = terms;
    circle.extend((301..600).map(|of| format!("A,le,{of},{},0,0", of + 1)));
    circle.push("A,eq,1,300,0,0".into());
    // typ of 1 is typ of 300, so that the chain is a circle.
    cases.push(case(
        "bck: 300 classes in a circle",
        closed_by_bck(&circle, "450 ne 333"),
        "yes,0,0,600,301,1,1,0",
    ));
    cases.push(case(
        "bck: 300 classes in a circle, their references",
        closed_by_bck(&circle, "150 ne 33"),
        "no,12,902,0,0,0,0,0",
    ));
    cases
}

/// As many `bck` lines as there is room for, each after a cut. 3 T lines and 2 A
/// lines have 3 * 14 + 2 * 13 = 68 bytes, 2,139 cuts and 2,140 closings have
/// 4,279 * 14 = 59,906; two lines more make 60,002. A branch has room for 998
/// alternatives, so that there are three, and two of the cuts come first.
fn sixty_thousand_bytes() -> Vec<Case> {
    let cut = "S,cut,0,0,1,3";
    let mut file = vec![U, V, R, "A,eq,1,2,0,0", "A,ne,2,1,0,0", cut, cut];
    for cuts in [713, 712, 712] {
        file.extend([cut, BCK].repeat(cuts));
        file.push(BCK);
    }
    let longer = with_more(&file, &[cut, BCK]);
    vec![
        case("bck: 2,140 times", lines(&file), "yes,0,0,3,2,4279,2140,0"),
        case("bck: over 60,000 bytes", longer, "no,1,0,0,0,0,0,0"),
    ]
}

/// `cls`, `emp` and `bck` each close a branch and are counted alike.
fn other_closings_beside_it() -> Vec<Case> {
    let file = [
        U,               // 1
        V,               // 2
        R,               // 3
        S,               // 4
        "T,emp,0,0,0,0", // 5
        "T,cup,3,4,0,0", // 6, cup(r,s)
        "A,in,1,6,0,0",  // 7, 1: u in cup(r,s)
        "A,ni,1,3,0,0",  // 8, 2: u ni r
        "A,eq,4,5,0,0",  // 9, 3: s eq emp
        "A,ne,1,2,0,0",  // 10, 4: u ne v
        "C,eq,2,1,1,0",  // 11
        "C,in,1,3,1,0",  // 12
        "S,cue,1,0,0,0", // 13, 5: u in r
        "S,cls,5,2,0,0", // 14, 5: u in s
        "S,cla,0,0,1,0", // 15, 6: v eq u
        BCK,             // 16, 6: u in r
        "S,eqr,3,5,0,0", // 17, 7: u in emp
        "S,emp,7,0,0,0", // 18
    ];
    let changed =
        |number, line, reply| with_line_case("bck: beside others", &file, (number, line), reply);
    vec![
        case("bck: beside others", lines(&file), "yes,0,0,6,5,6,3,0"),
        changed(14, BCK, "no,12,14,0,0,0,0,0"),
        changed(18, BCK, "no,12,18,0,0,0,0,0"),
        changed(17, "S,cls,6,2,0,0", "no,5,18,0,0,0,0,0"),
        changed(11, "C,eq,2,2,1,0", "no,12,16,0,0,0,0,0"),
        changed(10, "A,ne,4,5,0,0", "yes,0,0,6,5,6,3,0"), // s ne emp
    ]
}
