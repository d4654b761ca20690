//! A fresh w must be absent from every clause, split or not.

use super::{case, lines, runs, with_line, with_lines, with_more, Case};
use super::{ALL, EMP, FIELD, HEAP, R, S, U, V, WITNESS_TERMS};

pub fn cases() -> Vec<Case> {
    let groups = [
        for_ext(),
        inside_larger_terms(),
        in_many_clauses(),
        beside_splits(),
        for_wit(),
        two_checks_broken_by_w(),
    ];
    groups.into_iter().flatten().collect()
}

/// w is fresh for `ext`. It is term 1; the number of a clause is no term.
const EXT: [&str; 12] = [
    U,               // 1, w
    V,               // 2
    R,               // 3
    S,               // 4
    "A,ne,3,3,0,0",  // 5, 1: r ne r
    "C,in,2,3,1,0",  // 6, clause 1: v in r
    "C,eq,2,2,1,0",  // 7, or v eq v
    "C,in,2,4,2,0",  // 8, clause 2: v in s
    "C,eq,3,4,2,0",  // 9, or r eq s
    "S,ext,1,0,0,1", // 10, 2: w in r, 3: w ni r
    "S,cls,2,3,0,0", // 11, 2: w ni r, 3: w in r
    "S,cls,3,2,0,0", // 12
];

fn for_ext() -> Vec<Case> {
    let changed = |number, line: &str, reply| {
        let name = format!("fresh: line {number} {line}");
        case(&name, with_line(&EXT, number, line), reply)
    };
    let mut cases = vec![case("fresh: ext", lines(&EXT), "yes,0,0,4,3,3,2,0")];
    // w on the left or right of a literal, in any line of any clause, and at no
    // place: only r ne r is on the branch.
    for (number, clause) in [(6, 1), (7, 1), (8, 2), (9, 2)] {
        for literal in [
            "in,1,3", "ni,1,3", "in,1,4", "eq,1,1", "ne,1,1", "eq,1,2", "eq,2,1", "ne,2,1",
        ] {
            let line = format!("C,{literal},{clause},0");
            cases.push(changed(number, &line, "no,13,10,0,0,0,0,0"));
        }
    }
    // v is in the clauses; r is no rfv, though at place 1.
    cases.push(changed(10, "S,ext,1,0,0,2", "no,13,10,0,0,0,0,0"));
    cases.push(changed(10, "S,ext,1,0,0,3", "no,13,10,0,0,0,0,0"));
    // A C line more, so that only the last holds w.
    for clause in [2, 3] {
        let last = format!("C,eq,1,1,{clause},0");
        cases.push(case(
            &format!("fresh: then {last}"),
            lines(&[&EXT[..9], &[&last], &EXT[9..]].concat()),
            "no,13,11,0,0,0,0,0",
        ));
    }
    // A name is no term number: rgv 1 is not term 1.
    cases.push(changed(6, "C,eq,3,3,1,0", "yes,0,0,4,3,3,2,0"));
    cases
}

/// Terms of which many hold w, term 1.
pub const LARGER_TERMS: [&str; 21] = [
    U,                // 1, w
    V,                // 2
    R,                // 3
    HEAP,             // 4
    FIELD,            // 5
    "T,clv,1,0,0,0",  // 6
    "T,typ,1,0,0,0",  // 7, typ(w)
    "T,sin,1,0,0,0",  // 8, sin(w)
    "T,cup,3,8,0,0",  // 9, cup(r,sin(w))
    "T,cap,9,3,0,0",  // 10, cap(cup(r,sin(w)),r)
    "T,dif,3,8,0,0",  // 11, dif(r,sin(w))
    "T,rea,4,1,5,0",  // 12, rea(h,w,f)
    "T,wri,4,1,5,2",  // 13, wri(h,w,f,v)
    "T,wri,4,2,5,1",  // 14, wri(h,v,f,w)
    "T,rea,14,2,5,0", // 15, rea(wri(h,v,f,w),v,f)
    "T,img,4,8,5,0",  // 16, img(h,sin(w),f)
    "T,typ,12,0,0,0", // 17, typ(rea(h,w,f))
    "T,typ,2,0,0,0",  // 18, typ(v)
    "T,sin,2,0,0,0",  // 19, sin(v)
    "T,rea,4,2,5,0",  // 20, rea(h,v,f)
    "T,wri,4,2,5,2",  // 21, wri(h,v,f,v)
];

/// Terms that hold w, term 1, on either side of a literal.
fn inside_larger_terms() -> Vec<Case> {
    let steps = [
        "S,ext,1,0,0,1", // 24, 2: w in r, 3: w ni r
        "S,cls,2,3,0,0", // 25, 2: w ni r, 3: w in r
        "S,cls,3,2,0,0", // 26
    ];
    let with = |literal: &str, reply| {
        let clause = format!("C,{literal},1,0");
        let file = [&LARGER_TERMS[..], &["A,ne,3,3,0,0", &clause], &steps].concat();
        case(&format!("fresh: {literal}"), lines(&file), reply)
    };
    let mut cases = Vec::new();
    for literal in [
        "le,7,6", "nl,6,7", "eq,7,18", "in,2,8", "ni,2,9", "eq,3,10", "ne,11,3", "in,12,3",
        "eq,2,12", "eq,4,13", "ne,14,4", "eq,15,2", "eq,2,15", "in,2,16", "eq,16,3", "le,18,17",
        "nl,17,6",
    ] {
        cases.push(with(literal, "no,13,24,0,0,0,0,0"));
    }
    for literal in [
        "le,18,6", "nl,6,18", "in,2,19", "eq,3,19", "in,20,3", "eq,2,20", "eq,4,21", "ne,21,4",
    ] {
        cases.push(with(literal, "yes,0,0,21,2,3,2,0"));
    }
    cases
}

/// 400 clauses, or 50 of 8, of which one line holds w.
fn in_many_clauses() -> Vec<Case> {
    let file = |size: usize, with_w: &[usize]| {
        let mut file: Vec<String> = EXT[..5].iter().map(|line| line.to_string()).collect();
        for number in 0..400 {
            let left = if with_w.contains(&(number + 1)) { 1 } else { 2 };
            file.push(format!("C,in,{left},3,{},0", number / size + 1));
        }
        file.extend(EXT[9..].iter().map(|line| line.to_string()));
        lines(&file)
    };
    let mut cases = vec![
        case(
            "fresh: beside 400 clauses",
            file(1, &[]),
            "yes,0,0,4,401,3,2,0",
        ),
        case(
            "fresh: beside 50 clauses of 8",
            file(8, &[]),
            "yes,0,0,4,51,3,2,0",
        ),
    ];
    for size in [1, 8] {
        for line in [1, 2, 8, 9, 200, 399, 400] {
            cases.push(case(
                &format!("fresh: w on C line {line} of 400, clauses of {size}"),
                file(size, &[line]),
                "no,13,406,0,0,0,0,0",
            ));
        }
    }
    cases
}

/// Split or not, whichever alternative is on the branch.
fn beside_splits() -> Vec<Case> {
    let file = [
        U,               // 1, w
        V,               // 2
        R,               // 3
        S,               // 4
        "A,ne,3,3,0,0",  // 5, 1: r ne r
        "A,eq,3,3,0,0",  // 6, 2: r eq r
        "C,in,2,3,1,0",  // 7, clause 1: v in r
        "C,in,2,4,1,0",  // 8, or v in s
        "S,cla,0,0,1,0", // 9, 3: v in r
        "S,ext,1,0,0,1", // 10, 4: w in r, 5: w ni r
        "S,cls,4,5,0,0", // 11, 4: w ni r, 5: w in r
        "S,cls,5,4,0,0", // 12, 3: v in s
        "S,ext,1,0,0,1", // 13, 4: w in r, 5: w ni r
        "S,cls,2,1,0,0", // 14, 4: w ni r, 5: w in r
        "S,cls,2,1,0,0", // 15
    ];
    let changed = |what: &str, changes: &[(usize, &str)], reply| {
        let name = format!("fresh: beside a split, {what}");
        case(&name, with_lines(&file, changes), reply)
    };
    vec![
        changed("in both alternatives", &[], "yes,0,0,4,3,7,4,0"),
        // The second alternative, which waits, holds w; no place does.
        changed("w waiting", &[(8, "C,in,1,4,1,0")], "no,13,10,0,0,0,0,0"),
        // 3: w in r, by `cla`.
        changed(
            "w on the branch",
            &[(7, "C,in,1,3,1,0")],
            "no,13,10,0,0,0,0,3",
        ),
        // The first alternative, which is closed, holds w; no place does now.
        changed(
            "w in the closed alternative",
            &[
                (7, "C,in,1,3,1,0"),   // clause 1: w in r
                (10, "S,ref,0,0,2,0"), // 4: v eq v
                (11, "S,ref,0,0,2,0"), // 5: v eq v
                (12, "S,cls,2,1,0,0"), // 3: v in s
            ],
            "no,13,13,0,0,0,0,0",
        ),
        // The clause is not split, or split in an alternative that is closed:
        // place 3 is v eq v, then v ni r.
        changed(
            "w in a clause not split",
            &[(8, "C,in,1,4,1,0"), (9, "S,ref,0,0,2,0")],
            "no,13,10,0,0,0,0,0",
        ),
        changed(
            "w in a clause split in a closed alternative",
            &[
                (8, "C,in,1,4,1,0"),
                (9, "S,cut,0,0,2,3"),  // 3: v in r
                (10, "S,cla,0,0,1,0"), // 4: v in r
                (11, "S,cls,2,1,0,0"), // 4: w in s
                (12, "S,cls,2,1,0,0"), // 3: v ni r
            ],
            "no,13,13,0,0,0,0,0",
        ),
        // w has come onto the branch by ext, not by a clause: 4: w in r.
        changed("w twice", &[(11, "S,ext,1,0,0,1")], "no,13,11,0,0,0,0,4"),
    ]
}

/// w is fresh for `wit`: nothing but its literals holds it.
fn for_wit() -> Vec<Case> {
    let rest = [
        EMP,             // 10
        "T,typ,1,0,0,0", // 11, typ(u)
        "A,in,1,6,0,0",  // 12, 1: u in img(h,r,f)
        "A,eq,3,10,0,0", // 13, 2: r eq emp
        "C,le,11,8,1,0", // 14, clause 1: typ(u) le dty(f)
        "C,eq,1,1,1,0",  // 15, or u eq u
        "S,wit,1,0,0,2", // 16, 3: w in r, 4: typ(w) le dty(f), 5: rea(h,w,f) eq u
        "S,eqr,2,3,0,0", // 17, 6: w in emp
        "S,emp,6,0,0,0", // 18
    ];
    let file = [&WITNESS_TERMS[..], &rest].concat();
    let mut cases = vec![case("fresh: wit", lines(&file), "yes,0,0,11,3,3,1,0")];
    // At no place: u in img(h,r,f) and r eq emp are without w.
    for literal in [
        "in,2,3", "ni,2,10", "eq,2,1", "ne,1,2", "le,7,8", "nl,8,7", "eq,7,11", "eq,9,1", "in,9,3",
    ] {
        for number in [14, 15] {
            let line = format!("C,{literal},1,0");
            let name = format!("fresh: wit, line {number} {line}");
            cases.push(case(
                &name,
                with_line(&file, number, &line),
                "no,13,16,0,0,0,0,0",
            ));
        }
    }
    for (literal, split, in_the_other) in [
        ("le,11,8", "no,17,18,0,0,0,0,0", "no,17,20,0,0,0,0,0"),
        // 3: typ(w) le dty(f); in the other, 3: u eq u, so at no place.
        ("le,7,8", "no,13,17,0,0,0,0,3", "no,13,19,0,0,0,0,0"),
    ] {
        let line = format!("C,{literal},1,0");
        // The clause is split first, so that `wit` is on line 17.
        let first = [&file[..13], &[&line, file[14], "S,cla,0,0,1,0", file[15]]].concat();
        cases.push(case(
            &format!("fresh: wit, {line} split"),
            lines(&first),
            split,
        ));
        // The same after the first alternative is closed.
        let second = [
            &file[..12],
            &["A,ne,1,1,0,0", &line, file[14]],  // 2: u ne u
            &["S,cla,0,0,1,0", "S,ref,0,0,1,0"], // 3: the literal, 4: u eq u
            &["S,cls,4,2,0,0", file[15]],        // 3: u eq u, then `wit` on line 19
        ]
        .concat();
        cases.push(case(
            &format!("fresh: wit, {line} in the other alternative"),
            lines(&second),
            in_the_other,
        ));
    }
    cases
}

/// w stands in a clause only; the step has another fault too.
fn two_checks_broken_by_w() -> Vec<Case> {
    let rest = [
        ALL,            // 7
        "A,in,1,6,0,0", // 1: u in img(h,r,f)
        "A,ne,3,7,0,0", // 2: r ne all
        "C,in,2,3,1,0", // 10, w in r
    ];
    // And no typ(w), dty(f), rea(h,w,f).
    let base = [&WITNESS_TERMS[..6], &rest].concat();
    let rows = [
        // 13 alone; 13 and 14
        ("S,ext,2,0,0,2", "no,13,11,0,0,0,0,0"),
        ("S,wit,1,0,0,2", "no,13,11,0,0,0,0,0"),
        // 6, 8, 11, 12 and 13
        ("S,ext,2,1,0,2", "no,6,11,0,0,0,0,0"),
        ("S,wit,1,0,1,2", "no,6,11,0,0,0,0,0"),
        ("S,ext,2,0,0,8", "no,8,11,0,0,0,0,0"),
        ("S,ext,3,0,0,2", "no,11,11,0,0,0,0,0"),
        ("S,wit,0,0,0,2", "no,11,11,0,0,0,0,0"),
        ("S,ext,1,0,0,2", "no,12,11,0,0,0,0,0"),
        ("S,wit,2,0,0,2", "no,12,11,0,0,0,0,0"),
    ];
    let mut cases: Vec<Case> = rows
        .into_iter()
        .map(|(step, reply)| {
            let name = format!("fresh: w in a clause, {step}");
            case(&name, with_more(&base, &[step]), reply)
        })
        .collect();
    // 13 and 15, 16: 7 T lines, 800 A lines, a C line, 200 cuts. Without the
    // clause v is fresh, and then 15 is given.
    let full = |clause: &str| {
        let first: Vec<(usize, &str)> = base[..9].iter().map(|line| (1, *line)).collect();
        let more = [(798, "A,in,1,6,0,0"), (1, clause), (200, "S,cut,0,0,1,3")];
        runs(&[&first[..], &more, &[(1, "S,ext,2,0,0,2")]].concat())
    };
    cases.push(case(
        "fresh: w in a clause, all full",
        full("C,in,2,3,1,0"),
        "no,13,1009,0,0,0,0,0",
    ));
    cases.push(case(
        "fresh: w in no clause, all full",
        full("C,in,1,3,1,0"),
        "no,15,1009,0,0,0,0,0",
    ));
    cases
}
