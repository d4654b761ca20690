//! The rule `fin`: from cup(r,i) eq i with i = img(h,r,f) it adds cup(i,r) eq r.
//! What it is refused for, by each number that it can get; `rules_accept.rs` has
//! more files that close by it.
//!
//! Most steps stand on a bench: a table in which the union that would be added
//! is there for every literal, and a branch with four literals that are right and
//! many that are not. Places 1 and 2 close it.

use super::{
    case, lines, runs, with_line, with_line_case, with_lines, with_more, without_line, Case,
};
use super::{EMP, F, FIELD, HEAP, R, S, U, V};

pub fn cases() -> Vec<Case> {
    let groups = [
        right(),
        unused_fields(),
        no_place(),
        other_literals(),
        shapes_and_letters(),
        tree_closed(),
        what_it_adds(),
        union_missing(),
        two_checks_without_the_union(),
        full_branch(),
        two_hundred_waiting(),
        full_tables(),
        in_both_alternatives(),
        before_a_split(),
        from_a_clause(),
        sides_changed_over(),
        fresh_beside_it(),
    ];
    groups.into_iter().flatten().collect()
}

const TERMS: [&str; 36] = [
    U,                 // 1
    V,                 // 2
    R,                 // 3
    S,                 // 4
    HEAP,              // 5
    "T,arv,2,0,0,0",   // 6, k
    FIELD,             // 7
    "T,fnv,2,0,0,0",   // 8, g
    EMP,               // 9
    "T,img,5,3,7,0",   // 10, i = img(h,r,f)
    "T,img,6,3,7,0",   // 11, img(k,r,f)
    "T,img,5,3,8,0",   // 12, img(h,r,g)
    "T,img,5,4,7,0",   // 13, img(h,s,f)
    "T,img,5,10,7,0",  // 14, img(h,i,f)
    "T,cup,3,10,0,0",  // 15, cup(r,i)
    "T,cup,10,3,0,0",  // 16, cup(i,r)
    "T,cup,3,11,0,0",  // 17, cup(r,img(k,r,f))
    "T,cup,11,3,0,0",  // 18, cup(img(k,r,f),r)
    "T,cup,3,12,0,0",  // 19, cup(r,img(h,r,g))
    "T,cup,12,3,0,0",  // 20, cup(img(h,r,g),r)
    "T,cup,3,13,0,0",  // 21, cup(r,img(h,s,f))
    "T,cup,13,3,0,0",  // 22, cup(img(h,s,f),r)
    "T,cup,10,14,0,0", // 23, cup(i,img(h,i,f))
    "T,cup,14,10,0,0", // 24, cup(img(h,i,f),i)
    "T,cup,3,14,0,0",  // 25, cup(r,img(h,i,f))
    "T,cup,14,3,0,0",  // 26, cup(img(h,i,f),r)
    "T,cup,4,10,0,0",  // 27, cup(s,i)
    "T,cup,10,4,0,0",  // 28, cup(i,s)
    "T,cup,3,4,0,0",   // 29, cup(r,s)
    "T,cup,4,3,0,0",   // 30, cup(s,r)
    "T,cup,10,10,0,0", // 31, cup(i,i)
    "T,cup,3,3,0,0",   // 32, cup(r,r)
    "T,cap,3,10,0,0",  // 33, cap(r,i)
    "T,dif,3,10,0,0",  // 34, dif(r,i)
    "T,typ,1,0,0,0",   // 35, typ(u)
    "T,dty,7,0,0,0",   // 36, dty(f)
];

const LITERALS: [&str; 47] = [
    "A,in,1,3,0,0", // 1: u in r
    "A,ni,1,3,0,0", // 2: u ni r
    // right
    "A,eq,15,10,0,0", // 3: cup(r,i) eq i
    "A,eq,17,11,0,0", // 4: cup(r,img(k,r,f)) eq img(k,r,f)
    "A,eq,19,12,0,0", // 5: cup(r,img(h,r,g)) eq img(h,r,g)
    "A,eq,23,14,0,0", // 6: cup(i,img(h,i,f)) eq img(h,i,f)
    // other words
    "A,ne,15,10,0,0", // 7: cup(r,i) ne i
    "A,in,1,10,0,0",  // 8: u in i
    "A,in,1,15,0,0",  // 9: u in cup(r,i)
    "A,ni,1,15,0,0",  // 10: u ni cup(r,i)
    "A,le,35,36,0,0", // 11: typ(u) le dty(f)
    "A,nl,35,36,0,0", // 12: typ(u) nl dty(f)
    // the sides, or the parts of the union, changed over
    "A,eq,10,15,0,0", // 13: i eq cup(r,i)
    "A,eq,16,10,0,0", // 14: cup(i,r) eq i
    "A,eq,10,16,0,0", // 15: i eq cup(i,r)
    "A,eq,16,3,0,0",  // 16: cup(i,r) eq r
    "A,eq,15,3,0,0",  // 17: cup(r,i) eq r
    "A,eq,3,16,0,0",  // 18: r eq cup(i,r)
    "A,eq,15,16,0,0", // 19: cup(r,i) eq cup(i,r)
    "A,eq,15,15,0,0", // 20: cup(r,i) eq cup(r,i)
    // an image of another region
    "A,eq,21,13,0,0", // 21: cup(r,img(h,s,f)) eq img(h,s,f)
    "A,eq,27,10,0,0", // 22: cup(s,i) eq i
    "A,eq,25,14,0,0", // 23: cup(r,img(h,i,f)) eq img(h,i,f)
    "A,eq,31,10,0,0", // 24: cup(i,i) eq i
    // two images
    "A,eq,15,11,0,0", // 25: cup(r,i) eq img(k,r,f)
    "A,eq,15,12,0,0", // 26: cup(r,i) eq img(h,r,g)
    "A,eq,15,13,0,0", // 27: cup(r,i) eq img(h,s,f)
    "A,eq,15,14,0,0", // 28: cup(r,i) eq img(h,i,f)
    "A,eq,17,10,0,0", // 29: cup(r,img(k,r,f)) eq i
    "A,eq,19,10,0,0", // 30: cup(r,img(h,r,g)) eq i
    "A,eq,21,10,0,0", // 31: cup(r,img(h,s,f)) eq i
    "A,eq,25,10,0,0", // 32: cup(r,img(h,i,f)) eq i
    // s for an image, though s eq i
    "A,eq,29,4,0,0",  // 33: cup(r,s) eq s
    "A,eq,4,10,0,0",  // 34: s eq i
    "A,eq,29,10,0,0", // 35: cup(r,s) eq i
    "A,eq,15,4,0,0",  // 36: cup(r,i) eq s
    "A,eq,32,3,0,0",  // 37: cup(r,r) eq r
    // no union; 40 and 41 say in other words that r is inside i
    "A,eq,3,10,0,0",  // 38: r eq i
    "A,eq,33,10,0,0", // 39: cap(r,i) eq i
    "A,eq,33,3,0,0",  // 40: cap(r,i) eq r
    "A,eq,34,9,0,0",  // 41: dif(r,i) eq emp
    "A,eq,34,10,0,0", // 42: dif(r,i) eq i
    "A,eq,10,10,0,0", // 43: i eq i
    // other sorts
    "A,eq,1,2,0,0",   // 44: u eq v
    "A,eq,5,6,0,0",   // 45: h eq k
    "A,eq,7,8,0,0",   // 46: f eq g
    "A,eq,35,36,0,0", // 47: typ(u) eq dty(f)
];

const CUT: &str = "S,cut,0,0,1,3";
const CLOSE: &str = "S,cls,1,2,0,0";
const FIN: &str = "S,fin,3,0,0,0";

/// The bench with place 1 assumed again up to a count of places, with cuts up
/// to a count of waiting alternatives, and then the steps.
fn bench(places: usize, waiting: usize, steps: &[&str]) -> Vec<u8> {
    let again = vec![LITERALS[0]; places - LITERALS.len()];
    let cuts = vec![CUT; waiting];
    lines(&[&TERMS[..], &LITERALS, &again, &cuts, steps].concat())
}

/// These steps, each alone on the bench: on line 36 + 47 + 1.
fn refused<L: AsRef<str>>(steps: &[L], reply: &'static str) -> Vec<Case> {
    steps
        .iter()
        .map(AsRef::as_ref)
        .map(|step| case(&format!("fin: {step}"), bench(47, 0, &[step]), reply))
        .collect()
}

fn right() -> Vec<Case> {
    [3, 4, 5, 6]
        .into_iter()
        .map(|place| {
            let step = format!("S,fin,{place},0,0,0");
            case(
                &format!("fin: {step}, closed"),
                bench(47, 0, &[&step, CLOSE]),
                "yes,0,0,36,47,2,1,0",
            )
        })
        .collect()
}

fn unused_fields() -> Vec<Case> {
    refused(
        &[
            "S,fin,3,1,0,0",
            "S,fin,3,0,1,0",
            "S,fin,3,0,0,1",
            "S,fin,3,1,1,1",
            "S,fin,3,3,0,0",
            "S,fin,3,0,16,0", // t = cup(i,r)
            "S,fin,3,0,0,16",
            "S,fin,3,9999,0,0",
            "S,fin,3,0,9999,0",
            "S,fin,3,0,0,9999",
            "S,fin,0,3,0,0", // and 11
            "S,fin,0,0,3,0",
            "S,fin,0,0,0,3",
            "S,fin,48,1,0,0",
            "S,fin,9999,0,0,1",
            "S,fin,13,0,16,0", // and 12
            "S,fin,7,1,0,0",
        ],
        "no,6,84,0,0,0,0,0",
    )
}

fn no_place() -> Vec<Case> {
    refused(
        &[
            "S,fin,0,0,0,0",
            "S,fin,48,0,0,0",
            "S,fin,49,0,0,0",
            "S,fin,1000,0,0,0",
            "S,fin,1001,0,0,0",
            "S,fin,9999,0,0,0",
            "S,fin,10000,0,0,0",
        ],
        "no,11,84,0,0,0,0,0",
    )
}

/// All places but those of the right literals.
fn other_literals() -> Vec<Case> {
    let places = (1..=2).chain(7..=47);
    let steps: Vec<String> = places.map(|place| format!("S,fin,{place},0,0,0")).collect();
    refused(&steps, "no,12,84,0,0,0,0,0")
}

fn shapes_and_letters() -> Vec<Case> {
    let mut cases = refused(
        &[
            "S,fin,3,0,0",
            "S,fin,3,0,0,",
            "S,fin,3,0,0,0,0",
            "S,fin,03,0,0,0",
            "S,fin,3,0,0,00",
            "S,fin,100000,0,0,0",
            "S,fin,,0,0,0",
            "S,fin,-3,0,0,0",
            "S,fin,3,0,0,0\r",
            "S,fin ,3,0,0,0",
            "S,finn,3,0,0,0",
            "S,Fin,3,0,0,0",
            "S,FIN,3,0,0,0",
            "s,fin,3,0,0,0",
        ],
        "no,2,84,0,0,0,0,0",
    );
    // `fir` was a rule once; no other word near `fin` is one.
    cases.extend(refused(
        &[
            "S,fir,3,0,0,0",
            "S,fi,3,0,0,0",
            "S,in,3,0,0,0",
            "S,fim,3,0,0,0",
            "S,fun,3,0,0,0",
            "S,sin,3,0,0,0",
            "S,inf,3,0,0,0",
        ],
        "no,4,84,0,0,0,0,0",
    ));
    // 3 comes before 4.
    for (number, line, reply) in [
        (6, "T,fin,1,0,0,0", "no,3,6,0,0,0,0,0"),
        (8, "T,fin,1,0,0,0", "no,3,8,0,0,0,0,0"),
        (8, "A,fin,1,2,0,0", "no,3,8,0,0,0,0,0"),
        (8, "C,fin,1,2,1,0", "no,3,8,0,0,0,0,0"),
    ] {
        let name = format!("fin: F, line {number} {line}");
        cases.push(case(&name, with_line(&F, number, line), reply));
    }
    cases
}

/// On line 85, after the closing.
fn tree_closed() -> Vec<Case> {
    let rows = [
        (FIN, "no,5,85,0,0,0,0,0"),
        ("S,fin,3,1,0,0", "no,5,85,0,0,0,0,0"),
        ("S,fin,0,0,0,0", "no,5,85,0,0,0,0,0"),
        ("S,fin,48,0,0,0", "no,5,85,0,0,0,0,0"),
        ("S,fin,13,0,0,0", "no,5,85,0,0,0,0,0"),
        ("S,fim,3,0,0,0", "no,4,85,0,0,0,0,0"),
        ("S,fin,3,0,0", "no,2,85,0,0,0,0,0"),
    ];
    rows.iter()
        .map(|&(step, reply)| {
            case(
                &format!("fin: closed, {step}"),
                bench(47, 0, &[CLOSE, step]),
                reply,
            )
        })
        .collect()
}

/// r inside its own image, then place 2, a step and its closing.
const ADDS: [&str; 11] = [
    U,
    R,
    HEAP,            // 3
    FIELD,           // 4
    "T,img,3,2,4,0", // 5, i = img(h,r,f)
    "T,cup,2,5,0,0", // 6, cup(r,i)
    "T,cup,5,2,0,0", // 7, cup(i,r)
    "A,eq,6,5,0,0",  // 8, 1: cup(r,i) eq i
    "A,ne,7,2,0,0",  // 9, 2: cup(i,r) ne r
    "S,fin,1,0,0,0", // 10, 3: cup(i,r) eq r
    "S,cls,3,2,0,0", // 11
];

fn what_it_adds() -> Vec<Case> {
    let mut cases = vec![
        case("fin: adds", lines(&ADDS), "yes,0,0,7,2,2,1,0"),
        // It doesn't split, so that nothing waits.
        case(
            "fin: adds, a step more",
            with_more(&ADDS, &["S,fin,1,0,0,0"]),
            "no,5,12,0,0,0,0,0",
        ),
        case(
            "fin: adds, nothing closed",
            lines(&ADDS[..10]),
            "no,17,11,0,0,0,0,0",
        ),
    ];
    // Place 2 denies something else.
    for denial in [
        "A,ne,2,7,0,0", // r ne cup(i,r)
        "A,ne,6,2,0,0", // cup(r,i) ne r
        "A,ne,2,6,0,0", // r ne cup(r,i)
        "A,ne,7,5,0,0", // cup(i,r) ne i
        "A,ne,5,7,0,0", // i ne cup(i,r)
        "A,ne,6,5,0,0", // cup(r,i) ne i, which place 1 denies
        "A,ne,6,7,0,0", // cup(r,i) ne cup(i,r)
        "A,ne,7,6,0,0", // cup(i,r) ne cup(r,i)
        "A,ne,5,2,0,0", // i ne r
        "A,ne,2,5,0,0", // r ne i
        "A,ne,2,2,0,0", // r ne r
        "A,ne,7,7,0,0", // cup(i,r) ne cup(i,r)
        "A,ni,1,2,0,0", // u ni r
        "A,ni,1,5,0,0", // u ni i
    ] {
        cases.push(case(
            &format!("fin: adds, place 2 {denial}"),
            with_line(&ADDS, 9, denial),
            "no,12,11,0,0,0,0,0",
        ));
    }
    type Row<'a> = (&'a str, &'a [(usize, &'a str)], &'static str);
    let rows: [Row; 7] = [
        // Place 1 stays.
        (
            "place 1 stays",
            &[(9, "A,ne,6,5,0,0"), (11, "S,cls,1,2,0,0")],
            "yes,0,0,7,2,2,1,0",
        ),
        // One literal, at place 3.
        ("no place 4", &[(11, "S,cls,4,2,0,0")], "no,11,11,0,0,0,0,0"),
        ("not at 2", &[(11, "S,cls,2,3,0,0")], "no,12,11,0,0,0,0,0"),
        // r is no image.
        ("fin on it", &[(11, "S,fin,3,0,0,0")], "no,12,11,0,0,0,0,0"),
        // 4: cup(i,r) eq r, which place 2 denies, but the branch is open.
        ("twice", &[(11, "S,fin,1,0,0,0")], "no,17,12,0,0,0,0,0"),
        // u in r, and then 4: u in cup(i,r).
        (
            "then eql",
            &[(9, "A,in,1,2,0,0"), (11, "S,eql,3,2,0,0")],
            "no,17,12,0,0,0,0,0",
        ),
        // u in i, which is on neither side.
        (
            "then eqr",
            &[(9, "A,in,1,5,0,0"), (11, "S,eqr,3,2,0,0")],
            "no,12,11,0,0,0,0,0",
        ),
    ];
    for (what, changes, reply) in rows {
        let name = format!("fin: adds, {what}");
        cases.push(case(&name, with_lines(&ADDS, changes), reply));
    }
    cases
}

/// Terms 9 and 10 are to be changed; cup(i,r) is term 10.
const UNION: [&str; 14] = [
    R,
    S,
    HEAP,            // 3
    "T,arv,2,0,0,0", // 4, k
    FIELD,           // 5
    "T,fnv,2,0,0,0", // 6, g
    "T,img,3,1,5,0", // 7, i = img(h,r,f)
    "T,cup,1,7,0,0", // 8, cup(r,i)
    "T,img,4,1,5,0", // 9, img(k,r,f)
    "T,cup,7,1,0,0", // 10, cup(i,r)
    "A,eq,8,7,0,0",  // 11, 1: cup(r,i) eq i
    "A,ne,8,7,0,0",  // 12, 2: cup(r,i) ne i
    "S,fin,1,0,0,0", // 13, 3: cup(i,r) eq r
    "S,cls,1,2,0,0", // 14
];
const OTHER_UNION: &str = "T,cup,1,1,0,0";

fn union_missing() -> Vec<Case> {
    let mut cases = vec![
        case("fin: cup(i,r) there", lines(&UNION), "yes,0,0,10,2,2,1,0"),
        // cup(r,i) is still there. The step is on line 12.
        case(
            "fin: only cup(r,i) there",
            without_line(&UNION, 10),
            "no,14,12,0,0,0,0,0",
        ),
    ];
    for term in [
        "T,cup,1,2,0,0", // cup(r,s)
        "T,cup,2,1,0,0", // cup(s,r)
        "T,cup,7,2,0,0", // cup(i,s)
        "T,cup,2,7,0,0", // cup(s,i)
        "T,cup,7,7,0,0", // cup(i,i)
        "T,cup,7,8,0,0", // cup(i,cup(r,i))
        "T,cup,8,1,0,0", // cup(cup(r,i),r)
        "T,cup,8,7,0,0", // cup(cup(r,i),i)
        "T,cap,7,1,0,0", // cap(i,r)
        "T,cap,1,7,0,0", // cap(r,i)
        "T,dif,7,1,0,0", // dif(i,r)
        "T,dif,1,7,0,0", // dif(r,i)
        "T,img,3,7,5,0", // img(h,i,f)
        "T,rgv,3,0,0,0",
    ] {
        cases.push(case(
            &format!("fin: {term} for cup(i,r)"),
            with_line(&UNION, 10, term),
            "no,14,13,0,0,0,0,0",
        ));
    }
    // The union with r of an image that is nearly i.
    for image in [
        "T,img,4,1,5,0", // img(k,r,f)
        "T,img,3,1,6,0", // img(h,r,g)
        "T,img,3,2,5,0", // img(h,s,f)
        "T,img,3,7,5,0", // img(h,i,f)
        "T,img,3,8,5,0", // img(h,cup(r,i),f)
    ] {
        for union in ["T,cup,9,1,0,0", "T,cup,1,9,0,0"] {
            cases.push(case(
                &format!("fin: {image}, then {union} for cup(i,r)"),
                with_lines(&UNION, &[(9, image), (10, union)]),
                "no,14,13,0,0,0,0,0",
            ));
        }
    }
    cases
}

/// The smaller number is given. Without cup(i,r) the step on line 13 is right
/// but for 14; on a branch of 1,000 places it is on line 1,011, and meets 15 too.
fn two_checks_without_the_union() -> Vec<Case> {
    let mut cases = Vec::new();
    for (step, reply, reply_at_the_limit) in [
        ("S,fin,1,0,0", "no,2,13,0,0,0,0,0", "no,2,1011,0,0,0,0,0"),
        ("S,fir,1,0,0,0", "no,4,13,0,0,0,0,0", "no,4,1011,0,0,0,0,0"),
        ("S,fin,1,1,0,0", "no,6,13,0,0,0,0,0", "no,6,1011,0,0,0,0,0"),
        ("S,fin,1,0,1,0", "no,6,13,0,0,0,0,0", "no,6,1011,0,0,0,0,0"),
        ("S,fin,1,0,0,1", "no,6,13,0,0,0,0,0", "no,6,1011,0,0,0,0,0"),
        (
            "S,fin,0,0,0,0",
            "no,11,13,0,0,0,0,0",
            "no,11,1011,0,0,0,0,0",
        ),
        (
            "S,fin,2,0,0,0",
            "no,12,13,0,0,0,0,0",
            "no,12,1011,0,0,0,0,0",
        ),
        (
            "S,fin,1,0,0,0",
            "no,14,13,0,0,0,0,0",
            "no,14,1011,0,0,0,0,0",
        ),
    ] {
        cases.push(case(
            &format!("fin: no cup(i,r), {step}"),
            with_lines(&UNION, &[(10, OTHER_UNION), (13, step)]),
            reply,
        ));
        let mut parts: Vec<(usize, &str)> = UNION[..9].iter().map(|&line| (1, line)).collect();
        parts.extend([
            (1, OTHER_UNION),
            (1, UNION[10]),
            (999, UNION[11]),
            (1, step),
        ]);
        cases.push(case(
            &format!("fin: no cup(i,r), 1,000 places, {step}"),
            runs(&parts),
            reply_at_the_limit,
        ));
    }
    // Nothing is right but the word: i eq cup(r,i) at place 1.
    cases.push(case(
        "fin: no cup(i,r), sides changed over",
        with_lines(&UNION, &[(10, OTHER_UNION), (11, "A,eq,7,8,0,0")]),
        "no,12,13,0,0,0,0,0",
    ));
    // 5 and 14.
    cases.push(case(
        "fin: no cup(i,r), closed",
        with_lines(
            &UNION,
            &[(10, OTHER_UNION), (13, UNION[13]), (14, UNION[12])],
        ),
        "no,5,14,0,0,0,0,0",
    ));
    cases
}

/// The step is on line 36 + places + 1.
fn full_branch() -> Vec<Case> {
    let mut cases = Vec::new();
    for place in [3, 4, 5, 6] {
        let step = format!("S,fin,{place},0,0,0");
        cases.push(case(
            &format!("fin: 999 places, {step}, closed"),
            bench(999, 0, &[&step, CLOSE]),
            "yes,0,0,36,999,2,1,0",
        ));
        cases.push(case(
            &format!("fin: 1,000 places, {step}"),
            bench(1000, 0, &[&step]),
            "no,15,1037,0,0,0,0,0",
        ));
    }
    for (step, reply) in [
        ("S,fin,3,0,0,1", "no,6,1037,0,0,0,0,0"),
        ("S,fin,1001,0,0,0", "no,11,1037,0,0,0,0,0"),
        ("S,fin,1000,0,0,0", "no,12,1037,0,0,0,0,0"), // u in r
        ("S,fin,13,0,0,0", "no,12,1037,0,0,0,0,0"),
    ] {
        cases.push(case(
            &format!("fin: 1,000 places, {step}"),
            bench(1000, 0, &[step]),
            reply,
        ));
    }
    cases.push(case(
        "fin: 998 places and two",
        bench(998, 0, &[FIN, FIN, CLOSE]),
        "yes,0,0,36,998,3,1,0",
    ));
    // The third is on line 36 + 998 + 3.
    cases.push(case(
        "fin: 998 places and three",
        bench(998, 0, &[FIN, FIN, FIN, CLOSE]),
        "no,15,1037,0,0,0,0,0",
    ));
    cases
}

/// `fin` doesn't split. 201 branches have to be closed; each cut adds a place.
fn two_hundred_waiting() -> Vec<Case> {
    let closed = [&[FIN][..], &[CLOSE; 201]].concat();
    vec![
        case(
            "fin: 200 waiting",
            bench(47, 200, &closed),
            "yes,0,0,36,47,402,201,0",
        ),
        case(
            "fin: 200 waiting, 999 places",
            bench(799, 200, &closed),
            "yes,0,0,36,799,402,201,0",
        ),
        // On line 36 + 800 + 200 + 1.
        case(
            "fin: 200 waiting, 1,000 places",
            bench(800, 200, &[FIN]),
            "no,15,1037,0,0,0,0,0",
        ),
        // On line 36 + 47 + 200 + 1.
        case(
            "fin: 200 waiting, sides changed over",
            bench(47, 200, &["S,fin,13,0,0,0"]),
            "no,12,284,0,0,0,0,0",
        ),
        case(
            "fin: 200 waiting, no place",
            bench(47, 200, &["S,fin,248,0,0,0"]),
            "no,11,284,0,0,0,0,0",
        ),
    ]
}

/// 600 terms, of which cup(i,r) is the last; then r is a much shared term.
fn full_tables() -> Vec<Case> {
    let first = [
        R,
        HEAP,
        FIELD,
        "T,img,2,1,3,0", // 4, i = img(h,r,f)
        "T,cup,1,4,0,0", // 5, cup(r,i)
    ];
    let mut last: Vec<String> = first.map(String::from).to_vec();
    last.extend((6..=599).map(|name| format!("T,rfv,{name},0,0,0")));
    let rest = [
        "T,cup,4,1,0,0",  // 600, cup(i,r)
        "A,eq,5,4,0,0",   // 601, 1: cup(r,i) eq i
        "A,ne,600,1,0,0", // 602, 2: cup(i,r) ne r
        "S,fin,1,0,0,0",  // 603, 3: cup(i,r) eq r
        "S,cls,3,2,0,0",  // 604
    ];
    last.extend(rest.map(String::from));
    // Term n + 1 holds term n twice, up to term 595.
    let mut shared: Vec<String> = vec![R.into()];
    shared.extend((1..=594).map(|part| format!("T,cup,{part},{part},0,0")));
    let rest = [
        HEAP,                  // 596
        FIELD,                 // 597
        "T,img,596,595,597,0", // 598, the image of term 595
        "T,cup,595,598,0,0",   // 599
        "T,cup,598,595,0,0",   // 600
        "A,eq,599,598,0,0",    // 601, 1
        "A,ne,600,595,0,0",    // 602, 2
        "S,fin,1,0,0,0",       // 603, 3: term 600 eq term 595
        "S,cls,3,2,0,0",       // 604
    ];
    shared.extend(rest.map(String::from));
    vec![
        case("fin: 600 terms", lines(&last), "yes,0,0,600,2,2,1,0"),
        case(
            "fin: 600 terms, not the union",
            with_lines(&last, &[(600, "T,rgv,2,0,0,0")]),
            "no,14,603,0,0,0,0,0",
        ),
        // cup(i,r) is the 601st.
        case(
            "fin: 601 terms",
            with_lines(&last, &[(600, "T,rgv,2,0,0,0"), (601, "T,cup,4,1,0,0")]),
            "no,7,601,0,0,0,0,0",
        ),
        case(
            "fin: a much shared region",
            lines(&shared),
            "yes,0,0,600,2,2,1,0",
        ),
        // Term 594 has the same members, but is another term.
        case(
            "fin: the image of a part",
            with_line(&shared, 598, "T,img,596,594,597,0"),
            "no,12,603,0,0,0,0,0",
        ),
    ]
}

/// What `fin` adds in the first alternative is gone in the second.
fn in_both_alternatives() -> Vec<Case> {
    let file = [
        &ADDS[..7],
        &[
            S,               // 8
            "A,eq,6,5,0,0",  // 9, 1: cup(r,i) eq i
            "A,in,1,5,0,0",  // 10, 2: u in i
            "A,ni,1,2,0,0",  // 11, 3: u ni r
            "S,cut,0,0,1,8", // 12, 4: u in s
            "S,fin,1,0,0,0", // 13, 5: cup(i,r) eq r
            "S,cui,2,0,7,0", // 14, 6: u in cup(i,r)
            "S,eqr,5,6,0,0", // 15, 7: u in r
            "S,cls,7,3,0,0", // 16, 4: u ni s
            "S,fin,1,0,0,0", // 17, 5: cup(i,r) eq r
            "S,cui,2,0,7,0", // 18, 6: u in cup(i,r)
            "S,eqr,5,6,0,0", // 19, 7: u in r
            "S,cls,7,3,0,0", // 20
        ],
    ]
    .concat();
    let changed =
        |number, line, reply| with_line_case("fin: in both", &file, (number, line), reply);
    vec![
        case("fin: in both", lines(&file), "yes,0,0,8,3,9,2,0"),
        changed(17, "S,sym,5,0,0,0", "no,11,17,0,0,0,0,0"),
        changed(17, "S,cls,7,3,0,0", "no,11,17,0,0,0,0,0"),
        changed(17, "S,fin,4,0,0,0", "no,12,17,0,0,0,0,0"), // u ni s
        // 5: u in cup(i,r), 6: the same; the equation is not there.
        changed(17, "S,cui,2,0,7,0", "no,12,19,0,0,0,0,0"),
        // 7: u in cup(i,r) is not u in r.
        changed(19, "S,cui,2,0,7,0", "no,12,20,0,0,0,0,0"),
        // Place 1 is about cup(r,i).
        changed(15, "S,eqr,1,6,0,0", "no,12,15,0,0,0,0,0"),
        case(
            "fin: in the first alternative only",
            lines(&file[..16]),
            "no,17,17,0,0,0,0,0",
        ),
    ]
}

/// What `fin` adds before the split stays for both alternatives.
fn before_a_split() -> Vec<Case> {
    let file = [
        &ADDS[..7],
        &[
            S,               // 8
            "A,eq,6,5,0,0",  // 9, 1: cup(r,i) eq i
            "A,in,1,5,0,0",  // 10, 2: u in i
            "A,ni,1,2,0,0",  // 11, 3: u ni r
            "S,fin,1,0,0,0", // 12, 4: cup(i,r) eq r
            "S,cut,0,0,1,8", // 13, 5: u in s
            "S,cui,2,0,7,0", // 14, 6: u in cup(i,r)
            "S,eqr,4,6,0,0", // 15, 7: u in r
            "S,cls,7,3,0,0", // 16, 5: u ni s
            "S,cui,2,0,7,0", // 17, 6: u in cup(i,r)
            "S,eqr,4,6,0,0", // 18, 7: u in r
            "S,cls,7,3,0,0", // 19
        ],
    ]
    .concat();
    vec![
        case("fin: before a split", lines(&file), "yes,0,0,8,3,8,2,0"),
        // Then 4: u in s, and line 13 adds it again.
        case(
            "fin: left out before a split",
            with_line(&file, 12, "S,cut,0,0,1,8"),
            "no,12,15,0,0,0,0,0",
        ),
    ]
}

/// cup(r,i) eq i, or u in r: in the first alternative by `fin`.
fn from_a_clause() -> Vec<Case> {
    let file = [
        &ADDS[..7],
        &[
            "A,in,1,5,0,0",  // 8, 1: u in i
            "A,ni,1,2,0,0",  // 9, 2: u ni r
            "C,eq,6,5,1,0",  // 10, cup(r,i) eq i
            "C,in,1,2,1,0",  // 11, or u in r
            "S,cla,0,0,1,0", // 12, 3: cup(r,i) eq i
            "S,fin,3,0,0,0", // 13, 4: cup(i,r) eq r
            "S,cui,1,0,7,0", // 14, 5: u in cup(i,r)
            "S,eqr,4,5,0,0", // 15, 6: u in r
            "S,cls,6,2,0,0", // 16, 3: u in r
            "S,cls,3,2,0,0", // 17
        ],
    ]
    .concat();
    let changed = |number, line, reply| with_line_case("fin: clause", &file, (number, line), reply);
    vec![
        case("fin: clause", lines(&file), "yes,0,0,7,3,6,2,0"),
        // A clause takes no place.
        changed(12, "S,fin,3,0,0,0", "no,11,12,0,0,0,0,0"),
        changed(12, "S,fin,1,0,0,0", "no,12,12,0,0,0,0,0"),
        changed(12, "S,fin,0,0,1,0", "no,6,12,0,0,0,0,0"),
        changed(10, "C,eq,5,6,1,0", "no,12,13,0,0,0,0,0"),
        changed(10, "C,ne,6,5,1,0", "no,12,13,0,0,0,0,0"),
        // The second alternative has u in r at place 3, and no place 4.
        changed(17, "S,fin,3,0,0,0", "no,12,17,0,0,0,0,0"),
        changed(17, "S,fin,4,0,0,0", "no,11,17,0,0,0,0,0"),
        // u in r comes first, so that it is at place 3.
        case(
            "fin: clause, literals changed over",
            with_lines(&file, &[(10, "C,in,1,2,1,0"), (11, "C,eq,6,5,1,0")]),
            "no,12,13,0,0,0,0,0",
        ),
    ]
}

/// `sym` brings i eq cup(r,i) into the form that `fin` takes.
fn sides_changed_over() -> Vec<Case> {
    let file = [
        &ADDS[..7],
        &[
            "A,eq,5,6,0,0",  // 8, 1: i eq cup(r,i)
            "A,ne,7,2,0,0",  // 9, 2: cup(i,r) ne r
            "S,sym,1,0,0,0", // 10, 3: cup(r,i) eq i
            "S,fin,3,0,0,0", // 11, 4: cup(i,r) eq r
            "S,cls,4,2,0,0", // 12
        ],
    ]
    .concat();
    vec![
        case("fin: after sym", lines(&file), "yes,0,0,7,2,3,1,0"),
        case(
            "fin: sym on another place",
            with_line(&file, 11, "S,fin,1,0,0,0"),
            "no,12,11,0,0,0,0,0",
        ),
        // 3: cup(i,r) eq i, by sym of i eq cup(i,r).
        case(
            "fin: after sym, the union changed over",
            with_line(&file, 8, "A,eq,5,7,0,0"),
            "no,12,11,0,0,0,0,0",
        ),
    ]
}

/// `fin` asks for no fresh w. What it adds mentions w where its place does.
fn fresh_beside_it() -> Vec<Case> {
    let file = [
        U,               // 1, w
        V,               // 2
        HEAP,            // 3
        FIELD,           // 4
        "T,sin,1,0,0,0", // 5, sin(w)
        "T,img,3,5,4,0", // 6, i = img(h,sin(w),f)
        "T,cup,5,6,0,0", // 7, cup(sin(w),i)
        "T,cup,6,5,0,0", // 8, cup(i,sin(w))
        R,               // 9
        "A,ne,9,9,0,0",  // 10, 1: r ne r
        "A,eq,7,6,0,0",  // 11, 2: cup(sin(w),i) eq i
        "S,fin,2,0,0,0", // 12, 3: cup(i,sin(w)) eq sin(w)
        "S,ext,1,0,0,2", // 13, 4: v in r, 5: v ni r
        "S,cls,4,5,0,0", // 14, 4: v ni r, 5: v in r
        "S,cls,5,4,0,0", // 15
    ];
    let changed = |number, line, reply| with_line_case("fin: fresh", &file, (number, line), reply);
    vec![
        case("fin: fresh", lines(&file), "yes,0,0,9,2,4,2,0"),
        // Place 2 is the first that mentions w.
        changed(13, "S,ext,1,0,0,1", "no,13,13,0,0,0,0,2"),
        changed(12, "S,fin,2,0,0,2", "no,6,12,0,0,0,0,0"),
    ]
}
