//! Nothing need be allocated. A file that wants an allocated object assumes
//! all ne emp and opens it by `ext`; no step gives one that is not assumed.

use super::{case, lines, with_lines, Case, ALL, EMP, NUL, R, U};

pub fn cases() -> Vec<Case> {
    let groups = [
        assumed(),
        w_not_fresh(),
        left_open(),
        closed_wrongly(),
        other_assumptions(),
        none_assumed(),
    ];
    groups.into_iter().flatten().collect()
}

/// If something is allocated, cup(all,r) isn't empty.
const ALLOCATED: [&str; 12] = [
    U,               // 1, w
    ALL,             // 2
    EMP,             // 3
    R,               // 4
    "T,cup,2,4,0,0", // 5, cup(all,r)
    "A,ne,2,3,0,0",  // 1: all ne emp
    "A,eq,5,3,0,0",  // 2: cup(all,r) eq emp
    "S,ext,1,0,0,1", // 8, 3: w in all, 4: w ni emp
    "S,cui,3,0,5,0", // 9, 5: w in cup(all,r)
    "S,eqr,2,5,0,0", // 10, 6: w in emp
    "S,emp,6,0,0,0", // 11, 3: w ni all, 4: w in emp
    "S,emp,4,0,0,0", // 12
];

/// The sides changed over, so that the alternative in emp comes first.
const EMP_FIRST: [(usize, &str); 5] = [
    (6, "A,ne,3,2,0,0"),   // 1: emp ne all; then 3: w in emp, 4: w ni all
    (9, "S,emp,3,0,0,0"),  // 3: w ni emp, 4: w in all
    (10, "S,cui,4,0,5,0"), // 5: w in cup(all,r)
    (11, "S,eqr,2,5,0,0"), // 6: w in emp
    (12, "S,emp,6,0,0,0"),
];

fn changed(what: &str, changes: &[(usize, &str)], reply: &'static str) -> Case {
    case(
        &format!("allocated: {what}"),
        with_lines(&ALLOCATED, changes),
        reply,
    )
}

/// With one line more, which gets this number.
fn with_one_more(what: &str, number: usize, line: &'static str, reply: &'static str) -> Case {
    let mut file = ALLOCATED.to_vec();
    file.insert(number - 1, line);
    case(&format!("allocated: {what}"), lines(&file), reply)
}

fn assumed() -> Vec<Case> {
    // Both assumptions are about `all` and `emp`.
    let equal_too = [
        U,
        ALL,
        EMP,
        "A,eq,2,3,0,0",  // 1: all eq emp
        "A,ne,2,3,0,0",  // 2: all ne emp
        "S,ext,2,0,0,1", // 3: w in all, 4: w ni emp
        "S,eqr,1,3,0,0", // 5: w in emp
        "S,emp,5,0,0,0", // 3: w ni all, 4: w in emp
        "S,emp,4,0,0,0",
    ];
    vec![
        changed("all ne emp", &[], "yes,0,0,5,2,5,2,0"),
        changed("emp ne all", &EMP_FIRST, "yes,0,0,5,2,5,2,0"),
        // 6: w in emp, 4: w ni emp.
        changed(
            "first closed by cls",
            &[(11, "S,cls,6,4,0,0")],
            "yes,0,0,5,2,5,2,0",
        ),
        case(
            "allocated: all eq emp too",
            lines(&equal_too),
            "yes,0,0,3,2,4,2,0",
        ),
    ]
}

fn w_not_fresh() -> Vec<Case> {
    vec![
        // 3: w eq w; 3: w in all; 3: w in all; 3: w in all, 4: w ni emp.
        with_one_more("w assumed of", 8, "A,eq,1,1,0,0", "no,13,9,0,0,0,0,3"),
        with_one_more("w assumed in all", 8, "A,in,1,2,0,0", "no,13,9,0,0,0,0,3"),
        with_one_more("w cut before", 8, "S,cut,0,0,1,2", "no,13,9,0,0,0,0,3"),
        with_one_more("w twice", 9, "S,ext,1,0,0,1", "no,13,9,0,0,0,0,3"),
        // 3: w ni all, 4: w in emp.
        with_one_more(
            "w again in the second alternative",
            12,
            "S,ext,1,0,0,1",
            "no,13,12,0,0,0,0,3",
        ),
        // Place 2 is cup(all,sin(w)) eq emp.
        changed(
            "w inside sin(w)",
            &[(4, "T,sin,1,0,0,0")],
            "no,13,8,0,0,0,0,2",
        ),
        // No rfv, so no place, though all is at place 1.
        changed("w is nul", &[(1, NUL)], "no,13,8,0,0,0,0,0"),
        changed("w is all", &[(8, "S,ext,1,0,0,2")], "no,13,8,0,0,0,0,0"),
    ]
}

fn left_open() -> Vec<Case> {
    let emp_first = [
        &ALLOCATED[..5],
        &["A,ne,3,2,0,0", ALLOCATED[6], ALLOCATED[7], "S,emp,3,0,0,0"],
    ]
    .concat();
    vec![
        case(
            "allocated: both alternatives open",
            lines(&ALLOCATED[..8]),
            "no,17,9,0,0,0,0,0",
        ),
        case(
            "allocated: the alternative in emp open",
            lines(&ALLOCATED[..11]),
            "no,17,12,0,0,0,0,0",
        ),
        case(
            "allocated: the alternative in all open",
            lines(&emp_first),
            "no,17,10,0,0,0,0,0",
        ),
    ]
}

fn closed_wrongly() -> Vec<Case> {
    vec![
        // Place 4 is w ni emp there.
        changed(
            "emp in the first alternative",
            &[(11, "S,emp,4,0,0,0")],
            "no,12,11,0,0,0,0,0",
        ),
        // w in all and w ni emp deny nothing of each other.
        changed(
            "cls of all and emp",
            &[(9, "S,cls,3,4,0,0")],
            "no,12,9,0,0,0,0,0",
        ),
        // Place 6 is gone, place 3 is w ni all.
        changed(
            "first closing twice",
            &[(12, "S,emp,6,0,0,0")],
            "no,11,12,0,0,0,0,0",
        ),
        changed(
            "emp of w ni all",
            &[(12, "S,emp,3,0,0,0")],
            "no,12,12,0,0,0,0,0",
        ),
        changed(
            "cls of w ni all",
            &[(12, "S,cls,4,3,0,0")],
            "no,12,12,0,0,0,0,0",
        ),
    ]
}

/// `ext` needs ne.
fn other_assumptions() -> Vec<Case> {
    let only_ne = [
        U,
        ALL,
        EMP,
        "A,ne,2,3,0,0",  // 1: all ne emp
        "S,ext,1,0,0,1", // 2: w in all, 3: w ni emp
        "S,emp,2,0,0,0",
    ];
    vec![
        changed("all eq all", &[(6, "A,eq,2,2,0,0")], "no,12,8,0,0,0,0,0"),
        changed("all eq emp", &[(6, "A,eq,2,3,0,0")], "no,12,8,0,0,0,0,0"),
        // Then the second alternative has w ni all, w in all.
        changed("all ne all", &[(6, "A,ne,2,2,0,0")], "no,12,12,0,0,0,0,0"),
        changed(
            "all ne all, closed by that",
            &[(6, "A,ne,2,2,0,0"), (12, "S,cls,4,3,0,0")],
            "yes,0,0,5,2,5,2,0",
        ),
        // An allocated object is no contradiction.
        case(
            "allocated: nothing else",
            lines(&only_ne),
            "no,12,6,0,0,0,0,0",
        ),
        case(
            "allocated: nothing else, emp of w ni emp",
            with_lines(&only_ne, &[(6, "S,emp,3,0,0,0")]),
            "no,12,6,0,0,0,0,0",
        ),
    ]
}

/// all eq emp may be true. Older files close it by the rule `fir`.
fn none_assumed() -> Vec<Case> {
    let closed_by_fir = [
        U,
        ALL,
        EMP,
        "A,eq,2,3,0,0",  // 1: all eq emp
        "S,fir,0,0,0,1", // no rule
        "S,eqr,1,2,0,0",
        "S,emp,3,0,0,0",
    ];
    vec![
        case(
            "allocated: fir on all eq emp",
            lines(&closed_by_fir),
            "no,4,5,0,0,0,0,0",
        ),
        // There is no place 2.
        case(
            "allocated: all eq emp without fir",
            lines(&[&closed_by_fir[..4], &closed_by_fir[5..]].concat()),
            "no,11,5,0,0,0,0,0",
        ),
        // p is eq.
        case(
            "allocated: ext on all eq emp",
            with_lines(&closed_by_fir, &[(5, "S,ext,1,0,0,1")]),
            "no,12,5,0,0,0,0,0",
        ),
        case(
            "allocated: all eq emp left open",
            lines(&closed_by_fir[..4]),
            "no,17,5,0,0,0,0,0",
        ),
        changed(
            "fir in place of ext",
            &[(8, "S,fir,0,0,0,1")],
            "no,4,8,0,0,0,0,0",
        ),
        with_one_more("fir after ext", 9, "S,fir,0,0,0,1", "no,4,9,0,0,0,0,0"),
        with_one_more(
            "fir after the last closing",
            13,
            "S,fir,0,0,0,1",
            "no,4,13,0,0,0,0,0",
        ),
    ]
}
