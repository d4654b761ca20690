//! Clauses: which of their lines is reported, what refuses them, and where
//! their reading stops.

use super::{case, lines, Case, ALWAYS, EMP, NEVER, NUL, R, SMALLEST, U};

pub fn cases() -> Vec<Case> {
    let groups = [
        first_without_a_true_literal(),
        as_many_as_there_can_be(),
        refusals(),
        two_checks_broken(),
        ninth_literal(),
        c_line_401(),
        stopped_before_the_steps(),
        not_stopped(),
        beside_faults_of_the_heap(),
        every_relation(),
        one_file_in_several_heaps(),
    ];
    groups.into_iter().flatten().collect()
}

/// Against the smallest heap.
fn clause_case(what: &str, checker: Vec<u8>, reply: &'static str) -> Case {
    let name = format!("clauses: {what}");
    case(&name, checker, lines(&[SMALLEST]), reply)
}

fn rows(topic: &str, rows: &[(&[&str], &'static str)]) -> Vec<Case> {
    rows.iter()
        .map(|(file, reply)| {
            let what = format!("{topic}, {file:?}");
            clause_case(&what, lines(file), reply)
        })
        .collect()
}

/// One T line, then A lines, then clauses. A t stands for nul eq nul, which is
/// true in every heap, an f for nul ne nul.
fn spelled(assumed: &str, clauses: &[&str]) -> Vec<u8> {
    let word = |truth: char| if truth == 't' { "eq" } else { "ne" };
    let mut file = vec![NUL.to_string()];
    for truth in assumed.chars() {
        file.push(format!("A,{},1,1,0,0", word(truth)));
    }
    for (index, clause) in clauses.iter().enumerate() {
        for truth in clause.chars() {
            file.push(format!("C,{},1,1,{},0", word(truth), index + 1));
        }
    }
    lines(&file)
}

fn first_without_a_true_literal() -> Vec<Case> {
    let rows: [(&str, &[&str], &'static str); 42] = [
        // one clause
        ("", &["t"], "0,0,0"),
        ("", &["f"], "0,0,2"),
        ("", &["tt"], "0,0,0"),
        ("", &["tf"], "0,0,0"),
        ("", &["ft"], "0,0,0"),
        ("", &["ff"], "0,0,3"),
        ("", &["tff"], "0,0,0"),
        ("", &["ftf"], "0,0,0"),
        ("", &["fft"], "0,0,0"),
        ("", &["fff"], "0,0,4"),
        ("", &["ffff"], "0,0,5"),
        ("", &["fffff"], "0,0,6"),
        ("", &["ffffff"], "0,0,7"),
        ("", &["fffffff"], "0,0,8"),
        ("", &["ffffffff"], "0,0,9"),
        ("", &["tfffffff"], "0,0,0"),
        ("", &["ffftffff"], "0,0,0"),
        ("", &["ffffffft"], "0,0,0"),
        ("", &["tttttttt"], "0,0,0"),
        // several: the first that is false, and its last line
        ("", &["t", "t"], "0,0,0"),
        ("", &["t", "f"], "0,0,3"),
        ("", &["f", "t"], "0,0,2"),
        ("", &["f", "f"], "0,0,2"),
        ("", &["ff", "f"], "0,0,3"),
        ("", &["ff", "ff"], "0,0,3"),
        ("", &["tf", "ff"], "0,0,5"),
        ("", &["tf", "ft"], "0,0,0"),
        ("", &["ft", "ft", "fff"], "0,0,8"),
        ("", &["ft", "f", "ft", "f"], "0,0,4"),
        ("", &["ffffffft", "ffffffff", "f"], "0,0,17"),
        // A lines that are true
        ("t", &["f"], "0,0,3"),
        ("t", &["ff"], "0,0,4"),
        ("tt", &["t", "ff", "t"], "0,0,6"),
        ("tt", &["t", "tf", "ft"], "0,0,0"),
        ("ttt", &["ffff", "f"], "0,0,8"),
        // a false A line comes before any clause
        ("f", &["t"], "0,0,2"),
        ("f", &["f"], "0,0,2"),
        ("tf", &["ff"], "0,0,3"),
        ("ft", &["ff"], "0,0,2"),
        ("ff", &["f", "t"], "0,0,2"),
        ("ttf", &["t", "ff", "t"], "0,0,4"),
        ("ttf", &["tt", "ft"], "0,0,4"),
    ];
    rows.into_iter()
        .map(|(assumed, clauses, reply)| {
            let what = format!("A {assumed:?}, C {clauses:?}");
            clause_case(&what, spelled(assumed, clauses), reply)
        })
        .collect()
}

/// 400 C lines are lines 2 to 401; after 1,000 A lines, 1,002 to 1,401.
fn as_many_as_there_can_be() -> Vec<Case> {
    let ones = |last: &'static str| [&["t"; 399][..], &[last]].concat();
    let eights = |last: &'static str| [&["ffffffft"; 49][..], &[last]].concat();
    let full = "t".repeat(1_000);
    let last_false = format!("{}f", "t".repeat(999));
    let rows = [
        ("400 clauses", spelled("", &ones("t")), "0,0,0"),
        ("clause 400 false", spelled("", &ones("f")), "0,0,401"),
        ("50 clauses of 8", spelled("", &eights("ffffffft")), "0,0,0"),
        (
            "clause 50 of 8 false",
            spelled("", &eights("ffffffff")),
            "0,0,401",
        ),
        (
            "400 clauses after 1,000 A lines",
            spelled(&full, &ones("t")),
            "0,0,0",
        ),
        (
            "clause 400 false after 1,000 A lines",
            spelled(&full, &ones("f")),
            "0,0,1401",
        ),
        (
            "A line 1,000 and clause 400 false",
            spelled(&last_false, &ones("f")),
            "0,0,1001",
        ),
        // A clause takes no place: only A line 1,001 gets 15.
        (
            "1,001 A lines and a clause",
            spelled(&"t".repeat(1_001), &["t"]),
            "15,1,1002",
        ),
    ];
    rows.into_iter()
        .map(|(what, file, reply)| clause_case(what, file, reply))
        .collect()
}

const TRUE: &str = "C,eq,1,1,1,0";
const FALSE: &str = "C,ne,1,1,1,0";

fn refusals() -> Vec<Case> {
    rows(
        "refused",
        &[
            (&[NUL, "C,eq,1,1,1"], "2,1,2"),
            (&[NUL, "C,eq,1,1,01,0"], "2,1,2"),
            (&[NUL, "C,eq,1,1,100000,0"], "2,1,2"),
            (&[NUL, "c,eq,1,1,1,0"], "2,1,2"),
            (&[NUL, "CC,eq,1,1,1,0"], "2,1,2"),
            (&[NUL, TRUE, ""], "2,1,3"),
            (&[NUL, TRUE, EMP], "3,1,3"),
            (&[NUL, TRUE, "A,eq,1,1,0,0"], "3,1,3"),
            (&[NUL, "A,eq,1,1,0,0", TRUE, "A,eq,1,1,0,0"], "3,1,4"),
            (&[NUL, "A,eq,1,1,0,0", TRUE, EMP], "3,1,4"),
            (&[NUL, "C,nul,1,1,1,0"], "4,1,2"),
            (&[NUL, "C,cla,0,0,1,0"], "4,1,2"),
            (&[NUL, "C,siz,1,1,1,0"], "4,1,2"),
            (&[NUL, "A,cla,1,1,0,0"], "4,1,2"),
            (&["T,cla,1,0,0,0"], "4,1,1"),
            (&[NUL, "C,eq,1,1,1,1"], "6,1,2"),
            (&[TRUE], "8,1,1"),
            (&[NUL, "C,eq,1,2,1,0"], "8,1,2"),
            (&[NUL, "C,eq,0,1,1,0"], "8,1,2"),
            (&[NUL, EMP, "C,eq,1,2,1,0"], "9,1,3"),
            (&[NUL, EMP, "C,in,2,1,1,0"], "9,1,3"),
            (&[NUL, EMP, "C,ni,1,1,1,0"], "9,1,3"),
            (&[NUL, "C,le,1,1,1,0"], "9,1,2"),
            (&[NUL, "C,nl,1,1,1,0"], "9,1,2"),
            (&[NUL, "C,eq,1,1,0,0"], "21,1,2"),
            (&[NUL, "C,eq,1,1,2,0"], "21,1,2"),
            (&[NUL, TRUE, "C,eq,1,1,0,0"], "21,1,3"),
            (&[NUL, TRUE, "C,eq,1,1,3,0"], "21,1,3"),
            (&[NUL, TRUE, "C,eq,1,1,2,0", TRUE], "21,1,4"),
            // A refusal comes before what is false.
            (&[NUL, "A,ne,1,1,0,0", "C,eq,1,1,0,0"], "21,1,3"),
            (&[NUL, FALSE, "C,eq,1,1,3,0"], "21,1,3"),
            (&[NUL, FALSE, "C,eq,1,2,1,0"], "8,1,3"),
        ],
    )
}

/// The smaller number is given, and 21 after 9.
fn two_checks_broken() -> Vec<Case> {
    rows(
        "two faults",
        &[
            (&[NUL, EMP, TRUE, "A,cap,9,9,9"], "2,1,4"),
            (&[NUL, EMP, TRUE, "A,cap,9,9,9,9"], "3,1,4"),
            (&[NUL, EMP, "C,cap,9,9,9,9"], "4,1,3"),
            (&[NUL, EMP, "C,in,9,9,9,9"], "6,1,3"),
            (&[NUL, EMP, "C,in,2,1,1,1"], "6,1,3"),
            (&[NUL, EMP, "C,in,1,2,0,1"], "6,1,3"),
            (&[NUL, EMP, "C,in,2,3,0,0"], "8,1,3"),
            (&[NUL, EMP, "C,in,1,0,2,0"], "8,1,3"),
            (&[NUL, EMP, "C,in,2,1,0,0"], "9,1,3"),
            (&[NUL, EMP, "C,eq,1,2,2,0"], "9,1,3"),
            (&[NUL, EMP, "C,in,1,2,0,0"], "21,1,3"),
        ],
    )
}

/// Lines 2 to 9 are eight literals of clause 1.
fn ninth_literal() -> Vec<Case> {
    let after_8 = |line: &str| [spelled("", &["tttttttt"]), lines(&[line])].concat();
    let rows = [
        (TRUE, "21,1,10"),
        (FALSE, "21,1,10"),
        ("C,eq,1,2,1,0", "8,1,10"),
        ("C,le,1,1,1,0", "9,1,10"),
        ("C,eq,1,1,1,1", "6,1,10"),
        ("C,eq,1,1,2,0", "0,0,0"),
        ("C,ne,1,1,2,0", "0,0,10"),
        ("S,", "0,0,0"),
    ];
    rows.into_iter()
        .map(|(line, reply)| {
            let what = format!("after 8 literals, {line}");
            clause_case(&what, after_8(line), reply)
        })
        .collect()
}

/// Lines 2 to 401 are 400 clauses.
fn c_line_401() -> Vec<Case> {
    let after_400 = |line: &str| [spelled("", &["t"; 400]), lines(&[line])].concat();
    let rows = [
        ("C,eq,1,1,401,0", "21,1,402"),
        ("C,ne,1,1,400,0", "21,1,402"),
        ("C,eq,1,2,401,0", "8,1,402"),
        ("C,le,1,1,401,0", "9,1,402"),
        ("C,eq,1,1,401,1", "6,1,402"),
        ("A,eq,1,1,0,0", "3,1,402"),
        ("S,", "0,0,0"),
    ];
    rows.into_iter()
        .map(|(line, reply)| {
            let what = format!("after 400 C lines, {line}");
            clause_case(&what, after_400(line), reply)
        })
        .collect()
}

/// C lines from the first step on are not read.
fn stopped_before_the_steps() -> Vec<Case> {
    let mut cases = rows(
        "stopped",
        &[
            (&[NUL, FALSE, "S,cla,0,0,1,0"], "0,0,2"),
            (&[NUL, TRUE, "S,cla,0,0,1,0"], "0,0,0"),
            (&[NUL, TRUE, "S,cla,0,0,9,9"], "0,0,0"),
            (&[NUL, TRUE, "S,", "rubbish"], "0,0,0"),
            (&[NUL, "S,cla,0,0,1,0"], "0,0,0"),
            (&[NUL, "S,ref,0,0,1,0", FALSE], "0,0,0"),
            (&[NUL, "S,", FALSE], "0,0,0"),
            // The clause would have a true literal, or two would be false.
            (&[NUL, FALSE, "S,ref,0,0,1,0", TRUE], "0,0,2"),
            (&[NUL, TRUE, "S,ref,0,0,1,0", "C,ne,1,1,2,0"], "0,0,0"),
            // Lines that would get 21, 8, 2.
            (&[NUL, TRUE, "S,ref,0,0,1,0", "C,eq,1,1,0,0"], "0,0,0"),
            (&[NUL, TRUE, "S,ref,0,0,1,0", "C,eq,1,9,1,0"], "0,0,0"),
            (&[NUL, TRUE, "S,ref,0,0,1,0", "C,eq"], "0,0,0"),
        ],
    );
    let unended = [spelled("t", &["ff"]), b"S,cla".to_vec()].concat();
    cases.push(clause_case("stopped, no LF", unended, "0,0,4"));
    cases
}

fn not_stopped() -> Vec<Case> {
    let mut cases = rows(
        "not stopped",
        &[
            (&[NUL, TRUE, "C,"], "2,1,3"),
            (&[NUL, TRUE, "S"], "2,1,3"),
            (&[NUL, TRUE, "CS,ref,0,0,1,0"], "2,1,3"),
            (&[NUL, "C,eq,1,1,2,0", "S,ref,0,0,1,0"], "21,1,2"),
            (&[NUL, "C,eq,1,1,1", "S,ref,0,0,1,0"], "2,1,2"),
        ],
    );
    let mut unended = spelled("t", &["ff"]);
    unended.pop();
    cases.push(clause_case("a C line without LF", unended, "2,1,4"));
    cases
}

/// The checker file's refusal comes first, then the heap file's, then truth.
fn beside_faults_of_the_heap() -> Vec<Case> {
    let checkers = [
        ("refused", lines(&[NUL, "C,eq,1,1,0,0"]), Some("21,1,2")),
        ("false", lines(&[NUL, FALSE]), None),
        ("true", lines(&[NUL, TRUE]), None),
    ];
    let heaps = [
        ("1", vec![b'D'; 60_001], "1,2,0"),
        ("2", lines(&["C,siz,1,1,1,0"]), "2,2,1"),
        ("2 later", lines(&[SMALLEST, TRUE]), "2,2,2"),
        ("3", vec![], "3,2,1"),
        ("4", lines(&[SMALLEST, "D,cla,0,0,1,0"]), "4,2,2"),
        ("6", lines(&["D,siz,1,1,1,1"]), "6,2,1"),
        ("19", lines(&["D,siz,1,1,0,0"]), "19,2,1"),
        (
            "20",
            lines(&["D,siz,1,1,2,0", "D,sub,0,1,0,0", "D,sub,1,0,0,0"]),
            "20,2,0",
        ),
    ];
    let mut cases = Vec::new();
    for (of_checker, checker, refused) in &checkers {
        for (of_heap, heap, heap_reply) in &heaps {
            let name = format!("clauses: checker {of_checker}, heap {of_heap}");
            let reply = refused.unwrap_or(heap_reply);
            cases.push(case(&name, checker.clone(), heap.clone(), reply));
        }
    }
    // Good heaps against what is never and always true.
    for (what, file, reply) in [
        ("never, and a clause", &NEVER, "0,0,2"),
        ("always, and a clause", &ALWAYS, "0,0,3"),
    ] {
        let checker = [&file[..], &[FALSE]].concat();
        cases.push(clause_case(what, lines(&checker), reply));
    }
    cases
}

/// u = 1 is in r = {1} and not in s = {}. typ(u) = 1, c = 0, and only 0 le 1.
const HEAP: [&str; 6] = [
    "D,siz,2,1,2,0",
    "D,alc,1,0,0,0",
    "D,typ,1,1,0,0",
    "D,sub,0,1,0,0",
    "D,rfv,1,1,0,0",
    "D,rgv,1,1,0,0",
];

const TERMS: [&str; 6] = [
    NUL,             // 1
    U,               // 2, u = 1
    R,               // 3, r = {1}
    "T,rgv,2,0,0,0", // 4, s = {}
    "T,typ,2,0,0,0", // 5, typ(u) = 1
    "T,clv,1,0,0,0", // 6, c = 0
];

const LITERALS: [(&str, bool); 18] = [
    ("in,2,3", true),
    ("in,2,4", false),
    ("ni,2,3", false),
    ("ni,2,4", true),
    ("eq,2,2", true),
    ("eq,2,1", false),
    ("ne,2,2", false),
    ("ne,2,1", true),
    ("eq,3,4", false),
    ("ne,3,4", true),
    ("eq,5,6", false),
    ("ne,5,6", true),
    ("le,6,5", true),
    ("le,5,6", false),
    ("le,6,6", true),
    ("nl,6,5", false),
    ("nl,5,6", true),
    ("nl,5,5", false),
];

/// Each literal alone in a clause, and before and after a false one. The T
/// lines are 1 to 6.
fn every_relation() -> Vec<Case> {
    let mut cases = Vec::new();
    for (literal, truth) in LITERALS {
        let line = format!("C,{literal},1,0");
        for (what, clause, last) in [
            ("alone", vec![&*line], "0,0,7"),
            ("first of two", vec![&*line, FALSE], "0,0,8"),
            ("last of two", vec![FALSE, &*line], "0,0,8"),
        ] {
            let reply = if truth { "0,0,0" } else { last };
            let checker = lines(&[&TERMS[..], &clause].concat());
            let name = format!("clauses: {literal} {what} is {truth}");
            cases.push(case(&name, checker, lines(&HEAP), reply));
        }
    }
    cases
}

/// u in r or u in s; and then r eq s or u eq nul.
fn one_file_in_several_heaps() -> Vec<Case> {
    let checker = [
        NUL,             // 1
        U,               // 2
        R,               // 3
        "T,rgv,2,0,0,0", // 4, s
        "A,ne,2,1,0,0",  // 5, u ne nul
        "C,in,2,3,1,0",  // 6, u in r
        "C,in,2,4,1,0",  // 7, or u in s
        "C,eq,3,4,2,0",  // 8, r eq s
        "C,eq,2,1,2,0",  // 9, or u eq nul
        "C,ne,2,2,2,0",  // 10, or u ne u
    ];
    let (r, s) = ("D,rgv,1,1,0,0", "D,rgv,2,1,0,0");
    let rows: [(&str, &[&str], &'static str); 7] = [
        ("u in both", &["D,rfv,1,1,0,0", r, s], "0,0,0"),
        ("u in r only", &["D,rfv,1,1,0,0", r], "0,0,10"),
        ("u in s only", &["D,rfv,1,1,0,0", s], "0,0,10"),
        ("u in neither", &["D,rfv,1,1,0,0"], "0,0,7"),
        // u is 2, which isn't in them.
        ("another in both", &["D,rfv,1,2,0,0", r, s], "0,0,7"),
        ("another in r", &["D,rfv,1,2,0,0", r], "0,0,7"),
        ("u is nul", &[r], "0,0,5"),
    ];
    rows.into_iter()
        .map(|(what, more, reply)| {
            let heap = lines(&[&["D,siz,3,1,1,0", "D,alc,1,0,0,0"], more].concat());
            case(&format!("clauses: {what}"), lines(&checker), heap, reply)
        })
        .collect()
}
