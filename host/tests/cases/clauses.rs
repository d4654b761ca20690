//! C lines: their shape and order, their words and terms, and the numbers of
//! their clauses. No clause is split here but that of `OR`.

use super::numbers::{literals_of_wrong_sorts, words_of_no_literal};
use super::{case, lines, runs, with_line, with_lines, with_more, Case};
use super::{F, FIELD, HEAP, R, S, U};

pub fn cases() -> Vec<Case> {
    let groups = [
        shapes_of_a_line(),
        shapes_of_a_file(),
        letters_out_of_order(),
        a_lines_between_and_before(),
        words(),
        right_literals(),
        unused_fields(),
        terms_not_made(),
        wrong_sorts(),
        clause_numbers(),
        most_literals(),
        most_c_lines(),
        beside_1000_a_lines(),
        two_checks_broken(),
        two_checks_broken_after_a_step(),
        two_checks_broken_by_literal_9(),
        two_checks_broken_by_c_line_401(),
        first_bad_line(),
    ];
    groups.into_iter().flatten().collect()
}

/// A clause of two literals, each denied by an assumption.
pub const OR: [&str; 10] = [
    U,               // 1
    R,               // 2
    S,               // 3
    "A,ni,1,2,0,0",  // 4, 1: u ni r
    "A,ni,1,3,0,0",  // 5, 2: u ni s
    "C,in,1,2,1,0",  // 6, clause 1: u in r
    "C,in,1,3,1,0",  // 7, or u in s
    "S,cla,0,0,1,0", // 8, 3: u in r
    "S,cls,3,1,0,0", // 9, 3: u in s
    "S,cls,3,2,0,0", // 10
];

/// `OR` with one line changed, or with an eleventh.
pub fn or_with(number: usize, line: &str, reply: &'static str) -> Case {
    let file = match number {
        11 => with_more(&OR, &[line]),
        _ => with_line(&OR, number, line),
    };
    case(&format!("clauses: or, line {number} {line:?}"), file, reply)
}

fn shapes_of_a_line() -> Vec<Case> {
    let bad = [
        // fields missing, added, empty
        "C",
        "C,in",
        "C,in,1,2",
        "C,in,1,2,1",
        "C,in,1,2,1,",
        "C,in,1,2,,0",
        "C,in,,2,1,0",
        "C,,1,2,1,0",
        ",in,1,2,1,0",
        "C,in,1,2,1,0,0",
        "C,in,1,2,1,0,",
        ",C,in,1,2,1,0",
        // letters
        "c,in,1,2,1,0",
        "B,in,1,2,1,0",
        "D,in,1,2,1,0",
        "CC,in,1,2,1,0",
        "AC,in,1,2,1,0",
        "CA,in,1,2,1,0",
        " C,in,1,2,1,0",
        "C ,in,1,2,1,0",
        "\"C\",in,1,2,1,0",
        // words
        "C,i,1,2,1,0",
        "C,In,1,2,1,0",
        "C,IN,1,2,1,0",
        "C,i1,1,2,1,0",
        "C,in ,1,2,1,0",
        "C,inin,1,2,1,0",
        // numbers
        "C,in,01,2,1,0",
        "C,in,1,02,1,0",
        "C,in,1,2,01,0",
        "C,in,1,2,00,0",
        "C,in,1,2,100000,0",
        "C,in,1,2,-1,0",
        "C,in,1,2,+1,0",
        "C,in,1,2, 1,0",
        "C,in,1,2,a,0",
        "C,in,1,2,1,00",
        "C,in,1,2,1,0 ",
        "C,in,1,2,1,0\r",
        "C;in;1;2;1;0",
    ];
    let mut cases: Vec<Case> = bad
        .iter()
        .map(|line| or_with(6, line, "no,2,6,0,0,0,0,0"))
        .collect();
    cases.push(or_with(8, "S,cla,0,0,01,0", "no,2,8,0,0,0,0,0"));
    cases.push(or_with(8, "S,cla,0,0,1", "no,2,8,0,0,0,0,0"));
    cases.push(or_with(8, "S,clas,0,0,1,0", "no,2,8,0,0,0,0,0"));
    cases.push(or_with(8, "S,cl,0,0,1,0", "no,4,8,0,0,0,0,0"));
    cases
}

fn shapes_of_a_file() -> Vec<Case> {
    let unended = |count: usize| {
        let mut file = lines(&OR[..count]);
        file.pop();
        file
    };
    vec![
        case("clauses: or", lines(&OR), "yes,0,0,3,3,3,2,0"),
        case("clauses: or, no last LF", unended(10), "no,2,10,0,0,0,0,0"),
        case("clauses: C line without LF", unended(6), "no,2,6,0,0,0,0,0"),
        case("clauses: cla without LF", unended(8), "no,2,8,0,0,0,0,0"),
        // What the file lacks when it stops there.
        case("clauses: to line 6", lines(&OR[..6]), "no,17,7,0,0,0,0,0"),
        case("clauses: to line 7", lines(&OR[..7]), "no,17,8,0,0,0,0,0"),
        case("clauses: to line 8", lines(&OR[..8]), "no,17,9,0,0,0,0,0"),
        case("clauses: to line 9", lines(&OR[..9]), "no,17,10,0,0,0,0,0"),
    ]
}

fn letters_out_of_order() -> Vec<Case> {
    let (t, a, c) = ("T,rgv,3,0,0,0", "A,ni,1,2,0,0", "C,in,1,2,1,0");
    let step = "S,ref,0,0,1,0";
    let mut cases = vec![
        // T after A, after C, after S.
        or_with(5, t, "no,3,5,0,0,0,0,0"),
        or_with(7, t, "no,3,7,0,0,0,0,0"),
        or_with(9, t, "no,3,9,0,0,0,0,0"),
        or_with(11, t, "no,3,11,0,0,0,0,0"),
        // A after C, after S.
        or_with(7, a, "no,3,7,0,0,0,0,0"),
        or_with(9, a, "no,3,9,0,0,0,0,0"),
        or_with(11, a, "no,3,11,0,0,0,0,0"),
        // C after S: the last clause, the next one, after the last closing.
        or_with(9, c, "no,3,9,0,0,0,0,0"),
        or_with(9, "C,in,1,2,2,0", "no,3,9,0,0,0,0,0"),
        or_with(11, c, "no,3,11,0,0,0,0,0"),
        or_with(11, "C,in,1,2,2,0", "no,3,11,0,0,0,0,0"),
    ];
    let rows: [(&str, &[&str], &'static str); 10] = [
        ("T C T", &[U, R, c, t], "no,3,4,0,0,0,0,0"),
        ("T C A", &[U, R, c, a], "no,3,4,0,0,0,0,0"),
        ("T C A C", &[U, R, c, a, c], "no,3,4,0,0,0,0,0"),
        ("T C S T", &[U, R, c, step, t], "no,3,5,0,0,0,0,0"),
        ("T C S A", &[U, R, c, step, a], "no,3,5,0,0,0,0,0"),
        ("T C S C", &[U, R, c, step, c], "no,3,5,0,0,0,0,0"),
        ("T S C", &[U, R, step, c], "no,3,4,0,0,0,0,0"),
        // Any kind may be missing: not 3, but the line finds no term.
        ("C first", &[c], "no,8,1,0,0,0,0,0"),
        ("C S", &["C,eq,1,1,1,0", step], "no,8,1,0,0,0,0,0"),
        ("cla first", &["S,cla,0,0,1,0"], "no,11,1,0,0,0,0,0"),
    ];
    for (what, file, reply) in rows {
        cases.push(case(&format!("clauses: {what}"), lines(file), reply));
    }
    cases
}

/// C lines at other lines of F, which has none.
fn a_lines_between_and_before() -> Vec<Case> {
    let f_and = |number: usize| {
        let mut file = F.to_vec();
        file.insert(number - 1, "C,in,1,2,1,0");
        lines(&file)
    };
    let rows = [
        (1, "no,8,1,0,0,0,0,0"), // no term yet
        (2, "no,8,2,0,0,0,0,0"),
        (3, "no,3,4,0,0,0,0,0"), // then a T line
        (4, "no,3,5,0,0,0,0,0"), // then a T line
        (5, "no,3,6,0,0,0,0,0"), // then an A line
        (6, "no,3,7,0,0,0,0,0"), // then an A line
        (7, "yes,0,0,4,3,2,1,0"),
        (8, "no,3,8,0,0,0,0,0"), // after a step
        (9, "no,3,9,0,0,0,0,0"),
    ];
    rows.into_iter()
        .map(|(number, reply)| {
            let name = format!("clauses: F, a C line as line {number}");
            case(&name, f_and(number), reply)
        })
        .collect()
}

fn words() -> Vec<Case> {
    let mut cases = Vec::new();
    let unknown = ["xy", "xyz", "on", "inn", "ein", "fir", "cl", "la"];
    for word in [&words_of_no_literal()[..], &unknown].concat() {
        let line = format!("C,{word},1,2,1,0");
        cases.push(or_with(6, &line, "no,4,6,0,0,0,0,0"));
    }
    cases
}

/// One term of each sort, and a clause that is never split.
const SORTS: [&str; 9] = [
    U,               // 1, reference
    R,               // 2, region
    HEAP,            // 3
    FIELD,           // 4
    "T,clv,1,0,0,0", // 5, class
    "A,in,1,2,0,0",  // 1: u in r
    "A,ni,1,2,0,0",  // 2: u ni r
    "C,in,1,2,1,0",  // 8
    "S,cls,1,2,0,0", // 9
];

/// `SORTS` with this C line.
fn sorts_with(line: &str, reply: &'static str) -> Case {
    let name = format!("clauses: sorts, {line}");
    case(&name, with_line(&SORTS, 8, line), reply)
}

fn right_literals() -> Vec<Case> {
    let mut cases = Vec::new();
    for literal in ["in,1,2", "ni,1,2", "le,5,5", "nl,5,5"] {
        cases.push(sorts_with(&format!("C,{literal},1,0"), "yes,0,0,5,3,1,1,0"));
    }
    for term in 1..=5 {
        for word in ["eq", "ne"] {
            let line = format!("C,{word},{term},{term},1,0");
            cases.push(sorts_with(&line, "yes,0,0,5,3,1,1,0"));
        }
    }
    cases
}

/// Field 5 is used, field 6 isn't.
fn unused_fields() -> Vec<Case> {
    let mut cases = Vec::new();
    for literal in ["in,1,2", "ni,1,2", "eq,1,1", "ne,2,2", "le,5,5", "nl,5,5"] {
        for number in [1, 9999] {
            let line = format!("C,{literal},1,{number}");
            cases.push(sorts_with(&line, "no,6,8,0,0,0,0,0"));
        }
    }
    cases
}

fn terms_not_made() -> Vec<Case> {
    let mut cases = Vec::new();
    for (word, left, right) in [
        ("in", 1, 2),
        ("ni", 1, 2),
        ("eq", 1, 1),
        ("ne", 1, 1),
        ("le", 5, 5),
        ("nl", 5, 5),
    ] {
        for number in [0, 6, 9999] {
            for sides in [format!("{number},{right}"), format!("{left},{number}")] {
                let line = format!("C,{word},{sides},1,0");
                cases.push(sorts_with(&line, "no,8,8,0,0,0,0,0"));
            }
        }
    }
    cases
}

fn wrong_sorts() -> Vec<Case> {
    let wrong = literals_of_wrong_sorts().into_iter();
    wrong
        .map(|literal| sorts_with(&format!("C,{literal},1,0"), "no,9,8,0,0,0,0,0"))
        .collect()
}

/// Two T lines and two A lines, which close the branch by themselves.
const CLOSED: [&str; 4] = [U, R, "A,in,1,2,0,0", "A,ni,1,2,0,0"];
const CLOSING: &str = "S,cls,1,2,0,0";

/// C lines with these clause numbers: C line n is line 4 + n.
fn c_lines(numbers: &[usize]) -> Vec<String> {
    let mut file: Vec<String> = CLOSED.map(String::from).to_vec();
    file.extend(numbers.iter().map(|clause| format!("C,in,1,2,{clause},0")));
    file
}

fn numbered(numbers: &[usize]) -> Vec<u8> {
    let mut file = c_lines(numbers);
    file.push(CLOSING.into());
    lines(&file)
}

/// The clause numbers of clauses with so many literals.
fn sized(sizes: &[usize]) -> Vec<usize> {
    let mut numbers = Vec::new();
    for (index, size) in sizes.iter().enumerate() {
        numbers.extend(vec![index + 1; *size]);
    }
    numbers
}

fn clause_numbers() -> Vec<Case> {
    let rows: [(&[usize], &'static str); 29] = [
        (&[], "yes,0,0,2,2,1,1,0"),
        (&[1], "yes,0,0,2,3,1,1,0"),
        (&[1, 1], "yes,0,0,2,3,1,1,0"),
        (&[1, 2], "yes,0,0,2,4,1,1,0"),
        (&[1, 1, 2], "yes,0,0,2,4,1,1,0"),
        (&[1, 2, 2], "yes,0,0,2,4,1,1,0"),
        (&[1, 1, 2, 2, 3], "yes,0,0,2,5,1,1,0"),
        (&[1, 2, 3, 4, 5, 6, 7, 8, 9, 10], "yes,0,0,2,12,1,1,0"),
        // number 0
        (&[0], "no,21,5,0,0,0,0,0"),
        (&[0, 1], "no,21,5,0,0,0,0,0"),
        (&[1, 0], "no,21,6,0,0,0,0,0"),
        (&[1, 1, 0], "no,21,7,0,0,0,0,0"),
        (&[1, 2, 0, 3], "no,21,7,0,0,0,0,0"),
        // the first is not 1
        (&[2], "no,21,5,0,0,0,0,0"),
        (&[2, 1], "no,21,5,0,0,0,0,0"),
        (&[3], "no,21,5,0,0,0,0,0"),
        (&[400], "no,21,5,0,0,0,0,0"),
        (&[9999], "no,21,5,0,0,0,0,0"),
        // a gap
        (&[1, 3], "no,21,6,0,0,0,0,0"),
        (&[1, 1, 3], "no,21,7,0,0,0,0,0"),
        (&[1, 2, 4], "no,21,7,0,0,0,0,0"),
        (&[1, 2, 2, 4, 3], "no,21,8,0,0,0,0,0"),
        (&[1, 9999], "no,21,6,0,0,0,0,0"),
        // back to an earlier clause
        (&[1, 2, 1], "no,21,7,0,0,0,0,0"),
        (&[1, 1, 2, 1], "no,21,8,0,0,0,0,0"),
        (&[1, 2, 2, 1], "no,21,8,0,0,0,0,0"),
        (&[1, 2, 3, 1], "no,21,8,0,0,0,0,0"),
        (&[1, 2, 3, 2], "no,21,8,0,0,0,0,0"),
        (&[1, 2, 3, 3, 2, 4], "no,21,9,0,0,0,0,0"),
    ];
    rows.into_iter()
        .map(|(numbers, reply)| {
            let name = format!("clauses: numbers {numbers:?}");
            case(&name, numbered(numbers), reply)
        })
        .collect()
}

fn most_literals() -> Vec<Case> {
    let rows: [(&[usize], &'static str); 10] = [
        (&[7], "yes,0,0,2,3,1,1,0"),
        (&[8], "yes,0,0,2,3,1,1,0"),
        (&[8, 1], "yes,0,0,2,4,1,1,0"),
        (&[8, 8, 8], "yes,0,0,2,5,1,1,0"),
        (&[1, 2, 3, 4, 5, 6, 7, 8], "yes,0,0,2,10,1,1,0"),
        (&[8, 7, 6, 5, 4, 3, 2, 1], "yes,0,0,2,10,1,1,0"),
        (&[9], "no,21,13,0,0,0,0,0"),
        (&[9, 1], "no,21,13,0,0,0,0,0"),
        (&[1, 9], "no,21,14,0,0,0,0,0"),
        (&[8, 8, 9, 8], "no,21,29,0,0,0,0,0"),
    ];
    let mut cases: Vec<Case> = rows
        .into_iter()
        .map(|(sizes, reply)| {
            let name = format!("clauses: sizes {sizes:?}");
            case(&name, numbered(&sized(sizes)), reply)
        })
        .collect();
    // After eight literals: no clause, a gap, back to the first.
    for (numbers, reply) in [
        (vec![1, 1, 1, 1, 1, 1, 1, 1, 0], "no,21,13,0,0,0,0,0"),
        (vec![1, 1, 1, 1, 1, 1, 1, 1, 3], "no,21,13,0,0,0,0,0"),
        (vec![1, 2, 2, 2, 2, 2, 2, 2, 2, 1], "no,21,14,0,0,0,0,0"),
    ] {
        let name = format!("clauses: numbers {numbers:?}");
        cases.push(case(&name, numbered(&numbers), reply));
    }
    cases
}

/// 400 C lines are lines 5 to 404.
fn most_c_lines() -> Vec<Case> {
    let rows: [(&str, Vec<usize>, &'static str); 12] = [
        ("399 of 1", vec![1; 399], "yes,0,0,2,401,1,1,0"),
        ("400 of 1", vec![1; 400], "yes,0,0,2,402,1,1,0"),
        ("401 of 1", vec![1; 401], "no,21,405,0,0,0,0,0"),
        ("402 of 1", vec![1; 402], "no,21,405,0,0,0,0,0"),
        ("200 of 2", vec![2; 200], "yes,0,0,2,202,1,1,0"),
        ("201 of 2", vec![2; 201], "no,21,405,0,0,0,0,0"),
        ("50 of 8", vec![8; 50], "yes,0,0,2,52,1,1,0"),
        ("51 of 8", vec![8; 51], "no,21,405,0,0,0,0,0"),
        // 399 and one more.
        ("57 of 7", vec![7; 57], "yes,0,0,2,59,1,1,0"),
        (
            "57 of 7, 1 of 1",
            [vec![7; 57], vec![1]].concat(),
            "yes,0,0,2,60,1,1,0",
        ),
        // The 401st is the second literal of the last clause.
        (
            "57 of 7, 1 of 2",
            [vec![7; 57], vec![2]].concat(),
            "no,21,405,0,0,0,0,0",
        ),
        // The 401st is a ninth literal too.
        (
            "49 of 8, 1 of 9",
            [vec![8; 49], vec![9]].concat(),
            "no,21,405,0,0,0,0,0",
        ),
    ];
    let mut cases: Vec<Case> = rows
        .into_iter()
        .map(|(what, sizes, reply)| {
            case(&format!("clauses: {what}"), numbered(&sized(&sizes)), reply)
        })
        .collect();
    // The 401st C line with other numbers.
    for number in [0, 1, 399, 400, 402, 9999] {
        let numbers = [sized(&[1; 400]), vec![number]].concat();
        cases.push(case(
            &format!("clauses: 400 of 1, then number {number}"),
            numbered(&numbers),
            "no,21,405,0,0,0,0,0",
        ));
    }
    cases
}

/// C lines take no place, so they have room where the branch is full.
fn beside_1000_a_lines() -> Vec<Case> {
    let file = |a_lines: usize, sizes: &[usize]| {
        let (is_in, ni) = ("A,in,1,2,0,0", "A,ni,1,2,0,0");
        let mut file = runs(&[(1, U), (1, R), (a_lines - 1, is_in), (1, ni)]);
        let clauses = c_lines(&sized(sizes));
        file.extend(lines(&clauses[CLOSED.len()..]));
        file.extend(lines(&["S,cls,1,1000,0,0"]));
        file
    };
    vec![
        case(
            "clauses: 1,000 A lines and a C line",
            file(1000, &[1]),
            "yes,0,0,2,1001,1,1,0",
        ),
        case(
            "clauses: 1,000 A lines and 400 clauses",
            file(1000, &[1; 400]),
            "yes,0,0,2,1400,1,1,0",
        ),
        case(
            "clauses: 1,000 A lines and 50 clauses of 8",
            file(1000, &[8; 50]),
            "yes,0,0,2,1050,1,1,0",
        ),
        case(
            "clauses: 1,000 A lines and 401 clauses",
            file(1000, &[1; 401]),
            "no,21,1403,0,0,0,0,0",
        ),
        case(
            "clauses: 1,001 A lines and a C line",
            file(1001, &[1]),
            "no,15,1003,0,0,0,0,0",
        ),
        // A C line gives place 1,000 no literal.
        case(
            "clauses: 999 A lines and a C line",
            file(999, &[1]),
            "no,11,1003,0,0,0,0,0",
        ),
    ]
}

/// The smaller number is given, and 21 after 9.
fn two_checks_broken() -> Vec<Case> {
    vec![
        // 2 and 4, 6, 8, 9, 21
        or_with(6, "C,cap,1,2,1", "no,2,6,0,0,0,0,0"),
        or_with(6, "C,in,1,2,1,01", "no,2,6,0,0,0,0,0"),
        or_with(6, "C,in,00,2,1,0", "no,2,6,0,0,0,0,0"),
        or_with(6, "C,in,2,01,1,0", "no,2,6,0,0,0,0,0"),
        or_with(6, "C,in,1,2,000,0", "no,2,6,0,0,0,0,0"),
        // 4 and 6, 8, 9, 21
        or_with(6, "C,cap,1,2,1,1", "no,4,6,0,0,0,0,0"),
        or_with(6, "C,cap,0,9,1,0", "no,4,6,0,0,0,0,0"),
        or_with(6, "C,cut,2,1,1,0", "no,4,6,0,0,0,0,0"),
        or_with(6, "C,cla,1,2,0,0", "no,4,6,0,0,0,0,0"),
        or_with(7, "C,cla,1,2,3,0", "no,4,7,0,0,0,0,0"),
        or_with(6, "C,sub,9,9,9,9", "no,4,6,0,0,0,0,0"),
        // 6 and 8
        or_with(6, "C,in,0,2,1,1", "no,6,6,0,0,0,0,0"),
        or_with(6, "C,in,1,4,1,1", "no,6,6,0,0,0,0,0"),
        // 6 and 9
        or_with(6, "C,in,2,1,1,1", "no,6,6,0,0,0,0,0"),
        or_with(6, "C,eq,1,2,1,1", "no,6,6,0,0,0,0,0"),
        // 6 and 21
        or_with(6, "C,in,1,2,0,1", "no,6,6,0,0,0,0,0"),
        or_with(6, "C,in,1,2,2,1", "no,6,6,0,0,0,0,0"),
        or_with(7, "C,in,1,2,3,1", "no,6,7,0,0,0,0,0"),
        or_with(6, "C,in,9,9,9,9", "no,6,6,0,0,0,0,0"),
        // 8 and 9
        or_with(6, "C,in,2,4,1,0", "no,8,6,0,0,0,0,0"),
        or_with(6, "C,in,0,1,1,0", "no,8,6,0,0,0,0,0"),
        or_with(6, "C,le,1,0,1,0", "no,8,6,0,0,0,0,0"),
        // 8 and 21
        or_with(6, "C,in,0,2,0,0", "no,8,6,0,0,0,0,0"),
        or_with(6, "C,in,1,4,2,0", "no,8,6,0,0,0,0,0"),
        or_with(7, "C,in,1,9999,3,0", "no,8,7,0,0,0,0,0"),
        // 9 and 21
        or_with(6, "C,in,2,1,0,0", "no,9,6,0,0,0,0,0"),
        or_with(6, "C,eq,1,2,2,0", "no,9,6,0,0,0,0,0"),
        or_with(6, "C,le,1,1,9999,0", "no,9,6,0,0,0,0,0"),
        or_with(7, "C,ni,2,2,3,0", "no,9,7,0,0,0,0,0"),
        or_with(7, "C,ne,3,1,0,0", "no,9,7,0,0,0,0,0"),
        // 21 alone
        or_with(6, "C,in,1,2,0,0", "no,21,6,0,0,0,0,0"),
        or_with(6, "C,in,1,2,2,0", "no,21,6,0,0,0,0,0"),
        or_with(7, "C,in,1,2,0,0", "no,21,7,0,0,0,0,0"),
        or_with(7, "C,in,1,2,3,0", "no,21,7,0,0,0,0,0"),
        // The second literal is a clause of its own, and line 9 closes the tree.
        or_with(7, "C,in,1,3,2,0", "no,5,10,0,0,0,0,0"),
    ]
}

/// A C line after a step gets 3 unless it gets 2.
fn two_checks_broken_after_a_step() -> Vec<Case> {
    let mut cases = vec![
        or_with(9, "C,in,1,2,1", "no,2,9,0,0,0,0,0"),
        or_with(9, "c,in,1,2,1,0", "no,2,9,0,0,0,0,0"),
        or_with(11, "C,in,1,2,1", "no,2,11,0,0,0,0,0"),
    ];
    // 4, 6, 8, 9, 21
    for line in [
        "C,cap,1,2,1,0",
        "C,cla,0,0,1,0",
        "C,in,1,2,1,1",
        "C,in,1,4,1,0",
        "C,in,2,1,1,0",
        "C,in,1,2,0,0",
        "C,in,1,2,3,0",
    ] {
        cases.push(or_with(9, line, "no,3,9,0,0,0,0,0"));
        cases.push(or_with(11, line, "no,3,11,0,0,0,0,0"));
    }
    // 4, 6, 8, 9, 10 on T and A lines after a C line
    for line in [
        "T,xyz,0,0,0,0",
        "T,rgv,0,0,0,0",
        "T,rgv,1,0,0,0",
        "A,xyz,1,2,0,0",
        "A,in,1,2,1,0",
        "A,in,1,4,0,0",
        "A,in,2,1,0,0",
    ] {
        cases.push(or_with(7, line, "no,3,7,0,0,0,0,0"));
    }
    cases
}

/// This line after the C lines with these numbers.
fn after_c_lines(what: &str, numbers: &[usize], line: &str, reply: &'static str) -> Case {
    let mut file = c_lines(numbers);
    file.extend([line, CLOSING].map(String::from));
    case(&format!("clauses: {what} {line}"), lines(&file), reply)
}

/// The clause has eight literals, lines 5 to 12.
fn two_checks_broken_by_literal_9() -> Vec<Case> {
    let rows = [
        ("C,in,1,2,1", "no,2,13,0,0,0,0,0"),
        ("T,rfv,2,0,0,0", "no,3,13,0,0,0,0,0"),
        ("A,in,1,2,0,0", "no,3,13,0,0,0,0,0"),
        ("C,cap,1,2,1,0", "no,4,13,0,0,0,0,0"),
        ("C,in,1,2,1,1", "no,6,13,0,0,0,0,0"),
        ("C,in,1,3,1,0", "no,8,13,0,0,0,0,0"),
        ("C,in,2,1,1,0", "no,9,13,0,0,0,0,0"),
        ("C,eq,1,2,1,0", "no,9,13,0,0,0,0,0"),
        ("C,in,1,2,1,0", "no,21,13,0,0,0,0,0"),
        ("C,ni,1,2,1,0", "no,21,13,0,0,0,0,0"),
        ("C,in,1,2,2,0", "yes,0,0,2,4,1,1,0"),
    ];
    rows.into_iter()
        .map(|(line, reply)| after_c_lines("literal 9", &[1; 8], line, reply))
        .collect()
}

/// 400 clauses of one literal each, lines 5 to 404.
fn two_checks_broken_by_c_line_401() -> Vec<Case> {
    let rows = [
        ("C,in,1,2,401", "no,2,405,0,0,0,0,0"),
        ("T,rfv,2,0,0,0", "no,3,405,0,0,0,0,0"),
        ("A,in,1,2,0,0", "no,3,405,0,0,0,0,0"),
        ("C,cap,1,2,401,0", "no,4,405,0,0,0,0,0"),
        ("C,in,1,2,401,1", "no,6,405,0,0,0,0,0"),
        ("C,in,1,3,401,0", "no,8,405,0,0,0,0,0"),
        ("C,in,2,1,401,0", "no,9,405,0,0,0,0,0"),
        ("C,eq,1,2,401,0", "no,9,405,0,0,0,0,0"),
        ("C,ni,1,2,401,0", "no,21,405,0,0,0,0,0"),
    ];
    let numbers = sized(&[1; 400]);
    rows.into_iter()
        .map(|(line, reply)| after_c_lines("C line 401", &numbers, line, reply))
        .collect()
}

fn first_bad_line() -> Vec<Case> {
    let rows = [
        // 21 on line 6, then 2, 3, 9, 21
        ([(6, "C,in,1,2,0,0"), (7, "C,in,1,2")], "no,21,6,0,0,0,0,0"),
        (
            [(6, "C,in,1,2,2,0"), (7, "A,ni,1,2,0,0")],
            "no,21,6,0,0,0,0,0",
        ),
        (
            [(6, "C,in,1,2,2,0"), (7, "C,in,2,1,1,0")],
            "no,21,6,0,0,0,0,0",
        ),
        (
            [(6, "C,in,1,2,2,0"), (7, "C,in,1,3,0,0")],
            "no,21,6,0,0,0,0,0",
        ),
        // 9 on line 6, then 21
        (
            [(6, "C,in,2,1,1,0"), (7, "C,in,1,3,3,0")],
            "no,9,6,0,0,0,0,0",
        ),
        // 21 on line 7, then 11
        (
            [(7, "C,in,1,3,0,0"), (8, "S,cla,0,0,2,0")],
            "no,21,7,0,0,0,0,0",
        ),
        // 12 on line 9, then 3
        (
            [(9, "S,cls,3,2,0,0"), (10, "C,in,1,2,1,0")],
            "no,12,9,0,0,0,0,0",
        ),
    ];
    rows.into_iter()
        .map(|(changes, reply)| {
            let name = format!("clauses: or, {changes:?}");
            case(&name, with_lines(&OR, &changes), reply)
        })
        .collect()
}
