//! Numbers of four, five and six digits in every field of both files, and names
//! of five digits.

use super::{case, heap_bytes, heap_rows, lines, Case, NEVER, SMALLEST};
use cases::digits::{changed_lines, many_variables, references, spread_names, variable, Row};
use cases::digits::{A_LINES, C_LINES, FIVE, NAMES, PAIRS, SORTS, T_LINES, VARIABLES};

pub fn cases() -> Vec<Case> {
    let groups = [
        d_lines(),
        checker_lines(),
        unread_lines(),
        shapes(),
        two_faults(),
        two_names(),
        one_name_twice(),
        another_name(),
        beside_another_name(),
        many_names(),
        sixty_thousand_bytes(),
        checker_of_sixty_thousand_bytes(),
    ];
    groups.into_iter().flatten().collect()
}

/// Three references, fields and classes each; 1 and 2 are allocated.
const SOME: [&str; 3] = ["D,siz,3,3,3,0", "D,alc,1,0,0,0", "D,alc,2,0,0,0"];

/// As line 1.
const SIZES: [Row; 1] = [("D,siz,3,2,4,0", [19, 19, 19, 6])];

/// As line 2, after the sizes.
const ALLOCATIONS: [Row; 1] = [("D,alc,1,0,0,0", [19, 6, 6, 6])];

/// As line 4, after `SOME`.
const OTHERS: [Row; 8] = [
    ("D,typ,1,1,0,0", [19, 19, 6, 6]),
    ("D,dty,1,1,0,0", [19, 19, 6, 6]),
    ("D,sub,0,1,0,0", [19, 19, 6, 6]),
    ("D,rfv,1,1,0,0", [0, 19, 6, 6]),
    ("D,fnv,1,1,0,0", [0, 19, 6, 6]),
    ("D,clv,1,1,0,0", [0, 19, 6, 6]),
    ("D,rgv,1,1,0,0", [0, 19, 6, 6]),
    ("D,arv,1,1,1,1", [0, 19, 19, 19]),
];

/// Beside what is never true: 0,0,2 where the line is good.
fn d_lines() -> Vec<Case> {
    let tables: [(&[&str], &[Row]); 3] =
        [(&[], &SIZES), (&SOME[..1], &ALLOCATIONS), (&SOME, &OTHERS)];
    let mut cases = Vec::new();
    for (before, rows) in tables {
        let number = before.len() + 1;
        for (line, given) in rows.iter().flat_map(changed_lines) {
            let reply = match given {
                0 => "0,0,2",
                _ => format!("{given},2,{number}").leak(),
            };
            cases.extend(heap_rows("digits", before, &[(&[&line], reply)]));
        }
    }
    cases
}

/// In the smallest heap line 7, u in r, is false.
fn checker_lines() -> Vec<Case> {
    let tables: [(usize, &[Row]); 3] = [(6, &T_LINES), (7, &A_LINES), (9, &C_LINES)];
    let mut cases = Vec::new();
    for (number, rows) in tables {
        for (line, given) in rows.iter().flat_map(changed_lines) {
            let reply = match given {
                0 => "0,0,7",
                _ => format!("{given},1,{number}").leak(),
            };
            let mut file = SORTS;
            file[number - 1] = &line;
            let name = format!("digits: checker file, line {number} {line}");
            cases.push(case(&name, lines(&file), lines(&[SMALLEST]), reply));
        }
    }
    cases
}

/// From the first line that begins `S,` on nothing is read.
fn unread_lines() -> Vec<Case> {
    ["S,cls,100000,2,0,0", "S,cls,99999,99999,0,0", "S,100000"]
        .iter()
        .map(|step| {
            let checker = [lines(&SORTS[..9]), lines(&[step])].concat();
            let name = format!("digits: unread {step}");
            case(&name, checker, lines(&[SMALLEST]), "0,0,7")
        })
        .collect()
}

/// Leading zeros, other bytes among five digits, and many digits.
fn shapes() -> Vec<Case> {
    let mut cases = Vec::new();
    for number in [
        "00001", "01234", "09999", "00000", "012345", "1234x", "-9999", "131073",
    ] {
        for line in [
            format!("D,rfv,{number},1,0,0"),
            format!("D,rfv,1,{number},0,0"),
            format!("D,rfv,1,1,0,{number}"),
            format!("D,arv,1,1,{number},1"),
        ] {
            cases.extend(heap_rows("digits", &SOME, &[(&[&line], "2,2,4")]));
        }
        let line = format!("T,rfv,{number},0,0,0");
        let name = format!("digits: checker file, {line}");
        cases.push(case(&name, lines(&[&line]), lines(&[SMALLEST]), "2,1,1"));
    }
    cases
}

/// As in the checker file: 2 for six digits, and no earlier check hidden by five.
fn two_faults() -> Vec<Case> {
    let first = heap_rows(
        "digits",
        &[],
        &[
            (&["D,rfv,99999,1,0,0"], "3,2,1"),
            (&["D,rfv,100000,1,0,0"], "2,2,1"),
            (&["D,foo,99999,1,0,0"], "3,2,1"),
            (&["D,siz,99999,1,1,1"], "6,2,1"),
            (&["D,siz,99999,1,1,100000"], "2,2,1"),
            (&["T,siz,99999,1,1,0"], "2,2,1"),
        ],
    );
    let later = heap_rows(
        "digits",
        &SOME,
        &[
            (&["D,siz,99999,1,1,0"], "3,2,4"),
            (&["D,siz,100000,1,1,0"], "2,2,4"),
            (&["D,foo,99999,1,0,0"], "4,2,4"),
            (&["D,foo,100000,1,0,0"], "2,2,4"),
            (&["D,rfv,99999,99999,99999,0"], "6,2,4"), // and 19
            (&["D,rfv,0,99999,0,0"], "19,2,4"),
            (&["D,rfv,0,100000,0,0"], "2,2,4"),
            (&["D,sub,99999,99999,0,0"], "19,2,4"), // under itself too
            (&["D,rgv,99999,65537,0,0"], "19,2,4"), // not allocated too
            // Of two bad lines the first counts.
            (&["D,alc,65536,0,0,0", "D,alc,100000,0,0,0"], "19,2,4"),
            (&["D,alc,100000,0,0,0", "D,alc,65536,0,0,0"], "2,2,4"),
            (&["D,rfv,99999,1,0,0", "D,rfv,100000,1,0,0"], "2,2,5"),
        ],
    );
    let unended = b"D,siz,3,3,3,0\nD,rfv,99999,1,0,0";
    let mut cases = vec![heap_bytes("digits", "no LF", unended, "2,2,2")];
    cases.extend([first, later].into_iter().flatten());
    // The checker file comes first.
    for (term, heap, reply) in [
        ("T,rfv,100000,0,0,0", "D,siz,65537,1,1,0", "2,1,1"),
        ("T,rfv,99999,0,0,0", "D,siz,65537,1,1,0", "19,2,1"),
        ("T,rfv,99999,0,0,0", "D,siz,100000,1,1,0", "2,2,1"),
        ("T,sin,65537,0,0,0", "D,siz,100000,1,1,0", "8,1,1"),
    ] {
        let name = format!("digits: {term} and {heap}");
        cases.push(case(&name, lines(&[term]), lines(&[heap]), reply));
    }
    cases
}

/// The line that gives a variable a value: for a region its member, for a heap
/// the reference that it gives for 1 and field 1.
fn valued(word: &str, name: usize, value: usize) -> String {
    match word {
        "arv" => format!("D,arv,{name},1,1,{value}"),
        _ => format!("D,{word},{name},{value},0,0"),
    }
}

/// Two variables x and y. Line 3 is x ne y, line 4 is x eq y: the one that is
/// false shows whether they have one value.
fn pair_case(word: &str, (x, y): (usize, usize), said: &[String], reply: &'static str) -> Case {
    let terms = [variable(word, x), variable(word, y)];
    let literals = ["A,ne,1,2,0,0", "A,eq,1,2,0,0"];
    let name = format!("digits: {word} {x} and {y}, {}", said.join(" "));
    let checker = [lines(&terms), lines(&literals)].concat();
    case(&name, checker, [lines(&SOME), lines(said)].concat(), reply)
}

/// Where one alone is said, the other is nul, 0 or empty.
fn two_names() -> Vec<Case> {
    let mut cases = Vec::new();
    for word in VARIABLES {
        for pair in PAIRS {
            let said = |value_of_x, value_of_y| {
                let x = valued(word, pair.0, value_of_x);
                [x, valued(word, pair.1, value_of_y)]
            };
            let [x, y] = said(1, 1);
            cases.push(pair_case(word, pair, &said(1, 2), "0,0,4"));
            cases.push(pair_case(word, pair, &[x], "0,0,4"));
            cases.push(pair_case(word, pair, &[y], "0,0,4"));
        }
        let pair = (34_463, 99_999);
        let same = [valued(word, pair.0, 2), valued(word, pair.1, 2)];
        cases.push(pair_case(word, pair, &same, "0,0,3"));
        cases.push(pair_case(word, pair, &[], "0,0,3"));
    }
    cases
}

/// "a subject [..] given twice", with another variable between.
fn one_name_twice() -> Vec<Case> {
    let mut cases = Vec::new();
    for word in VARIABLES {
        for name in NAMES {
            let said = [name, 1, name].map(|name| valued(word, name, 1));
            let more = said.each_ref().map(String::as_str);
            cases.extend(heap_rows("digits", &SOME, &[(&more, "19,2,6")]));
        }
    }
    cases
}

/// A heap in which of the assumptions of `FIVE`, lines 11 to 15, the last alone
/// is false.
const HEAP_OF_FIVE: [&str; 11] = [
    "D,siz,3,2,3,0",
    "D,alc,1,0,0,0",
    "D,alc,2,0,0,0",
    "D,sub,1,2,0,0",
    "D,typ,1,1,0,0",
    "D,dty,1,2,0,0",
    "D,rfv,99999,1,0,0", // 7, u = 1
    "D,rgv,99999,1,0,0", // 8, r = {1}
    "D,arv,99999,1,1,2", // 9, rea(h,1,1) = 2, so i = {2}
    "D,fnv,99999,1,0,0", // 10, f = 1, and dty(f) = 2
    "D,clv,99999,1,0,0", // 11, c = 1 = typ(u)
];

/// The first line that is false where a line of that heap is missing.
const FALSE_WITHOUT: [(usize, &str); 5] = [
    (7, "0,0,11"),  // u is nul, and not in r
    (8, "0,0,11"),  // r is empty
    (9, "0,0,14"),  // rea(h,u,f) is nul, and not in all
    (10, "0,0,13"), // f is 0, and c isn't under dty(f), which is 0
    (11, "0,0,12"), // c is 0, and typ(u) is 1
];

/// Names that are 99,999 where a part of them is lost.
const NEAR: [&str; 9] = [
    "9999", "89999", "99990", "99998", "91807", "83615", "67231", "34463", "999",
];

fn five_case(what: &str, heap: &[&str], reply: &'static str) -> Case {
    let name = format!("digits: five variables, {what}");
    case(&name, lines(&FIVE), lines(heap), reply)
}

/// What is said of a variable near 99,999 isn't said of 99,999.
fn another_name() -> Vec<Case> {
    let mut cases = Vec::new();
    for (number, reply) in FALSE_WITHOUT {
        for near in NEAR {
            let line = HEAP_OF_FIVE[number - 1].replace("99999", near);
            let mut heap = HEAP_OF_FIVE;
            heap[number - 1] = &line;
            cases.push(five_case(&line, &heap, reply));
        }
    }
    cases
}

/// What is said of both is kept apart, whichever comes first.
fn beside_another_name() -> Vec<Case> {
    let others = [
        "D,rfv,#,2,0,0",
        "D,rgv,#,2,0,0",
        "D,arv,#,1,1,1",
        "D,fnv,#,0,0,0",
        "D,clv,#,2,0,0",
    ];
    let mut cases = Vec::new();
    for near in NEAR {
        let others = others.map(|line| line.replace('#', near));
        let others = others.each_ref().map(String::as_str);
        let before = [&HEAP_OF_FIVE[..6], &others, &HEAP_OF_FIVE[6..]].concat();
        let after = [&HEAP_OF_FIVE[..], &others].concat();
        cases.push(five_case(&format!("after {near}"), &before, "0,0,15"));
        cases.push(five_case(&format!("before {near}"), &after, "0,0,15"));
    }
    // Both files have another name throughout.
    for name in NAMES {
        let renamed = |line: &str| line.replace("99999", &name.to_string());
        let (file, heap) = (FIVE.map(renamed), HEAP_OF_FIVE.map(renamed));
        let what = format!("digits: five variables {name}");
        cases.push(case(&what, lines(&file), lines(&heap), "0,0,15"));
    }
    cases
}

/// Each of 66 names under each word has a value, 1 to 15 in turn: another than
/// the next name's, and the same as that of the fifteenth after it.
fn many_names() -> Vec<Case> {
    let mut heap = vec![String::from("D,siz,16,16,16,0")];
    heap.extend((1..=15).map(|reference| format!("D,alc,{reference},0,0,0")));
    let mut checker = many_variables();
    for (first, word) in (1..).step_by(66).zip(VARIABLES) {
        for (index, name) in spread_names().into_iter().enumerate() {
            heap.push(valued(word, name, index % 15 + 1));
        }
        let last = first + 65;
        checker.extend((first..last).map(|x| format!("A,ne,{x},{},0,0", x + 1)));
        checker.extend((first..=last - 15).map(|x| format!("A,eq,{x},{},0,0", x + 15)));
    }
    // 5 * 66 T lines, 5 * (65 + 51) A lines; 1 + 15 + 5 * 66 D lines.
    let one_more = |file: &[String], line: &str| [lines(file), lines(&[line])].concat();
    let all_said = lines(&heap);
    let again = one_more(&heap, "D,rfv,98305,1,0,0");
    let name = "digits: 330 variables";
    vec![
        case(name, lines(&checker), all_said.clone(), "0,0,0"),
        case(
            &format!("{name}, one line more"),
            one_more(&checker, "A,eq,1,2,0,0"),
            all_said,
            "0,0,911",
        ),
        case(
            &format!("{name}, one again"),
            lines(&checker),
            again,
            "19,2,347",
        ),
    ]
}

/// 17 bytes for the sizes, then lines of 18 and of 19 bytes up to the name
/// 99,999, each with a reference of one digit or of two.
fn long_heap(of_18: usize, of_19: usize) -> Vec<u8> {
    let mut heap = vec![String::from("D,siz,64,16,16,0")];
    let first = 100_000 - of_18 - of_19;
    for name in first..=99_999 {
        let value = if name < first + of_18 { 9 } else { 63 };
        heap.push(valued("rfv", name, value));
    }
    lines(&heap)
}

fn sixty_thousand_bytes() -> Vec<Case> {
    // 17 + 18 * 3325 + 19 * 7, and one line of 18 made one of 19.
    let fits = long_heap(3325, 7);
    let over = long_heap(3324, 8);
    assert_eq!((fits.len(), over.len()), (60_000, 60_001));
    // The names begin with 96,668.
    let apart = |x, y| {
        let terms = [variable("rfv", x), variable("rfv", y)];
        [lines(&terms), lines(&["A,ne,1,2,0,0", "A,eq,1,2,0,0"])].concat()
    };
    vec![
        case("digits: 60,000 bytes", lines(&NEVER), fits.clone(), "0,0,2"),
        case("digits: 60,001 bytes", lines(&NEVER), over, "1,2,0"),
        // 63 and 9, 63 and 63, 9 and nothing.
        case(
            "digits: 60,000 bytes, 99999 and 96668",
            apart(99_999, 96_668),
            fits.clone(),
            "0,0,4",
        ),
        case(
            "digits: 60,000 bytes, 99999 and 99993",
            apart(99_999, 99_993),
            fits.clone(),
            "0,0,3",
        ),
        case(
            "digits: 60,000 bytes, 96668 and 96667",
            apart(96_668, 96_667),
            fits,
            "0,0,4",
        ),
    ]
}

/// 600 names of five digits, then a clause of one literal and what isn't read.
fn checker_of_sixty_thousand_bytes() -> Vec<Case> {
    let mut terms = references(99_400, 600);
    terms.push("C,ne,1,600,1,0".into()); // line 601
    terms.push("S,".into());
    let mut checker = lines(&terms);
    checker.resize(60_000, b'9');
    let heap = |line: &str| lines(&["D,siz,2,1,1,0", line]);
    let mut longer = checker.clone();
    longer.push(b'9');
    vec![
        case(
            "digits: 600 terms, the first said",
            checker.clone(),
            heap("D,rfv,99400,1,0,0"),
            "0,0,0",
        ),
        case(
            "digits: 600 terms, the last said",
            checker.clone(),
            heap("D,rfv,99999,1,0,0"),
            "0,0,0",
        ),
        case(
            "digits: 600 terms, another said",
            checker,
            heap("D,rfv,33864,1,0,0"),
            "0,0,601",
        ),
        case(
            "digits: 600 terms, 60,001 bytes",
            longer,
            heap("D,rfv,99999,1,0,0"),
            "1,1,0",
        ),
    ]
}
