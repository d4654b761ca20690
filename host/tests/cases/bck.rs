//! The closing `bck`: which branches it closes, and which it leaves open with 12.
//! `bck_steps.rs` has the numbers that it gets, and the tree.
//!
//! A row holds the literals of a branch as `1 eq 2, 2 ne 1`: each is an A line.
//! One `bck` comes after them. Where it closes, the reply counts the T and A
//! lines of the row, one step and one closing; where it doesn't, it is 12 on the
//! line after them.

use super::{case, lines, Case, ALL, EMP, NUL};

pub fn cases() -> Vec<Case> {
    let groups = [
        a_term_and_itself(),
        one_equation(),
        two_equations(),
        chains_of_equations(),
        differing_arguments(),
        arguments_from_values(),
        arguments_in_other_ways(),
        other_words(),
        names(),
        towers(),
        rings_of_reads(),
        one_upon_the_other(),
        order(),
        chains_of_order(),
        circles(),
        circles_of_all_classes(),
        equals_in_order(),
        members(),
        what_is_true_otherwise(),
    ];
    groups.into_iter().flatten().collect()
}

/// `1 eq 2` as `A,eq,1,2,0,0`.
pub fn assumed(literals: &str) -> Vec<String> {
    let texts = literals.split(", ").filter(|text| !text.is_empty());
    texts
        .map(|text| {
            let parts: Vec<&str> = text.split(' ').collect();
            let [left, word, right] = parts[..] else {
                panic!("{text}");
            };
            format!("A,{word},{left},{right},0,0")
        })
        .collect()
}

/// T lines for so many variables of a word, with the names 1 and up.
pub fn variables(word: &str, count: usize) -> Vec<String> {
    (1..=count)
        .map(|name| format!("T,{word},{name},0,0,0"))
        .collect()
}

/// The terms, the A lines and `bck`, which closes the branch or doesn't.
fn ended<L: AsRef<str>>(what: &str, terms: &[L], literals: &[String], closes: bool) -> Case {
    let mut file: Vec<&str> = terms.iter().map(AsRef::as_ref).collect();
    file.extend(literals.iter().map(String::as_str));
    file.push("S,bck,0,0,0,0");
    let reply = if closes {
        format!("yes,0,0,{},{},1,1,0", terms.len(), literals.len())
    } else {
        format!("no,12,{},0,0,0,0,0", file.len())
    };
    case(&format!("bck: {what}"), lines(&file), reply.leak())
}

/// The literals of a row on these terms.
fn row<L: AsRef<str>>(what: &str, terms: &[L], text: &str, closes: bool) -> Case {
    ended(&format!("{what}: {text}"), terms, &assumed(text), closes)
}

/// Rows on these terms: those that `bck` closes, and those that it leaves open.
fn closed_and_open(what: &str, terms: &[&str], closed: &[&str], open: &[&str]) -> Vec<Case> {
    let closed = closed.iter().map(|text| row(what, terms, text, true));
    let open = open.iter().map(|text| row(what, terms, text, false));
    closed.chain(open).collect()
}

/// Four variables of each sort.
const FOUR: [&str; 20] = [
    "T,rfv,1,0,0,0", // 1, u
    "T,rfv,2,0,0,0", // 2, v
    "T,rfv,3,0,0,0", // 3, x
    "T,rfv,4,0,0,0", // 4, y
    "T,rgv,1,0,0,0", // 5, r
    "T,rgv,2,0,0,0", // 6, s
    "T,rgv,3,0,0,0", // 7
    "T,rgv,4,0,0,0", // 8
    "T,arv,1,0,0,0", // 9, h
    "T,arv,2,0,0,0", // 10, k
    "T,arv,3,0,0,0", // 11
    "T,arv,4,0,0,0", // 12
    "T,fnv,1,0,0,0", // 13, f
    "T,fnv,2,0,0,0", // 14, g
    "T,fnv,3,0,0,0", // 15
    "T,fnv,4,0,0,0", // 16
    "T,clv,1,0,0,0", // 17, a
    "T,clv,2,0,0,0", // 18, b
    "T,clv,3,0,0,0", // 19, c
    "T,clv,4,0,0,0", // 20, d
];

/// The first variable of each sort.
const FIRSTS: [usize; 5] = [1, 5, 9, 13, 17];

/// A term of each word.
const WORDS: [&str; 17] = [
    NUL,             // 1
    "T,rfv,1,0,0,0", // 2, u
    EMP,             // 3
    ALL,             // 4
    "T,rgv,1,0,0,0", // 5, r
    "T,arv,1,0,0,0", // 6, h
    "T,fnv,1,0,0,0", // 7, f
    "T,clv,1,0,0,0", // 8, a
    "T,rea,6,2,7,0", // 9, rea(h,u,f)
    "T,cup,5,5,0,0", // 10, cup(r,r)
    "T,cap,5,5,0,0", // 11, cap(r,r)
    "T,dif,5,5,0,0", // 12, dif(r,r)
    "T,sin,2,0,0,0", // 13, sin(u)
    "T,img,6,5,7,0", // 14, img(h,r,f)
    "T,wri,6,2,7,2", // 15, wri(h,u,f,u)
    "T,typ,2,0,0,0", // 16, typ(u)
    "T,dty,7,0,0,0", // 17, dty(f)
];

// ---------------------------------------------------------------------------
// ref, sym, trn
// ---------------------------------------------------------------------------

/// `ref` closes t ne t for every term; t eq t denies nothing.
fn a_term_and_itself() -> Vec<Case> {
    let mut cases = Vec::new();
    for term in 1..=WORDS.len() {
        for (word, closes) in [("ne", true), ("eq", false)] {
            let literal = format!("{term} {word} {term}");
            cases.push(row("itself", &WORDS, &literal, closes));
        }
    }
    cases.push(row("itself: none", &WORDS, "", false));
    cases
}

/// Of every sort: one literal against another, in both orders on the branch.
fn one_equation() -> Vec<Case> {
    let mut cases = Vec::new();
    for a in FIRSTS {
        let (b, c) = (a + 1, a + 2);
        for (text, closes) in [
            (format!("{a} eq {b}, {a} ne {b}"), true),
            (format!("{a} ne {b}, {a} eq {b}"), true),
            (format!("{a} eq {b}, {b} ne {a}"), true), // sym
            (format!("{b} ne {a}, {a} eq {b}"), true),
            (format!("{a} ne {b}"), false),
            (format!("{a} eq {b}"), false),
            (format!("{a} eq {b}, {a} ne {c}"), false),
            (format!("{a} eq {b}, {c} ne {b}"), false),
            (format!("{a} ne {b}, {a} ne {b}"), false), // nothing says eq
            (format!("{a} eq {b}, {b} eq {a}"), false), // nothing is denied
            (format!("{a} ne {b}, {b} ne {c}"), false),
        ] {
            cases.push(row("one equation", &FOUR, &text, closes));
        }
    }
    cases
}

/// u = v and v = x in every order, with sides changed over or not, and u ne x
/// or x ne u before them or after them.
fn two_equations() -> Vec<Case> {
    let mut cases = Vec::new();
    for first in ["1 eq 2", "2 eq 1"] {
        for second in ["2 eq 3", "3 eq 2"] {
            for denied in ["1 ne 3", "3 ne 1"] {
                let closed = [
                    format!("{first}, {second}, {denied}"),
                    format!("{denied}, {second}, {first}"),
                ];
                cases.extend(closed.map(|text| row("two equations", &FOUR, &text, true)));
            }
        }
    }
    cases.extend(closed_and_open(
        "two equations",
        &FOUR,
        &[
            "1 eq 2, 3 eq 2, 3 eq 4, 4 ne 1",
            "2 eq 1, 2 eq 3, 4 eq 3, 1 ne 4",
            "1 eq 2, 3 eq 4, 1 ne 3, 2 eq 3",
            "1 eq 2, 1 eq 3, 1 eq 4, 3 ne 4",
            "2 eq 1, 3 eq 1, 4 eq 1, 2 ne 4",
            "5 eq 6, 1 eq 2, 6 eq 7, 2 eq 3, 5 ne 7, 1 ne 4", // one of two denials
            "1 ne 4, 5 ne 8, 6 ne 7, 1 eq 2, 2 eq 3, 3 eq 1, 3 ne 2",
        ],
        &[
            "1 eq 2, 3 eq 4, 1 ne 3",         // no link
            "1 eq 2, 3 eq 4, 1 ne 4",         // no link
            "1 eq 2, 2 eq 3, 1 ne 4",         // another end
            "1 eq 2, 1 eq 3, 2 ne 4",         // another end
            "1 eq 2, 2 ne 3, 1 ne 3",         // ne is no link
            "1 eq 2, 2 ne 3, 3 eq 4, 1 ne 4", // ne is no link
            "1 eq 2, 5 eq 6, 1 ne 3",         // another sort
        ],
    ));
    cases
}

/// The numbers 1 to count, each linked to the next by the word; the links come
/// in this order.
fn links(word: &str, order: impl Iterator<Item = usize>) -> Vec<String> {
    order
        .map(|from| format!("A,{word},{from},{},0,0", from + 1))
        .collect()
}

/// First the odd links, then the even ones from the last on.
fn mixed(count: usize) -> impl Iterator<Item = usize> {
    let odd = (1..count).step_by(2);
    let even = (2..count).step_by(2).collect::<Vec<_>>().into_iter().rev();
    odd.chain(even)
}

/// The links of a chain of so many terms, in three orders.
fn chains(word: &str, count: usize) -> [(&'static str, Vec<String>); 3] {
    [
        ("forwards", links(word, 1..count)),
        ("backwards", links(word, (1..count).rev())),
        ("mixed", links(word, mixed(count))),
    ]
}

/// The A lines with one more after them.
fn and(assumptions: &[String], last: &str) -> Vec<String> {
    [assumptions, &[last.into()]].concat()
}

/// Every link has its sides changed over.
fn turned(links: &[String]) -> Vec<String> {
    links
        .iter()
        .map(|link| {
            let parts: Vec<&str> = link.split(',').collect();
            format!("A,{},{},{},0,0", parts[1], parts[3], parts[2])
        })
        .collect()
}

/// A chain of so many terms from the first to the last: forwards, backwards and
/// mixed. Without one link it doesn't reach.
fn chains_of_equations() -> Vec<Case> {
    let mut cases = Vec::new();
    for count in [4, 5, 10, 30, 100, 300, 600] {
        let terms = variables("rfv", count);
        let denied = format!("A,ne,1,{count},0,0");
        let forwards = links("eq", 1..count);
        let (first, second) = forwards.split_at(count / 2);
        let changed_over = [
            ("sides changed over", turned(&forwards)),
            ("half of it changed over", [first, &turned(second)].concat()),
        ];
        for (what, chain) in chains("eq", count).into_iter().chain(changed_over) {
            let what = format!("chain of {count}, {what}");
            cases.push(ended(&what, &terms, &and(&chain, &denied), true));
        }
        for gone in [1, count / 2, count - 1] {
            let mut broken = forwards.clone();
            broken.remove(gone - 1);
            let what = format!("chain of {count} without link {gone}");
            cases.push(ended(&what, &terms, &and(&broken, &denied), false));
        }
    }
    cases
}

// ---------------------------------------------------------------------------
// sub
// ---------------------------------------------------------------------------

/// Every word whose arguments are terms, and for each argument two variables of
/// `FOUR`.
const WITH_ARGUMENTS: [(&str, &[[usize; 2]]); 9] = [
    ("rea", &[[9, 10], [1, 2], [13, 14]]),
    ("cup", &[[5, 6], [7, 8]]),
    ("cap", &[[5, 6], [7, 8]]),
    ("dif", &[[5, 6], [7, 8]]),
    ("sin", &[[1, 2]]),
    ("img", &[[9, 10], [5, 6], [13, 14]]),
    ("wri", &[[9, 10], [1, 2], [13, 14], [3, 4]]),
    ("typ", &[[1, 2]]),
    ("dty", &[[13, 14]]),
];

/// The T line of a word with these arguments.
fn term(word: &str, arguments: &[usize]) -> String {
    let mut fields = [0; 4];
    fields[..arguments.len()].copy_from_slice(arguments);
    let [a, b, c, d] = fields;
    format!("T,{word},{a},{b},{c},{d}")
}

/// `FOUR`, then terms 21 and 22: a word with the first of its variables, and
/// with the second ones at the arguments in which it differs.
fn two_terms(word: &str, arguments: &[[usize; 2]], differing: &[bool]) -> Vec<String> {
    let first: Vec<usize> = arguments.iter().map(|pair| pair[0]).collect();
    let second: Vec<usize> = arguments
        .iter()
        .zip(differing)
        .map(|(pair, differs)| pair[usize::from(*differs)])
        .collect();
    let mut terms: Vec<String> = FOUR.map(String::from).to_vec();
    terms.push(term(word, &first));
    terms.push(term(word, &second));
    terms
}

/// Every choice of differing arguments, at least one.
fn choices(count: usize) -> Vec<Vec<bool>> {
    (1..1_usize << count)
        .map(|bits| (0..count).map(|at| bits >> at & 1 == 1).collect())
        .collect()
}

/// Terms 21 and 22 differ in some arguments, all of them equal; then all but one.
fn differing_arguments() -> Vec<Case> {
    let mut cases = Vec::new();
    for (word, arguments) in WITH_ARGUMENTS {
        for differing in choices(arguments.len()) {
            let terms = two_terms(word, arguments, &differing);
            let at: Vec<usize> = (0..arguments.len()).filter(|at| differing[*at]).collect();
            let equations: Vec<String> = at
                .iter()
                .map(|at| format!("{} eq {}", arguments[*at][0], arguments[*at][1]))
                .collect();
            let text = format!("{}, 21 ne 22", equations.join(", "));
            cases.push(row(&format!("{word} differing"), &terms, &text, true));
            let what = format!("{word} with {at:?} differing");
            for gone in 0..equations.len() {
                let mut kept = equations.clone();
                kept.remove(gone);
                kept.push("21 ne 22".into());
                cases.push(row(&what, &terms, &kept.join(", "), false));
            }
        }
    }
    cases
}

/// Equal terms need not have equal arguments: terms 21 and 22 differ in all.
fn arguments_from_values() -> Vec<Case> {
    let mut cases = Vec::new();
    for (word, arguments) in WITH_ARGUMENTS {
        let terms = two_terms(word, arguments, &vec![true; arguments.len()]);
        for [one, other] in arguments {
            let text = format!("21 eq 22, {one} ne {other}");
            cases.push(row(&format!("{word} equal"), &terms, &text, false));
        }
    }
    cases
}

/// The differing arguments are equal by other literals, in another order or in
/// other places of the two terms.
fn arguments_in_other_ways() -> Vec<Case> {
    let unions = [
        "T,rgv,1,0,0,0", // 1, r
        "T,rgv,2,0,0,0", // 2, s
        "T,rgv,3,0,0,0", // 3
        "T,cup,1,2,0,0", // 4, cup(r,s)
        "T,cup,2,1,0,0", // 5, cup(s,r)
        "T,cup,1,1,0,0", // 6, cup(r,r)
        "T,cup,2,2,0,0", // 7, cup(s,s)
        "T,cup,3,3,0,0", // 8
        "T,cup,4,5,0,0", // 9, cup(cup(r,s),cup(s,r))
        "T,cup,6,7,0,0", // 10, cup(cup(r,r),cup(s,s))
    ];
    let mut cases = closed_and_open(
        "unions",
        &unions,
        &[
            "1 eq 2, 4 ne 5", // r for s and s for r
            "2 eq 1, 4 ne 5",
            "4 ne 5, 1 eq 2", // the equation comes last
            "1 eq 2, 6 ne 7",
            "2 eq 1, 6 ne 7",
            "1 eq 2, 5 ne 7",
            "1 eq 2, 4 ne 6",
            "1 eq 2, 9 ne 10",
            "4 eq 6, 5 eq 7, 9 ne 10", // the inner terms, and not r and s
            "1 eq 3, 3 eq 2, 4 ne 5",
            "3 eq 1, 3 eq 2, 6 ne 8",
            "1 eq 2, 4 eq 3, 3 ne 5", // cup(r,s) eq cup(s,r), then trn
            "1 eq 2, 3 eq 4, 5 ne 3",
            "1 eq 2, 6 eq 3, 7 ne 3",
            "6 eq 1, 7 eq 2, 1 eq 2, 6 ne 7",
            "1 eq 4, 2 eq 4, 1 ne 2",
            "1 eq 4, 2 eq 4, 6 ne 7",
        ],
        &[
            "1 eq 3, 4 ne 5",
            "1 eq 3, 6 ne 7",
            "1 eq 2, 6 ne 8",
            "4 eq 5, 1 ne 2",
            "6 eq 7, 1 ne 2",
            "4 eq 5, 9 ne 10",
            "6 eq 7, 9 ne 10",
            "4 eq 6, 9 ne 10",
            "5 eq 7, 9 ne 10",
            "4 eq 6, 4 ne 5",
            "4 eq 6, 1 ne 2", // cup(r,s) eq cup(r,r)
        ],
    );
    // One variable serves as two arguments of wri.
    let writes = [
        "T,rfv,1,0,0,0", // 1, u
        "T,rfv,2,0,0,0", // 2, v
        "T,arv,1,0,0,0", // 3, h
        "T,fnv,1,0,0,0", // 4, f
        "T,wri,3,1,4,1", // 5, wri(h,u,f,u)
        "T,wri,3,2,4,2", // 6, wri(h,v,f,v)
        "T,wri,3,1,4,2", // 7, wri(h,u,f,v)
        "T,wri,3,2,4,1", // 8, wri(h,v,f,u)
        "T,rea,5,1,4,0", // 9, rea(wri(h,u,f,u),u,f)
        "T,rea,6,2,4,0", // 10, rea(wri(h,v,f,v),v,f)
    ];
    cases.extend(closed_and_open(
        "writes",
        &writes,
        &[
            "1 eq 2, 5 ne 6",
            "2 eq 1, 5 ne 6",
            "1 eq 2, 7 ne 8",
            "1 eq 2, 5 ne 8",
            "1 eq 2, 9 ne 10", // the heap and the reference at once
            "5 eq 6, 1 eq 2, 9 ne 10",
        ],
        &["5 ne 6", "7 ne 8", "5 eq 6, 9 ne 10", "5 eq 6, 7 ne 8"],
    ));
    cases
}

/// Terms of two words are not equal by `sub`, whatever their arguments.
fn other_words() -> Vec<Case> {
    let terms = [
        "T,rfv,1,0,0,0", // 1, u
        "T,rfv,2,0,0,0", // 2, v
        "T,rgv,1,0,0,0", // 3, r
        "T,rgv,2,0,0,0", // 4, s
        "T,arv,1,0,0,0", // 5, h
        "T,fnv,1,0,0,0", // 6, f
        "T,cup,3,4,0,0", // 7
        "T,cap,3,4,0,0", // 8
        "T,dif,3,4,0,0", // 9
        "T,sin,1,0,0,0", // 10
        "T,img,5,3,6,0", // 11
        "T,typ,1,0,0,0", // 12
        "T,dty,6,0,0,0", // 13
        "T,clv,1,0,0,0", // 14
        EMP,             // 15
        ALL,             // 16
        NUL,             // 17
        "T,rea,5,1,6,0", // 18
        "T,cap,4,3,0,0", // 19
        "T,wri,5,1,6,2", // 20
    ];
    closed_and_open(
        "other words",
        &terms,
        &[],
        &[
            "7 ne 8",
            "7 ne 9",
            "8 ne 9",
            "3 eq 4, 7 ne 8",
            "3 eq 4, 8 ne 9",
            "3 eq 4, 7 ne 19",
            "10 ne 11",
            "10 ne 15",
            "15 ne 16",
            "12 ne 13",
            "12 ne 14",
            "13 ne 14",
            "17 ne 1",
            "18 ne 1",
            "18 ne 17",
            "1 eq 2, 12 ne 14",
            "20 ne 5",
            "3 ne 15",
            "12 nl 13",
            "13 nl 12",
        ],
    )
}

/// Names are no arguments. Terms 1 and 2 are variables with the names 3 and 4,
/// or 1 and 2; terms 3 and 4 are equal, and so are 1 and 2 in the last row.
fn names() -> Vec<Case> {
    let mut cases = Vec::new();
    for (word, other) in [
        ("rfv", "rgv"),
        ("rgv", "arv"),
        ("arv", "fnv"),
        ("fnv", "clv"),
        ("clv", "rfv"),
    ] {
        let terms = |[first, second]: [usize; 2]| {
            vec![
                format!("T,{word},{first},0,0,0"),
                format!("T,{word},{second},0,0,0"),
                format!("T,{other},1,0,0,0"),
                format!("T,{other},2,0,0,0"),
            ]
        };
        let rows = [
            ([3, 4], "3 eq 4, 1 ne 2", false),
            ([4, 3], "3 eq 4, 1 ne 2", false),
            ([3, 4], "3 eq 4, 2 ne 1", false),
            ([3, 4], "3 eq 4, 1 eq 2, 2 ne 1", true),
        ];
        for (names, text, closes) in rows {
            let what = format!("names, {word} {names:?}");
            cases.push(row(&what, &terms(names), text, closes));
        }
    }
    // Terms 3 and 4 are of the same word as the variables whose names they are,
    // and other terms are made of these.
    let terms = [
        "T,rfv,3,0,0,0", // 1
        "T,rfv,4,0,0,0", // 2
        "T,rfv,1,0,0,0", // 3
        "T,rfv,2,0,0,0", // 4
        "T,sin,1,0,0,0", // 5
        "T,sin,2,0,0,0", // 6
        "T,typ,3,0,0,0", // 7
        "T,typ,4,0,0,0", // 8
    ];
    cases.extend(closed_and_open(
        "names",
        &terms,
        &[
            "3 eq 4, 7 ne 8",
            "1 eq 2, 5 ne 6",
            "3 eq 4, 7 nl 8",
            "3 eq 4, 8 nl 7",
        ],
        &[
            "3 eq 4, 1 ne 2",
            "1 eq 2, 3 ne 4",
            "3 eq 4, 5 ne 6",
            "1 eq 2, 7 ne 8",
            "1 eq 2, 7 nl 8",
        ],
    ));
    cases
}

/// Two towers upon terms 1 and 2 of four: 5 and 6, 7 and 8, and so on.
fn level_by_level(four: &[String], levels: usize, upon: impl Fn(usize) -> String) -> Vec<String> {
    let mut terms = four.to_vec();
    for level in 0..levels {
        for side in 0..2 {
            let inner = if level == 0 {
                1 + side
            } else {
                3 + 2 * level + side
            };
            terms.push(upon(inner));
        }
    }
    terms
}

/// rea(h, rea(h, ..u.., f), f) and the same of v, in two orders of the table,
/// and the equation before or after the denial.
fn towers() -> Vec<Case> {
    let mut cases = Vec::new();
    for levels in [1, 2, 3, 4, 8, 20, 50] {
        // 1 u, 2 v, 3 h, 4 f.
        let base = [
            "T,rfv,1,0,0,0",
            "T,rfv,2,0,0,0",
            "T,arv,1,0,0,0",
            "T,fnv,1,0,0,0",
        ]
        .map(String::from);
        let in_turn = level_by_level(&base, levels, |inner| term("rea", &[3, inner, 4]));
        // All of u, then all of v: 5 and up, 5 + levels and up.
        let mut one_by_one = base.to_vec();
        for side in 0..2 {
            for level in 0..levels {
                let inner = if level == 0 {
                    1 + side
                } else {
                    4 + levels * side + level
                };
                one_by_one.push(term("rea", &[3, inner, 4]));
            }
        }
        let tops = [
            ("in turn", &in_turn, 3 + 2 * levels, 4 + 2 * levels),
            ("one by one", &one_by_one, 4 + levels, 4 + 2 * levels),
        ];
        for (order, terms, top_of_u, top_of_v) in tops {
            let what = format!("tower of {levels}, {order}");
            for (text, closes) in [
                (format!("1 eq 2, {top_of_u} ne {top_of_v}"), true),
                (format!("{top_of_u} ne {top_of_v}, 1 eq 2"), true),
                (format!("2 eq 1, {top_of_u} ne {top_of_v}"), true),
                (format!("1 eq 2, {top_of_v} ne {top_of_u}"), true),
                (format!("{top_of_u} ne {top_of_v}"), false),
                (format!("1 eq 2, {top_of_u} ne 2"), false), // another level
            ] {
                cases.push(row(&what, terms, &text, closes));
            }
        }
    }
    // All 600 terms: two towers of 298 unions upon 1 and 2, and two variables.
    let terms = level_by_level(&variables("rgv", 4), 298, |inner| {
        term("cup", &[inner, inner])
    });
    for (text, closes) in [
        ("1 eq 2, 599 ne 600", true),
        ("1 eq 3, 4 eq 2, 3 eq 4, 600 ne 599", true),
        ("1 eq 3, 4 eq 2, 599 ne 600", false),
        ("1 eq 2, 597 ne 600", false),
    ] {
        cases.push(row("towers of 600 terms", &terms, text, closes));
    }
    cases
}

/// g(u) stands for rea(h,u,f). Terms 4 to 13 are g(u), g(g(u)) and so on, up to
/// ten times g: term 3 + n is g n times.
fn rings_of_reads() -> Vec<Case> {
    let terms = [
        "T,arv,1,0,0,0",  // 1, h
        "T,fnv,1,0,0,0",  // 2, f
        "T,rfv,1,0,0,0",  // 3, u
        "T,rea,1,3,2,0",  // 4
        "T,rea,1,4,2,0",  // 5
        "T,rea,1,5,2,0",  // 6
        "T,rea,1,6,2,0",  // 7
        "T,rea,1,7,2,0",  // 8
        "T,rea,1,8,2,0",  // 9
        "T,rea,1,9,2,0",  // 10
        "T,rea,1,10,2,0", // 11
        "T,rea,1,11,2,0", // 12
        "T,rea,1,12,2,0", // 13
    ];
    closed_and_open(
        "reads in a ring",
        &terms,
        &[
            "3 eq 4, 4 ne 5",         // g u = u
            "3 eq 4, 3 ne 13",        // ten times
            "3 eq 5, 3 ne 7",         // g g u = u, and four times
            "3 eq 5, 4 ne 6",         // once and three times
            "3 eq 5, 4 ne 12",        // once and nine times
            "6 eq 3, 8 eq 3, 4 ne 3", // three and five times: once
            "3 eq 6, 8 eq 3, 3 ne 4",
            "8 eq 6, 6 eq 3, 13 ne 3", // five and three times: ten times
            "7 eq 3, 9 eq 3, 3 ne 5",  // four and six times: twice
            "7 eq 3, 9 eq 3, 4 ne 6",
            "5 eq 6, 5 ne 13",         // g g u = g g g u, and so on
            "5 eq 7, 9 eq 10, 5 ne 6", // 5 = 7 = 9 and so on, 6 = 8 = 10; 9 = 10
        ],
        &[
            "3 eq 5, 3 ne 4",         // twice is not once
            "3 eq 5, 3 ne 6",         // nor three times
            "7 eq 3, 9 eq 3, 3 ne 4", // four and six: not once
            "7 eq 3, 9 eq 3, 3 ne 6",
            "6 eq 3, 9 eq 3, 3 ne 4",
            "4 eq 5, 3 ne 4", // nothing says so of u itself
            "5 eq 6, 4 ne 5",
            "13 eq 12, 11 ne 12",
        ],
    )
}

/// An equation that a congruence gives makes another congruence, several times;
/// the middle terms stand only in the table.
fn one_upon_the_other() -> Vec<Case> {
    let terms = [
        "T,rfv,1,0,0,0",   // 1, u
        "T,rfv,2,0,0,0",   // 2, v
        "T,arv,1,0,0,0",   // 3, h
        "T,arv,2,0,0,0",   // 4, k
        "T,fnv,1,0,0,0",   // 5, f
        "T,fnv,2,0,0,0",   // 6, g
        "T,rfv,3,0,0,0",   // 7, x
        "T,wri,3,1,5,7",   // 8, wri(h,u,f,x)
        "T,wri,4,2,6,7",   // 9, wri(k,v,g,x)
        "T,rea,8,1,5,0",   // 10, rea(8,u,f)
        "T,rea,9,2,6,0",   // 11, rea(9,v,g)
        "T,sin,10,0,0,0",  // 12
        "T,sin,11,0,0,0",  // 13
        "T,rgv,1,0,0,0",   // 14, r
        "T,cup,12,14,0,0", // 15
        "T,cup,13,14,0,0", // 16
        "T,img,8,15,5,0",  // 17
        "T,img,9,16,6,0",  // 18
        "T,typ,10,0,0,0",  // 19
        "T,typ,11,0,0,0",  // 20
        "T,dty,5,0,0,0",   // 21
        "T,dty,6,0,0,0",   // 22
        "T,dif,17,15,0,0", // 23
        "T,dif,18,16,0,0", // 24
    ];
    let all = "1 eq 2, 3 eq 4, 5 eq 6";
    let mut cases = Vec::new();
    for (left, right) in [
        (8, 9),
        (10, 11),
        (12, 13),
        (15, 16),
        (17, 18),
        (19, 20),
        (23, 24),
    ] {
        let denied = format!("{left} ne {right}");
        for (text, closes) in [
            (format!("{all}, {denied}"), true),
            (format!("{denied}, {all}"), true),
            (format!("6 eq 5, 2 eq 1, {denied}, 4 eq 3"), true),
            // Without one of the three.
            (format!("1 eq 2, 3 eq 4, {denied}"), false),
            (format!("1 eq 2, 5 eq 6, {denied}"), false),
            (format!("3 eq 4, 5 eq 6, {denied}"), false),
        ] {
            cases.push(row("one upon the other", &terms, &text, closes));
        }
    }
    cases.extend(closed_and_open(
        "one upon the other",
        &terms,
        &[
            "1 eq 2, 3 eq 4, 5 eq 6, 19 nl 20",
            "1 eq 2, 3 eq 4, 5 eq 6, 20 nl 19",
            "1 eq 2, 3 eq 4, 5 eq 6, 19 le 21, 20 nl 22",
            "1 eq 2, 3 eq 4, 5 eq 6, 20 le 22, 19 nl 21",
            "8 eq 9, 1 eq 2, 5 eq 6, 23 ne 24", // the heaps' equation is given
            "10 eq 11, 15 ne 16",
            "10 eq 11, 19 nl 20",
            "12 eq 13, 8 eq 9, 5 eq 6, 23 ne 24",
            "8 eq 4, 9 eq 4, 1 eq 2, 5 eq 6, 10 ne 11", // by trn
        ],
        &[
            "1 eq 2, 3 eq 4, 5 eq 6, 19 le 21, 22 nl 20",
            "12 eq 13, 10 ne 11",
            "12 eq 13, 17 ne 18",
            "8 eq 9, 10 ne 11",
            "19 eq 20, 10 ne 11",
        ],
    ));
    cases
}

// ---------------------------------------------------------------------------
// ler, let, lea
// ---------------------------------------------------------------------------

/// Classes of each word.
const CLASSES: [&str; 13] = [
    "T,clv,1,0,0,0",  // 1, a
    "T,clv,2,0,0,0",  // 2, b
    "T,clv,3,0,0,0",  // 3, c
    "T,clv,4,0,0,0",  // 4, d
    "T,rfv,1,0,0,0",  // 5, u
    "T,rfv,2,0,0,0",  // 6, v
    "T,fnv,1,0,0,0",  // 7, f
    "T,fnv,2,0,0,0",  // 8, g
    "T,typ,5,0,0,0",  // 9, typ(u)
    "T,typ,6,0,0,0",  // 10, typ(v)
    "T,dty,7,0,0,0",  // 11, dty(f)
    "T,dty,8,0,0,0",  // 12, dty(g)
    "T,rgv,10,0,0,0", // 13
];

fn order() -> Vec<Case> {
    closed_and_open(
        "order",
        &CLASSES,
        &[
            "1 nl 1",   // ler
            "9 nl 9",   // ler of typ
            "11 nl 11", // ler of dty
            "1 le 2, 1 nl 2",
            "1 nl 2, 1 le 2",
            "9 le 11, 9 nl 11",
            "1 le 2, 2 le 3, 1 nl 3", // let
            "2 le 3, 1 le 2, 1 nl 3",
            "1 nl 3, 2 le 3, 1 le 2",
            "1 nl 3, 1 le 2, 2 le 3",
            "9 le 1, 1 le 11, 9 nl 11",
            "1 le 11, 9 le 1, 9 nl 11",
            "1 le 2, 2 le 3, 3 le 4, 1 nl 4",
            "3 le 4, 2 le 3, 1 le 2, 1 nl 4",
            "1 le 2, 2 le 3, 3 le 4, 2 nl 4",
            "1 le 1, 1 nl 1",
            "1 le 2, 2 le 1, 1 nl 1",
            "1 le 2, 3 le 4, 1 nl 4, 2 le 3",
            "1 le 2, 2 nl 1, 2 le 3, 3 le 1",
            "1 nl 4, 4 nl 1, 2 nl 3, 3 le 2, 2 le 3", // the third of three denials
        ],
        &[
            "1 le 2, 2 nl 1", // left then right
            "2 le 1, 1 nl 2",
            "9 le 11, 11 nl 9",
            "1 le 2, 2 le 3, 3 nl 1",
            "1 le 2, 2 le 3, 3 le 4, 4 nl 1",
            "1 le 2, 2 le 3, 2 nl 1",
            "1 nl 2",
            "1 nl 2, 2 nl 1",
            "1 nl 2, 2 le 1",
            "1 le 1",
            "1 le 2, 2 le 1",
            "1 le 2, 3 le 4, 1 nl 4",
            "2 le 1, 2 le 3, 1 nl 3", // two above b
            "1 le 2, 3 le 2, 1 nl 3", // two under b
            "1 le 2, 1 ne 2",         // le is not eq
            "1 le 2, 2 ne 1",
            "9 le 11, 9 ne 11",
            "1 le 2, 2 le 3, 1 ne 3",
            "1 le 2, 2 le 3, 1 ne 2",
            "1 nl 2, 2 nl 3, 1 le 3", // nl is no link
            "1 nl 2, 1 ne 2",
            "1 nl 2, 2 nl 1, 1 ne 2", // classes that are not under each other
            "9 nl 10",
            "11 nl 12",
        ],
    )
}

/// Class 1 under class count, through all between.
fn chains_of_order() -> Vec<Case> {
    let mut cases = Vec::new();
    for count in [4, 5, 10, 30, 100, 300] {
        let terms = variables("clv", count);
        let denied = format!("A,nl,1,{count},0,0");
        let forwards = links("le", 1..count);
        for (what, chain) in chains("le", count) {
            let what = format!("order of {count}, {what}");
            cases.push(ended(&what, &terms, &and(&chain, &denied), true));
        }
        // Every second link is an equation, with its sides in any order.
        let mut equations = forwards.clone();
        for (at, link) in equations.iter_mut().enumerate() {
            let from = at + 1;
            match at % 4 {
                1 => *link = format!("A,eq,{from},{},0,0", from + 1),
                3 => *link = format!("A,eq,{},{from},0,0", from + 1),
                _ => {}
            }
        }
        let what = format!("order of {count}, with equations");
        cases.push(ended(&what, &terms, &and(&equations, &denied), true));
        for gone in [1, count / 2, count - 1] {
            let mut broken = forwards.clone();
            broken.remove(gone - 1);
            let what = format!("order of {count} without link {gone}");
            cases.push(ended(&what, &terms, &and(&broken, &denied), false));
            let mut reversed = forwards.clone();
            reversed[gone - 1] = format!("A,le,{},{gone},0,0", gone + 1);
            let what = format!("order of {count}, link {gone} changed over");
            cases.push(ended(&what, &terms, &and(&reversed, &denied), false));
        }
        for (left, word, right) in [(count, "ne", 1), (count, "nl", 1), (1, "ne", count)] {
            let other = format!("A,{word},{left},{right},0,0");
            let what = format!("order of {count}, {left} {word} {right}");
            cases.push(ended(&what, &terms, &and(&forwards, &other), false));
        }
    }
    cases
}

/// A circle makes all its classes equal.
fn circles() -> Vec<Case> {
    closed_and_open(
        "circle",
        &CLASSES,
        &[
            "1 le 2, 2 le 1, 1 ne 2", // lea
            "1 le 2, 2 le 1, 2 ne 1",
            "1 ne 2, 2 le 1, 1 le 2",
            "9 le 11, 11 le 9, 9 ne 11",
            "1 le 2, 2 le 3, 3 le 1, 1 ne 2",
            "1 le 2, 2 le 3, 3 le 1, 1 ne 3",
            "1 le 2, 2 le 3, 3 le 1, 3 ne 2",
            "3 le 1, 2 le 3, 1 le 2, 3 ne 2",
            "1 le 2, 2 le 3, 3 le 1, 2 nl 1", // let
            "1 le 2, 2 le 3, 3 le 1, 3 nl 2",
            "1 le 2, 2 le 3, 3 le 4, 4 le 1, 2 ne 4",
            "1 le 2, 2 le 3, 3 le 4, 4 le 1, 1 ne 3",
            "1 le 2, 2 eq 3, 3 le 1, 1 ne 2", // an equation in it
            "1 le 2, 2 eq 3, 3 le 1, 1 ne 3",
            "1 le 2, 3 eq 2, 3 le 1, 2 ne 1",
            "1 le 2, 2 le 1, 2 eq 3, 1 ne 3", // lea, then trn
            "1 le 2, 2 le 1, 3 le 4, 4 le 3, 2 eq 3, 1 ne 4",
            "1 le 2, 2 le 1, 2 le 3, 3 le 2, 1 ne 3", // two circles
            "1 le 2, 2 le 3, 3 le 1, 4 le 1, 4 nl 3",
            // The circle makes typ(u) and dty(f) equal, and something is under
            // or above one of them.
            "9 le 11, 11 le 9, 1 le 9, 1 nl 11",
            "9 le 11, 11 le 9, 11 le 1, 9 nl 1",
            "9 le 11, 11 le 9, 1 eq 9, 1 ne 11",
            "9 le 1, 1 le 11, 11 le 9, 2 eq 9, 3 eq 11, 2 ne 3",
            "9 le 1, 1 le 11, 11 le 9, 2 eq 9, 3 eq 11, 2 nl 3",
            "9 le 1, 1 le 11, 11 le 9, 2 le 9, 11 le 3, 2 nl 3",
            // Equal references or fields are links of it.
            "5 eq 6, 9 le 1, 1 le 10, 9 ne 1",
            "7 eq 8, 11 le 1, 1 le 12, 12 ne 1",
            "5 eq 6, 7 eq 8, 9 le 11, 12 le 10, 10 ne 11",
            "5 eq 6, 7 eq 8, 9 le 11, 12 le 10, 9 ne 12",
        ],
        &[
            "1 le 2, 2 le 3, 3 le 1, 1 ne 4",
            "1 le 2, 2 le 3, 1 le 3, 1 ne 3", // no circle
            "1 le 2, 3 le 2, 3 le 1, 1 ne 2",
            "1 le 2, 2 le 3, 3 le 4, 1 le 4, 1 ne 4",
            "1 le 2, 2 le 1, 2 le 3, 1 ne 3", // 3 hangs on it
            "1 le 2, 2 le 1, 3 le 2, 3 ne 1",
            "1 le 2, 2 le 1, 2 le 3, 3 nl 1",
            "1 le 2, 2 le 1, 3 le 4, 4 le 3, 1 ne 3", // two circles apart
            "1 le 2, 2 le 1, 3 le 4, 4 le 3, 2 le 3, 1 ne 3",
            "9 le 10, 10 le 9, 5 ne 6", // typ(u) eq typ(v), but not u eq v
            "11 le 12, 12 le 11, 7 ne 8", // dty(f) eq dty(g)
            "9 le 11, 11 le 9, 1 le 9, 11 nl 1",
            "9 le 11, 11 le 9, 10 ne 12",
            "5 eq 6, 9 le 11, 12 le 10, 10 ne 11",
        ],
    )
}

/// Circles of so many classes, with a denial of neighbours, of classes far from
/// each other, and in both orders; without the last link there is no circle.
fn circles_of_all_classes() -> Vec<Case> {
    let mut cases = Vec::new();
    for count in [5, 6, 12, 40, 150, 600] {
        let terms = variables("clv", count);
        let back = format!("A,le,{count},1,0,0");
        let middle = count / 2;
        for (order, chain) in chains("le", count) {
            let circle = and(&chain, &back);
            for denied in [
                format!("A,ne,1,{middle},0,0"),
                format!("A,ne,{count},{middle},0,0"),
                format!("A,nl,{count},2,0,0"),
            ] {
                let what = format!("circle of {count}, {order}, {denied}");
                cases.push(ended(&what, &terms, &and(&circle, &denied), true));
            }
            for denied in [
                format!("A,ne,1,{middle},0,0"),
                format!("A,nl,{count},2,0,0"),
            ] {
                let what = format!("circle of {count}, {order}, open, {denied}");
                cases.push(ended(&what, &terms, &and(&chain, &denied), false));
            }
        }
    }
    cases
}

/// Equals for equals in le: on the left, on the right, on both sides.
fn equals_in_order() -> Vec<Case> {
    closed_and_open(
        "equals",
        &CLASSES,
        &[
            // By ler: a eq b makes a le b and b le a.
            "1 eq 2, 1 nl 2",
            "1 eq 2, 2 nl 1",
            "1 nl 2, 2 eq 1",
            "9 eq 11, 9 nl 11",
            "9 eq 11, 11 nl 9",
            "1 eq 2, 2 eq 3, 1 nl 3",
            "1 eq 2, 2 eq 3, 3 nl 1",
            // On the left.
            "1 le 3, 1 eq 2, 2 nl 3",
            "1 le 3, 2 eq 1, 2 nl 3",
            "2 nl 3, 2 eq 1, 1 le 3",
            // On the right.
            "1 le 3, 3 eq 4, 1 nl 4",
            "1 le 3, 4 eq 3, 1 nl 4",
            "1 nl 4, 3 eq 4, 1 le 3",
            // On both.
            "1 le 3, 1 eq 2, 3 eq 4, 2 nl 4",
            "1 le 3, 2 eq 1, 4 eq 3, 2 nl 4",
            "2 nl 4, 2 eq 1, 1 le 3, 3 eq 4",
            // Between two.
            "1 le 2, 2 eq 3, 3 le 4, 1 nl 4",
            "1 le 2, 3 eq 2, 3 le 4, 1 nl 4",
            // By sub: of typ and of dty.
            "5 eq 6, 9 nl 10",
            "5 eq 6, 10 nl 9",
            "7 eq 8, 11 nl 12",
            "7 eq 8, 12 nl 11",
            "5 eq 6, 9 le 1, 10 nl 1",
            "6 eq 5, 9 le 1, 10 nl 1",
            "5 eq 6, 1 le 9, 1 nl 10",
            "7 eq 8, 1 le 11, 1 nl 12",
            "7 eq 8, 11 le 1, 12 nl 1",
            "5 eq 6, 7 eq 8, 9 le 11, 10 nl 12",
            "5 eq 6, 7 eq 8, 10 le 12, 9 nl 11",
            "5 eq 6, 8 eq 7, 10 le 11, 9 nl 12",
            // By lea, and then again.
            "1 le 2, 2 le 1, 2 le 3, 1 nl 3",
            "1 le 2, 2 le 1, 3 eq 2, 4 le 1, 4 nl 3",
            // Into both sides of one literal.
            "1 eq 2, 2 le 3, 3 eq 1, 1 nl 2",
        ],
        &[
            "1 eq 2, 1 nl 3",
            "1 le 3, 1 eq 2, 3 nl 2",
            "1 le 3, 3 eq 4, 4 nl 1",
            "1 le 3, 1 eq 2, 3 eq 4, 4 nl 2",
            "1 le 3, 1 eq 2, 2 ne 3", // le is not eq
            "1 le 3, 1 eq 4, 2 nl 3",
            "1 le 2, 3 le 4, 1 nl 4",
            "5 eq 6, 9 le 11, 10 nl 12",
            "7 eq 8, 9 le 11, 10 nl 12",
            "5 eq 6, 7 eq 8, 9 le 11, 12 nl 10",
            "5 eq 6, 9 nl 11",
            "7 eq 8, 9 nl 11",
            "5 eq 6, 11 nl 12",
            "7 eq 8, 9 nl 10",
            "9 eq 10, 5 ne 6",
            "9 eq 11, 9 nl 12",
            "1 le 2, 2 eq 3, 4 le 3, 1 nl 4",
        ],
    )
}

// ---------------------------------------------------------------------------
// What plays no part
// ---------------------------------------------------------------------------

/// u, v, r, s, emp, all, nul, sin(v).
const MEMBERS: [&str; 9] = [
    "T,rfv,1,0,0,0", // 1, u
    "T,rfv,2,0,0,0", // 2, v
    "T,rgv,1,0,0,0", // 3, r
    "T,rgv,2,0,0,0", // 4, s
    EMP,             // 5
    ALL,             // 6
    NUL,             // 7
    "T,sin,2,0,0,0", // 8, sin(v)
    "T,sin,1,0,0,0", // 9, sin(u)
];

/// Members neither close a branch nor hinder what does.
fn members() -> Vec<Case> {
    closed_and_open(
        "members",
        &MEMBERS,
        &[
            "1 in 3, 3 ne 3, 1 ni 3",
            "1 in 3, 1 ni 3, 1 eq 2, 1 ne 2",
            "1 eq 2, 1 in 3, 2 ni 4, 2 ne 1",
            "1 ne 2, 1 in 5, 2 eq 1",
            "1 in 3, 1 eq 2, 8 ne 9",
            "1 in 9, 8 ne 9, 2 in 8, 2 eq 1",
        ],
        &[
            "1 in 3, 1 ni 3", // cls closes this, bck doesn't
            "1 ni 3, 1 in 3",
            "1 in 5", // emp closes this
            "1 in 3, 1 eq 2, 2 ni 3",
            "1 in 3, 3 eq 4, 1 ni 4",
            "1 in 3, 1 ni 3, 1 ne 2",
            "1 in 3, 1 ni 3, 3 eq 4, 3 ne 5",
            "1 in 8, 1 ne 2",
            "1 in 3, 2 in 3, 1 ne 2",
            "1 in 3, 2 ni 3, 1 eq 2",
            "1 ni 6, 1 in 3",
            "7 in 3",
        ],
    )
}

/// True by the meaning, or by other rules, and not by these.
fn what_is_true_otherwise() -> Vec<Case> {
    let terms = [
        "T,rfv,1,0,0,0",  // 1, u
        "T,rfv,2,0,0,0",  // 2, v
        "T,rgv,1,0,0,0",  // 3, r
        "T,rgv,2,0,0,0",  // 4, s
        "T,arv,1,0,0,0",  // 5, h
        "T,fnv,1,0,0,0",  // 6, f
        EMP,              // 7
        NUL,              // 8
        "T,cup,3,4,0,0",  // 9
        "T,cup,4,3,0,0",  // 10
        "T,cup,3,3,0,0",  // 11
        "T,cap,3,3,0,0",  // 12
        "T,dif,3,3,0,0",  // 13
        "T,sin,8,0,0,0",  // 14, sin(nul)
        "T,wri,5,1,6,2",  // 15, k = wri(h,u,f,v)
        "T,rea,15,1,6,0", // 16, rea(k,u,f)
        "T,rea,5,1,6,0",  // 17, rea(h,u,f)
        "T,wri,5,1,6,17", // 18, wri(h,u,f,rea(h,u,f))
        "T,img,5,7,6,0",  // 19, img(h,emp,f)
        "T,cup,3,7,0,0",  // 20, cup(r,emp)
        "T,sin,1,0,0,0",  // 21
        "T,sin,2,0,0,0",  // 22
        "T,img,5,3,6,0",  // 23, i = img(h,r,f)
        "T,cup,3,23,0,0", // 24, cup(r,i)
        "T,cup,23,3,0,0", // 25, cup(i,r)
        "T,wri,15,1,6,2", // 26, the same write twice
        "T,rea,26,1,6,0", // 27
    ];
    closed_and_open(
        "true otherwise",
        &terms,
        &[],
        &[
            "9 ne 10",
            "11 ne 3",
            "12 ne 3",
            "13 ne 7",
            "14 ne 7",
            "16 ne 2", // rdh
            "18 ne 5",
            "19 ne 7",
            "20 ne 3",
            "24 eq 23, 25 ne 3", // fin
            "3 eq 7, 11 ne 7",
            "1 eq 2, 16 ne 2",
            "26 ne 15",
            "27 ne 16",
        ],
    )
}
