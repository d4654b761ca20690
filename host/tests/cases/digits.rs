//! Numbers of four, five and six digits in every field, and names of five digits.

use super::numbers::{numbers_of, with_field};
use super::rules_refuse::{LITERALS, TERMS};
use super::{case, lines, runs, with_line, with_line_case, with_lines, with_more, Case};
use super::{ALL, EMP, F, G, NUL, R, U, V};

pub fn cases() -> Vec<Case> {
    let groups = [
        t_lines(),
        a_lines(),
        c_lines(),
        s_lines(),
        right_steps(),
        last_term(),
        last_place(),
        last_clause(),
        leading_zeros(),
        other_shapes(),
        refused_before(),
        refused_before_by_the_tree(),
        refused_before_by_a_limit(),
        first_bad_line(),
        two_names(),
        one_name(),
        one_name_for_two(),
        names_near_numbers(),
        many_names(),
        five_digits_throughout(),
        sixty_thousand_bytes(),
    ];
    groups.into_iter().flatten().collect()
}

/// One term of each sort and a sixth to be changed, all names of five digits,
/// and a clause that is never split.
pub const SORTS: [&str; 10] = [
    "T,rfv,99998,0,0,0", // 1, reference
    "T,rgv,99998,0,0,0", // 2, region
    "T,arv,99998,0,0,0", // 3, heap
    "T,fnv,99998,0,0,0", // 4, field
    "T,clv,99998,0,0,0", // 5, class
    NUL,                 // 6
    "A,in,1,2,0,0",      // 7, 1: u in r
    "A,ni,1,2,0,0",      // 8, 2: u ni r
    "C,in,1,2,1,0",      // 9
    "S,cls,1,2,0,0",     // 10
];

/// A right line, and for each of its fields 3 to 6 what is given where the
/// number in it is much too large; 0 where it is as good.
pub type Row = (&'static str, [usize; 4]);

/// As line 6 of `SORTS`.
pub const T_LINES: [Row; 17] = [
    ("T,nul,0,0,0,0", [6, 6, 6, 6]),
    ("T,rfv,1,0,0,0", [0, 6, 6, 6]),
    ("T,rea,3,1,4,0", [8, 8, 8, 6]),
    ("T,emp,0,0,0,0", [6, 6, 6, 6]),
    ("T,all,0,0,0,0", [6, 6, 6, 6]),
    ("T,rgv,1,0,0,0", [0, 6, 6, 6]),
    ("T,cup,2,2,0,0", [8, 8, 6, 6]),
    ("T,cap,2,2,0,0", [8, 8, 6, 6]),
    ("T,dif,2,2,0,0", [8, 8, 6, 6]),
    ("T,sin,1,0,0,0", [8, 6, 6, 6]),
    ("T,img,3,2,4,0", [8, 8, 8, 6]),
    ("T,arv,1,0,0,0", [0, 6, 6, 6]),
    ("T,wri,3,1,4,1", [8, 8, 8, 8]),
    ("T,fnv,1,0,0,0", [0, 6, 6, 6]),
    ("T,clv,1,0,0,0", [0, 6, 6, 6]),
    ("T,typ,1,0,0,0", [8, 6, 6, 6]),
    ("T,dty,4,0,0,0", [8, 6, 6, 6]),
];

/// As line 7 of `SORTS`.
pub const A_LINES: [Row; 6] = [
    ("A,in,1,2,0,0", [8, 8, 6, 6]),
    ("A,ni,1,2,0,0", [8, 8, 6, 6]),
    ("A,eq,1,1,0,0", [8, 8, 6, 6]),
    ("A,ne,2,2,0,0", [8, 8, 6, 6]),
    ("A,le,5,5,0,0", [8, 8, 6, 6]),
    ("A,nl,5,5,0,0", [8, 8, 6, 6]),
];

/// As line 9 of `SORTS`.
pub const C_LINES: [Row; 6] = [
    ("C,in,1,2,1,0", [8, 8, 21, 6]),
    ("C,ni,1,2,1,0", [8, 8, 21, 6]),
    ("C,eq,3,3,1,0", [8, 8, 21, 6]),
    ("C,ne,4,4,1,0", [8, 8, 21, 6]),
    ("C,le,5,5,1,0", [8, 8, 21, 6]),
    ("C,nl,5,5,1,0", [8, 8, 21, 6]),
];

/// As the step of `bench`.
const S_LINES: [Row; 32] = [
    ("S,eqr,8,1,0,0", [11, 11, 6, 6]),
    ("S,eql,8,3,0,0", [11, 11, 6, 6]),
    ("S,ext,9,0,0,6", [11, 6, 6, 8]),
    ("S,cpe,10,0,0,0", [11, 6, 6, 6]),
    ("S,cpi,1,3,15,0", [11, 11, 8, 6]),
    ("S,cue,12,0,0,0", [11, 6, 6, 6]),
    ("S,cui,1,0,18,0", [11, 6, 8, 6]),
    ("S,dfe,14,0,0,0", [11, 6, 6, 6]),
    ("S,dfi,1,4,19,0", [11, 11, 8, 6]),
    ("S,sge,16,0,0,0", [11, 6, 6, 6]),
    ("S,sgi,0,0,20,0", [6, 6, 8, 6]),
    ("S,cut,0,0,4,7", [6, 6, 8, 8]),
    ("S,all,1,0,0,0", [11, 6, 6, 6]),
    ("S,nul,1,0,0,0", [11, 6, 6, 6]),
    ("S,sep,1,6,0,0", [11, 11, 6, 6]),
    ("S,img,1,0,21,0", [11, 6, 8, 6]),
    ("S,wit,18,0,0,6", [11, 6, 6, 8]),
    ("S,ref,0,0,9,0", [6, 6, 8, 6]),
    ("S,sym,22,0,0,0", [11, 6, 6, 6]),
    ("S,trn,22,25,0,0", [11, 11, 6, 6]),
    ("S,sub,8,0,15,16", [11, 6, 8, 8]),
    ("S,rep,1,22,1,0", [11, 11, 12, 6]), // t is a side
    ("S,ler,0,0,12,0", [6, 6, 8, 6]),
    ("S,let,27,31,0,0", [11, 11, 6, 6]),
    ("S,lea,27,29,0,0", [11, 11, 6, 6]),
    ("S,rdh,0,0,29,0", [6, 6, 8, 6]),
    ("S,rdm,0,0,30,0", [6, 6, 8, 6]),
    ("S,cls,1,2,0,0", [11, 11, 6, 6]),
    ("S,emp,20,0,0,0", [11, 6, 6, 6]),
    ("S,cla,0,0,1,0", [6, 6, 11, 6]), // t is a clause number
    ("S,fin,38,0,0,0", [11, 6, 6, 6]),
    ("S,bck,0,0,0,0", [6, 6, 6, 6]), // r eq s, r ne s
];

/// A row's line with other numbers in each field in turn, and what each gets:
/// at most five digits what the row says, six digits 2. Beside the ends stand
/// numbers that become the right one where only their low digits or low bits
/// are kept.
pub fn changed_lines(&(line, too_large): &Row) -> Vec<(String, usize)> {
    let mut changed = Vec::new();
    for ((field, right), given) in numbers_of(line).into_iter().zip(too_large) {
        let mut numbers = vec![
            (9_999, given),
            (10_000, given),
            (99_999, given),
            (100_000, 2),
            (right + 65_536, given),
        ];
        if right != 0 {
            numbers.push((right + 10_000, given));
        }
        for (number, given) in numbers {
            changed.push((with_field(line, field, number), given));
        }
    }
    changed
}

/// The changed lines of each row as a numbered line of the file. Only a name is
/// as good, on line 6 of `SORTS`.
fn in_file(name: &str, file: &[&str], number: usize, rows: &[Row]) -> Vec<Case> {
    let mut cases = Vec::new();
    for (line, given) in rows.iter().flat_map(changed_lines) {
        let reply = match given {
            0 => "yes,0,0,6,3,1,1,0",
            _ => format!("no,{given},{number},0,0,0,0,0").leak(),
        };
        cases.push(with_line_case(name, file, (number, &line), reply));
    }
    cases
}

fn t_lines() -> Vec<Case> {
    in_file("digits: T", &SORTS, 6, &T_LINES)
}

fn a_lines() -> Vec<Case> {
    in_file("digits: A", &SORTS, 7, &A_LINES)
}

fn c_lines() -> Vec<Case> {
    in_file("digits: C", &SORTS, 9, &C_LINES)
}

/// The bench of `rules_refuse.rs`, on which `fin` and `cla` are right too. The
/// step is on line 35 + 2 + 37 + 1 + 1 + 1.
fn bench() -> Vec<&'static str> {
    let unions = [
        "T,cup,7,21,0,0", // 36, cup(r,i) with i = img(h,r,f)
        "T,cup,21,7,0,0", // 37, cup(i,r)
    ];
    let more = [
        "A,eq,36,21,0,0", // 38: cup(r,i) eq i
        "C,in,4,7,1,0",   // clause 1: u in r
        "S,cls,1,2,0,0",
    ];
    [&TERMS[..], &unions, &LITERALS, &more].concat()
}

fn s_lines() -> Vec<Case> {
    in_file("digits: bench", &bench(), 77, &S_LINES)
}

/// The steps of the table as they stand there.
fn right_steps() -> Vec<Case> {
    S_LINES
        .iter()
        .map(|(step, _)| {
            let closings = ["S,cls,", "S,emp,", "S,bck,"];
            let closes = closings.iter().any(|rule| step.starts_with(rule));
            let reply = if closes {
                "yes,0,0,37,39,1,1,0"
            } else {
                "no,17,78,0,0,0,0,0"
            };
            with_line_case("digits: right", &bench(), (77, step), reply)
        })
        .collect()
}

/// The last term that there can be, and numbers of five digits that begin or end
/// with its own, or have its low 16 bits.
fn last_term() -> Vec<Case> {
    let mut terms = references(10_001, 599);
    terms.extend(["T,rgv,10600,0,0,0", "A,in,1,600,0,0", "A,ni,1,600,0,0"].map(String::from));
    terms.push("S,cls,1,2,0,0".into());
    let whole = lines(&terms);
    let mut cases = vec![case("digits: 600 terms", whole, "yes,0,0,600,2,1,1,0")];
    for number in [10_600, 60_000, 60_009, 66_136] {
        let line = format!("A,in,1,{number},0,0");
        let changed = with_line(&terms, 601, &line);
        let name = format!("digits: 600 terms, {line}");
        cases.push(case(&name, changed, "no,8,601,0,0,0,0,0"));
    }
    cases
}

/// The same of places.
fn last_place() -> Vec<Case> {
    let mut places = vec![U, R];
    places.extend(["A,in,1,2,0,0"; 999]);
    places.extend(["A,ni,1,2,0,0", "S,cls,999,1000,0,0"]);
    let mut cases = Vec::new();
    for step in [
        "S,cls,999,10000,0,0",
        "S,cls,999,10009,0,0",
        "S,cls,999,11000,0,0",
        "S,cls,999,66536,0,0",
        "S,cls,10999,1000,0,0",
        "S,cls,66535,1000,0,0",
    ] {
        let changed = with_line(&places, 1003, step);
        let name = format!("digits: 1,000 places, {step}");
        cases.push(case(&name, changed, "no,11,1003,0,0,0,0,0"));
    }
    cases
}

/// The same of clauses.
fn last_clause() -> Vec<Case> {
    let mut clauses: Vec<String> = [U, R, "A,ni,1,2,0,0"].map(String::from).to_vec();
    clauses.extend((1..=400).map(|number| format!("C,in,1,2,{number},0")));
    clauses.extend(["S,cla,0,0,400,0", "S,cls,2,1,0,0"].map(String::from)); // 2: u in r
    let whole = lines(&clauses);
    let mut cases = vec![case("digits: 400 clauses", whole, "yes,0,0,2,401,2,1,0")];
    for number in [10_400, 40_000, 40_009, 65_936] {
        let step = format!("S,cla,0,0,{number},0");
        let changed = with_line(&clauses, 404, &step);
        let name = format!("digits: 400 clauses, {step}");
        cases.push(case(&name, changed, "no,11,404,0,0,0,0,0"));
    }
    cases
}

/// "with no leading zero unless the number is `0`"
fn leading_zeros() -> Vec<Case> {
    let mut cases = Vec::new();
    for number in ["00001", "01234", "09999", "00000", "012345"] {
        let t = [
            format!("T,rfv,{number},0,0,0"),
            format!("T,sin,{number},0,0,0"),
            format!("T,nul,0,0,0,{number}"),
        ];
        let a = [
            format!("A,in,{number},2,0,0"),
            format!("A,in,1,{number},0,0"),
            format!("A,in,1,2,{number},0"),
        ];
        let c = [
            format!("C,in,{number},2,1,0"),
            format!("C,in,1,2,{number},0"),
            format!("C,in,1,2,1,{number}"),
        ];
        let s = [
            format!("S,cls,{number},2,0,0"),
            format!("S,cls,1,{number},0,0"),
            format!("S,ref,0,0,{number},0"),
            format!("S,cut,0,0,1,{number}"),
        ];
        let rows: [(usize, &[String], &'static str); 4] = [
            (6, &t, "no,2,6,0,0,0,0,0"),
            (7, &a, "no,2,7,0,0,0,0,0"),
            (9, &c, "no,2,9,0,0,0,0,0"),
            (10, &s, "no,2,10,0,0,0,0,0"),
        ];
        for (at, changed, reply) in rows {
            for line in changed {
                cases.push(with_line_case("digits: zeros", &SORTS, (at, line), reply));
            }
        }
    }
    cases
}

/// Other bytes among five digits, and many digits.
fn other_shapes() -> Vec<Case> {
    [
        "1234x",
        "x2345",
        "12 45",
        "+1234",
        "-9999",
        "1234.",
        "99,999", // a field more
        "99_999",
        "9999\u{ff19}",
        "131073", // 1 in the low 17 bits
        "999999",
        "4294967297", // 1 in the low 32 bits
        "10000000000000000001",
    ]
    .iter()
    .map(|number| {
        let line = format!("T,rfv,{number},0,0,0");
        with_line_case("digits: shape", &SORTS, (6, &line), "no,2,6,0,0,0,0,0")
    })
    .collect()
}

/// F with one line changed, or with a ninth.
fn f_with((number, line, reply): (usize, &str, &'static str)) -> Case {
    let file = match number {
        9 => with_more(&F, &[line]),
        _ => with_line(&F, number, line),
    };
    case(&format!("digits: F, line {number} {line}"), file, reply)
}

/// Six digits get 2 before any other check; five digits hide no earlier one.
fn refused_before() -> Vec<Case> {
    let rows = [
        // 3: T after A or S, A and C after S
        (6, "T,rfv,99999,0,0,0", "no,3,6,0,0,0,0,0"),
        (6, "T,rfv,100000,0,0,0", "no,2,6,0,0,0,0,0"),
        (8, "T,cap,2,99999,0,0", "no,3,8,0,0,0,0,0"),
        (8, "T,cap,2,100000,0,0", "no,2,8,0,0,0,0,0"),
        (8, "A,in,1,10000,0,0", "no,3,8,0,0,0,0,0"),
        (8, "A,in,1,100000,0,0", "no,2,8,0,0,0,0,0"),
        (8, "C,in,1,2,99999,0", "no,3,8,0,0,0,0,0"),
        (8, "C,in,1,2,100000,0", "no,2,8,0,0,0,0,0"),
        // 4
        (4, "T,xyz,99999,0,0,0", "no,4,4,0,0,0,0,0"),
        (4, "T,xyz,100000,0,0,0", "no,2,4,0,0,0,0,0"),
        (5, "A,cap,1,4,0,99999", "no,4,5,0,0,0,0,0"),
        (5, "A,cap,1,4,0,100000", "no,2,5,0,0,0,0,0"),
        (7, "C,cla,10000,1,1,0", "no,4,7,0,0,0,0,0"),
        (7, "C,cla,100000,1,1,0", "no,2,7,0,0,0,0,0"),
        (7, "S,xyz,99999,99999,99999,99999", "no,4,7,0,0,0,0,0"),
        (7, "S,xyz,100000,0,0,0", "no,2,7,0,0,0,0,0"),
        (7, "S,xyz,99999,100000,99999,99999", "no,2,7,0,0,0,0,0"),
        // 6, and 8, 11 or 12 elsewhere on the line
        (4, "T,cap,99999,3,1,0", "no,6,4,0,0,0,0,0"),
        (4, "T,cap,9,3,10000,0", "no,6,4,0,0,0,0,0"),
        (4, "T,cap,99999,3,100000,0", "no,2,4,0,0,0,0,0"),
        (5, "A,in,99999,4,1,0", "no,6,5,0,0,0,0,0"),
        (5, "A,in,99999,4,100000,0", "no,2,5,0,0,0,0,0"),
        (7, "C,in,99999,2,99999,1", "no,6,7,0,0,0,0,0"),
        (7, "S,cpe,99999,1,0,0", "no,6,7,0,0,0,0,0"),
        (7, "S,cpe,99999,100000,0,0", "no,2,7,0,0,0,0,0"),
        (7, "S,ref,0,10000,99999,0", "no,6,7,0,0,0,0,0"),
        (7, "S,cla,10000,0,99999,0", "no,6,7,0,0,0,0,0"),
        (7, "S,rep,1,1,99999,99999", "no,6,7,0,0,0,0,0"),
        // 8, and 9
        (4, "T,cap,1,99999,0,0", "no,8,4,0,0,0,0,0"),
        (4, "T,cap,99999,1,0,0", "no,8,4,0,0,0,0,0"),
        (4, "T,cap,1,100000,0,0", "no,2,4,0,0,0,0,0"),
        (5, "A,in,4,99999,0,0", "no,8,5,0,0,0,0,0"),
        (7, "S,cut,0,0,4,99999", "no,8,7,0,0,0,0,0"),
        // 8 and 9, and 21
        (7, "C,in,1,99999,99999,0", "no,8,7,0,0,0,0,0"),
        (7, "C,in,2,1,99999,0", "no,9,7,0,0,0,0,0"),
        (7, "C,in,2,1,100000,0", "no,2,7,0,0,0,0,0"),
        // 8, and 11
        (7, "S,cpi,99999,1,99999,0", "no,8,7,0,0,0,0,0"),
        (7, "S,ext,99999,0,0,99999", "no,8,7,0,0,0,0,0"),
        (7, "S,ext,99999,0,0,100000", "no,2,7,0,0,0,0,0"),
        // 11, and 12 or 13
        (7, "S,cls,2,99999,0,0", "no,11,7,0,0,0,0,0"),
        (7, "S,rep,99999,1,99999,0", "no,11,7,0,0,0,0,0"),
        (7, "S,rep,1,10000,3,0", "no,11,7,0,0,0,0,0"),
        (7, "S,ext,10000,0,0,1", "no,11,7,0,0,0,0,0"),
        (7, "S,rep,1,1,100000,0", "no,2,7,0,0,0,0,0"),
    ];
    rows.into_iter().map(f_with).collect()
}

/// On a closed tree: 2, 3 and 4 come before 5.
fn refused_before_by_the_tree() -> Vec<Case> {
    let rows = [
        (9, "S,ref,0,0,99999,0", "no,5,9,0,0,0,0,0"),
        (9, "S,ref,0,0,100000,0", "no,2,9,0,0,0,0,0"),
        (9, "S,cls,10000,99999,0,0", "no,5,9,0,0,0,0,0"),
        (9, "S,cls,3,100000,0,0", "no,2,9,0,0,0,0,0"),
        (9, "S,cls,3,2,0,99999", "no,5,9,0,0,0,0,0"),
        (9, "S,cla,0,0,10000,0", "no,5,9,0,0,0,0,0"),
        (9, "S,rep,1,1,99999,0", "no,5,9,0,0,0,0,0"),
        (9, "S,xyz,99999,0,0,0", "no,4,9,0,0,0,0,0"),
        (9, "S,xyz,100000,0,0,0", "no,2,9,0,0,0,0,0"),
        (9, "T,rfv,99999,0,0,0", "no,3,9,0,0,0,0,0"),
        (9, "T,rfv,100000,0,0,0", "no,2,9,0,0,0,0,0"),
        (9, "A,in,99999,2,0,0", "no,3,9,0,0,0,0,0"),
        (9, "A,in,100000,2,0,0", "no,2,9,0,0,0,0,0"),
        (9, "C,in,1,2,10000,0", "no,3,9,0,0,0,0,0"),
    ];
    rows.into_iter().map(f_with).collect()
}

/// The 601st term, the 1,001st A line and the 401st C line.
fn refused_before_by_a_limit() -> Vec<Case> {
    let terms = references(99_400, 600);
    let term_rows = [
        ("T,rfv,10000,0,0,0", "no,7,601,0,0,0,0,0"),
        ("T,rfv,100000,0,0,0", "no,2,601,0,0,0,0,0"),
        ("T,rfv,1,10000,0,0", "no,6,601,0,0,0,0,0"),
        ("T,xyz,10000,0,0,0", "no,4,601,0,0,0,0,0"),
        ("T,typ,99999,0,0,0", "no,7,601,0,0,0,0,0"), // and 8
        ("T,rfv,99999,0,0,0", "no,7,601,0,0,0,0,0"), // and 10
    ];
    let mut cases = Vec::new();
    for (line, reply) in term_rows {
        let file = [lines(&terms), lines(&[line])].concat();
        cases.push(case(&format!("digits: term 601 {line}"), file, reply));
    }
    let literal_rows = [
        ("A,in,1,99999,0,0", "no,8,1003,0,0,0,0,0"),
        ("A,in,1,2,0,99999", "no,6,1003,0,0,0,0,0"),
        ("A,in,1,100000,0,0", "no,2,1003,0,0,0,0,0"),
        ("T,rfv,99999,0,0,0", "no,3,1003,0,0,0,0,0"),
    ];
    for (line, reply) in literal_rows {
        let file = runs(&[(1, U), (1, R), (1000, "A,in,1,2,0,0"), (1, line)]);
        let name = format!("digits: literal 1,001 {line}");
        cases.push(case(&name, file, reply));
    }
    let mut clauses: Vec<String> = [U, R].map(String::from).to_vec();
    clauses.extend((1..=400).map(|number| format!("C,in,1,2,{number},0")));
    let clause_rows = [
        ("C,in,1,2,10000,0", "no,21,403,0,0,0,0,0"),
        ("C,in,1,2,40100,0", "no,21,403,0,0,0,0,0"),
        ("C,in,1,2,100000,0", "no,2,403,0,0,0,0,0"),
        ("C,in,1,99999,401,0", "no,8,403,0,0,0,0,0"),
        ("C,in,1,2,401,99999", "no,6,403,0,0,0,0,0"),
        ("A,in,1,99999,0,0", "no,3,403,0,0,0,0,0"),
    ];
    for (line, reply) in clause_rows {
        let file = [lines(&clauses), lines(&[line])].concat();
        cases.push(case(&format!("digits: C line 401 {line}"), file, reply));
    }
    cases
}

fn first_bad_line() -> Vec<Case> {
    let rows: [([(usize, &str); 2], &'static str); 5] = [
        (
            [(4, "T,cap,2,99999,0,0"), (5, "A,in,1,100000,0,0")],
            "no,8,4,0,0,0,0,0",
        ),
        (
            [(4, "T,cap,2,100000,0,0"), (5, "A,in,1,99999,0,0")],
            "no,2,4,0,0,0,0,0",
        ),
        (
            [(1, "T,rfv,99999,0,0,0"), (2, "T,rgv,100000,0,0,0")],
            "no,2,2,0,0,0,0,0",
        ),
        (
            [(7, "S,cpe,10000,0,0,0"), (8, "S,cls,100000,2,0,0")],
            "no,11,7,0,0,0,0,0",
        ),
        (
            [(1, "T,rfv,99999,0,0,0"), (8, "S,cls,3,99999,0,0")],
            "no,11,8,0,0,0,0,0",
        ),
    ];
    let mut cases: Vec<Case> = rows
        .into_iter()
        .map(|(changes, reply)| {
            case(
                &format!("digits: F, {changes:?}"),
                with_lines(&F, &changes),
                reply,
            )
        })
        .collect();
    // A number at the very end.
    let unended = |line: &str| [lines(&F[..7]), line.into()].concat();
    cases.push(case(
        "digits: five digits without LF",
        unended("S,cls,3,2,0,10000"),
        "no,2,8,0,0,0,0,0",
    ));
    cases.push(case(
        "digits: six digits without LF",
        unended("S,cls,3,2,0,100000"),
        "no,2,8,0,0,0,0,0",
    ));
    cases
}

pub const VARIABLES: [&str; 5] = ["rfv", "rgv", "arv", "fnv", "clv"];

/// Names that are the same where a part of them is lost.
pub const PAIRS: [(usize, usize); 25] = [
    // The last four digits are the same.
    (1, 10_001),
    (9_999, 99_999),
    (2_345, 12_345),
    (12_345, 92_345),
    // The first four are.
    (1_000, 10_000),
    (1_234, 12_345),
    (12_340, 12_345),
    (99_990, 99_999),
    // They differ by a multiple of 2^13, 2^14, 2^15, 2^16. All names are below
    // 2^17.
    (1, 8_193),
    (91_807, 99_999),
    (1, 16_385),
    (83_615, 99_999),
    (1, 32_769),
    (67_231, 99_999),
    (1, 65_537),
    (34_463, 99_999),
    // They are at or above the largest number of 14, 15, 16 bits.
    (16_383, 99_999),
    (32_767, 99_999),
    (65_535, 99_999),
    // The first digit differs, the order of the digits, an end with zeros.
    (89_999, 99_999),
    (12_345, 54_321),
    (1, 10_000),
    (10, 10_000),
    // Neighbours.
    (9_999, 10_000),
    (99_998, 99_999),
];

/// Names at the ends, in the middle, and around powers of 2.
pub const NAMES: [usize; 9] = [
    9_999, 10_000, 12_345, 16_384, 32_767, 32_768, 65_535, 65_536, 99_999,
];

pub fn variable(word: &str, name: usize) -> String {
    format!("T,{word},{name},0,0,0")
}

/// So many lines, their names from this one on.
pub fn references(first: usize, count: usize) -> Vec<String> {
    let names = first..first + count;
    names.map(|name| variable("rfv", name)).collect()
}

/// The file with 99,999 for name 1, 99,998 for 2, and so on to 1 for 99,999, on
/// T and D lines. What else stands on a line is kept, well shaped or not.
pub fn names_changed_over(file: &[u8]) -> Vec<u8> {
    let mut changed = Vec::new();
    for line in file.split_inclusive(|&byte| byte == b'\n') {
        changed.extend(line_changed_over(line).unwrap_or(line.to_vec()));
    }
    changed
}

/// `None` where the line has no name.
fn line_changed_over(line: &[u8]) -> Option<Vec<u8>> {
    let text = std::str::from_utf8(line).ok()?;
    let fields: Vec<&str> = text.split(',').collect();
    let ["T" | "D", word, name, rest @ ..] = &fields[..] else {
        return None;
    };
    let number: usize = name.parse().ok()?;
    let is_name = (1..=99_999).contains(&number) && number.to_string() == *name;
    if !is_name || !VARIABLES.contains(word) {
        return None;
    }
    let other = (100_000 - number).to_string();
    let changed = [&fields[..2], &[&other], rest].concat();
    Some(changed.join(",").into())
}

/// Closes on term 1, of whatever sort.
const CLOSED: [&str; 3] = ["A,eq,1,1,0,0", "A,ne,1,1,0,0", "S,cls,1,2,0,0"];

/// Two T lines are two terms, in either order, and x eq x doesn't deny x ne y.
fn two_names() -> Vec<Case> {
    let open = [
        "A,ne,1,2,0,0",  // 3, 1: x ne y
        "S,ref,0,0,1,0", // 4, 2: x eq x
        "S,cls,2,1,0,0", // 5
    ];
    let mut cases = Vec::new();
    for word in VARIABLES {
        for (one, other) in PAIRS {
            let what = format!("digits: {word} {one} and {other}");
            let terms = [variable(word, one), variable(word, other)];
            let turned = [variable(word, other), variable(word, one)];
            let file = [lines(&terms), lines(&CLOSED)].concat();
            cases.push(case(&what, file, "yes,0,0,2,2,1,1,0"));
            let file = [lines(&turned), lines(&open)].concat();
            cases.push(case(&format!("{what}, ne"), file, "no,12,5,0,0,0,0,0"));
        }
        let terms = [34_463, 99_999].map(|name| variable(word, name));
        let file = [lines(&terms), lines(&open[..2])].concat();
        let name = format!("digits: {word}, ne, left open");
        cases.push(case(&name, file, "no,17,5,0,0,0,0,0"));
    }
    cases
}

/// The same with one name: x eq x denies x ne x. The name twice is one term.
fn one_name() -> Vec<Case> {
    let closed = ["A,ne,1,1,0,0", "S,ref,0,0,1,0", "S,cls,2,1,0,0"];
    let mut cases = Vec::new();
    for word in VARIABLES {
        for name in NAMES {
            let term = variable(word, name);
            let file = with_more(&[&term], &closed);
            let what = format!("digits: {word} {name}");
            cases.push(case(&what, file, "yes,0,0,1,1,2,1,0"));
            let twice = lines(&[term.as_str(), NUL, &term]);
            cases.push(case(&format!("{what} twice"), twice, "no,10,3,0,0,0,0,0"));
        }
    }
    cases
}

/// F with cap(r,r): that u is in r denies u ni r, and not u ni s.
fn one_name_for_two() -> Vec<Case> {
    let mut cases = Vec::new();
    for (one, other) in PAIRS {
        let file = |region: usize| {
            let terms = [
                variable("rfv", one),   // 1, u
                variable("rgv", one),   // 2, r
                variable("rgv", other), // 3, s
                "T,cap,2,2,0,0".into(), // 4, cap(r,r)
            ];
            let rest = [
                "A,in,1,4,0,0",                  // 1: u in cap(r,r)
                &format!("A,ni,1,{region},0,0"), // 2
                "S,cpe,1,0,0,0",                 // 3: u in r, 4: u in r
                "S,cls,3,2,0,0",                 // 8
            ];
            [lines(&terms), lines(&rest)].concat()
        };
        let what = format!("digits: F, {one} and {other}");
        let two = case(&format!("{what}, u ni s"), file(3), "no,12,8,0,0,0,0,0");
        let one = case(&format!("{what}, u ni r"), file(2), "yes,0,0,4,2,2,1,0");
        cases.extend([two, one]);
    }
    cases
}

/// "A name is 1 to [99,999] and is not a term number", not in part either.
fn names_near_numbers() -> Vec<Case> {
    let mut cases = Vec::new();
    for name in [10_001, 11_001, 16_385, 32_769, 65_537] {
        // w is term 1, r has a name that ends with its number.
        let file = [
            "T,rfv,99999,0,0,0",    // 1, w
            &variable("rgv", name), // 2, r
            "A,ne,2,2,0,0",         // 1: r ne r
            "S,ext,1,0,0,1",        // 2: w in r, 3: w ni r
            "S,cls,2,3,0,0",        // 2: w ni r, 3: w in r
            "S,cls,3,2,0,0",
        ];
        let what = format!("digits: a fresh w beside the name {name}");
        cases.push(case(&what, lines(&file), "yes,0,0,2,1,3,2,0"));
    }
    for (word, more) in VARIABLES
        .iter()
        .zip([10_000, 65_536, 20_000, 32_768, 16_384])
    {
        // Terms 3 and 4 are equal, and the names of 1 and 2 end with 3 and 4.
        let file: [&str; 8] = [
            &variable(word, more + 3), // 1, x
            &variable(word, more + 4), // 2, y
            U,                         // 3
            V,                         // 4
            "A,eq,3,4,0,0",            // 1: u eq v
            "A,ne,1,2,0,0",            // 2: x ne y
            "S,sub,1,0,1,2",           // 7
            "S,cls,3,2,0,0",
        ];
        let what = format!("digits: sub on {word} {} and {}", more + 3, more + 4);
        cases.push(case(&what, lines(&file), "no,12,7,0,0,0,0,0"));
    }
    cases
}

/// Names that differ by multiples of 10,000 and of 2^13.
pub fn spread_names() -> Vec<usize> {
    let mut names = Vec::new();
    for low in 1..=3 {
        names.extend((0..=9).map(|times| low + times * 10_000));
        names.extend((1..=12).map(|times| low + times * 8_192));
    }
    names
}

/// All of them under each word, 66 to a word.
pub fn many_variables() -> Vec<String> {
    let mut terms = Vec::new();
    for word in VARIABLES {
        terms.extend(spread_names().into_iter().map(|name| variable(word, name)));
    }
    terms
}

/// A name and its word together are another variable too, and no other term.
fn many_names() -> Vec<Case> {
    let others = [
        NUL,
        EMP,
        ALL,
        "T,sin,1,0,0,0",
        "T,typ,1,0,0,0",
        "T,dty,4,0,0,0",
        "T,cup,2,2,0,0",
        "T,cap,2,2,0,0",
        "T,dif,2,2,0,0",
        "T,rea,3,1,4,0",
        "T,img,3,2,4,0",
        "T,wri,3,1,4,1",
    ];
    // The five named 1 come first, as the other terms are made of them.
    let mut terms = VARIABLES.map(|word| variable(word, 1)).to_vec();
    terms.extend(others.map(String::from));
    let more = many_variables().into_iter();
    terms.extend(more.filter(|line| !line.ends_with("v,1,0,0,0")));
    let file = |terms: &[String]| [lines(terms), lines(&CLOSED)].concat();
    // 5 + 12 + 5 * 65
    let mut cases = vec![case(
        "digits: 330 variables",
        file(&terms),
        "yes,0,0,342,2,1,1,0",
    )];
    for again in [
        "T,rfv,90001,0,0,0",
        "T,rgv,98307,0,0,0",
        "T,clv,65539,0,0,0",
    ] {
        let with_again = [&terms[..], &[again.into()]].concat();
        let name = format!("digits: 330 variables, {again} again");
        cases.push(case(&name, file(&with_again), "no,10,343,0,0,0,0,0"));
    }
    cases
}

/// A variable of each word, and a proof that needs them all.
pub const FIVE: [&str; 20] = [
    "T,rfv,99999,0,0,0", // 1, u
    "T,rgv,99999,0,0,0", // 2, r
    "T,arv,99999,0,0,0", // 3, h
    "T,fnv,99999,0,0,0", // 4, f
    "T,clv,99999,0,0,0", // 5, c
    "T,img,3,2,4,0",     // 6, i = img(h,r,f)
    "T,typ,1,0,0,0",     // 7, typ(u)
    "T,dty,4,0,0,0",     // 8, dty(f)
    "T,rea,3,1,4,0",     // 9, rea(h,u,f)
    "T,all,0,0,0,0",     // 10
    "A,in,1,2,0,0",      // 11, 1: u in r
    "A,eq,5,7,0,0",      // 12, 2: c eq typ(u)
    "A,le,5,8,0,0",      // 13, 3: c le dty(f)
    "A,in,9,10,0,0",     // 14, 4: rea(h,u,f) in all
    "A,ni,9,6,0,0",      // 15, 5: rea(h,u,f) ni i
    "S,rep,3,2,1,0",     // 16, 6: typ(u) le dty(f)
    "S,img,1,0,6,0",     // 17, 7: typ(u) nl dty(f)
    "S,cls,6,7,0,0",     // 18, 7: rea(h,u,f) ni all
    "S,cls,4,7,0,0",     // 19, 7: rea(h,u,f) in i
    "S,cls,7,5,0,0",     // 20
];

fn five_digits_throughout() -> Vec<Case> {
    let f = [
        (1, "T,rfv,99999,0,0,0"),
        (2, "T,rgv,99999,0,0,0"),
        (3, "T,rgv,10000,0,0,0"),
    ];
    let f_and = |change| with_lines(&F, &[&f[..], &[change]].concat());
    let mut cases = vec![
        case("digits: F", with_lines(&F, &f), "yes,0,0,4,2,2,1,0"),
        case("digits: G", with_lines(&G, &f), "yes,0,0,4,3,3,2,0"),
        case(
            "digits: F, line 3 same as line 2",
            f_and((3, "T,rgv,99999,0,0,0")),
            "no,10,3,0,0,0,0,0",
        ),
        case(
            "digits: F, line 8 on other places",
            f_and((8, "S,cls,2,3,0,0")),
            "no,12,8,0,0,0,0,0",
        ),
        case(
            "digits: F, a leading zero",
            f_and((1, "T,rfv,01,0,0,0")),
            "no,2,1,0,0,0,0,0",
        ),
    ];
    for name in NAMES {
        let file = FIVE.map(|line| line.replace("99999", &name.to_string()));
        let what = format!("digits: five variables {name}");
        cases.push(case(&what, lines(&file), "yes,0,0,10,5,5,3,0"));
    }
    // One variable has another name, or is there a second time.
    for (number, word) in (1..).zip(VARIABLES) {
        let other = variable(word, 34_463);
        let name = "digits: five variables";
        let reply = "yes,0,0,10,5,5,3,0";
        cases.push(with_line_case(name, &FIVE, (number, &other), reply));
        let again = variable(word, 99_999);
        let changed = with_line_case(name, &FIVE, (10, &again), "no,10,10,0,0,0,0,0");
        cases.push(changed);
    }
    cases
}

/// 600 names of five digits, each on a line of 18 bytes, two A lines of 15; then
/// eight times a cut of 16 bytes, whose first alternative takes 388 `ref` lines
/// of 14 and closes, and the last alternative with its own count of them.
fn sized(last_name: usize, last: usize) -> Vec<u8> {
    let mut file = references(99_401, 599);
    file.push(variable("rgv", last_name));
    let (cut, refl, close) = ("S,cut,0,0,1,600", "S,ref,0,0,1,0", "S,cls,1,2,0,0");
    let mut parts = vec![(1, "A,in,1,600,0,0"), (1, "A,ni,1,600,0,0")];
    for _ in 0..8 {
        parts.extend([(1, cut), (388, refl), (1, close)]);
    }
    parts.extend([(last, refl), (1, close)]);
    [lines(&file), runs(&parts)].concat()
}

fn sixty_thousand_bytes() -> Vec<Case> {
    // 600*18 + 2*15 + 8*16 + 3494*14 + 9*14, with 8*388 + 390 refs.
    let full = sized(99_999, 390);
    assert_eq!(full.len(), 60_000);
    // A digit more, and that with a line less.
    let over = sized(100_000, 390);
    assert_eq!(over.len(), 60_001);
    let six = sized(100_000, 389);
    // Lines of 30 bytes.
    let terms = "T,wri,99999,99999,99999,99999";
    let steps = "S,cls,99999,99999,99999,99999";
    vec![
        case("digits: 60,000 bytes", full, "yes,0,0,600,2,3511,9,0"),
        case("digits: 60,001 bytes", over, "no,1,0,0,0,0,0,0"),
        case("digits: 59,987 bytes", six, "no,2,600,0,0,0,0,0"),
        case(
            "digits: 60,000 bytes of T lines",
            runs(&[(2000, terms)]),
            "no,8,1,0,0,0,0,0",
        ),
        case(
            "digits: 60,030 bytes of T lines",
            runs(&[(2001, terms)]),
            "no,1,0,0,0,0,0,0",
        ),
        case(
            "digits: 60,000 bytes of S lines",
            runs(&[(2000, steps)]),
            "no,6,1,0,0,0,0,0",
        ),
    ]
}
