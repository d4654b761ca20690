//! The example of each refusal number, more ways to meet numbers 1 to 10, and
//! lines that break two checks. The examples of 12 and 17 are marked cases.

use super::{
    case, lines, runs, with_line, with_lines, with_more, Case, ALL, EMP, F, FIELD, G, HEAP, NUL, R,
    S, U, V,
};

pub fn cases() -> Vec<Case> {
    let groups = [
        examples(),
        too_long(),
        shapes_of_a_line(),
        shapes_of_a_file(),
        letters_out_of_order(),
        words_of_other_letters(),
        words_of_no_letter(),
        fir_is_no_rule(),
        after_the_last_closing(),
        unused_fields(),
        terms_not_made(),
        wrong_sorts_of_arguments(),
        wrong_sorts_of_literals(),
        sorts_of_made_terms(),
        terms_made_twice(),
        terms_nearly_the_same(),
        left_open(),
        two_checks_broken(),
        two_checks_broken_by_w(),
        two_checks_broken_by_term_601(),
        two_checks_broken_by_literal_1001(),
        first_bad_line(),
    ];
    groups.into_iter().flatten().collect()
}

/// F with one line changed, or with a ninth.
fn f_with(number: usize, line: &str, reply: &'static str) -> Case {
    let file = match number {
        9 => with_more(&F, &[line]),
        _ => with_line(&F, number, line),
    };
    case(&format!("numbers: F, line {number} {line:?}"), file, reply)
}

/// 600 lines, terms 1 to 600.
fn references() -> Vec<String> {
    (1..=600)
        .map(|name| format!("T,rfv,{name},0,0,0"))
        .collect()
}

fn examples() -> Vec<Case> {
    let region_first = [R, "T,sin,1,0,0,0"];
    let mut terms = references();
    terms.push("T,rfv,601,0,0,0".into());
    let a_lines = [(1, U), (1, R), (1001, "A,in,1,2,0,0")];
    let cuts = [(1, U), (1, R), (201, "S,cut,0,0,1,2")];
    let w_reused = [
        U,               // 1, w
        R,               // 2
        S,               // 3
        "A,ne,2,3,0,0",  // 1: r ne s
        "S,ext,1,0,0,1", // 2: w in r, 3: w ni s
        "S,ext,1,0,0,1",
    ];
    vec![
        case("numbers: 1", vec![b'\n'; 60_001], "no,1,0,0,0,0,0,0"),
        f_with(1, "T,nul,0,0,0", "no,2,1,0,0,0,0,0"),
        f_with(8, "A,in,1,2,0,0", "no,3,8,0,0,0,0,0"),
        f_with(4, "T,cut,1,2,0,0", "no,4,4,0,0,0,0,0"),
        f_with(9, "S,ref,0,0,1,0", "no,5,9,0,0,0,0,0"),
        f_with(8, "S,cls,3,2,1,0", "no,6,8,0,0,0,0,0"),
        case("numbers: 7", lines(&terms), "no,7,601,0,0,0,0,0"),
        f_with(1, "T,rfv,0,0,0,0", "no,8,1,0,0,0,0,0"),
        case("numbers: 9", lines(&region_first), "no,9,2,0,0,0,0,0"),
        case("numbers: 10", lines(&[EMP, EMP]), "no,10,2,0,0,0,0,0"),
        f_with(7, "S,emp,0,0,0,0", "no,11,7,0,0,0,0,0"),
        case("numbers: 13", lines(&w_reused), "no,13,6,0,0,0,0,2"),
        f_with(7, "S,all,1,0,0,0", "no,14,7,0,0,0,0,0"),
        case("numbers: 15", runs(&a_lines), "no,15,1003,0,0,0,0,0"),
        case("numbers: 16", runs(&cuts), "no,16,203,0,0,0,0,0"),
    ]
}

/// Number 1 comes before any line is read.
fn too_long() -> Vec<Case> {
    // 14 bytes each: 59,990 and 60,004.
    let fits = runs(&[(4285, U)]);
    let over = runs(&[(4286, U)]);
    vec![
        case(
            "numbers: 60,000 LFs",
            vec![b'\n'; 60_000],
            "no,2,1,0,0,0,0,0",
        ),
        case(
            "numbers: 60,000 letters",
            vec![b'T'; 60_000],
            "no,2,1,0,0,0,0,0",
        ),
        case(
            "numbers: 60,001 letters",
            vec![b'T'; 60_001],
            "no,1,0,0,0,0,0,0",
        ),
        case(
            "numbers: 200,000 zeros",
            vec![0; 200_000],
            "no,1,0,0,0,0,0,0",
        ),
        case("numbers: one term 4,285 times", fits, "no,10,2,0,0,0,0,0"),
        case("numbers: one term 4,286 times", over, "no,1,0,0,0,0,0,0"),
    ]
}

fn shapes_of_a_line() -> Vec<Case> {
    let first = [
        // fields missing, added, empty
        "T",
        "T,rfv",
        "T,rfv,1,0,0",
        "T,rfv,1,0,0,0,0",
        "T,rfv,1,0,0,0,",
        ",T,rfv,1,0,0,0",
        ",rfv,1,0,0,0",
        "T,,1,0,0,0",
        "T,rfv,,0,0,0",
        "T,rfv,1,,0,0",
        "T,rfv,1,0,,0",
        "T,rfv,1,0,0,",
        ",,,,,",
        "",
        // letters
        "B,rfv,1,0,0,0",
        "t,rfv,1,0,0,0",
        "1,rfv,1,0,0,0",
        "TT,rfv,1,0,0,0",
        "TA,rfv,1,0,0,0",
        // words
        "T,r,1,0,0,0",
        "T,rfvv,1,0,0,0",
        "T,Rfv,1,0,0,0",
        "T,rFv,1,0,0,0",
        "T,rfV,1,0,0,0",
        "T,RFV,1,0,0,0",
        "T,rf1,1,0,0,0",
        "T,1fv,1,0,0,0",
        "T,r-v,1,0,0,0",
        "T,rf{,1,0,0,0",
        "T,`fv,1,0,0,0",
        "T,r\u{e9},1,0,0,0",
        // numbers
        "T,rfv,1,00,0,0",
        "T,rfv,1,0,0,00",
        "T,rfv,1,0,0,0000",
        "T,rfv,0001,0,0,0",
        "T,rfv,100000,0,0,0",
        "T,rfv,1,0,0,00000",
        "T,rfv,18446744073709551617,0,0,0",
        "T,rfv,-1,0,0,0",
        "T,rfv,+1,0,0,0",
        "T,rfv,-0,0,0,0",
        "T,rfv,1.0,0,0,0",
        "T,rfv,0x1,0,0,0",
        "T,rfv,1a,0,0,0",
        "T,rfv,a,0,0,0",
        "T,rfv,:,0,0,0",
        "T,rfv,/,0,0,0",
        "T,rfv,\u{ff11},0,0,0",
        // spaces, quotes, other parting, other line ends
        " T,rfv,1,0,0,0",
        "T ,rfv,1,0,0,0",
        "T, rfv,1,0,0,0",
        "T,rfv ,1,0,0,0",
        "T,r v,1,0,0,0",
        "T,rfv, 1,0,0,0",
        "T,rfv,1 ,0,0,0",
        "T,rfv,1,0,0, 0",
        "T,rfv,1,0,0,0 ",
        "T,rfv,1,0,0,0\t",
        "\"T\",rfv,1,0,0,0",
        "T,\"rfv\",1,0,0,0",
        "T,rfv,\"1\",0,0,0",
        "T;rfv;1;0;0;0",
        "T\trfv\t1\t0\t0\t0",
        "T rfv 1 0 0 0",
        "T,rfv,1;0,0,0",
        "T,rfv,1,0,0,0\r",
        "\rT,rfv,1,0,0,0",
        "T,rfv,1,0,0,0\0",
        "\u{feff}T,rfv,1,0,0,0",
    ];
    let mut cases: Vec<Case> = first
        .iter()
        .map(|line| f_with(1, line, "no,2,1,0,0,0,0,0"))
        .collect();
    cases.extend([
        f_with(4, "T,cap,2,03,0,0", "no,2,4,0,0,0,0,0"),
        f_with(5, "A,in,1,4,0", "no,2,5,0,0,0,0,0"),
        f_with(5, "a,in,1,4,0,0", "no,2,5,0,0,0,0,0"),
        f_with(5, "A,i,1,4,0,0", "no,2,5,0,0,0,0,0"),
        f_with(5, "A,in,1,4,0,0,0", "no,2,5,0,0,0,0,0"),
        f_with(6, "A,ni,1,2,0,0\r", "no,2,6,0,0,0,0,0"),
        f_with(7, "S,cpe,01,0,0,0", "no,2,7,0,0,0,0,0"),
        f_with(7, "S,cpe,1,0,0,", "no,2,7,0,0,0,0,0"),
        f_with(8, "S,cls,3,2,0,00000", "no,2,8,0,0,0,0,0"),
        f_with(8, "S,clse,3,2,0,0", "no,2,8,0,0,0,0,0"),
        f_with(8, "s,cls,3,2,0,0", "no,2,8,0,0,0,0,0"),
        // Names of four and of five digits are well shaped.
        f_with(1, "T,rfv,9999,0,0,0", "yes,0,0,4,2,2,1,0"),
        f_with(1, "T,rfv,1000,0,0,0", "yes,0,0,4,2,2,1,0"),
        f_with(1, "T,rfv,10000,0,0,0", "yes,0,0,4,2,2,1,0"),
    ]);
    cases
}

fn shapes_of_a_file() -> Vec<Case> {
    let f = lines(&F);
    let text = String::from_utf8(f.clone()).unwrap();
    let without_lf = f[..f.len() - 1].to_vec();
    let mut byte_255 = f.clone();
    byte_255[0] = 255;
    let mut zero_at_the_end = f.clone();
    zero_at_the_end.push(0);
    let two_lfs = [&F[..4], &[""], &F[4..]].concat();
    let lf_first = [&[""], &F[..]].concat();
    let last_unended = [f.clone(), b"S,ref,0,0,1,0".to_vec()].concat();
    let rows = [
        ("F without its last LF", without_lf, "no,2,8,0,0,0,0,0"),
        (
            "F with CR LF",
            text.replace('\n', "\r\n").into(),
            "no,2,1,0,0,0,0,0",
        ),
        (
            "F with CR for LF",
            text.replace('\n', "\r").into(),
            "no,2,1,0,0,0,0,0",
        ),
        (
            "F on one line",
            text.replace('\n', "").into(),
            "no,2,1,0,0,0,0,0",
        ),
        // The second LF ends a line 5 that has no fields.
        (
            "F, two LFs after line 4",
            lines(&two_lfs),
            "no,2,5,0,0,0,0,0",
        ),
        ("F, an LF first", lines(&lf_first), "no,2,1,0,0,0,0,0"),
        (
            "F, an LF more at the end",
            with_more(&F, &[""]),
            "no,2,9,0,0,0,0,0",
        ),
        (
            "F, a ninth line without LF",
            last_unended,
            "no,2,9,0,0,0,0,0",
        ),
        ("F and a zero byte", zero_at_the_end, "no,2,9,0,0,0,0,0"),
        ("F, first byte 255", byte_255, "no,2,1,0,0,0,0,0"),
        ("one LF", b"\n".to_vec(), "no,2,1,0,0,0,0,0"),
        ("one T", b"T".to_vec(), "no,2,1,0,0,0,0,0"),
        ("one T line without LF", U.into(), "no,2,1,0,0,0,0,0"),
    ];
    rows.into_iter()
        .map(|(what, file, reply)| case(&format!("numbers: {what}"), file, reply))
        .collect()
}

fn letters_out_of_order() -> Vec<Case> {
    let no_a = [U, "S,ref,0,0,1,0", "T,rfv,2,0,0,0"];
    vec![
        f_with(6, "T,rfv,2,0,0,0", "no,3,6,0,0,0,0,0"),
        f_with(8, "T,rfv,2,0,0,0", "no,3,8,0,0,0,0,0"),
        f_with(9, "T,rfv,2,0,0,0", "no,3,9,0,0,0,0,0"),
        f_with(9, "A,in,1,2,0,0", "no,3,9,0,0,0,0,0"),
        case("numbers: T S T", lines(&no_a), "no,3,3,0,0,0,0,0"),
        // Any kind may be missing: not 3, but the line finds no term, no place.
        case(
            "numbers: A first",
            lines(&["A,in,1,2,0,0"]),
            "no,8,1,0,0,0,0,0",
        ),
        case(
            "numbers: S first",
            lines(&["S,ref,0,0,1,0"]),
            "no,8,1,0,0,0,0,0",
        ),
        case(
            "numbers: S first, on a place",
            lines(&["S,emp,1,0,0,0"]),
            "no,11,1,0,0,0,0,0",
        ),
    ]
}

const TERM_WORDS: [&str; 13] = [
    "rfv", "rea", "rgv", "cup", "cap", "dif", "sin", "arv", "wri", "fnv", "clv", "typ", "dty",
];
const TERM_AND_RULE_WORDS: [&str; 4] = ["nul", "emp", "all", "img"];
const LITERAL_WORDS: [&str; 6] = ["in", "ni", "eq", "ne", "le", "nl"];
const RULE_WORDS: [&str; 27] = [
    "eqr", "eql", "ext", "cpe", "cpi", "cue", "cui", "dfe", "dfi", "sge", "sgi", "cut", "sep",
    "wit", "ref", "sym", "trn", "sub", "rep", "ler", "let", "lea", "rdh", "rdm", "cls", "cla",
    "fin",
];

/// The words of terms and of rules, none of them a literal's.
pub fn words_of_no_literal() -> Vec<&'static str> {
    [&TERM_WORDS[..], &TERM_AND_RULE_WORDS, &RULE_WORDS].concat()
}

fn words_of_other_letters() -> Vec<Case> {
    let mut cases = Vec::new();
    for word in [&LITERAL_WORDS[..], &RULE_WORDS].concat() {
        cases.push(f_with(4, &format!("T,{word},0,0,0,0"), "no,4,4,0,0,0,0,0"));
    }
    for word in words_of_no_literal() {
        cases.push(f_with(5, &format!("A,{word},1,4,0,0"), "no,4,5,0,0,0,0,0"));
    }
    for word in [&TERM_WORDS[..], &LITERAL_WORDS].concat() {
        cases.push(f_with(7, &format!("S,{word},1,0,0,0"), "no,4,7,0,0,0,0,0"));
    }
    cases
}

fn words_of_no_letter() -> Vec<Case> {
    let mut cases = Vec::new();
    for word in [
        "xyz", "aa", "rf", "fv", "nu", "ul", "rfa", "xfv", "zzz", "fir",
    ] {
        cases.push(f_with(1, &format!("T,{word},1,0,0,0"), "no,4,1,0,0,0,0,0"));
    }
    for word in [
        "xy", "xyz", "im", "on", "ein", "inn", "ins", "eqq", "fir", "fi", "ir",
    ] {
        cases.push(f_with(5, &format!("A,{word},1,4,0,0"), "no,4,5,0,0,0,0,0"));
    }
    for word in [
        "xyz", "cp", "pe", "cpx", "cxe", "xpe", "fir", "fi", "ir", "fim", "fan", "ain",
    ] {
        cases.push(f_with(7, &format!("S,{word},1,0,0,0"), "no,4,7,0,0,0,0,0"));
    }
    cases
}

/// In older files `fir` is a rule that takes a fresh w and adds w in `all`. Now
/// it is a word like any other that no letter has: whatever its fields hold, it
/// gets 4, unless the line meets 2 or 3.
fn fir_is_no_rule() -> Vec<Case> {
    let mut cases = Vec::new();
    // 2, also where the tree is closed.
    for (number, line) in [
        (1, "T,fir,01,0,0,0"),
        (5, "A,fir,1,4,0"),
        (7, "S,fir,0,0,0"),
        (7, "S,fir,0,0,0,"),
        (7, "S,fir,0,0,0,1,0"),
        (7, "S,fir,0,0,0,01"),
        (7, "S,fir,0,0,0,00"),
        (7, "S,fir,0,0,0,100000"),
        (7, "S,fir,0,0,0,-1"),
        (7, "S,fir,0,0,0,1 "),
        (7, "S,fir ,0,0,0,1"),
        (7, "S,fir,0,0,0,1\r"),
        (7, "S,firr,0,0,0,1"),
        (7, "S,f,0,0,0,1"),
        (7, "S,Fir,0,0,0,1"),
        (7, "S,FIR,0,0,0,1"),
        (7, "s,fir,0,0,0,1"),
    ] {
        let reply = match number {
            1 => "no,2,1,0,0,0,0,0",
            5 => "no,2,5,0,0,0,0,0",
            _ => "no,2,7,0,0,0,0,0",
        };
        cases.push(f_with(number, line, reply));
    }
    cases.extend([
        f_with(9, "S,fir,0,0,0", "no,2,9,0,0,0,0,0"),
        f_with(9, "S,fir,0,0,0,01", "no,2,9,0,0,0,0,0"),
        // 3 is for T and A lines alone.
        f_with(6, "T,fir,1,0,0,0", "no,3,6,0,0,0,0,0"),
        f_with(8, "T,fir,1,0,0,0", "no,3,8,0,0,0,0,0"),
        f_with(8, "A,fir,1,2,0,0", "no,3,8,0,0,0,0,0"),
        f_with(9, "A,fir,1,2,0,0", "no,3,9,0,0,0,0,0"),
    ]);
    // Fields for which a rule would get 6, 8, 11, 12 or 13.
    for fields in [
        "0,0,0,1", // u is on the branch: not fresh
        "0,0,0,2", // r is no rfv
        "0,0,0,0",
        "0,0,0,5",
        "0,0,0,9999",
        "0,1,0,1",
        "0,0,1,1",
        "1,0,0,1", // the fields of ext, where place 1 is no ne
        "3,0,0,1", // there is no place 3
        "1,1,1,1",
        "3,2,0,0", // the fields of the closing
        "9999,9999,9999,9999",
        "0,0,0,10000",
        "99999,99999,99999,99999",
    ] {
        let line = format!("S,fir,{fields}");
        cases.push(f_with(7, &line, "no,4,7,0,0,0,0,0"));
        // After the last closing, where any rule gets 5.
        cases.push(f_with(9, &line, "no,4,9,0,0,0,0,0"));
    }
    cases.extend(fir_elsewhere());
    cases
}

fn fir_elsewhere() -> Vec<Case> {
    let step = "S,fir,0,0,0,1";
    let unended = [lines(&F[..6]), step.into()].concat();
    let unended_when_closed = [lines(&F), step.into()].concat();
    let rows = [
        ("first of all", lines(&[step]), "no,4,1,0,0,0,0,0"),
        ("without LF", unended, "no,2,7,0,0,0,0,0"),
        (
            "without LF, closed",
            unended_when_closed,
            "no,2,9,0,0,0,0,0",
        ),
        ("after G", with_more(&G, &[step]), "no,4,11,0,0,0,0,0"),
        // w is fresh. `all` stands in the table, or does not.
        ("w fresh", lines(&[U, ALL, step]), "no,4,3,0,0,0,0,0"),
        ("w fresh, no all", lines(&[U, step]), "no,4,2,0,0,0,0,0"),
        ("twice", lines(&[U, ALL, step, step]), "no,4,3,0,0,0,0,0"),
        (
            "instead of the last closing",
            with_line(&F, 8, step),
            "no,4,8,0,0,0,0,0",
        ),
        // Of 14 bytes each: 59,990 and 60,004.
        ("4,285 times", runs(&[(4285, step)]), "no,4,1,0,0,0,0,0"),
        ("4,286 times", runs(&[(4286, step)]), "no,1,0,0,0,0,0,0"),
        // Of two bad lines the first counts.
        (
            "12 on the next line",
            with_lines(&F, &[(7, step), (8, "S,cls,2,3,0,0")]),
            "no,4,7,0,0,0,0,0",
        ),
        (
            "12 on the line before",
            with_lines(&F, &[(7, "S,cpe,2,0,0,0"), (8, step)]),
            "no,12,7,0,0,0,0,0",
        ),
        (
            "10 on line 3",
            with_lines(&F, &[(3, F[1]), (7, step)]),
            "no,10,3,0,0,0,0,0",
        ),
    ];
    rows.into_iter()
        .map(|(what, file, reply)| case(&format!("numbers: fir, {what}"), file, reply))
        .collect()
}

fn after_the_last_closing() -> Vec<Case> {
    let rows = [
        "S,emp,1,0,0,0",
        "S,cut,0,0,1,2",
        "S,cpe,1,0,0,0",
        "S,cls,1,2,0,0",
        "S,fin,1,0,0,0",
    ];
    let mut cases: Vec<Case> = rows
        .iter()
        .map(|line| f_with(9, line, "no,5,9,0,0,0,0,0"))
        .collect();
    cases.push(case(
        "numbers: G, one step more",
        with_more(&G, &["S,ref,0,0,1,0"]),
        "no,5,11,0,0,0,0,0",
    ));
    cases
}

/// One term of each sort, all named 1, and a sixth to be changed.
const SORTS: [&str; 9] = [
    U,               // 1, reference
    R,               // 2, region
    HEAP,            // 3
    FIELD,           // 4
    "T,clv,1,0,0,0", // 5, class
    NUL,             // 6
    "A,in,1,2,0,0",
    "A,ni,1,2,0,0",
    "S,cls,1,2,0,0",
];

/// A right line 6 for each word, and the term of its sort.
const PLAIN: [(&str, usize); 3] = [(NUL, 1), (EMP, 2), ("T,all,0,0,0,0", 2)];
const NAMED: [(&str, usize); 5] = [
    ("T,rfv,2,0,0,0", 1),
    ("T,rgv,2,0,0,0", 2),
    ("T,arv,2,0,0,0", 3),
    ("T,fnv,2,0,0,0", 4),
    ("T,clv,2,0,0,0", 5),
];
const BUILT: [(&str, usize); 9] = [
    ("T,rea,3,1,4,0", 1),
    ("T,cup,2,2,0,0", 2),
    ("T,cap,2,2,0,0", 2),
    ("T,dif,2,2,0,0", 2),
    ("T,sin,1,0,0,0", 2),
    ("T,img,3,2,4,0", 2),
    ("T,wri,3,1,4,1", 3),
    ("T,typ,1,0,0,0", 5),
    ("T,dty,4,0,0,0", 5),
];

/// A right line 7 for each word of a literal.
const LITERALS: [&str; 6] = [
    "A,in,1,2,0,0",
    "A,ni,1,2,0,0",
    "A,eq,1,1,0,0",
    "A,ne,1,1,0,0",
    "A,le,5,5,0,0",
    "A,nl,5,5,0,0",
];

fn sorts_with(number: usize, line: &str, reply: &'static str) -> Case {
    case(
        &format!("numbers: sorts, line {number} {line}"),
        with_line(&SORTS, number, line),
        reply,
    )
}

/// The line with another number in a field, 3 to 6.
pub fn with_field(line: &str, field: usize, number: usize) -> String {
    let mut fields: Vec<String> = line.split(',').map(String::from).collect();
    fields[field - 1] = number.to_string();
    fields.join(",")
}

/// The numbers in a right line's fields 3 to 6; 0 is an unused field.
pub fn numbers_of(line: &str) -> Vec<(usize, usize)> {
    let numbers = line.split(',').skip(2).map(|text| text.parse().unwrap());
    (3..=6).zip(numbers).collect()
}

fn unused_fields() -> Vec<Case> {
    let mut cases = Vec::new();
    for (line, _) in [&PLAIN[..], &NAMED, &BUILT].concat() {
        for (field, _) in numbers_of(line).into_iter().filter(|&(_, n)| n == 0) {
            let line = with_field(line, field, 1);
            cases.push(sorts_with(6, &line, "no,6,6,0,0,0,0,0"));
        }
    }
    for line in LITERALS {
        for field in [5, 6] {
            let line = with_field(line, field, 1);
            cases.push(sorts_with(7, &line, "no,6,7,0,0,0,0,0"));
        }
    }
    cases
}

/// Arguments of line 6: no term, the line's own term, a term never made. Of
/// line 7: no term, term 7 of 6, a term never made.
fn terms_not_made() -> Vec<Case> {
    let mut cases = Vec::new();
    for (line, _) in NAMED {
        let line = with_field(line, 3, 0);
        cases.push(sorts_with(6, &line, "no,8,6,0,0,0,0,0"));
    }
    for (line, _) in BUILT {
        for (field, _) in numbers_of(line).into_iter().filter(|&(_, n)| n != 0) {
            for number in [0, 6, 9999] {
                let line = with_field(line, field, number);
                cases.push(sorts_with(6, &line, "no,8,6,0,0,0,0,0"));
            }
        }
    }
    for line in LITERALS {
        for field in [3, 4] {
            for number in [0, 7, 9999] {
                let line = with_field(line, field, number);
                cases.push(sorts_with(7, &line, "no,8,7,0,0,0,0,0"));
            }
        }
    }
    cases
}

/// Terms 1 to 5 have five sorts, so each but the right one is wrong.
fn wrong_sorts_of_arguments() -> Vec<Case> {
    let mut cases = Vec::new();
    for (line, _) in BUILT {
        for (field, right) in numbers_of(line).into_iter().filter(|&(_, n)| n != 0) {
            for wrong in (1..=5).filter(|&term| term != right) {
                let line = with_field(line, field, wrong);
                cases.push(sorts_with(6, &line, "no,9,6,0,0,0,0,0"));
            }
        }
    }
    cases
}

/// Literals on terms 1 to 5 that have a wrong sort: reference, region, heap,
/// field and class.
pub fn literals_of_wrong_sorts() -> Vec<String> {
    let mut wrong = Vec::new();
    for left in 1..=5 {
        for right in 1..=5 {
            let mut words = Vec::new();
            if (left, right) != (1, 2) {
                words.extend(["in", "ni"]);
            }
            if left != right {
                words.extend(["eq", "ne"]);
            }
            if (left, right) != (5, 5) {
                words.extend(["le", "nl"]);
            }
            wrong.extend(words.iter().map(|word| format!("{word},{left},{right}")));
        }
    }
    wrong
}

fn wrong_sorts_of_literals() -> Vec<Case> {
    let mut cases = Vec::new();
    for literal in literals_of_wrong_sorts() {
        let line = format!("A,{literal},0,0");
        cases.push(sorts_with(7, &line, "no,9,7,0,0,0,0,0"));
    }
    cases
}

/// `eq` takes term 6 with the term of its sort and with no other.
fn sorts_of_made_terms() -> Vec<Case> {
    let mut cases = Vec::new();
    for (line, right) in [&PLAIN[..], &NAMED, &BUILT].concat() {
        for term in 1..=5 {
            let eq = format!("A,eq,6,{term},0,0");
            let ne = format!("A,ne,6,{term},0,0");
            let file = with_lines(&SORTS, &[(6, line), (7, &eq), (8, &ne)]);
            let reply = if term == right {
                "yes,0,0,6,2,1,1,0"
            } else {
                "no,9,7,0,0,0,0,0"
            };
            cases.push(case(
                &format!("numbers: {line} beside term {term}"),
                file,
                reply,
            ));
        }
    }
    cases
}

fn terms_made_twice() -> Vec<Case> {
    let mut cases: Vec<Case> = SORTS[..5]
        .iter()
        .map(|line| sorts_with(6, line, "no,10,6,0,0,0,0,0"))
        .collect();
    for (line, _) in [&PLAIN[..], &NAMED, &BUILT].concat() {
        cases.push(case(
            &format!("numbers: {line} twice"),
            with_lines(&SORTS, &[(6, line), (7, line)]),
            "no,10,7,0,0,0,0,0",
        ));
    }
    cases
}

/// One name in five sorts, the arguments in other orders, other words on the
/// same arguments: all are other terms.
fn terms_nearly_the_same() -> Vec<Case> {
    let more = [
        "T,rfv,2,0,0,0", // 6
        "T,rgv,2,0,0,0", // 7
        "T,cup,2,7,0,0",
        "T,cup,7,2,0,0",
        "T,cup,2,2,0,0",
        "T,cap,2,7,0,0",
        "T,cap,7,2,0,0",
        "T,dif,2,7,0,0",
        "T,dif,7,2,0,0",
        "T,wri,3,1,4,6",
        "T,wri,3,6,4,1",
        "T,wri,3,1,4,1",
        "T,sin,1,0,0,0",
        "T,typ,1,0,0,0",
        "T,sin,6,0,0,0",
        "T,typ,6,0,0,0",
    ];
    let file = [&SORTS[..5], &more, &SORTS[6..]].concat();
    vec![case(
        "numbers: terms nearly the same",
        lines(&file),
        "yes,0,0,21,2,1,1,0",
    )]
}

fn left_open() -> Vec<Case> {
    let contradiction = [U, R, "A,in,1,2,0,0", "A,ni,1,2,0,0"];
    vec![
        case("numbers: one term", lines(&[U]), "no,17,2,0,0,0,0,0"),
        case("numbers: F to line 4", lines(&F[..4]), "no,17,5,0,0,0,0,0"),
        case("numbers: F to line 6", lines(&F[..6]), "no,17,7,0,0,0,0,0"),
        case("numbers: G to line 8", lines(&G[..8]), "no,17,9,0,0,0,0,0"),
        case(
            "numbers: contradiction not closed",
            lines(&contradiction),
            "no,17,5,0,0,0,0,0",
        ),
    ]
}

/// The smaller number is given.
fn two_checks_broken() -> Vec<Case> {
    vec![
        // 2 and 3, 4, 5, 6, 8
        f_with(8, "T,rfv,2,0,0", "no,2,8,0,0,0,0,0"),
        f_with(1, "T,xyz,01,0,0,0", "no,2,1,0,0,0,0,0"),
        f_with(9, "S,ref,0,0,01,0", "no,2,9,0,0,0,0,0"),
        f_with(1, "T,nul,1,0,0", "no,2,1,0,0,0,0,0"),
        f_with(1, "T,rfv,00,0,0,0", "no,2,1,0,0,0,0,0"),
        // 3 and 4, 6, 8, 9, 10
        f_with(6, "T,xyz,0,0,0,0", "no,3,6,0,0,0,0,0"),
        f_with(8, "A,cup,1,2,0,0", "no,3,8,0,0,0,0,0"),
        f_with(8, "A,in,1,2,1,0", "no,3,8,0,0,0,0,0"),
        f_with(8, "A,in,1,9,0,0", "no,3,8,0,0,0,0,0"),
        f_with(8, "A,in,2,1,0,0", "no,3,8,0,0,0,0,0"),
        f_with(6, "T,rgv,1,0,0,0", "no,3,6,0,0,0,0,0"),
        // 4 and 5, 6, 8
        f_with(9, "S,cap,2,3,0,0", "no,4,9,0,0,0,0,0"),
        f_with(7, "S,xyz,1,1,1,1", "no,4,7,0,0,0,0,0"),
        f_with(5, "A,cup,1,4,0,1", "no,4,5,0,0,0,0,0"),
        f_with(5, "A,sub,9,9,0,0", "no,4,5,0,0,0,0,0"),
        // 5 and 6, 8, 9, 11, 12, 14
        f_with(9, "S,ref,1,0,1,0", "no,5,9,0,0,0,0,0"),
        f_with(9, "S,ref,0,0,9,0", "no,5,9,0,0,0,0,0"),
        f_with(9, "S,ler,0,0,1,0", "no,5,9,0,0,0,0,0"),
        f_with(9, "S,emp,0,0,0,0", "no,5,9,0,0,0,0,0"),
        f_with(9, "S,cls,2,3,0,0", "no,5,9,0,0,0,0,0"),
        f_with(9, "S,all,1,0,0,0", "no,5,9,0,0,0,0,0"),
        f_with(9, "S,fin,1,0,0,1", "no,5,9,0,0,0,0,0"),
        f_with(9, "S,fin,9,0,0,0", "no,5,9,0,0,0,0,0"),
        // 6 and 8
        f_with(1, "T,rfv,0,0,0,1", "no,6,1,0,0,0,0,0"),
        f_with(5, "A,in,0,4,1,0", "no,6,5,0,0,0,0,0"),
        f_with(7, "S,ref,1,0,9,0", "no,6,7,0,0,0,0,0"),
        // 6 and 9
        f_with(4, "T,sin,2,1,0,0", "no,6,4,0,0,0,0,0"),
        f_with(5, "A,in,4,1,0,1", "no,6,5,0,0,0,0,0"),
        f_with(7, "S,ler,0,1,1,0", "no,6,7,0,0,0,0,0"),
        // 6 and 10, 11, 12, 14
        f_with(3, "T,rgv,1,0,0,1", "no,6,3,0,0,0,0,0"),
        f_with(7, "S,cpe,3,1,0,0", "no,6,7,0,0,0,0,0"),
        f_with(8, "S,cls,2,3,0,1", "no,6,8,0,0,0,0,0"),
        f_with(7, "S,all,1,0,1,0", "no,6,7,0,0,0,0,0"),
        f_with(7, "S,fin,3,1,0,0", "no,6,7,0,0,0,0,0"),
        f_with(7, "S,fin,1,0,1,0", "no,6,7,0,0,0,0,0"),
        // 8 and 9
        f_with(4, "T,cap,1,4,0,0", "no,8,4,0,0,0,0,0"),
        f_with(4, "T,cap,5,1,0,0", "no,8,4,0,0,0,0,0"),
        f_with(5, "A,in,2,9,0,0", "no,8,5,0,0,0,0,0"),
        f_with(5, "A,le,0,1,0,0", "no,8,5,0,0,0,0,0"),
        f_with(7, "S,cut,0,0,2,9", "no,8,7,0,0,0,0,0"),
        f_with(7, "S,cut,0,0,9,1", "no,8,7,0,0,0,0,0"),
        // 8 and 11, 12
        f_with(7, "S,cpi,3,3,9,0", "no,8,7,0,0,0,0,0"),
        f_with(7, "S,cui,2,0,9,0", "no,8,7,0,0,0,0,0"),
        f_with(7, "S,ext,1,0,0,9", "no,8,7,0,0,0,0,0"),
        // 11 and 12: the branch has two places
        f_with(7, "S,cls,2,3,0,0", "no,11,7,0,0,0,0,0"),
        f_with(7, "S,rep,1,3,3,0", "no,11,7,0,0,0,0,0"),
        f_with(7, "S,sub,3,0,1,2", "no,11,7,0,0,0,0,0"),
        // 11 and 13, 14
        f_with(7, "S,ext,3,0,0,1", "no,11,7,0,0,0,0,0"),
        f_with(7, "S,nul,0,0,0,0", "no,11,7,0,0,0,0,0"),
        f_with(7, "S,fin,3,0,0,0", "no,11,7,0,0,0,0,0"),
        // 12 and 13
        f_with(7, "S,ext,1,0,0,1", "no,12,7,0,0,0,0,0"),
        f_with(7, "S,wit,1,0,0,1", "no,12,7,0,0,0,0,0"),
        // 12 and 14: neither nul nor all nor a cup is in F's table
        f_with(7, "S,all,2,0,0,0", "no,12,7,0,0,0,0,0"),
        f_with(7, "S,nul,2,0,0,0", "no,12,7,0,0,0,0,0"),
        f_with(7, "S,sgi,0,0,4,0", "no,12,7,0,0,0,0,0"),
        f_with(7, "S,fin,1,0,0,0", "no,12,7,0,0,0,0,0"),
    ]
}

/// A w that is not fresh, or is no rfv, beside another check. The step is on
/// line 9, or on line 10 where the file has one line more before it.
fn two_checks_broken_by_w() -> Vec<Case> {
    let base = [
        U,               // 1
        R,               // 2
        HEAP,            // 3
        FIELD,           // 4
        "T,img,3,2,4,0", // 5, and no typ(u), dty(f), rea(h,u,f)
        "A,in,1,5,0,0",  // 1: u in img(h,r,f)
        "A,ne,2,2,0,0",  // 2: r ne r
        "A,eq,2,2,0,0",  // 3: r eq r
    ];
    let closing = "S,cls,3,2,0,0";
    let rows = [
        // 13 and nothing else: u is at place 1; r is no rfv
        ("S,ext,2,0,0,1", "no,13,9,0,0,0,0,1"),
        ("S,ext,2,0,0,2", "no,13,9,0,0,0,0,0"),
        // 6 and 13
        ("S,ext,2,1,0,1", "no,6,9,0,0,0,0,0"),
        ("S,ext,2,0,1,1", "no,6,9,0,0,0,0,0"),
        ("S,wit,1,1,0,1", "no,6,9,0,0,0,0,0"),
        ("S,wit,1,0,1,1", "no,6,9,0,0,0,0,0"),
        // 11 and 13
        ("S,ext,4,0,0,1", "no,11,9,0,0,0,0,0"),
        ("S,wit,0,0,0,1", "no,11,9,0,0,0,0,0"),
        // 12 and 13
        ("S,ext,3,0,0,1", "no,12,9,0,0,0,0,0"),
        ("S,wit,2,0,0,1", "no,12,9,0,0,0,0,0"),
        // 13 and 14
        ("S,wit,1,0,0,1", "no,13,9,0,0,0,0,1"),
        ("S,wit,1,0,0,2", "no,13,9,0,0,0,0,0"),
    ];
    let mut cases: Vec<Case> = rows
        .iter()
        .map(|&(step, reply)| {
            case(
                &format!("numbers: {step}"),
                with_more(&base, &[step]),
                reply,
            )
        })
        .collect();
    // 5 and 13
    for step in ["S,ext,2,0,0,1", "S,ext,2,0,0,2", "S,wit,1,0,0,1"] {
        cases.push(case(
            &format!("numbers: {step} after the last closing"),
            with_more(&base, &[closing, step]),
            "no,5,10,0,0,0,0,0",
        ));
    }
    // 14 alone: v is fresh, but there is no typ(v).
    cases.push(case(
        "numbers: wit with a fresh w",
        lines(&[&base[..5], &[V], &base[5..], &["S,wit,1,0,0,6"]].concat()),
        "no,14,10,0,0,0,0,0",
    ));
    cases
}

fn two_checks_broken_by_term_601() -> Vec<Case> {
    let rows = [
        ("T,rfv,0601,0,0,0", "no,2,601,0,0,0,0,0"),
        ("T,xyz,1,0,0,0", "no,4,601,0,0,0,0,0"),
        ("T,rfv,601,1,0,0", "no,6,601,0,0,0,0,0"),
        ("T,rfv,0,0,0,0", "no,7,601,0,0,0,0,0"),   // and 8
        ("T,typ,601,0,0,0", "no,7,601,0,0,0,0,0"), // and 8
        ("T,dty,1,0,0,0", "no,7,601,0,0,0,0,0"),   // and 9
        ("T,rfv,1,0,0,0", "no,7,601,0,0,0,0,0"),   // and 10
    ];
    let with = |line: &str| {
        let mut file = references();
        file.push(line.into());
        lines(&file)
    };
    rows.iter()
        .map(|&(line, reply)| case(&format!("numbers: term 601 {line}"), with(line), reply))
        .collect()
}

fn two_checks_broken_by_literal_1001() -> Vec<Case> {
    let rows = [
        ("A,in,1,2,0", "no,2,1003,0,0,0,0,0"),
        ("T,rfv,2,0,0,0", "no,3,1003,0,0,0,0,0"),
        ("A,cap,1,2,0,0", "no,4,1003,0,0,0,0,0"),
        ("A,in,1,2,1,0", "no,6,1003,0,0,0,0,0"),
        ("A,in,1,3,0,0", "no,8,1003,0,0,0,0,0"),
        ("A,in,2,1,0,0", "no,9,1003,0,0,0,0,0"),
        ("A,eq,1,2,0,0", "no,9,1003,0,0,0,0,0"),
    ];
    let with = |line| runs(&[(1, U), (1, R), (1000, "A,in,1,2,0,0"), (1, line)]);
    rows.iter()
        .map(|&(line, reply)| case(&format!("numbers: literal 1,001 {line}"), with(line), reply))
        .collect()
}

/// Numbers order the checks on one line; of two bad lines the first counts.
fn first_bad_line() -> Vec<Case> {
    let no_lf = |number, line| {
        let mut file = with_line(&F, number, line);
        file.pop();
        file
    };
    vec![
        case(
            "numbers: 10 on line 3, 2 on line 8",
            with_lines(&F, &[(3, F[1]), (8, "")]),
            "no,10,3,0,0,0,0,0",
        ),
        case(
            "numbers: 12 on line 7, 4 on line 8",
            with_lines(&F, &[(7, "S,cpe,2,0,0,0"), (8, "S,xyz,0,0,0,0")]),
            "no,12,7,0,0,0,0,0",
        ),
        case(
            "numbers: 9 on line 5, 8 on line 6",
            with_lines(&F, &[(5, "A,in,4,1,0,0"), (6, "A,ni,1,9,0,0")]),
            "no,9,5,0,0,0,0,0",
        ),
        case(
            "numbers: 8 on line 4, no last LF",
            no_lf(4, "T,cap,2,4,0,0"),
            "no,8,4,0,0,0,0,0",
        ),
        case(
            "numbers: 11 on line 7, no last LF",
            no_lf(7, "S,cpe,3,0,0,0"),
            "no,11,7,0,0,0,0,0",
        ),
    ]
}
