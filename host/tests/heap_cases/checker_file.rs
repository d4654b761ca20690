//! Refusals from the checker file, and where its reading stops. The heap is the
//! smallest, in which every variable is 0 or empty.

use super::{case, lines, Case, ALWAYS, EMP, NEVER, NUL, R, SMALLEST, U};

pub fn cases() -> Vec<Case> {
    let groups = [
        too_long(),
        refusals(),
        many_lines(),
        what_only_steps_get(),
        stopped_before_the_steps(),
        not_stopped(),
        shapes_of_a_file(),
    ];
    groups.into_iter().flatten().collect()
}

fn checker_case(what: &str, checker: Vec<u8>, reply: &'static str) -> Case {
    let name = format!("checker file: {what}");
    case(&name, checker, lines(&[SMALLEST]), reply)
}

fn rows(topic: &str, rows: &[(&[&str], &'static str)]) -> Vec<Case> {
    rows.iter()
        .map(|(file, reply)| {
            let what = format!("{topic}, {file:?}");
            checker_case(&what, lines(file), reply)
        })
        .collect()
}

/// The lines, then what is never read, up to so many bytes.
fn up_to(file: &[&str], unread: &str, length: usize) -> Vec<u8> {
    let mut bytes = lines(file);
    bytes.extend_from_slice(unread.as_bytes());
    bytes.resize(length, b'x');
    bytes
}

/// "1 by its whole length"
fn too_long() -> Vec<Case> {
    vec![
        checker_case("60,000 LFs", vec![b'\n'; 60_000], "2,1,1"),
        checker_case("60,001 LFs", vec![b'\n'; 60_001], "1,1,0"),
        checker_case(
            "60,000 bytes with steps",
            up_to(&NEVER, "S,", 60_000),
            "0,0,2",
        ),
        checker_case(
            "60,001 bytes with steps",
            up_to(&NEVER, "S,", 60_001),
            "1,1,0",
        ),
        checker_case(
            "200,000 bytes with steps",
            up_to(&ALWAYS, "S,ref,0,0,1,0\n", 200_000),
            "1,1,0",
        ),
        checker_case("60,000 bytes of steps", up_to(&[], "S,", 60_000), "0,0,0"),
        checker_case("60,001 bytes of steps", up_to(&[], "S,", 60_001), "1,1,0"),
    ]
}

fn refusals() -> Vec<Case> {
    rows(
        "refused",
        &[
            (&["T,nul,0,0,0"], "2,1,1"),
            (&["T,rfv,01,0,0,0"], "2,1,1"),
            (&[NUL, ""], "2,1,2"),
            (&[NUL, "A,eq,1,1,0"], "2,1,2"),
            // A D line is no line of this file.
            (&[SMALLEST], "2,1,1"),
            (&[NUL, "D,alc,1,0,0,0"], "2,1,2"),
            (&[NUL, "A,eq,1,1,0,0", EMP], "3,1,3"),
            (&["T,cut,1,2,0,0"], "4,1,1"),
            (&["T,siz,1,1,1,0"], "4,1,1"),
            (&["T,in,1,1,0,0"], "4,1,1"),
            (&[NUL, "A,nul,1,1,0,0"], "4,1,2"),
            (&["T,nul,0,0,0,1"], "6,1,1"),
            (&["T,rfv,1,0,1,0"], "6,1,1"),
            (&[NUL, "A,eq,1,1,1,0"], "6,1,2"),
            (&[NUL, "A,eq,1,1,0,1"], "6,1,2"),
            (&["T,rfv,0,0,0,0"], "8,1,1"),
            (&["T,sin,1,0,0,0"], "8,1,1"),
            (&[NUL, "A,eq,1,2,0,0"], "8,1,2"),
            (&[NUL, "A,eq,0,1,0,0"], "8,1,2"),
            (&[R, "T,sin,1,0,0,0"], "9,1,2"),
            (&[NUL, EMP, "A,eq,1,2,0,0"], "9,1,3"),
            (&[NUL, EMP, "A,in,2,1,0,0"], "9,1,3"),
            (&[NUL, "A,le,1,1,0,0"], "9,1,2"),
            (&[EMP, EMP], "10,1,2"),
            (&[U, R, U], "10,1,3"),
            // The first bad line.
            (&[NUL, NUL, "T"], "10,1,2"),
            (&[NUL, "A,ne,1,1,0,0", "A,eq,1,2,0,0"], "8,1,3"),
        ],
    )
}

/// 7 and 15, with the last line that is still good.
fn many_lines() -> Vec<Case> {
    let names = |count: usize| {
        let lines = (1..=count).map(|name| format!("T,rfv,{name},0,0,0"));
        lines.collect::<Vec<_>>()
    };
    let literals = |count: usize, last: &str| {
        let mut file = vec![NUL];
        file.extend(vec!["A,eq,1,1,0,0"; count]);
        file.push(last);
        lines(&file)
    };
    vec![
        checker_case("600 terms", lines(&names(600)), "0,0,0"),
        checker_case("601 terms", lines(&names(601)), "7,1,601"),
        // 1 T line, so the A lines 1 to 1,000 are lines 2 to 1,001.
        checker_case("1,000 literals", literals(999, "A,eq,1,1,0,0"), "0,0,0"),
        checker_case(
            "1,000 literals, the last false",
            literals(999, "A,ne,1,1,0,0"),
            "0,0,1001",
        ),
        checker_case(
            "1,001 literals",
            literals(1000, "A,eq,1,1,0,0"),
            "15,1,1002",
        ),
        checker_case(
            "1,001 literals, the last false",
            literals(1000, "A,ne,1,1,0,0"),
            "15,1,1002",
        ),
    ]
}

/// 5, 11, 12, 13, 14 and 16 are for steps; "17 never".
fn what_only_steps_get() -> Vec<Case> {
    let closed = ["S,emp,0,0,0,0", "S,ref,0,0,1,0"];
    rows(
        "steps",
        &[
            (&[NUL, "A,eq,1,1,0,0"], "0,0,0"),                       // open
            (&[NUL, "A,eq,1,1,0,0", closed[0], closed[1]], "0,0,0"), // 11, 5
            (&[NUL, "A,ne,1,1,0,0", "S,cls,1,1,0,0"], "0,0,2"),      // 12
            (&[U, "A,eq,1,1,0,0", "S,ext,1,0,0,1"], "0,0,0"),        // 13
            (&[NUL, "S,ref,0,0,9,0"], "0,0,0"),                      // 8
            (&[NUL, "S,ler,0,0,1,0"], "0,0,0"),                      // 9
            (&[NUL, "S,fir,0,0,0,1"], "0,0,0"),                      // 4
            (&[NUL, "S,ref,1,0,1,0"], "0,0,0"),                      // 6
        ],
    )
}

/// "Reading of the checker file stops before the first line that begins `S,`."
fn stopped_before_the_steps() -> Vec<Case> {
    let mut cases = rows(
        "stopped",
        &[
            (&["S,"], "0,0,0"),
            (&["S,,,,,,,,"], "0,0,0"),
            (&["S,REF", "S,ref"], "0,0,0"),
            (&[NUL, "A,eq,1,1,0,0", "S,ref", "rubbish"], "0,0,0"),
            (&[NUL, "A,ne,1,1,0,0", "S,ref", "rubbish"], "0,0,2"),
            (&[NUL, "A,eq,1,1,0,0", "S,\u{e9}", ""], "0,0,0"),
            // Lines that would get 3, 8, 10, or be false.
            (&[NUL, "S,ref,0,0,1,0", EMP], "0,0,0"),
            (&["S,ref,0,0,1,0", NUL, "A,ne,1,1,0,0"], "0,0,0"),
            (&[NUL, "S,ref,0,0,1,0", "A,eq,7,7,0,0"], "0,0,0"),
            (&[NUL, "S,ref,0,0,1,0", NUL], "0,0,0"),
            (&[NUL, "A,eq,1,1,0,0", "S,", "A,ne,1,1,0,0"], "0,0,0"),
        ],
    );
    let unended: [(&str, &[u8]); 4] = [
        ("two bytes", b"S,"),
        ("after a T line", b"T,nul,0,0,0,0\nS,"),
        ("a step", b"T,nul,0,0,0,0\nS,ref,0,0,1,0"),
        ("other bytes", b"T,nul,0,0,0,0\nS,\0\xff\r,\n\n\nT"),
    ];
    for (what, file) in unended {
        let what = format!("stopped, no LF, {what}");
        cases.push(checker_case(&what, file.to_vec(), "0,0,0"));
    }
    cases
}

fn not_stopped() -> Vec<Case> {
    let mut cases = rows(
        "not stopped",
        &[
            // Rubbish before the first step.
            (&["rubbish", "S,ref,0,0,1,0"], "2,1,1"),
            (&["", "S,ref,0,0,1,0"], "2,1,1"),
            (&[NUL, "A,eq,1,1,0", "S,ref,0,0,1,0"], "2,1,2"),
            (&[NUL, NUL, "S,ref,0,0,1,0"], "10,1,2"),
            // Lines that don't begin so.
            (&["S"], "2,1,1"),
            (&["S", "S,"], "2,1,1"),
            (&["SS,ref,0,0,1,0"], "2,1,1"),
            (&["Sx,ref,0,0,1,0"], "2,1,1"),
            (&["S ,ref,0,0,1,0"], "2,1,1"),
            (&[" S,ref,0,0,1,0"], "2,1,1"),
            (&[",S,ref,0,0,1"], "2,1,1"),
            (&["s,ref,0,0,1,0"], "2,1,1"),
            (&[NUL, "T,nul,0,0,0,0S,"], "2,1,2"),
            (&[NUL, "S;ref;0;0;1;0"], "2,1,2"),
            (&["\rS,ref,0,0,1,0"], "2,1,1"),
        ],
    );
    cases.push(checker_case("not stopped, S alone", b"S".to_vec(), "2,1,1"));
    cases.push(checker_case(
        "not stopped, S alone at the end",
        b"T,nul,0,0,0,0\nS".to_vec(),
        "2,1,2",
    ));
    cases
}

fn shapes_of_a_file() -> Vec<Case> {
    let rows: [(&str, &[u8], &'static str); 6] = [
        ("no bytes", b"", "0,0,0"),
        ("an LF", b"\n", "2,1,1"),
        ("a T line without LF", b"T,nul,0,0,0,0", "2,1,1"),
        (
            "an A line without LF",
            b"T,nul,0,0,0,0\nA,ne,1,1,0,0",
            "2,1,2",
        ),
        ("CR LF", b"T,nul,0,0,0,0\r\n", "2,1,1"),
        ("a zero byte", b"T,nul,0,0,0,0\n\0", "2,1,2"),
    ];
    rows.iter()
        .map(|(what, file, reply)| checker_case(what, file.to_vec(), reply))
        .collect()
}
