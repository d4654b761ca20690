//! Two faults: the smaller number on one line, the earlier line in one file,
//! the checker file before the heap file.

use super::{case, heap_bytes, heap_rows, lines, Case, EMP, NEVER, NUL, SMALLEST};

pub fn cases() -> Vec<Case> {
    let groups = [
        on_the_first_line(),
        on_a_later_line(),
        on_two_lines(),
        lines_before_the_order(),
        in_two_files(),
    ];
    groups.into_iter().flatten().collect()
}

fn on_the_first_line() -> Vec<Case> {
    heap_rows(
        "two faults",
        &[],
        &[
            (&["D,alc,1,0,0"], "2,2,1"),   // 2, 3
            (&["T,alc,1,0,0,0"], "2,2,1"), // 2, 3
            (&["D,foo,01,0,0,0"], "2,2,1"),
            (&["T,siz,0,1,1,1"], "2,2,1"), // 2, 6, 19
            (&["D,foo,1,1,1,1"], "3,2,1"), // 3, 4
            (&["D,alc,1,1,0,0"], "3,2,1"), // 3, 6
            (&["D,alc,0,0,0,0"], "3,2,1"), // 3, 19
            (&["D,siz,0,1,1,1"], "6,2,1"), // 6, 19
            (&["D,siz,65,17,17,1"], "6,2,1"),
        ],
    )
}

fn on_a_later_line() -> Vec<Case> {
    heap_rows(
        "two faults",
        &["D,siz,2,2,2,0", "D,alc,1,0,0,0", "D,rfv,1,1,0,0"],
        &[
            (&["D,siz,2,2,2"], "2,2,4"),   // 2, 3
            (&["T,siz,2,2,2,0"], "2,2,4"), // 2, 3
            (&["T,foo,0,0,0,0"], "2,2,4"), // 2, 4
            (&["D,foo,00,0,0,0"], "2,2,4"),
            (&["D,alc,0,00,0,0"], "2,2,4"), // 2, 19
            (&["T,rfv,1,1,0,0"], "2,2,4"),  // 2, 19
            (&["D,siz,2,2,2,2"], "3,2,4"),  // 3, 6
            (&["D,siz,0,0,0,0"], "3,2,4"),  // 3, 19
            (&["D,siz,65,17,17,1"], "3,2,4"),
            (&["D,foo,9999,9999,9999,9999"], "4,2,4"), // 4, and 6 or 19
            (&["D,alc,0,1,0,0"], "6,2,4"),             // 6, 19
            (&["D,alc,1,0,0,1"], "6,2,4"),             // 6, 19 twice
            (&["D,alc,2,0,1,0"], "6,2,4"),
            (&["D,typ,2,2,1,0"], "6,2,4"),
            (&["D,dty,2,2,0,1"], "6,2,4"),
            (&["D,sub,1,1,1,0"], "6,2,4"), // 6, 19 under itself
            (&["D,rfv,0,0,1,0"], "6,2,4"), // 6, 19 name 0
            (&["D,rfv,1,1,0,1"], "6,2,4"), // 6, 19 twice
            (&["D,fnv,1,2,1,0"], "6,2,4"),
            (&["D,clv,1,2,1,0"], "6,2,4"),
            (&["D,rgv,1,0,1,0"], "6,2,4"), // 6, 19 not allocated
        ],
    )
}

fn on_two_lines() -> Vec<Case> {
    let size = "D,siz,2,1,1,0";
    let mut cases = heap_rows(
        "two lines",
        &[size],
        &[
            (&["D,alc,0,0,0,0", "D,alc,1,0,0"], "19,2,2"),  // 19, 2
            (&["D,alc,2,0,0,0", size], "19,2,2"),           // 19, 3
            (&["D,alc,1,1,0,0", "D,foo,0,0,0,0"], "6,2,2"), // 6, 4
            (&["D,foo,0,0,0,0", ""], "4,2,2"),              // 4, 2
            (&[size, "D,alc,0,0,0,0"], "3,2,2"),            // 3, 19
        ],
    );
    let unended = b"D,siz,2,1,1,0\nD,alc,0,0,0,0\nD,alc,1,0,0,0";
    cases.push(heap_bytes("two lines", "19, no LF", unended, "19,2,2"));
    let bad_unended = b"D,siz,2,1,1,0\nD,alc,0,0,0,0";
    cases.push(heap_bytes(
        "two lines",
        "19 without LF",
        bad_unended,
        "2,2,2",
    ));
    let first_unended = b"D,alc,0,0,0,0";
    cases.push(heap_bytes(
        "two lines",
        "3 without LF",
        first_unended,
        "2,2,1",
    ));
    cases
}

/// 20 comes "after all of them".
fn lines_before_the_order() -> Vec<Case> {
    let circle = ["D,siz,2,1,3,0", "D,sub,0,1,0,0", "D,sub,1,0,0,0"];
    let mut cases = heap_rows(
        "before 20",
        &circle,
        &[
            (&[], "20,2,0"),
            (&["D,alc,0,0,0,0"], "19,2,4"),
            (&["D,sub,0,1,0,0"], "19,2,4"),
            (&["D,alc,1,0,0"], "2,2,4"),
            (&["D,siz,1,1,1,0"], "3,2,4"),
            (&["D,foo,0,0,0,0"], "4,2,4"),
            (&["D,alc,1,1,0,0"], "6,2,4"),
        ],
    );
    // 20 comes before any A line is tried.
    for checker in [&NEVER[..], &NEVER[..1]] {
        let name = format!("before 20: {} checker lines", checker.len());
        cases.push(case(&name, lines(checker), lines(&circle), "20,2,0"));
    }
    cases
}

fn in_two_files() -> Vec<Case> {
    let heaps: [(&str, Vec<u8>, &'static str); 7] = [
        ("1", vec![b'D'; 60_001], "1,2,0"),
        ("2", lines(&["D,siz,1,1,1"]), "2,2,1"),
        ("3", vec![], "3,2,1"),
        ("4", lines(&[SMALLEST, "D,foo,0,0,0,0"]), "4,2,2"),
        ("6", lines(&["D,siz,1,1,1,1"]), "6,2,1"),
        ("19", lines(&["D,siz,0,1,1,0"]), "19,2,1"),
        (
            "20",
            lines(&["D,siz,1,1,2,0", "D,sub,0,1,0,0", "D,sub,1,0,0,0"]),
            "20,2,0",
        ),
    ];
    let checkers: [(&str, Vec<u8>, &'static str); 7] = [
        ("1", vec![b'S'; 60_001], "1,1,0"),
        ("2", lines(&[NUL, "A,eq,1,1,0"]), "2,1,2"),
        ("3", lines(&[NUL, "A,eq,1,1,0,0", EMP]), "3,1,3"),
        ("8", lines(&[NUL, "A,eq,1,2,0,0"]), "8,1,2"),
        ("9", lines(&[EMP, "T,sin,1,0,0,0"]), "9,1,2"),
        ("10", lines(&[NUL, NUL, "S,"]), "10,1,2"),
        ("none", lines(&["S,", "rubbish"]), "none"),
    ];
    let mut cases = Vec::new();
    for (of_checker, checker, checker_reply) in &checkers {
        for (of_heap, heap, heap_reply) in &heaps {
            // A good checker file leaves the word to the heap file.
            let reply = match *checker_reply {
                "none" => heap_reply,
                refused => refused,
            };
            let name = format!("two files: checker {of_checker}, heap {of_heap}");
            cases.push(case(&name, checker.clone(), heap.clone(), reply));
        }
    }
    cases
}
