//! Numbers 1, 2, 3, 4 and 6 from the heap file. Beside what is never true, a
//! good heap file gets 0,0,2.

use super::{case, heap_bytes, heap_rows, lines, Case, ALWAYS, NEVER, SMALLEST};

pub fn cases() -> Vec<Case> {
    let groups = [
        too_long(),
        shapes_of_the_first_line(),
        shapes_of_a_later_line(),
        shapes_of_a_file(),
        sizes_first(),
        unknown_words(),
        unused_fields(),
    ];
    groups.into_iter().flatten().collect()
}

/// 17 bytes for the sizes, then lines of 17 and of 18 bytes. Each gives a name
/// of four digits a reference of one digit or of two.
fn long_heap(of_17: usize, of_18: usize) -> Vec<u8> {
    let mut heap = vec![String::from("D,siz,64,16,16,0")];
    for name in 1000..1000 + of_17 {
        heap.push(format!("D,rfv,{name},9,0,0"));
    }
    for name in 1000 + of_17..1000 + of_17 + of_18 {
        heap.push(format!("D,rfv,{name},63,0,0"));
    }
    lines(&heap)
}

fn too_long() -> Vec<Case> {
    // 17 + 17 * 3521 + 18 * 7, and one line of 17 made one of 18.
    let fits = long_heap(3521, 7);
    let over = long_heap(3520, 8);
    assert_eq!((fits.len(), over.len()), (60_000, 60_001));
    vec![
        heap_bytes("heap 1", "60,000 bytes", &fits, "0,0,2"),
        heap_bytes("heap 1", "60,001 bytes", &over, "1,2,0"),
        heap_bytes("heap 1", "60,000 LFs", &[b'\n'; 60_000], "2,2,1"),
        heap_bytes("heap 1", "60,001 LFs", &[b'\n'; 60_001], "1,2,0"),
        heap_bytes("heap 1", "200,000 zeros", &[0; 200_000], "1,2,0"),
        case(
            "heap 1: 60,000 bytes, all true",
            lines(&ALWAYS),
            fits,
            "0,0,0",
        ),
    ]
}

fn shapes_of_the_first_line() -> Vec<Case> {
    let wrong = [
        "",
        "D",
        "D,siz",
        "D,siz,1,1,1",
        "D,siz,1,1,1,0,0",
        "D,siz,1,1,1,0,",
        ",D,siz,1,1,1,0",
        // letters
        "T,siz,1,1,1,0",
        "A,siz,1,1,1,0",
        "S,siz,1,1,1,0",
        "d,siz,1,1,1,0",
        "DD,siz,1,1,1,0",
        ",siz,1,1,1,0",
        "E,siz,1,1,1,0",
        // words
        "D,s,1,1,1,0",
        "D,sizz,1,1,1,0",
        "D,Siz,1,1,1,0",
        "D,si2,1,1,1,0",
        "D,,1,1,1,0",
        // numbers
        "D,siz,01,1,1,0",
        "D,siz,1,1,1,00",
        "D,siz,100000,1,1,0",
        "D,siz,,1,1,0",
        "D,siz,1,1,1,",
        "D,siz,-1,1,1,0",
        "D,siz,1,x,1,0",
        // what else may stand on a line
        " D,siz,1,1,1,0",
        "D,siz,1,1,1,0 ",
        "D,siz,1,1,1,0\r",
        "D;siz;1;1;1;0",
    ];
    wrong
        .iter()
        .map(|line| {
            let heap = lines(&[line]);
            heap_bytes("heap 2", &format!("first {line:?}"), &heap, "2,2,1")
        })
        .collect()
}

fn shapes_of_a_later_line() -> Vec<Case> {
    let wrong = [
        "",
        "D,alc,1,0,0",
        "D,alc,1,0,0,0,0",
        "D,alc,01,0,0,0",
        "D,rfv,100000,1,0,0",
        "D,alcc,1,0,0,0",
        "D,a,1,0,0,0",
        // Lines of the checker file. Nothing stops the reading here.
        "T,nul,0,0,0,0",
        "A,eq,1,1,0,0",
        "S,ref,0,0,1,0",
        "S,",
    ];
    let mut cases = Vec::new();
    for line in wrong {
        let heap = lines(&["D,siz,2,1,1,0", line]);
        let what = format!("second {line:?}");
        cases.push(heap_bytes("heap 2", &what, &heap, "2,2,2"));
    }
    let third = ["D,siz,2,1,1,0", "D,alc,1,0,0,0", "D,rfv,1,1", SMALLEST];
    cases.push(heap_bytes("heap 2", "third", &lines(&third), "2,2,3"));
    cases
}

fn shapes_of_a_file() -> Vec<Case> {
    let rows: [(&str, &[u8], &'static str); 8] = [
        ("no LF", b"D,siz,1,1,1,0", "2,2,1"),
        (
            "no LF after line 2",
            b"D,siz,2,1,1,0\nD,alc,1,0,0,0",
            "2,2,2",
        ),
        ("an LF first", b"\nD,siz,1,1,1,0\n", "2,2,1"),
        ("an LF more", b"D,siz,1,1,1,0\n\n", "2,2,2"),
        ("CR LF", b"D,siz,1,1,1,0\r\n", "2,2,1"),
        (
            "a zero byte more",
            b"D,siz,1,1,1,0\nD,alc,1,0,0,0\n\0",
            // Line 2 is bad: one reference, so there is no reference 1.
            "19,2,2",
        ),
        ("only a zero byte more", b"D,siz,1,1,1,0\n\0", "2,2,2"),
        ("byte 255", b"D,siz,1,1,1,\xff\n", "2,2,1"),
    ];
    rows.iter()
        .map(|(what, heap, reply)| heap_bytes("heap 2", what, heap, reply))
        .collect()
}

/// 3: "a first line that isn't `siz`, none at all (line 1), or a later `siz`"
fn sizes_first() -> Vec<Case> {
    let mut cases = heap_rows(
        "heap 3",
        &[],
        &[
            (&[], "3,2,1"),
            (&["D,alc,1,0,0,0"], "3,2,1"),
            (&["D,typ,0,0,0,0"], "3,2,1"),
            (&["D,rfv,1,0,0,0", SMALLEST], "3,2,1"),
            (&["D,siy,1,1,1,0"], "3,2,1"), // an unknown word
            (&["D,si,1,1,1,0"], "3,2,1"),
            (&[SMALLEST], "0,0,2"),
            (&[SMALLEST, SMALLEST], "3,2,2"),
            (&[SMALLEST, "D,siz,2,2,2,0"], "3,2,2"),
            (&[SMALLEST, "D,rfv,1,0,0,0", SMALLEST], "3,2,3"),
        ],
    );
    // With nothing assumed the heap file is asked for too.
    cases.push(case("heap 3: two empty files", vec![], vec![], "3,2,1"));
    cases.push(case(
        "heap 3: empty, nothing assumed",
        vec![],
        lines(&[SMALLEST]),
        "0,0,0",
    ));
    cases
}

/// 4: words of no letter, and those of T, A and S lines that D doesn't have.
fn unknown_words() -> Vec<Case> {
    let words = [
        "foo", "al", "alx", "sbu", "nul", "rea", "emp", "all", "cup", "cap", "dif", "sin", "img",
        "wri", "in", "ni", "eq", "ne", "le", "nl", "cls", "ext", "fir",
    ];
    words
        .iter()
        .map(|word| {
            let heap = lines(&[SMALLEST, &format!("D,{word},0,0,0,0")]);
            heap_bytes("heap 4", word, &heap, "4,2,2")
        })
        .collect()
}

/// 6: every field that a word doesn't use. `arv` uses all.
fn unused_fields() -> Vec<Case> {
    let mut cases = heap_rows(
        "heap 6",
        &[],
        &[
            (&["D,siz,1,1,1,1"], "6,2,1"),
            (&["D,siz,64,16,16,9999"], "6,2,1"),
        ],
    );
    cases.extend(heap_rows(
        "heap 6",
        &["D,siz,2,2,2,0", "D,alc,1,0,0,0"],
        &[
            (&["D,alc,1,1,0,0"], "6,2,3"),
            (&["D,alc,1,0,1,0"], "6,2,3"),
            (&["D,alc,1,0,0,1"], "6,2,3"),
            (&["D,typ,1,1,1,0"], "6,2,3"),
            (&["D,typ,1,1,0,1"], "6,2,3"),
            (&["D,dty,1,1,1,0"], "6,2,3"),
            (&["D,dty,1,1,0,1"], "6,2,3"),
            (&["D,sub,0,1,1,0"], "6,2,3"),
            (&["D,sub,0,1,0,1"], "6,2,3"),
            (&["D,rfv,1,1,1,0"], "6,2,3"),
            (&["D,rfv,1,1,0,1"], "6,2,3"),
            (&["D,fnv,1,1,1,0"], "6,2,3"),
            (&["D,fnv,1,1,0,1"], "6,2,3"),
            (&["D,clv,1,1,1,0"], "6,2,3"),
            (&["D,clv,1,1,0,1"], "6,2,3"),
            (&["D,rgv,1,1,1,0"], "6,2,3"),
            (&["D,rgv,1,1,0,1"], "6,2,3"),
            (&["D,arv,1,1,1,1"], "0,0,2"),
        ],
    ));
    cases.push(case(
        "heap 6: what is never true, without it",
        lines(&NEVER[..1]),
        lines(&["D,siz,2,2,2,0"]),
        "0,0,0",
    ));
    cases
}
