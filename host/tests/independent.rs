//! The cases of document 01 with a stated reply, and their neighbours. Expected
//! replies are worked out by hand from the document, its rule `fir` struck, and
//! from the requests "Assumptions with an or in them", "Where is that witness
//! already used?", "Finite heaps have a counting argument", "More names" and "Let
//! the checker close on equalities by itself".

mod examples;

use cases::digits::names_changed_over;
use examples::{file, rule_files, ALLOCATED, F, FIN, G, IMG, OR, RDM, STRUCK, WIT};
use host::independent::{call, check, reply_line, Reply};

const RULES: [&str; 32] = [
    "eqr", "eql", "ext", "cpe", "cpi", "cue", "cui", "dfe", "dfi", "sge", "sgi", "cut", "all",
    "nul", "sep", "img", "wit", "ref", "sym", "trn", "sub", "rep", "ler", "let", "lea", "rdh",
    "rdm", "cls", "emp", "cla", "fin", "bck",
];

fn yes(terms: u32, assumptions: u32, steps: u32, closings: u32) -> Reply {
    Reply {
        yes: true,
        number: 0,
        line: 0,
        terms,
        assumptions,
        steps,
        closings,
        place: 0,
    }
}

fn no(number: u32, line: u32) -> Reply {
    Reply {
        yes: false,
        number,
        line,
        terms: 0,
        assumptions: 0,
        steps: 0,
        closings: 0,
        place: 0,
    }
}

/// 13, with the first place that mentions w.
fn not_fresh(line: u32, place: u32) -> Reply {
    Reply {
        place,
        ..no(13, line)
    }
}

fn check_lines(lines: &[&str]) -> Reply {
    check(&file(lines))
}

/// The lines given as words parted by white space.
fn check_text(text: &str) -> Reply {
    let lines: Vec<&str> = text.split_whitespace().collect();
    check_lines(&lines)
}

/// The lines with the one of this number (from 1) changed.
fn with_line<'a>(lines: &[&'a str], number: usize, line: &'a str) -> Vec<&'a str> {
    let mut changed = lines.to_vec();
    changed[number - 1] = line;
    changed
}

/// The lines without the one of this number (from 1).
fn without_line<'a>(lines: &[&'a str], number: usize) -> Vec<&'a str> {
    let mut changed = lines.to_vec();
    changed.remove(number - 1);
    changed
}

/// The lines with more after them.
fn with_more<'a>(lines: &[&'a str], more: &[&'a str]) -> Vec<&'a str> {
    let mut changed = lines.to_vec();
    changed.extend_from_slice(more);
    changed
}

// ---------------------------------------------------------------------------
// Two files and their neighbours
// ---------------------------------------------------------------------------

#[test]
fn f_and_g() {
    assert_eq!(check_lines(&F), yes(4, 2, 2, 1));
    assert_eq!(reply_line(&check_lines(&F)), "yes,0,0,4,2,2,1,0\n");
    assert_eq!(check_lines(&G), yes(4, 3, 3, 2));
    assert_eq!(reply_line(&check_lines(&G)), "yes,0,0,4,3,3,2,0\n");
    assert_eq!(check_lines(&without_line(&G, 10)), no(17, 10));
}

#[test]
fn f_changed() {
    assert_eq!(check(b""), no(17, 1));
    assert_eq!(reply_line(&check(b"")), "no,17,1,0,0,0,0,0\n");
    assert_eq!(check_lines(&without_line(&F, 8)), no(17, 8));
    assert_eq!(check_lines(&with_more(&F, &["S,cls,3,2,0,0"])), no(5, 9));
    assert_eq!(check_lines(&with_line(&F, 8, "S,cls,2,3,0,0")), no(12, 8));
    assert_eq!(check_lines(&with_line(&F, 7, "S,cpe,3,0,0,0")), no(11, 7));
    assert_eq!(check_lines(&with_line(&F, 7, "S,cpe,2,0,0,0")), no(12, 7));
    assert_eq!(check_lines(&with_line(&F, 4, "T,cap,2,4,0,0")), no(8, 4));
    assert_eq!(check_lines(&with_line(&F, 4, "T,cap,2,1,0,0")), no(9, 4));
    assert_eq!(check_lines(&with_line(&F, 3, "T,rgv,1,0,0,0")), no(10, 3));
    assert_eq!(check_lines(&with_line(&F, 1, "T,rfv,01,0,0,0")), no(2, 1));
}

// ---------------------------------------------------------------------------
// The column "Example" of the refusals
// ---------------------------------------------------------------------------

#[test]
fn example_1() {
    assert_eq!(check(&vec![b'\n'; 60_001]), no(1, 0));
    assert_eq!(check(&vec![0; 60_001]), no(1, 0));
}

#[test]
fn example_2() {
    assert_eq!(check(b"T,nul,0,0,0\n"), no(2, 1));
}

#[test]
fn example_3() {
    assert_eq!(check_lines(&with_line(&F, 8, "A,in,1,2,0,0")), no(3, 8));
    // After the last closing too: refusal 5 is for S lines.
    assert_eq!(check_lines(&with_more(&F, &["A,in,1,2,0,0"])), no(3, 9));
    assert_eq!(check_lines(&with_more(&F, &["T,nul,0,0,0,0"])), no(3, 9));
    assert_eq!(check_lines(&with_line(&F, 6, "T,nul,0,0,0,0")), no(3, 6));
}

#[test]
fn example_4() {
    assert_eq!(check(b"T,cut,1,2,0,0\n"), no(4, 1));
}

#[test]
fn example_5() {
    assert_eq!(check_lines(&with_more(&F, &["S,ref,0,0,1,0"])), no(5, 9));
}

#[test]
fn example_6() {
    assert_eq!(check_lines(&with_line(&F, 8, "S,cls,3,2,1,0")), no(6, 8));
}

#[test]
fn example_7() {
    assert_eq!(check(&rfv_lines(601)), no(7, 601));
}

#[test]
fn example_8() {
    assert_eq!(check(b"T,rfv,0,0,0,0\n"), no(8, 1));
}

#[test]
fn example_9() {
    assert_eq!(check_text("T,rgv,1,0,0,0 T,sin,1,0,0,0"), no(9, 2));
}

#[test]
fn example_10() {
    assert_eq!(check_text("T,emp,0,0,0,0 T,emp,0,0,0,0"), no(10, 2));
}

#[test]
fn example_11() {
    assert_eq!(check(b"S,emp,0,0,0,0\n"), no(11, 1));
}

#[test]
fn example_12() {
    assert_eq!(check_lines(&with_line(&F, 8, "S,cls,2,3,0,0")), no(12, 8));
}

#[test]
fn example_13() {
    // A reused w in `ext`: F's u, which stands in place 1.
    let lines = with_line(&F, 6, "A,ne,2,3,0,0");
    let lines = with_line(&lines, 7, "S,ext,2,0,0,1");
    assert_eq!(check_lines(&lines), not_fresh(7, 1));
    assert_eq!(reply_line(&check_lines(&lines)), "no,13,7,0,0,0,0,1\n");
    // The same w in two `ext` lines: the first adds places 2 and 3.
    let text = "T,rfv,1,0,0,0 T,rgv,1,0,0,0 T,rgv,2,0,0,0 A,ne,2,3,0,0 S,ext,1,0,0,1";
    assert_eq!(check_text(text), no(17, 6));
    let again = format!("{text} S,ext,1,0,0,1");
    assert_eq!(check_text(&again), not_fresh(6, 2));
}

#[test]
fn example_14() {
    assert_eq!(check_lines(&with_line(&F, 7, "S,all,1,0,0,0")), no(14, 7));
}

#[test]
fn example_15() {
    let mut text = file(&["T,rfv,1,0,0,0"]);
    text.extend(b"A,eq,1,1,0,0\n".repeat(1_001));
    assert_eq!(check(&text), no(15, 1_002));
}

#[test]
fn example_16() {
    let mut text = file(&["T,rfv,1,0,0,0", "T,rgv,1,0,0,0"]);
    text.extend(b"S,cut,0,0,1,2\n".repeat(201));
    assert_eq!(check(&text), no(16, 203));
}

#[test]
fn example_17() {
    assert_eq!(check(b""), no(17, 1));
}

#[test]
fn example_18() {
    let mut buffer = [7; 27];
    assert_eq!(call(&file(&F), &mut buffer), 18);
    assert_eq!(buffer, [7; 27]);
}

#[test]
fn side_of_rep() {
    let files = rule_files();
    let rep = files.iter().find(|example| example.rule == "rep").unwrap();
    for side in ["0", "2", "3", "9999", "10001", "65537", "99999"] {
        let line = format!("S,rep,1,2,{side},0");
        assert_eq!(check_lines(&with_line(&rep.lines, 7, &line)), no(12, 7));
    }
    // Side 2: u in r and r eq s give u in s.
    let right = "T,rfv,1,0,0,0 T,rgv,1,0,0,0 T,rgv,2,0,0,0
                 A,in,1,2,0,0 A,eq,2,3,0,0 A,ni,1,3,0,0
                 S,rep,1,2,2,0 S,cls,4,3,0,0";
    assert_eq!(check_text(right), yes(3, 3, 2, 1));
    // A place off the branch comes before the side.
    assert_eq!(
        check_lines(&with_line(&rep.lines, 7, "S,rep,1,4,3,0")),
        no(11, 7)
    );
}

// ---------------------------------------------------------------------------
// The call
// ---------------------------------------------------------------------------

#[test]
fn call_writes_seven_numbers() {
    let bytes = |file: &[u8], number: u32| {
        let mut buffer = [7; 28];
        assert_eq!(call(file, &mut buffer), number);
        buffer
    };
    assert_eq!(
        bytes(&file(&F), 0),
        [0, 0, 0, 0, 0, 0, 0, 0, 4, 0, 0, 0, 2, 0, 0, 0, 2, 0, 0, 0, 1, 0, 0, 0, 0, 0, 0, 0]
    );
    assert_eq!(
        bytes(b"", 17),
        [17, 0, 0, 0, 1, 0, 0, 0, 0, 0, 0, 0, 0, 0, 0, 0, 0, 0, 0, 0, 0, 0, 0, 0, 0, 0, 0, 0]
    );
    // Line 1,002 is 3 times 256 and 234.
    let mut text = file(&["T,rfv,1,0,0,0"]);
    text.extend(b"A,eq,1,1,0,0\n".repeat(1_001));
    assert_eq!(
        bytes(&text, 15),
        [15, 0, 0, 0, 234, 3, 0, 0, 0, 0, 0, 0, 0, 0, 0, 0, 0, 0, 0, 0, 0, 0, 0, 0, 0, 0, 0, 0]
    );
    // Line 1,003 is 3 times 256 and 235, place 1,000 is 3 times 256 and 232.
    assert_eq!(
        bytes(&w_on_the_last_place(), 13),
        [13, 0, 0, 0, 235, 3, 0, 0, 0, 0, 0, 0, 0, 0, 0, 0, 0, 0, 0, 0, 0, 0, 0, 0, 232, 3, 0, 0]
    );
}

/// 999 A lines all ne all, then w eq w on place 1,000, then `ext` with w.
fn w_on_the_last_place() -> Vec<u8> {
    let mut text = file(&["T,rfv,1,0,0,0", "T,all,0,0,0,0"]);
    text.extend(b"A,ne,2,2,0,0\n".repeat(999));
    text.extend(b"A,eq,1,1,0,0\n");
    text.extend(b"S,ext,1,0,0,1\n");
    text
}

#[test]
fn call_refuses_other_buffers() {
    for length in [0, 1, 12, 23, 24, 25, 27, 29, 56] {
        let mut buffer = vec![7; length];
        assert_eq!(call(&file(&F), &mut buffer), 18);
        assert_eq!(buffer, vec![7; length]);
        // "before 1"
        assert_eq!(call(&vec![b'\n'; 60_001], &mut buffer), 18);
        assert_eq!(buffer, vec![7; length]);
    }
}

// ---------------------------------------------------------------------------
// Limits
// ---------------------------------------------------------------------------

/// `rfv` lines with names from 1.
fn rfv_lines(count: usize) -> Vec<u8> {
    let mut text = Vec::new();
    for name in 1..=count {
        text.extend_from_slice(format!("T,rfv,{name},0,0,0\n").as_bytes());
    }
    text
}

/// A line of 17 bytes, seven of 13 and 4,278 of 14 are 60,000 bytes. The steps
/// are 5 cuts, then six times 711 `ref` lines and a closing: 4,277 S lines.
fn sixty_thousand_bytes() -> Vec<u8> {
    let mut text = file(&["T,rfv,1000,0,0,0", "T,emp,0,0,0,0"]);
    text.extend(b"A,in,1,2,0,0\n".repeat(7));
    text.extend(b"S,cut,0,0,1,2\n".repeat(5));
    for _ in 0..6 {
        text.extend(b"S,ref,0,0,1,0\n".repeat(711));
        text.extend(b"S,emp,1,0,0,0\n");
    }
    text
}

#[test]
fn limit_of_bytes() {
    let mut text = sixty_thousand_bytes();
    assert_eq!(text.len(), 60_000);
    assert_eq!(check(&text), yes(2, 7, 4_277, 6));
    text.push(b'\n');
    assert_eq!(check(&text), no(1, 0));
    // 60,000 bytes with no LF, and bare LFs.
    assert_eq!(check(&vec![b'T'; 60_000]), no(2, 1));
    assert_eq!(check(&vec![b'\n'; 60_000]), no(2, 1));
}

#[test]
fn limit_of_terms() {
    let mut text = rfv_lines(599);
    text.extend(file(&["T,emp,0,0,0,0", "A,in,1,600,0,0", "S,emp,1,0,0,0"]));
    assert_eq!(check(&text), yes(600, 1, 1, 1));
    assert_eq!(check(&rfv_lines(600)), no(17, 601));
    let mut text = rfv_lines(600);
    text.extend(file(&["T,emp,0,0,0,0", "A,in,1,600,0,0", "S,emp,1,0,0,0"]));
    assert_eq!(check(&text), no(7, 601));
    // 7 comes before 8, 9 and 10, and after 6.
    for (line, number) in [
        ("T,rfv,0,0,0,0", 7),
        ("T,sin,999,0,0,0", 7),
        ("T,cup,1,1,0,0", 7),
        ("T,rfv,1,0,0,0", 7),
        ("T,rfv,1,0,0,1", 6),
    ] {
        let mut text = rfv_lines(600);
        text.extend(file(&[line]));
        assert_eq!(check(&text), no(number, 601));
    }
}

/// Terms 1 u, 2 emp, then places holding u in emp.
fn places(count: usize) -> Vec<u8> {
    let mut text = file(&["T,rfv,1,0,0,0", "T,emp,0,0,0,0"]);
    text.extend(b"A,in,1,2,0,0\n".repeat(count));
    text
}

#[test]
fn limit_of_places_on_a_lines() {
    let mut text = places(1_000);
    text.extend(b"S,emp,1000,0,0,0\n");
    assert_eq!(check(&text), yes(2, 1_000, 1, 1));
    let mut text = places(1_001);
    text.extend(b"S,emp,1000,0,0,0\n");
    assert_eq!(check(&text), no(15, 1_003));
    // 8 and 9 come before 15.
    let mut text = places(1_000);
    text.extend(b"A,in,1,3,0,0\n");
    assert_eq!(check(&text), no(8, 1_003));
    let mut text = places(1_000);
    text.extend(b"A,in,2,1,0,0\n");
    assert_eq!(check(&text), no(9, 1_003));
}

#[test]
fn limit_of_places_on_s_lines() {
    let mut text = places(999);
    text.extend(file(&["S,ref,0,0,1,0", "S,emp,999,0,0,0"]));
    assert_eq!(check(&text), yes(2, 999, 2, 1));
    let mut text = places(1_000);
    text.extend(file(&["S,ref,0,0,1,0", "S,emp,999,0,0,0"]));
    assert_eq!(check(&text), no(15, 1_003));
    // A split whose alternatives hold one literal each.
    let mut text = places(999);
    text.extend(file(&["S,cut,0,0,1,2", "S,emp,1,0,0,0", "S,emp,1,0,0,0"]));
    assert_eq!(check(&text), yes(2, 999, 3, 2));
    let mut text = places(1_000);
    text.extend(file(&["S,cut,0,0,1,2", "S,emp,1,0,0,0", "S,emp,1,0,0,0"]));
    assert_eq!(check(&text), no(15, 1_003));
    // A step that needs only closing still goes on at 1,000.
    let mut text = places(1_000);
    text.extend(file(&["S,emp,1,0,0,0"]));
    assert_eq!(check(&text), yes(2, 1_000, 1, 1));
}

/// The lines with `A,eq,1,1,0,0` put in after the last A line so often that
/// there are `count` A lines.
fn filled(lines: &[&str], terms: usize, assumed: usize, count: usize) -> Vec<u8> {
    let mut text = file(&lines[..terms + assumed]);
    text.extend(b"A,eq,1,1,0,0\n".repeat(count - assumed));
    text.extend(file(&lines[terms + assumed..]));
    text
}

#[test]
fn limit_of_places_in_wide_steps() {
    // `wit` adds three literals: 997 and 3, then 998 and 3.
    let step = &WIT[..13];
    assert_eq!(check(&filled(step, 10, 2, 997)), no(17, 10 + 997 + 2));
    assert_eq!(check(&filled(step, 10, 2, 998)), no(15, 10 + 998 + 1));
    // `rdm` adds two, or one: the longer alternative counts.
    let step = &RDM[..12];
    assert_eq!(check(&filled(step, 9, 2, 998)), no(17, 9 + 998 + 2));
    assert_eq!(check(&filled(step, 9, 2, 999)), no(15, 9 + 999 + 1));
    // `ext` adds two in each alternative.
    let ext = [
        "T,rgv,1,0,0,0",
        "T,rfv,1,0,0,0",
        "A,ne,1,1,0,0",
        "S,ext,1,0,0,2",
    ];
    assert_eq!(check(&filled(&ext, 2, 1, 998)), no(17, 2 + 998 + 2));
    assert_eq!(check(&filled(&ext, 2, 1, 999)), no(15, 2 + 999 + 1));
}

#[test]
fn limit_of_waiting() {
    let mut text = places(1);
    text.extend(b"S,cut,0,0,1,2\n".repeat(200));
    text.extend(b"S,emp,1,0,0,0\n".repeat(201));
    assert_eq!(check(&text), yes(2, 1, 401, 201));
    // One closing too few, one too many.
    let mut text = places(1);
    text.extend(b"S,cut,0,0,1,2\n".repeat(200));
    text.extend(b"S,emp,1,0,0,0\n".repeat(200));
    assert_eq!(check(&text), no(17, 404));
    text.extend(b"S,emp,1,0,0,0\n".repeat(2));
    assert_eq!(check(&text), no(5, 405));
    // The neighbour above.
    let mut text = places(1);
    text.extend(b"S,cut,0,0,1,2\n".repeat(201));
    text.extend(b"S,emp,1,0,0,0\n".repeat(202));
    assert_eq!(check(&text), no(16, 204));
    // A closing makes room for one.
    let mut text = places(1);
    text.extend(b"S,cut,0,0,1,2\n".repeat(200));
    text.extend(b"S,emp,1,0,0,0\n");
    text.extend(b"S,cut,0,0,1,2\n");
    assert_eq!(check(&text), no(17, 206));
    text.extend(b"S,cut,0,0,1,2\n");
    assert_eq!(check(&text), no(16, 206));
}

#[test]
fn limit_of_waiting_in_img() {
    // Two of the three alternatives wait.
    let mut text = file(&IMG[..13]);
    text.extend(b"S,cut,0,0,1,3\n".repeat(198));
    text.extend(b"S,img,1,0,5,0\n");
    assert_eq!(check(&text), no(17, 213));
    let mut text = file(&IMG[..13]);
    text.extend(b"S,cut,0,0,1,3\n".repeat(199));
    text.extend(b"S,img,1,0,5,0\n");
    assert_eq!(check(&text), no(16, 213));
}

#[test]
fn places_come_before_waiting() {
    // 800 A lines and 200 cuts fill both.
    let mut text = places(800);
    text.extend(b"S,cut,0,0,1,2\n".repeat(201));
    assert_eq!(check(&text), no(15, 2 + 800 + 201));
    let mut text = places(799);
    text.extend(b"S,cut,0,0,1,2\n".repeat(201));
    assert_eq!(check(&text), no(16, 2 + 799 + 201));
}

// ---------------------------------------------------------------------------
// How the old checker went wrong
// ---------------------------------------------------------------------------

#[test]
fn old_two_of_three_img_alternatives() {
    assert_eq!(check_lines(&IMG), yes(9, 4, 4, 3));
    assert_eq!(check_lines(&without_line(&IMG, 17)), no(17, 17));
    // In the order of the document: nl, then ni, then in.
    assert_eq!(
        check_lines(&with_line(&IMG, 15, "S,cls,3,5,0,0")),
        no(12, 15)
    );
    assert_eq!(
        check_lines(&with_line(&IMG, 16, "S,cls,5,4,0,0")),
        no(12, 16)
    );
}

#[test]
fn old_w_inside_a_larger_term() {
    let fresh = "T,rfv,1,0,0,0 T,typ,1,0,0,0 T,all,0,0,0,0 T,emp,0,0,0,0
                 A,ne,3,4,0,0 S,ext,1,0,0,1";
    assert_eq!(check_text(fresh), no(17, 7));
    let spoilt = "T,rfv,1,0,0,0 T,typ,1,0,0,0 T,all,0,0,0,0 T,emp,0,0,0,0
                  A,ne,3,4,0,0 A,eq,2,2,0,0 S,ext,1,0,0,1";
    assert_eq!(check_text(spoilt), not_fresh(7, 2));
    // Two deep, on the right side.
    let deep = "T,rfv,1,0,0,0 T,sin,1,0,0,0 T,all,0,0,0,0 T,emp,0,0,0,0 T,cup,3,2,0,0
                A,ne,3,4,0,0 A,eq,3,5,0,0 S,ext,1,0,0,1";
    assert_eq!(check_text(deep), not_fresh(8, 2));
    // In what the step needs: all ne cup(all,sin(w)).
    let needed = "T,rfv,1,0,0,0 T,sin,1,0,0,0 T,all,0,0,0,0 T,cup,3,2,0,0
                  A,ne,3,4,0,0 S,ext,1,0,0,1";
    assert_eq!(check_text(needed), not_fresh(6, 1));
    // A name that equals the term number does not spoil it.
    let name = "T,rfv,7,0,0,0 T,rgv,1,0,0,0 T,all,0,0,0,0
                A,ne,2,3,0,0 S,ext,1,0,0,1";
    assert_eq!(check_text(name), no(17, 6));
    // Nor does the same name of another sort: `rfv` 1 and `rgv` 1.
    let sort = "T,rfv,1,0,0,0 T,rgv,1,0,0,0 T,all,0,0,0,0
                A,ne,2,3,0,0 S,ext,1,0,0,1";
    assert_eq!(check_text(sort), no(17, 6));
}

#[test]
fn old_sub_on_names() {
    let names = "T,rfv,3,0,0,0 T,rfv,4,0,0,0 T,rfv,1,0,0,0 T,rfv,2,0,0,0
                 A,eq,3,4,0,0 S,sub,1,0,1,2";
    assert_eq!(check_text(names), no(12, 6));
    // Not even a name with itself, nor a word with no argument.
    let same = "T,rfv,3,0,0,0 T,rfv,4,0,0,0 A,eq,1,2,0,0 S,sub,1,0,1,1";
    assert_eq!(check_text(same), no(12, 4));
    let none = "T,nul,0,0,0,0 A,eq,1,1,0,0 S,sub,1,0,1,1";
    assert_eq!(check_text(none), no(12, 3));
    // t and w may be one term with an argument.
    let one = "T,nul,0,0,0,0 T,sin,1,0,0,0 A,eq,1,1,0,0 S,sub,1,0,2,2";
    assert_eq!(check_text(one), no(17, 5));
    // t has a and w has b, not the other way round.
    let turned = "T,rfv,1,0,0,0 T,rfv,2,0,0,0 T,typ,1,0,0,0 T,typ,2,0,0,0
                  A,eq,1,2,0,0 S,sub,1,0,4,3";
    assert_eq!(check_text(turned), no(12, 6));
}

#[test]
fn old_literals_of_a_closed_alternative() {
    // G with a literal more in its first alternative, wanted in the second.
    let mut kept = G[..8].to_vec();
    kept.extend(["S,ref,0,0,1,0", "S,cls,4,2,0,0", "S,sym,5,0,0,0"]);
    assert_eq!(check_lines(&kept), no(11, 11));
    let mut kept = G[..8].to_vec();
    kept.extend(["S,ref,0,0,1,0", "S,sym,5,0,0,0", "S,cls,4,2,0,0"]);
    kept.push("S,cls,4,3,0,0");
    assert_eq!(check_lines(&kept), yes(4, 3, 5, 2));
    // In place 4 stands the second alternative, and not the first.
    assert_eq!(check_lines(&with_line(&G, 10, "S,cls,4,2,0,0")), no(12, 10));
}

#[test]
fn old_sin_without_a_case_outside_all() {
    // u ni sin(u) alone does not close: first comes u ni all.
    let lines = [
        "T,rfv,1,0,0,0",
        "T,sin,1,0,0,0",
        "T,all,0,0,0,0",
        "A,ni,1,2,0,0",
        "S,sgi,0,0,2,0",
        "S,cls,2,1,0,0",
    ];
    assert_eq!(check_lines(&lines), no(12, 6));
    // Both alternatives ask for all in the table.
    let lines = ["T,rfv,1,0,0,0", "T,sin,1,0,0,0", "S,sgi,0,0,2,0"];
    assert_eq!(check_lines(&lines), no(14, 3));
}

// ---------------------------------------------------------------------------
// The rules, each accepted once
// ---------------------------------------------------------------------------

#[test]
fn every_rule() {
    let files = rule_files();
    assert_eq!(files.len(), RULES.len());
    for example in &files {
        let name = example.rule;
        let word = format!("S,{name},");
        assert!(example.lines.iter().any(|line| line.starts_with(&word)));
        let [terms, assumptions, steps, closings] = example.counts;
        let expected = yes(terms, assumptions, steps, closings);
        assert_eq!(check_lines(&example.lines), expected, "{name}");
    }
    for rule in RULES {
        assert!(files.iter().any(|example| example.rule == rule), "{rule}");
    }
}

#[test]
fn every_rule_uses_its_fields() {
    // The column "Uses" of the document, written out a second time.
    let table = "eqr pq, eql pq, ext pw, cpe p, cpi pqt, cue p, cui pt, dfe p, dfi pqt, sge p,
                 sgi t, cut tw, all p, nul p, sep pq, img pt, wit pw, ref t, sym p, trn pq,
                 sub ptw, rep pqt, ler t, let pq, lea pq, rdh t, rdm t, cls pq, emp p, cla t,
                 fin p, bck";
    let mut rows = 0;
    for row in table.split(',') {
        let words: Vec<&str> = row.split_whitespace().collect();
        let (rule, used) = (words[0], words.get(1).unwrap_or(&""));
        rows += 1;
        for (index, field) in ["p", "q", "t", "w"].iter().enumerate() {
            let mut numbers = [0, 0, 0, 0];
            numbers[index] = 1;
            let [p, q, t, w] = numbers;
            let line = format!("S,{rule},{p},{q},{t},{w}");
            // With an empty table and branch a used field gets past 6.
            let reply = check_lines(&[&line]);
            assert_ne!(reply.number, 4, "{line}");
            assert_eq!(reply.number == 6, !used.contains(field), "{line}");
            assert_eq!(reply.line, 1);
        }
    }
    assert_eq!(rows, 32);
}

#[test]
fn no_other_word_is_a_rule() {
    let letters = || (b'a'..=b'z').map(char::from);
    let mut rules = 0;
    for first in letters() {
        for second in letters() {
            assert_eq!(check_text(&format!("S,{first}{second},0,0,0,0")), no(4, 1));
            for third in letters() {
                let word = format!("{first}{second}{third}");
                let known = RULES.contains(&word.as_str());
                let reply = check_text(&format!("S,{word},0,0,0,0"));
                assert_eq!(reply.number != 4, known, "{word}");
                rules += usize::from(known);
            }
        }
    }
    assert_eq!(rules, 32);
}

#[test]
fn premises_in_order() {
    // `eqr` and `eql` want the equation first.
    let text = "T,rfv,1,0,0,0 T,rgv,1,0,0,0 T,rgv,2,0,0,0 A,eq,2,3,0,0 A,in,1,2,0,0";
    assert_eq!(check_text(&format!("{text} S,eqr,2,1,0,0")), no(12, 6));
    assert_eq!(check_text(&format!("{text} S,eql,1,2,0,0")), no(12, 6));
    // `cpi`: p on the left of cap, q on the right; one place may be both.
    let text = "T,rfv,1,0,0,0 T,rgv,1,0,0,0 T,rgv,2,0,0,0 T,cap,2,3,0,0 T,cap,2,2,0,0
                A,in,1,2,0,0 A,in,1,3,0,0";
    assert_eq!(check_text(&format!("{text} S,cpi,2,1,4,0")), no(12, 8));
    assert_eq!(check_text(&format!("{text} S,cpi,1,2,4,0")), no(17, 9));
    assert_eq!(check_text(&format!("{text} S,cpi,1,1,5,0")), no(17, 9));
    // `cui`: either side.
    let text = "T,rfv,1,0,0,0 T,rgv,1,0,0,0 T,rgv,2,0,0,0 T,rgv,3,0,0,0 T,cup,2,3,0,0
                A,in,1,2,0,0 A,in,1,3,0,0 A,in,1,4,0,0";
    assert_eq!(check_text(&format!("{text} S,cui,1,0,5,0")), no(17, 10));
    assert_eq!(check_text(&format!("{text} S,cui,2,0,5,0")), no(17, 10));
    assert_eq!(check_text(&format!("{text} S,cui,3,0,5,0")), no(12, 9));
    // `cls`: the denied literal second, the terms in the same order.
    let text = "T,rfv,1,0,0,0 T,rfv,2,0,0,0 A,eq,1,2,0,0 A,ne,1,2,0,0 A,ne,2,1,0,0";
    assert_eq!(
        check_text(&format!("{text} S,cls,1,2,0,0")),
        yes(2, 3, 1, 1)
    );
    assert_eq!(check_text(&format!("{text} S,cls,1,3,0,0")), no(12, 6));
    assert_eq!(check_text(&format!("{text} S,cls,2,1,0,0")), no(12, 6));
    assert_eq!(check_text(&format!("{text} S,cls,1,1,0,0")), no(12, 6));
    // `ext` wants regions.
    let text = "T,rfv,1,0,0,0 T,rfv,2,0,0,0 A,ne,1,1,0,0 S,ext,1,0,0,2";
    assert_eq!(check_text(text), no(12, 4));
}

// ---------------------------------------------------------------------------
// The struck rule, and what stands in for it
// ---------------------------------------------------------------------------

#[test]
fn fir_is_not_known() {
    assert_eq!(check_lines(&STRUCK), no(4, 5));
    // 4 whatever the fields hold, on a closed tree and on a full branch too.
    for line in [
        "S,fir,0,0,0,1",
        "S,fir,0,0,0,0",
        "S,fir,0,0,0,9999",
        "S,fir,1,0,0,1",
        "S,fir,9999,9999,9999,9999",
        "S,fir,99999,99999,99999,99999",
    ] {
        assert_eq!(check_lines(&[line]), no(4, 1), "{line}");
        assert_eq!(check_lines(&with_line(&F, 7, line)), no(4, 7), "{line}");
        assert_eq!(check_lines(&with_more(&F, &[line])), no(4, 9), "{line}");
        let mut text = places(1_000);
        text.extend(file(&[line]));
        assert_eq!(check(&text), no(4, 1_003), "{line}");
    }
    // 2 comes before 4.
    for line in [
        "S,fir,0,0,0",
        "S,fir,0,0,0,1,",
        "S,fir,0,0,0,01",
        "S,fir,0,0,0,100000",
        "S,Fir,0,0,0,1",
        "S,firs,0,0,0,1",
        "s,fir,0,0,0,1",
        "S,fir,0,0,0,1\r",
    ] {
        assert_eq!(check_lines(&[line]), no(2, 1), "{line:?}");
        assert_eq!(check_lines(&with_line(&F, 7, line)), no(2, 7), "{line:?}");
        assert_eq!(check_lines(&with_more(&F, &[line])), no(2, 9), "{line:?}");
    }
    assert_eq!(check(b"S,fir,0,0,0,1"), no(2, 1));
    // So does 3; under T, A and C `fir` was never known.
    assert_eq!(check(b"C,fir,0,0,0,1\n"), no(4, 1));
    assert_eq!(check(b"T,fir,0,0,0,1\n"), no(4, 1));
    assert_eq!(check(b"A,fir,0,0,0,1\n"), no(4, 1));
    assert_eq!(check_lines(&with_line(&F, 8, "T,fir,0,0,0,1")), no(3, 8));
    assert_eq!(check_lines(&with_line(&F, 8, "A,fir,0,0,0,1")), no(3, 8));
}

#[test]
fn all_ne_emp_gives_an_allocated_object() {
    assert_eq!(check_lines(&ALLOCATED), yes(5, 3, 8, 3));
    // Without it place 1 holds r eq emp, which `ext` cannot open.
    assert_eq!(check_lines(&without_line(&ALLOCATED, 6)), no(12, 8));
    // The alternative w ni all, w in emp is to be closed too.
    assert_eq!(check_lines(&without_line(&ALLOCATED, 16)), no(17, 16));
    // With all eq emp beside it. Places: 3 w in all, 4 w ni emp, 5 w in emp,
    // then 3 w ni all, 4 w in emp.
    let text = "T,rfv,1,0,0,0 T,all,0,0,0,0 T,emp,0,0,0,0
                A,ne,2,3,0,0 A,eq,2,3,0,0
                S,ext,1,0,0,1 S,eqr,2,3,0,0 S,cls,5,4,0,0 S,emp,4,0,0,0";
    assert_eq!(check_text(text), yes(3, 2, 4, 2));
}

#[test]
fn all_eq_emp_stays_open() {
    // No literal says of a w that it is in all, and `ext` wants a ne.
    let base = "T,rfv,1,0,0,0 T,all,0,0,0,0 T,emp,0,0,0,0 A,eq,2,3,0,0";
    assert_eq!(check_text(base), no(17, 5));
    for line in [
        "S,ext,1,0,0,1",
        "S,eqr,1,1,0,0",
        "S,eql,1,1,0,0",
        "S,emp,1,0,0,0",
        "S,all,1,0,0,0",
        "S,cls,1,1,0,0",
    ] {
        assert_eq!(check_text(&format!("{base} {line}")), no(12, 5), "{line}");
    }
    // A cut at all closes on w in all only. Places: 2 w in all, 3 w in emp,
    // then 2 w ni all.
    let cut = format!("{base} S,cut,0,0,1,2 S,eqr,1,2,0,0 S,emp,3,0,0,0");
    assert_eq!(check_text(&cut), no(17, 8));
    assert_eq!(check_text(&format!("{cut} S,cls,2,2,0,0")), no(12, 8));
    assert_eq!(check_text(&format!("{cut} S,emp,3,0,0,0")), no(11, 8));
}

// ---------------------------------------------------------------------------
// Checks on one line, in the order of the numbers
// ---------------------------------------------------------------------------

#[test]
fn shapes() {
    let bad = [
        "",
        "T",
        "T,nul,0,0,0",
        "T,nul,0,0,0,0,0",
        "T,nul,0,0,0,0,",
        ",nul,0,0,0,0",
        "t,nul,0,0,0,0",
        "B,nul,0,0,0,0",
        "TT,nul,0,0,0,0",
        "T,,0,0,0,0",
        "T,n,0,0,0,0",
        "T,null,0,0,0,0",
        "T,Nul,0,0,0,0",
        "T,nu1,0,0,0,0",
        "T,nul,,0,0,0",
        "T,nul,00,0,0,0",
        "T,nul,01,0,0,0",
        "T,nul,100000,0,0,0",
        "T,nul,00000,0,0,0",
        "T,nul,-1,0,0,0",
        "T,nul,+1,0,0,0",
        "T,nul,1a,0,0,0",
        "T,nul,\"0\",0,0,0",
        "T,\"nul\",0,0,0,0",
        " T,nul,0,0,0,0",
        "T,nul,0,0,0,0 ",
        "T,nul, 0,0,0,0",
        "T,nul,0,0,0,0\r",
        "T;nul;0;0;0;0",
    ];
    for line in bad {
        assert_eq!(check_lines(&[line]), no(2, 1), "{line:?}");
        assert_eq!(check_lines(&with_line(&F, 6, line)), no(2, 6), "{line:?}");
        assert_eq!(check_lines(&with_more(&F, &[line])), no(2, 9), "{line:?}");
    }
    // No LF at the end, even where the tree would be closed.
    let mut text = file(&F);
    text.pop();
    assert_eq!(check(&text), no(2, 8));
    // An empty line more.
    let mut text = file(&F);
    text.push(b'\n');
    assert_eq!(check(&text), no(2, 9));
    assert_eq!(check(&[0xff, 0xfe, b'\n']), no(2, 1));
}

#[test]
fn words_of_other_letters() {
    for line in [
        "T,in,0,0,0,0",
        "T,ref,0,0,0,0",
        "T,xx,0,0,0,0",
        "A,nul,0,0,0,0",
        "A,cls,0,0,0,0",
        "A,inn,0,0,0,0",
        "A,cla,0,0,0,0",
        "T,cla,0,0,0,0",
        "A,fin,0,0,0,0",
        "T,fin,0,0,0,0",
        "C,nul,0,0,0,0",
        "C,cla,0,0,1,0",
        "C,fin,0,0,1,0",
        "C,inn,0,0,0,0",
        "S,rfv,0,0,0,0",
        "S,in,0,0,0,0",
        "S,zz,9,9,9,9",
    ] {
        assert_eq!(check_lines(&[line]), no(4, 1), "{line}");
    }
    // 2, 3 and 4 come before 5; 5 before 6.
    assert_eq!(check_lines(&with_more(&F, &["S,rfv,0,0,0,0"])), no(4, 9));
    assert_eq!(check_lines(&with_more(&F, &["T,ref,0,0,0,0"])), no(3, 9));
    assert_eq!(check_lines(&with_more(&F, &["S,cls,9,9,9,9"])), no(5, 9));
}

#[test]
fn order_on_t_lines() {
    // 6 before 8, 8 before 9, 9 before 10.
    assert_eq!(check(b"T,rfv,0,1,0,0\n"), no(6, 1));
    assert_eq!(check(b"T,nul,1,0,0,0\n"), no(6, 1));
    assert_eq!(check(b"T,sin,0,0,0,0\n"), no(8, 1));
    assert_eq!(check(b"T,sin,1,0,0,0\n"), no(8, 1));
    assert_eq!(check_text("T,rfv,1,0,0,0 T,cup,1,9,0,0"), no(8, 2));
    assert_eq!(check_text("T,rfv,1,0,0,0 T,cup,1,1,0,0"), no(9, 2));
    // The same name under another word is another variable.
    let names = "T,rfv,1,0,0,0 T,rgv,1,0,0,0 T,arv,1,0,0,0 T,fnv,1,0,0,0 T,clv,1,0,0,0";
    assert_eq!(check_text(names), no(17, 6));
    assert_eq!(check_text(&format!("{names} T,clv,1,0,0,0")), no(10, 6));
    // cup(r,s) and cup(s,r) are two terms.
    let turned = "T,rgv,1,0,0,0 T,rgv,2,0,0,0 T,cup,1,2,0,0 T,cup,2,1,0,0 T,cap,1,2,0,0";
    assert_eq!(check_text(turned), no(17, 6));
    for name in ["9999", "10000", "65536", "99999"] {
        let line = format!("T,rfv,{name},0,0,0");
        assert_eq!(check_lines(&[&line]), no(17, 2), "{line}");
        assert_eq!(check_lines(&[&line, &line]), no(10, 2), "{line}");
    }
    let cut = "T,rfv,1,0,0,0 T,rfv,10001,0,0,0 T,rfv,16385,0,0,0 T,rfv,65537,0,0,0";
    assert_eq!(check_text(cut), no(17, 5));
}

#[test]
fn five_digits_are_read_whole() {
    // The right numbers are the last digit and the low 16 bits of these.
    for (line, number) in [
        ("S,cpe,10001,0,0,0", 11),
        ("S,cpe,65537,0,0,0", 11),
        ("S,ref,0,0,10001,0", 8),
        ("S,ref,0,0,65537,0", 8),
        ("S,ref,0,65536,1,0", 6),
        ("S,cut,0,0,1,65538", 8),
        ("C,in,1,2,65537,0", 21),
        ("C,in,1,65538,1,0", 8),
        ("S,cpe,100001,0,0,0", 2),
    ] {
        let changed = with_line(&F, 7, line);
        assert_eq!(check_lines(&changed), no(number, 7), "{line}");
    }
}

/// Which names the variables have changes no reply.
#[test]
fn names_may_be_changed_over() {
    let mut changed = 0;
    for case in cases::all() {
        let other = names_changed_over(&case.file);
        if case.file.len().max(other.len()) > 60_000 {
            continue;
        }
        let reply = reply_line(&check(&other));
        assert_eq!(reply, format!("{}\n", case.reply), "{}", case.name);
        changed += usize::from(other != case.file);
    }
    assert!(changed > 4_000, "{changed}");
}

#[test]
fn sorts_on_t_lines() {
    // Terms: 1 reference, 2 region, 3 heap, 4 field, 5 class.
    let base = "T,rfv,1,0,0,0 T,rgv,1,0,0,0 T,arv,1,0,0,0 T,fnv,1,0,0,0 T,clv,1,0,0,0";
    let words: [(&str, &[u32]); 9] = [
        ("rea", &[3, 1, 4]),
        ("cup", &[2, 2]),
        ("cap", &[2, 2]),
        ("dif", &[2, 2]),
        ("sin", &[1]),
        ("img", &[3, 2, 4]),
        ("wri", &[3, 1, 4, 1]),
        ("typ", &[1]),
        ("dty", &[4]),
    ];
    for (word, good) in words {
        let line = t_line(word, good);
        assert_eq!(check_text(&format!("{base} {line}")), no(17, 7), "{line}");
        for index in 0..good.len() {
            for term in 1..=5 {
                let mut arguments = good.to_vec();
                arguments[index] = term;
                let line = t_line(word, &arguments);
                let expected = if term == good[index] {
                    no(17, 7)
                } else {
                    no(9, 6)
                };
                assert_eq!(check_text(&format!("{base} {line}")), expected, "{line}");
            }
        }
    }
}

fn t_line(word: &str, arguments: &[u32]) -> String {
    let mut line = format!("T,{word}");
    for index in 0..4 {
        let number = arguments.get(index).copied().unwrap_or(0);
        line.push_str(&format!(",{number}"));
    }
    line
}

#[test]
fn sorts_on_a_and_c_lines() {
    let base = "T,rfv,1,0,0,0 T,rgv,1,0,0,0 T,arv,1,0,0,0 T,fnv,1,0,0,0 T,clv,1,0,0,0";
    for left in 1..=5 {
        for right in 1..=5 {
            for word in ["in", "ni", "eq", "ne", "le", "nl"] {
                let good = match word {
                    "in" | "ni" => left == 1 && right == 2,
                    "eq" | "ne" => left == right,
                    _ => left == 5 && right == 5,
                };
                let expected = if good { no(17, 7) } else { no(9, 6) };
                for line in [
                    format!("A,{word},{left},{right},0,0"),
                    format!("C,{word},{left},{right},1,0"),
                ] {
                    assert_eq!(check_text(&format!("{base} {line}")), expected, "{line}");
                }
            }
        }
    }
    // 6 before 8, 8 before 9.
    assert_eq!(check_text(&format!("{base} A,in,0,9,1,0")), no(6, 6));
    assert_eq!(check_text(&format!("{base} A,in,1,2,0,1")), no(6, 6));
    assert_eq!(check_text(&format!("{base} A,in,2,6,0,0")), no(8, 6));
    assert_eq!(check_text(&format!("{base} A,in,0,2,0,0")), no(8, 6));
    // And 21 after 9.
    assert_eq!(check_text(&format!("{base} C,in,0,9,0,1")), no(6, 6));
    assert_eq!(check_text(&format!("{base} C,in,1,2,1,1")), no(6, 6));
    assert_eq!(check_text(&format!("{base} C,in,2,6,0,0")), no(8, 6));
    assert_eq!(check_text(&format!("{base} C,in,0,2,0,0")), no(8, 6));
    assert_eq!(check_text(&format!("{base} C,in,2,1,0,0")), no(9, 6));
    assert_eq!(check_text(&format!("{base} C,in,1,2,0,0")), no(21, 6));
}

#[test]
fn order_on_s_lines() {
    // Terms: 1 u, 2 r, 3 a class. One place: u in r.
    let base = "T,rfv,1,0,0,0 T,rgv,1,0,0,0 T,clv,1,0,0,0 A,in,1,2,0,0";
    for (line, number) in [
        // 6 before 8.
        ("S,cut,1,0,9,9", 6),
        // 8 before 9: t is no reference, w no term.
        ("S,cut,0,0,2,0", 8),
        ("S,cut,0,0,0,2", 8),
        ("S,cut,0,0,2,2", 9),
        ("S,cut,0,0,1,1", 9),
        ("S,ler,0,0,4,0", 8),
        ("S,ler,0,0,1,0", 9),
        ("S,ref,0,0,0,0", 8),
        // 8 before 11.
        ("S,cui,0,0,0,0", 8),
        ("S,ext,9,0,0,4", 8),
        // 11 before 12.
        ("S,cui,2,0,1,0", 11),
        ("S,eqr,1,2,0,0", 11),
        ("S,eqr,0,1,0,0", 11),
        ("S,cui,1,0,1,0", 12),
        // A wrong sort elsewhere is 12.
        ("S,sgi,0,0,1,0", 12),
        ("S,rdh,0,0,2,0", 12),
        ("S,rdm,0,0,3,0", 12),
        // 12 before 13.
        ("S,ext,1,0,0,1", 12),
        ("S,wit,1,0,0,1", 12),
    ] {
        assert_eq!(
            check_text(&format!("{base} {line}")),
            no(number, 5),
            "{line}"
        );
    }
}

#[test]
fn freshness() {
    // 13 before 14: u in img(h,r,f) is on the branch, and no typ(w) or
    // rea(h,w,f) in the table. Terms: 1 h, 2 r, 3 f, 4 img(h,r,f), 5 u, 6 w.
    let base = "T,arv,1,0,0,0 T,rgv,1,0,0,0 T,fnv,1,0,0,0 T,img,1,2,3,0
                T,rfv,1,0,0,0 T,rfv,2,0,0,0 A,in,5,4,0,0";
    for (w, expected) in [
        (0, no(8, 8)),
        (1, not_fresh(8, 0)),
        (2, not_fresh(8, 0)),
        (3, not_fresh(8, 0)),
        (4, not_fresh(8, 0)),
        (5, not_fresh(8, 1)),
        (6, no(14, 8)),
    ] {
        let line = format!("S,wit,1,0,0,{w}");
        assert_eq!(check_text(&format!("{base} {line}")), expected, "{line}");
    }
    // w not an `rfv` is not fresh: 2 a region, 3 a class on no branch.
    let base = "T,rfv,1,0,0,0 T,rgv,1,0,0,0 T,clv,1,0,0,0 A,ne,2,2,0,0";
    assert_eq!(check_text(&format!("{base} S,ext,1,0,0,1")), no(17, 6));
    for w in [2, 3] {
        let text = format!("{base} S,ext,1,0,0,{w}");
        assert_eq!(check_text(&text), not_fresh(5, 0), "{w}");
    }
    // `nul` is on no branch and yet not fresh: only an `rfv` is.
    let text = "T,nul,0,0,0,0 T,all,0,0,0,0 T,emp,0,0,0,0 A,ne,2,3,0,0 S,ext,1,0,0,1";
    assert_eq!(check_text(text), not_fresh(5, 0));
    // 13 before 15 and 16: 800 A lines and 200 cuts fill both, and the first
    // cut puts u on place 801. Terms: 1 u, 2 w, 3 all, 4 emp.
    let line = 4 + 800 + 200 + 1;
    for (step, expected) in [
        ("S,ext,1,0,0,1", not_fresh(line, 801)),
        ("S,ext,1,0,0,2", no(15, line)),
    ] {
        let mut text = file(&["T,rfv,1,0,0,0", "T,rfv,2,0,0,0"]);
        text.extend(file(&["T,all,0,0,0,0", "T,emp,0,0,0,0"]));
        text.extend(b"A,ne,3,4,0,0\n".repeat(800));
        text.extend(b"S,cut,0,0,1,3\n".repeat(200));
        text.extend(file(&[step]));
        assert_eq!(check(&text), expected, "{step}");
    }
    // Not on the branch now: fresh again once both its alternatives, of which
    // each takes places 4 and 5, are closed. Terms: 1 u, 2 w, 3 all, 4 emp.
    let base = "T,rfv,1,0,0,0 T,rfv,2,0,0,0 T,all,0,0,0,0 T,emp,0,0,0,0
                A,in,1,4,0,0 A,ne,3,4,0,0 S,cut,0,0,1,3
                S,ext,2,0,0,2 S,emp,1,0,0,0";
    let early = format!("{base} S,ext,2,0,0,2");
    assert_eq!(check_text(&early), not_fresh(10, 4));
    let again = format!("{base} S,emp,1,0,0,0 S,ext,2,0,0,2 S,emp,1,0,0,0");
    assert_eq!(check_text(&again), no(17, 13));
    assert_eq!(
        check_text(&format!("{again} S,emp,1,0,0,0")),
        yes(4, 2, 7, 4)
    );
    // Only waiting, not on the branch: still fresh. Of the alternatives of
    // `rdm` only the second holds v, term 4; the first holds u and y, on
    // place 2.
    let mut lines = RDM[..9].to_vec();
    lines.extend(["T,all,0,0,0,0", "T,emp,0,0,0,0", "A,ne,10,11,0,0"]);
    lines.extend(["S,rdm,0,0,8,0", "S,ext,1,0,0,4"]);
    assert_eq!(check_lines(&lines), no(17, 15));
    for step in ["S,ext,1,0,0,2", "S,ext,1,0,0,6"] {
        assert_eq!(
            check_lines(&with_line(&lines, 14, step)),
            not_fresh(14, 2),
            "{step}"
        );
    }
}

#[test]
fn terms_to_be_added_must_stand() {
    // 14 for each missing term.
    let text = "T,rfv,1,0,0,0 T,rgv,1,0,0,0 A,in,1,2,0,0";
    assert_eq!(check_text(&format!("{text} S,all,1,0,0,0")), no(14, 4));
    assert_eq!(check_text(&format!("{text} S,nul,1,0,0,0")), no(14, 4));
    // `img`: each of all, typ(u), dty(f), rea(h,u,f).
    let terms = [
        "T,all,0,0,0,0",
        "T,typ,1,0,0,0",
        "T,dty,4,0,0,0",
        "T,rea,2,1,4,0",
    ];
    for missing in 0..4 {
        let mut lines = IMG[..5].to_vec();
        lines.extend(without_line(&terms, missing + 1));
        lines.extend(["A,in,1,3,0,0", "S,img,1,0,5,0"]);
        assert_eq!(check_lines(&lines), no(14, 10), "{}", terms[missing]);
    }
    // `wit`: each of typ(w), dty(f), rea(h,w,f).
    for missing in 7..=9 {
        let lines = [&without_line(&WIT[..10], missing), &["A,in,5,4,0,0"][..]].concat();
        let lines = with_more(&lines, &["S,wit,1,0,0,6"]);
        assert_eq!(check_lines(&lines), no(14, 11), "{}", WIT[missing - 1]);
    }
    // `rdm`: rea(h,y,g), wanted by the second alternative only.
    let lines = [&RDM[..8], &["S,rdm,0,0,8,0"]].concat();
    assert_eq!(check_lines(&lines), no(14, 9));
    // 14 before 15: the same at 1,000 places.
    let mut text = file(&["T,rfv,1,0,0,0", "T,rgv,1,0,0,0"]);
    text.extend(b"A,in,1,2,0,0\n".repeat(1_000));
    text.extend(b"S,nul,1,0,0,0\n");
    assert_eq!(check(&text), no(14, 1_003));
}

#[test]
fn alternatives_are_taken_last_split_first() {
    // Two cuts, u in r and u in s. Term 1 u, 2 r, 3 s; no assumptions hold, so
    // places say which alternative is on the branch.
    let base = "T,rfv,1,0,0,0 T,rgv,1,0,0,0 T,rgv,2,0,0,0 T,emp,0,0,0,0
                A,in,1,4,0,0 S,cut,0,0,1,2 S,cut,0,0,1,3 S,emp,1,0,0,0";
    // Now: u in r in place 2, u ni s in place 3.
    assert_eq!(check_text(&format!("{base} S,sep,2,3,0,0")), no(12, 9));
    assert_eq!(check_text(&format!("{base} S,nul,2,0,0,0")), no(14, 9));
    assert_eq!(check_text(&format!("{base} S,nul,3,0,0,0")), no(12, 9));
    // Next: u ni r in place 2, and nothing in place 3.
    let next = format!("{base} S,emp,1,0,0,0");
    assert_eq!(check_text(&format!("{next} S,nul,2,0,0,0")), no(12, 10));
    assert_eq!(check_text(&format!("{next} S,nul,3,0,0,0")), no(11, 10));
    assert_eq!(
        check_text(&format!("{next} S,emp,1,0,0,0")),
        yes(4, 1, 5, 3)
    );
}

// ---------------------------------------------------------------------------
// Clauses
// ---------------------------------------------------------------------------

#[test]
fn a_clause_is_split_into_its_literals() {
    assert_eq!(check_lines(&OR), yes(3, 3, 3, 2));
    assert_eq!(check_lines(&OR[..9]), no(17, 10));
    assert_eq!(check_lines(&with_more(&OR, &[OR[7]])), no(5, 11));
    // In order: u in r first.
    assert_eq!(check_lines(&with_line(&OR, 9, OR[9])), no(12, 9));
    assert_eq!(check_lines(&with_line(&OR, 10, OR[8])), no(12, 10));
    // A C line takes no place.
    assert_eq!(check_lines(&with_line(&OR, 8, OR[8])), no(11, 8));
    // A clause of one literal is added, and the tree is closed on line 9.
    let one = with_line(&OR, 7, "C,in,1,3,2,0");
    assert_eq!(check_lines(&one), no(5, 10));
    assert_eq!(check_lines(&one[..9]), yes(3, 4, 2, 1));
    // Twice, in the first alternative.
    let mut lines = OR[..8].to_vec();
    lines.extend([OR[7], "S,cls,4,1,0,0", "S,cls,4,2,0,0", "S,cls,3,2,0,0"]);
    assert_eq!(check_lines(&lines), yes(3, 3, 5, 3));
    // Never: F closes by itself, and the clause is counted.
    let mut lines = F[..6].to_vec();
    lines.extend(["C,in,1,2,1,0", "C,in,1,3,1,0", "C,in,1,4,2,0"]);
    lines.extend(&F[6..]);
    assert_eq!(check_lines(&lines), yes(4, 4, 2, 1));
}

#[test]
fn cla_on_no_clause() {
    // Terms 1 to 3 and places 1 and 2 are no clauses.
    for clause in ["0", "2", "3", "9999", "10001", "65537", "99999"] {
        let line = format!("S,cla,0,0,{clause},0");
        assert_eq!(check_lines(&with_line(&OR, 8, &line)), no(11, 8), "{line}");
    }
    assert_eq!(check_lines(&with_line(&F, 7, "S,cla,0,0,1,0")), no(11, 7));
    for line in ["S,cla,1,0,0,0", "S,cla,0,1,1,0", "S,cla,0,0,1,1"] {
        assert_eq!(check_lines(&with_line(&OR, 8, line)), no(6, 8), "{line}");
    }
}

#[test]
fn order_of_letters_with_c() {
    for (number, line) in [
        (5, "T,nul,0,0,0,0"),
        (7, "T,nul,0,0,0,0"),
        (7, "A,in,1,2,0,0"),
        (9, "T,nul,0,0,0,0"),
        (9, "A,in,1,2,0,0"),
        (9, "C,in,1,2,1,0"),
        (9, "C,in,1,2,0,0"),
    ] {
        let reply = check_lines(&with_line(&OR, number, line));
        assert_eq!(reply, no(3, number as u32), "{line}");
        assert_eq!(check_lines(&with_more(&OR, &[line])), no(3, 11), "{line}");
    }
    // Any kind may be missing.
    let text = "T,rfv,1,0,0,0 T,emp,0,0,0,0 C,in,1,2,1,0 S,cla,0,0,1,0 S,emp,1,0,0,0";
    assert_eq!(check_text(text), yes(2, 1, 2, 1));
    assert_eq!(check(b"C,in,1,2,1,0\n"), no(8, 1));
}

/// The C lines with these clause numbers after two terms and u in emp, which
/// closes the branch. C line n is line 3 + n.
fn numbered(numbers: &[u32]) -> Vec<u8> {
    let mut text = places(1);
    for number in numbers {
        text.extend(format!("C,in,1,2,{number},0\n").bytes());
    }
    text.extend(b"S,emp,1,0,0,0\n");
    text
}

#[test]
fn example_21() {
    let good: [&[u32]; 4] = [&[1], &[1, 1], &[1, 2], &[1, 1, 2, 3, 3]];
    for numbers in good {
        let clauses = *numbers.last().unwrap();
        assert_eq!(check(&numbered(numbers)), yes(2, 1 + clauses, 1, 1));
    }
    let bad: [&[u32]; 10] = [
        &[0],
        &[2],
        &[9999],
        &[99999],
        &[1, 0],
        &[1, 3],
        &[1, 2, 1],
        &[1, 2, 2, 4],
        &[1, 2, 3, 2],
        &[1, 1, 1, 1, 1, 1, 1, 1, 1],
    ];
    for numbers in bad {
        let last = 3 + numbers.len() as u32;
        assert_eq!(check(&numbered(numbers)), no(21, last), "{numbers:?}");
    }
}

#[test]
fn limits_of_clauses() {
    assert_eq!(check(&numbered(&[1; 8])), yes(2, 2, 1, 1));
    let ones: Vec<u32> = (1..=401).collect();
    assert_eq!(check(&numbered(&ones[..400])), yes(2, 401, 1, 1));
    assert_eq!(check(&numbered(&ones)), no(21, 404));
    let eights: Vec<u32> = (0..401).map(|index| index / 8 + 1).collect();
    assert_eq!(check(&numbered(&eights[..400])), yes(2, 51, 1, 1));
    assert_eq!(check(&numbered(&eights)), no(21, 404));
    // 15 is never for a C line.
    let mut text = places(1_000);
    text.extend(file(&["C,in,1,2,1,0", "S,emp,1000,0,0,0"]));
    assert_eq!(check(&text), yes(2, 1_001, 1, 1));
    let mut text = places(1_000);
    text.extend(file(&["C,in,1,2,1,0", "S,cla,0,0,1,0"]));
    assert_eq!(check(&text), no(15, 1_004));
    let mut text = places(999);
    text.extend(file(&["C,in,1,2,1,0", "S,cla,0,0,1,0", "S,emp,1000,0,0,0"]));
    assert_eq!(check(&text), yes(2, 1_000, 2, 1));
}

#[test]
fn limit_of_waiting_in_cla() {
    // Each leaves seven waiting: 28 times 7 and four cuts are 200.
    let splits = |clauses: usize, cuts: usize| {
        let mut text = places(1);
        text.extend(b"C,in,1,2,1,0\n".repeat(8));
        text.extend(b"S,cla,0,0,1,0\n".repeat(clauses));
        text.extend(b"S,cut,0,0,1,2\n".repeat(cuts));
        text
    };
    let mut text = splits(28, 4);
    text.extend(b"S,emp,1,0,0,0\n".repeat(201));
    assert_eq!(check(&text), yes(2, 2, 28 + 4 + 201, 201));
    assert_eq!(check(&splits(28, 5)), no(16, 3 + 8 + 28 + 5));
    assert_eq!(check(&splits(29, 0)), no(16, 3 + 8 + 29));
}

#[test]
fn freshness_beside_clauses() {
    // Terms: 1 w, 2 v, 3 r, 4 typ(w), 5 typ(v). Place 1: r ne r.
    let base = "T,rfv,1,0,0,0 T,rfv,2,0,0,0 T,rgv,1,0,0,0 T,typ,1,0,0,0 T,typ,2,0,0,0
                A,ne,3,3,0,0";
    let steps = "S,ext,1,0,0,1 S,cls,2,3,0,0 S,cls,3,2,0,0";
    for clause in ["C,in,2,3,1,0", "C,le,5,5,1,0", "C,eq,3,3,1,0"] {
        let text = format!("{base} {clause} {steps}");
        assert_eq!(check_text(&text), yes(5, 2, 3, 2), "{clause}");
    }
    for clause in [
        "C,in,1,3,1,0",
        "C,eq,2,1,1,0",
        "C,le,4,5,1,0",
        "C,nl,5,4,1,0",
        "C,eq,2,2,1,0 C,eq,2,2,1,0 C,eq,2,2,2,0 C,eq,4,4,2,0",
    ] {
        let before = base.split_whitespace().chain(clause.split_whitespace());
        let line = before.count() as u32 + 1;
        let text = format!("{base} {clause} {steps}");
        assert_eq!(check_text(&text), not_fresh(line, 0), "{clause}");
    }
    // Split: v in r is on the branch, and w only waits.
    let split = "C,in,2,3,1,0 C,in,1,3,1,0 S,cla,0,0,1,0";
    let waiting = format!("{base} {split} {steps}");
    assert_eq!(check_text(&waiting), not_fresh(10, 0));
}

// ---------------------------------------------------------------------------
// The place that mentions w
// ---------------------------------------------------------------------------

/// Lines 1 to 10. Terms: 1 w, 2 v, 3 r, 4 all, 5 typ(w), 6 sin(w), 7 cup(r,6),
/// 8 typ(v). Places 1 and 2 without w: r ne all, v in all.
const NO_W: &str = "T,rfv,1,0,0,0 T,rfv,2,0,0,0 T,rgv,1,0,0,0 T,all,0,0,0,0
                    T,typ,1,0,0,0 T,sin,1,0,0,0 T,cup,3,6,0,0 T,typ,2,0,0,0
                    A,ne,3,4,0,0 A,in,2,4,0,0";

/// The reply to lines after those, and then `ext` with w, which comes on the
/// line given.
fn ext_after(more: &str) -> (Reply, u32) {
    let text = format!("{NO_W} {more} S,ext,1,0,0,1");
    let line = text.split_whitespace().count() as u32;
    (check_text(&text), line)
}

#[test]
fn place_on_either_side_and_inside() {
    for literal in [
        "A,in,1,4,0,0",
        "A,ni,1,3,0,0",
        "A,eq,1,2,0,0",
        "A,ne,2,1,0,0",
        "A,le,5,8,0,0",
        "A,nl,8,5,0,0",
        "A,in,2,6,0,0",
        "A,ni,2,7,0,0",
        "A,eq,7,3,0,0",
        "A,ne,4,7,0,0",
    ] {
        let (reply, line) = ext_after(literal);
        assert_eq!(reply, not_fresh(line, 3), "{literal}");
        // The first of several, and one place further on for each before it.
        let (reply, line) = ext_after(&format!("{literal} A,eq,1,1,0,0 {literal}"));
        assert_eq!(reply, not_fresh(line, 3), "{literal}");
        let (reply, line) = ext_after(&format!("A,le,8,8,0,0 A,eq,2,2,0,0 {literal}"));
        assert_eq!(reply, not_fresh(line, 5), "{literal}");
    }
}

#[test]
fn place_of_a_derived_literal() {
    for (steps, place) in [
        // w in all on place 3, w ni all waits.
        ("S,cut,0,0,1,4", 3),
        ("S,ref,0,0,2,0 S,ref,0,0,7,0 S,ref,0,0,1,0", 4),
        ("S,ler,0,0,8,0 S,ler,0,0,8,0 S,ler,0,0,5,0", 5),
        // v in all again on place 3.
        ("S,all,2,0,0,0 S,cut,0,0,2,6", 4),
    ] {
        let (reply, line) = ext_after(steps);
        assert_eq!(reply, not_fresh(line, place), "{steps}");
    }
    // `wit` too. Terms 6 w, 7 typ(w); place 1: u in img, place 2: r eq emp.
    for (step, place) in [("S,ref,0,0,6,0", 3), ("S,ref,0,0,7,0", 3)] {
        let lines = with_more(&WIT[..12], &[step, WIT[12]]);
        assert_eq!(check_lines(&lines), not_fresh(14, place), "{step}");
    }
    // It adds places 3 to 5, all with w.
    let lines = with_more(&WIT[..13], &[WIT[12]]);
    assert_eq!(check_lines(&lines), not_fresh(14, 3));
}

#[test]
fn place_and_clauses() {
    for (lines, place) in [
        // In a clause only, split or not; w waits.
        ("C,in,1,4,1,0", 0),
        ("C,in,2,3,1,0 C,in,2,7,1,0", 0),
        ("C,in,2,3,1,0 C,in,1,3,1,0 S,cla,0,0,1,0", 0),
        // On the branch too: before the clause, and by splitting it.
        ("A,eq,5,5,0,0 C,in,1,4,1,0", 3),
        ("C,in,1,4,1,0 S,ref,0,0,2,0 S,cut,0,0,2,6", 4),
        ("C,in,1,3,1,0 C,in,2,3,1,0 S,cla,0,0,1,0", 3),
        ("C,in,2,3,1,0 C,in,2,7,2,0 S,cla,0,0,1,0 S,cla,0,0,2,0", 4),
    ] {
        let (reply, line) = ext_after(lines);
        assert_eq!(reply, not_fresh(line, place), "{lines}");
    }
}

#[test]
fn place_of_no_rfv() {
    // 3 to 8 are no `rfv`, and all of them stand on the branch.
    let base = format!("{NO_W} A,le,5,8,0,0 A,in,1,7,0,0 A,in,2,6,0,0");
    for w in 3..=8 {
        let text = format!("{base} S,ext,1,0,0,{w}");
        assert_eq!(check_text(&text), not_fresh(14, 0), "{w}");
    }
    // v, on place 2, and w, inside 5 on place 3.
    for (w, place) in [(1, 3), (2, 2)] {
        let text = format!("{base} S,ext,1,0,0,{w}");
        assert_eq!(check_text(&text), not_fresh(14, place), "{w}");
    }
}

#[test]
fn place_after_the_branch_is_cut_back() {
    // Terms: 1 w, 2 v, 3 r, 4 emp. Places 3 v in r, 4 w eq w, 5 w in emp; their
    // denials v ni r and w ni emp wait.
    let base = "T,rfv,1,0,0,0 T,rfv,2,0,0,0 T,rgv,1,0,0,0 T,emp,0,0,0,0
                A,ne,3,4,0,0 A,in,2,4,0,0 S,cut,0,0,2,3 S,ref,0,0,1,0 S,cut,0,0,1,4";
    let ext = "S,ext,1,0,0,1";
    assert_eq!(check_text(&format!("{base} {ext}")), not_fresh(10, 4));
    // w ni emp on place 5: w eq w still stands first.
    let once = format!("{base} S,emp,2,0,0,0");
    assert_eq!(check_text(&format!("{once} {ext}")), not_fresh(11, 4));
    // v ni r on place 3 and no more: w is fresh, or comes again further on.
    let twice = format!("{once} S,emp,2,0,0,0");
    assert_eq!(check_text(&format!("{twice} {ext}")), no(17, 13));
    let later = format!("{twice} S,ref,0,0,2,0 S,ref,0,0,2,0 S,ref,0,0,1,0");
    assert_eq!(check_text(&format!("{later} {ext}")), not_fresh(15, 6));
    // The second alternative of `ext` has w on places 4 and 5 like the first.
    let taken = format!("{twice} {ext}");
    assert_eq!(check_text(&format!("{taken} {ext}")), not_fresh(13, 4));
    let other = format!("{taken} S,emp,2,0,0,0");
    assert_eq!(check_text(&format!("{other} {ext}")), not_fresh(14, 4));
}

#[test]
fn place_on_the_last_place() {
    assert_eq!(check(&w_on_the_last_place()), not_fresh(1_003, 1_000));
}

#[test]
fn no_place_beside_other_numbers() {
    // w is on place 3, and a fault that comes before 13 is found.
    let base = format!("{NO_W} A,in,1,4,0,0");
    for (step, number) in [
        ("S,ext,1,0,0", 2),
        ("A,in,1,9,0,0", 8),
        ("S,exx,1,0,0,1", 4),
        ("S,ext,1,1,0,1", 6),
        ("S,ext,1,0,0,9", 8),
        ("S,ext,4,0,0,1", 11),
        ("S,ext,2,0,0,1", 12),
        ("S,wit,2,0,0,1", 12),
        ("S,nul,3,0,0,0", 14),
        // A w that need not be fresh.
        ("S,sub,1,0,5,1", 12),
    ] {
        assert_eq!(
            check_text(&format!("{base} {step}")),
            no(number, 12),
            "{step}"
        );
    }
    assert_eq!(check_text(&base), no(17, 12));
    let later = format!("{base} S,cut,0,0,1,3");
    assert_eq!(check_text(&later), no(17, 13));
}

// ---------------------------------------------------------------------------
// The rule `fin`. In FIN it is line 11 and adds place 4.
// ---------------------------------------------------------------------------

#[test]
fn a_region_inside_its_image() {
    assert_eq!(check_lines(&FIN), yes(7, 3, 4, 1));
    assert_eq!(reply_line(&check_lines(&FIN)), "yes,0,0,7,3,4,1,0\n");
    assert_eq!(check_lines(&FIN[..11]), no(17, 12));
    // Without `fin` place 4 holds u in cup(i,r), and nothing is in place 5.
    assert_eq!(check_lines(&without_line(&FIN, 11)), no(11, 12));
    // r ne i. After `ext`: 3 w in r, 4 w ni i, then 3 w ni r, 4 w in i.
    let mut lines = FIN[..8].to_vec();
    lines.extend(["A,ne,2,5,0,0", "S,ext,2,0,0,1"]);
    lines.extend(["S,cui,3,0,6,0", "S,eqr,1,5,0,0", "S,cls,6,4,0,0"]);
    lines.extend(["S,fin,1,0,0,0", "S,cui,4,0,7,0", "S,eqr,5,6,0,0"]);
    lines.push("S,cls,7,3,0,0");
    assert_eq!(check_lines(&lines), yes(7, 2, 8, 2));
}

#[test]
fn fin_adds_one_literal() {
    // It stands on place 4 as cup(i,r) eq r, not with its sides exchanged.
    let mut lines = FIN[..10].to_vec();
    lines.extend(["A,ne,7,2,0,0", "A,ne,2,7,0,0", "S,fin,1,0,0,0"]);
    assert_eq!(
        check_lines(&with_more(&lines, &["S,cls,6,4,0,0"])),
        yes(7, 5, 2, 1)
    );
    assert_eq!(
        check_lines(&with_more(&lines, &["S,cls,6,5,0,0"])),
        no(12, 14)
    );
    assert_eq!(
        check_lines(&with_more(&lines, &["S,sym,7,0,0,0"])),
        no(11, 14)
    );
    // Nothing waits: one closing closes the tree, and a second is too many.
    let closed = with_more(&lines, &["S,cls,6,4,0,0", "S,cls,6,4,0,0"]);
    assert_eq!(check_lines(&closed), no(5, 15));
    // Again, and the literal takes another place.
    let again = with_more(&lines, &["S,fin,1,0,0,0", "S,cls,7,4,0,0"]);
    assert_eq!(check_lines(&again), yes(7, 5, 3, 1));
}

#[test]
fn fin_on_a_derived_place() {
    // i eq cup(r,i) is turned by `sym`: places 4 and 5, so `cui` adds 6.
    let mut lines = with_line(&FIN[..10], 8, "A,eq,5,6,0,0");
    assert_eq!(
        check_lines(&with_more(&lines, &["S,fin,1,0,0,0"])),
        no(12, 11)
    );
    lines.extend(["S,sym,1,0,0,0", "S,fin,4,0,0,0", "S,cui,2,0,7,0"]);
    lines.extend(["S,eqr,5,6,0,0", "S,cls,7,3,0,0"]);
    assert_eq!(check_lines(&lines), yes(7, 3, 5, 1));
    // By a clause, which has no place before it is split.
    let mut lines = without_line(&FIN[..10], 8);
    lines.extend(["C,eq,6,5,1,0", "S,fin,1,0,0,0"]);
    assert_eq!(check_lines(&lines), no(12, 11));
    assert_eq!(
        check_lines(&with_line(&lines, 11, "S,fin,3,0,0,0")),
        no(11, 11)
    );
    lines.pop();
    lines.extend(["S,cla,0,0,1,0", "S,fin,3,0,0,0", "S,cui,1,0,7,0"]);
    lines.extend(["S,eqr,4,5,0,0", "S,cls,6,2,0,0"]);
    assert_eq!(check_lines(&lines), yes(7, 3, 5, 1));
    // On what it has added, cup(i,r) eq r.
    let own = with_line(&FIN, 12, "S,fin,4,0,0,0");
    assert_eq!(check_lines(&own), no(12, 12));
}

#[test]
fn fin_in_the_order_of_the_numbers() {
    for (line, number) in [
        ("S,fin,1,0,0", 2),
        ("S,fin,01,0,0,0", 2),
        ("S,fi,1,0,0,0", 4),
        // 6 before 11: places and terms in fields that it doesn't use.
        ("S,fin,1,1,0,0", 6),
        ("S,fin,1,0,5,0", 6),
        ("S,fin,1,0,0,1", 6),
        ("S,fin,0,0,9999,0", 6),
        ("S,fin,0,0,0,0", 11),
        ("S,fin,4,0,0,0", 11),
        ("S,fin,9999,0,0,0", 11),
        // u in i, u ni r.
        ("S,fin,2,0,0,0", 12),
        ("S,fin,3,0,0,0", 12),
    ] {
        let reply = check_lines(&with_line(&FIN, 11, line));
        assert_eq!(reply, no(number, 11), "{line}");
    }
    // On a closed tree 2 and 4 come first, then 5.
    for (line, number) in [
        ("S,fin,1,0,0", 2),
        ("S,fim,1,0,0,0", 4),
        ("S,fin,1,0,0,0", 5),
        ("S,fin,0,9,9,9", 5),
    ] {
        let reply = check_lines(&with_more(&FIN, &[line]));
        assert_eq!(reply, no(number, 15), "{line}");
    }
}

/// Terms: 1 u, 2 r, 3 s, 4 h, 5 k, 6 f, 7 g, 8 i = img(h,r,f), 9 cup(r,i),
/// 10 cup(i,r), 11 img(h,s,f), 12 img(k,r,f), 13 img(h,r,g), 14 cup(r,11),
/// 15 cup(r,12), 16 cup(r,13), 17 cup(s,i), 18 cap(r,i), 19 dif(r,i), 20 emp,
/// 21 cup(r,s), 22 cup(r,r), 23 cup(i,i), 24 cup(11,r), 25 typ(u), 26 img(h,i,f),
/// 27 cup(r,26), 28 cup(i,26).
const IMAGES: &str = "T,rfv,1,0,0,0 T,rgv,1,0,0,0 T,rgv,2,0,0,0 T,arv,1,0,0,0 T,arv,2,0,0,0
                      T,fnv,1,0,0,0 T,fnv,2,0,0,0 T,img,4,2,6,0 T,cup,2,8,0,0 T,cup,8,2,0,0
                      T,img,4,3,6,0 T,img,5,2,6,0 T,img,4,2,7,0 T,cup,2,11,0,0
                      T,cup,2,12,0,0 T,cup,2,13,0,0 T,cup,3,8,0,0 T,cap,2,8,0,0
                      T,dif,2,8,0,0 T,emp,0,0,0,0 T,cup,2,3,0,0 T,cup,2,2,0,0
                      T,cup,8,8,0,0 T,cup,11,2,0,0 T,typ,1,0,0,0 T,img,4,8,6,0
                      T,cup,2,26,0,0 T,cup,8,26,0,0";

#[test]
fn what_fin_needs() {
    for (literal, number) in [
        // Another word, or the sides exchanged.
        ("A,ne,9,8,0,0", 12),
        ("A,eq,8,9,0,0", 12),
        ("A,in,1,8,0,0", 12),
        ("A,ni,1,9,0,0", 12),
        ("A,le,25,25,0,0", 12),
        ("A,eq,1,1,0,0", 12),
        ("A,eq,4,4,0,0", 12),
        // Another union on the left: cup(i,r), cup(s,i), cup(i,i), cup(r,r).
        ("A,eq,10,8,0,0", 12),
        ("A,eq,17,8,0,0", 12),
        ("A,eq,23,8,0,0", 12),
        ("A,eq,22,8,0,0", 12),
        // No union there, though cap(r,i) eq r and dif(r,i) eq emp mean it.
        ("A,eq,18,8,0,0", 12),
        ("A,eq,18,2,0,0", 12),
        ("A,eq,19,20,0,0", 12),
        ("A,eq,2,8,0,0", 12),
        ("A,eq,8,8,0,0", 12),
        // No image on the right, or not the one in the union: another region,
        // heap or field.
        ("A,eq,9,2,0,0", 12),
        ("A,eq,9,9,0,0", 12),
        ("A,eq,10,2,0,0", 12),
        ("A,eq,21,3,0,0", 12),
        ("A,eq,22,2,0,0", 12),
        ("A,eq,9,11,0,0", 12),
        ("A,eq,9,12,0,0", 12),
        ("A,eq,9,13,0,0", 12),
        ("A,eq,14,8,0,0", 12),
        ("A,eq,15,8,0,0", 12),
        ("A,eq,16,8,0,0", 12),
        // The same image twice, but that of s, or of i.
        ("A,eq,14,11,0,0", 12),
        ("A,eq,27,26,0,0", 12),
        // All fits, of another heap, another field or i, but no cup(12,r),
        // cup(13,r) or cup(26,i) stands in the table.
        ("A,eq,15,12,0,0", 14),
        ("A,eq,16,13,0,0", 14),
        ("A,eq,28,26,0,0", 14),
    ] {
        let text = format!("{IMAGES} {literal} S,fin,1,0,0,0");
        assert_eq!(check_text(&text), no(number, 30), "{literal}");
    }
    let fits = format!("{IMAGES} A,eq,9,8,0,0 S,fin,1,0,0,0");
    assert_eq!(check_text(&fits), no(17, 31));
}

/// Equal terms are not the same term: r eq s is on the branch.
#[test]
fn fin_asks_for_the_same_terms() {
    let base = format!("{IMAGES} A,eq,14,11,0,0 A,eq,2,3,0,0 A,eq,11,8,0,0");
    assert_eq!(check_text(&format!("{base} S,fin,1,0,0,0")), no(12, 32));
    // cup(r,img(h,s,f)) eq cup(r,i) by `sub`, and so on: 4 cup(r,11) eq
    // cup(r,i), 5 its sides exchanged, 6 cup(r,i) eq 11, 7 cup(r,i) eq i.
    let steps = "S,sub,3,0,14,9 S,sym,4,0,0,0 S,trn,5,1,0,0 S,trn,6,3,0,0";
    assert_eq!(
        check_text(&format!("{base} {steps} S,fin,6,0,0,0")),
        no(12, 36)
    );
    assert_eq!(
        check_text(&format!("{base} {steps} S,fin,7,0,0,0")),
        no(17, 37)
    );
}

#[test]
fn fin_for_any_region_and_heap() {
    for (text, terms) in [
        // r is emp, all, cup(s,s).
        (
            "T,emp,0,0,0,0 T,arv,1,0,0,0 T,fnv,1,0,0,0 T,img,2,1,3,0
             T,cup,1,4,0,0 T,cup,4,1,0,0
             A,eq,5,4,0,0 A,ne,6,1,0,0",
            6,
        ),
        (
            "T,all,0,0,0,0 T,arv,1,0,0,0 T,fnv,1,0,0,0 T,img,2,1,3,0
             T,cup,1,4,0,0 T,cup,4,1,0,0
             A,eq,5,4,0,0 A,ne,6,1,0,0",
            6,
        ),
        (
            "T,rgv,1,0,0,0 T,cup,1,1,0,0 T,arv,1,0,0,0 T,fnv,1,0,0,0 T,img,3,2,4,0
             T,cup,2,5,0,0 T,cup,5,2,0,0
             A,eq,6,5,0,0 A,ne,7,2,0,0",
            7,
        ),
        // r is img(h,s,f), term 4, and i its image.
        (
            "T,rgv,1,0,0,0 T,arv,1,0,0,0 T,fnv,1,0,0,0 T,img,2,1,3,0 T,img,2,4,3,0
             T,cup,4,5,0,0 T,cup,5,4,0,0
             A,eq,6,5,0,0 A,ne,7,4,0,0",
            7,
        ),
        // The heap is wri(h,u,f,u), term 5.
        (
            "T,rgv,1,0,0,0 T,arv,1,0,0,0 T,fnv,1,0,0,0 T,rfv,1,0,0,0 T,wri,2,4,3,4
             T,img,5,1,3,0 T,cup,1,6,0,0 T,cup,6,1,0,0
             A,eq,7,6,0,0 A,ne,8,1,0,0",
            8,
        ),
        // cup(i,r) stands before cup(r,i).
        (
            "T,rgv,1,0,0,0 T,arv,1,0,0,0 T,fnv,1,0,0,0 T,img,2,1,3,0
             T,cup,4,1,0,0 T,cup,1,4,0,0
             A,eq,6,4,0,0 A,ne,5,1,0,0",
            6,
        ),
    ] {
        let closed = format!("{text} S,fin,1,0,0,0 S,cls,3,2,0,0");
        assert_eq!(check_text(&closed), yes(terms, 2, 2, 1), "{text}");
    }
}

#[test]
fn the_union_that_fin_adds_must_stand() {
    // Without cup(i,r), the last term.
    let missing = without_line(&FIN[..11], 7);
    assert_eq!(check_lines(&missing), no(14, 10));
    // 12 before 14.
    assert_eq!(
        check_lines(&with_line(&missing, 10, "S,fin,2,0,0,0")),
        no(12, 10)
    );
    // cap(i,r), cup(i,i) and cup(r,r) do not stand in for it.
    for term in ["T,cap,5,2,0,0", "T,cup,5,5,0,0", "T,cup,2,2,0,0"] {
        let other = with_line(&FIN, 7, term);
        assert_eq!(check_lines(&other), no(14, 11), "{term}");
    }
    // 14 before 15.
    assert_eq!(check(&filled(&missing, 6, 3, 1_000)), no(14, 6 + 1_000 + 1));
}

#[test]
fn limits_beside_fin() {
    let step = &FIN[..11];
    assert_eq!(check(&filled(step, 7, 3, 999)), no(17, 7 + 999 + 2));
    assert_eq!(check(&filled(step, 7, 3, 1_000)), no(15, 7 + 1_000 + 1));
    // 12 before 15.
    let misfit = with_line(step, 11, "S,fin,2,0,0,0");
    assert_eq!(check(&filled(&misfit, 7, 3, 1_000)), no(12, 7 + 1_000 + 1));
    // 200 may wait: it leaves none waiting.
    let mut text = file(&FIN[..10]);
    text.extend(b"S,cut,0,0,1,2\n".repeat(200));
    text.extend(b"S,fin,1,0,0,0\n");
    assert_eq!(check(&text), no(17, 10 + 200 + 2));
}

/// What `fin` adds mentions what place p does, so it spoils no fresh w anew.
#[test]
fn place_beside_fin() {
    // Terms: 1 w, 2 sin(w), 3 h, 4 f, 5 img(h,2,f), 6 cup(2,5), 7 cup(5,2),
    // 8 all. Place 1: all ne all.
    let base = "T,rfv,1,0,0,0 T,sin,1,0,0,0 T,arv,1,0,0,0 T,fnv,1,0,0,0 T,img,3,2,4,0
                T,cup,2,5,0,0 T,cup,5,2,0,0 T,all,0,0,0,0 A,ne,8,8,0,0";
    let inside = format!("{base} A,eq,6,5,0,0 S,fin,2,0,0,0 S,ext,1,0,0,1");
    assert_eq!(check_text(&inside), not_fresh(12, 2));
    // By a clause: w is on places 2 and 3.
    let clause = format!("{base} C,eq,6,5,1,0 S,cla,0,0,1,0 S,fin,2,0,0,0 S,ext,1,0,0,1");
    assert_eq!(check_text(&clause), not_fresh(13, 2));
    // The terms alone do not spoil it.
    assert_eq!(check_text(&format!("{base} S,ext,1,0,0,1")), no(17, 11));
}

// ---------------------------------------------------------------------------
// bck
// ---------------------------------------------------------------------------

/// Terms: 1 u, 2 v, 3 typ(u), 4 typ(v), 5 c. Places: 1 u eq v, 2 typ(v) le c,
/// 3 typ(u) nl c.
const BCK: [&str; 9] = [
    "T,rfv,1,0,0,0",
    "T,rfv,2,0,0,0",
    "T,typ,1,0,0,0",
    "T,typ,2,0,0,0",
    "T,clv,1,0,0,0",
    "A,eq,1,2,0,0",
    "A,le,4,5,0,0",
    "A,nl,3,5,0,0",
    "S,bck,0,0,0,0",
];

#[test]
fn bck_in_the_order_of_the_numbers() {
    assert_eq!(check_lines(&BCK), yes(5, 3, 1, 1));
    for (line, number) in [
        ("S,bck,0,0,0", 2),
        ("S,bck,0,0,0,00", 2),
        ("S,bk,0,0,0,0", 4),
        ("A,bck,1,2,0,0", 4),
        ("C,bck,1,2,1,0", 4),
        ("S,bck,1,0,0,0", 6),
        ("S,bck,0,1,0,0", 6),
        ("S,bck,0,0,1,0", 6),
        ("S,bck,0,0,0,1", 6),
        ("S,bck,9,9,9,9", 6),
    ] {
        let reply = check_lines(&with_line(&BCK, 9, line));
        assert_eq!(reply, no(number, 9), "{line}");
        // 6 comes before 12: nothing is denied here.
        let mut open = with_line(&BCK, 9, line);
        open[7] = "A,le,3,5,0,0";
        assert_eq!(check_lines(&open), no(number, 9), "{line}");
    }
    assert_eq!(check_lines(&with_line(&BCK, 8, "A,le,3,5,0,0")), no(12, 9));
    // On a closed tree 2 and 4 come first, then 5.
    for (line, number) in [
        ("S,bck,0,0,0", 2),
        ("S,bk,0,0,0,0", 4),
        ("S,bck,0,0,0,0", 5),
        ("S,bck,9,9,9,9", 5),
    ] {
        let reply = check_lines(&with_more(&BCK, &[line]));
        assert_eq!(reply, no(number, 10), "{line}");
    }
    // 3 before 4.
    for line in ["T,bck,0,0,0,0", "A,bck,1,2,0,0", "C,bck,1,2,1,0"] {
        let reply = check_lines(&with_more(&BCK, &[line]));
        assert_eq!(reply, no(3, 10), "{line}");
    }
}

/// Each literal is needed, as it stands or in a form that says as much.
#[test]
fn bck_needs_every_literal() {
    for line in 6..=8 {
        let reply = check_lines(&without_line(&BCK, line));
        assert_eq!(reply, no(12, 8), "{line}");
    }
    for (line, literal) in [
        (6, "A,ne,1,2,0,0"),
        (6, "A,eq,1,1,0,0"),
        (6, "A,le,3,3,0,0"),
        (7, "A,le,5,4,0,0"),
        (7, "A,nl,4,5,0,0"),
        (8, "A,nl,5,3,0,0"),
        (8, "A,ne,3,5,0,0"),
    ] {
        let reply = check_lines(&with_line(&BCK, line, literal));
        assert_eq!(reply, no(12, 9), "{literal}");
    }
    for (line, literal) in [
        (6, "A,eq,2,1,0,0"),
        (6, "A,eq,3,4,0,0"),
        (6, "A,le,3,4,0,0"),
        (7, "A,eq,5,4,0,0"),
        (8, "A,nl,4,5,0,0"),
        (8, "A,ne,3,4,0,0"),
        (8, "A,ne,5,5,0,0"),
    ] {
        let reply = check_lines(&with_line(&BCK, line, literal));
        assert_eq!(reply, yes(5, 3, 1, 1), "{literal}");
    }
}

#[test]
fn limits_beside_bck() {
    // It adds nothing, so that a branch may be full.
    assert_eq!(check(&filled(&BCK, 5, 3, 1_000)), yes(5, 1_000, 1, 1));
    // 200 may wait; it takes them one by one.
    let mut text = file(&with_line(&BCK, 5, "T,rgv,1,0,0,0")[..5]);
    text.extend(b"A,eq,1,2,0,0\nA,nl,3,4,0,0\n");
    text.extend(b"S,cut,0,0,1,5\n".repeat(200));
    text.extend(b"S,bck,0,0,0,0\n".repeat(200));
    assert_eq!(check(&text), no(17, 7 + 400 + 1));
    text.extend(b"S,bck,0,0,0,0\n");
    assert_eq!(check(&text), yes(5, 2, 401, 201));
}

// ---------------------------------------------------------------------------
// Any bytes
// ---------------------------------------------------------------------------

struct Dice(u64);

impl Dice {
    fn below(&mut self, bound: usize) -> usize {
        self.0 = self.0.wrapping_mul(6364136223846793005).wrapping_add(1);
        (self.0 >> 33) as usize % bound
    }
}

#[test]
fn any_bytes_get_a_reply() {
    let mut dice = Dice(1);
    let mut files: Vec<Vec<u8>> = rule_files().iter().map(|e| file(&e.lines)).collect();
    files.push(file(&OR));
    let bytes = b"TACS,0123456789\nabcdeilmnpqrstuvwxy\r\0\xff";
    for _ in 0..50_000 {
        let mut text = files[dice.below(files.len())].clone();
        for _ in 0..=dice.below(3) {
            let index = dice.below(text.len());
            text[index] = bytes[dice.below(bytes.len())];
        }
        let reply = check(&text);
        let lines = text.iter().filter(|byte| **byte == b'\n').count() as u32;
        if reply.yes {
            assert_eq!((reply.number, reply.line, reply.place), (0, 0, 0));
            // A clause has one C line or more, and is counted once.
            let texts = text.split(|byte| *byte == b'\n');
            let c_lines = texts.filter(|line| line.starts_with(b"C,")).count() as u32;
            let counted = reply.terms + reply.assumptions + reply.steps;
            assert!(counted <= lines && lines - counted <= c_lines.saturating_sub(1));
            assert!(reply.closings >= 1 && reply.closings <= reply.steps);
        } else {
            assert!(reply.number >= 1 && reply.number <= 17 || reply.number == 21);
            let place = reply.place;
            let same = Reply {
                place,
                ..no(reply.number, reply.line)
            };
            assert_eq!(reply, same);
            assert!(place == 0 || reply.number == 13 && place <= lines);
            assert!(reply.line >= 1 && reply.line <= lines + 1);
        }
    }
}

#[test]
fn doubling_terms_finish() {
    // Each term holds the one before it twice; freshness still comes at once.
    let mut text = file(&["T,rfv,1,0,0,0", "T,sin,1,0,0,0"]);
    for term in 2..599 {
        text.extend_from_slice(format!("T,cup,{term},{term},0,0\n").as_bytes());
    }
    text.extend_from_slice(b"T,all,0,0,0,0\nA,ne,600,599,0,0\nS,ext,1,0,0,1\n");
    assert_eq!(check(&text), not_fresh(602, 1));
}
