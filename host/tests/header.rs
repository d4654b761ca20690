//! The C headers: their numbers and words are the papers', and C programs that
//! include `tabcheck.h` can call the library.

mod c_compiler;
mod constants;
mod input;
mod named;
mod process;
mod runner;

use c_compiler::{cc, linked, succeeded};
use constants::constants;
use input::run_on;
use process::{repository, scratch};
use std::fs::{self, File};
use std::path::{Path, PathBuf};
use std::process::Command;

const HEADER: &str = include_str!("../../include/tabcheck.h");
const EVALUATOR_HEADER: &str = include_str!("../../include/tabeval.h");
const README: &str = include_str!("../../README.md");

/// The column "When" of the refusals, from 1 to 18.
const WHEN: [&str; 18] = [
    "over 60,000 bytes; line 0, before any line",
    "line not shaped as above, or no LF",
    "T after A, C or S; A after C or S; C after S",
    "word not known for this letter",
    "S line when the tree is closed",
    "unused field not 0",
    "601st term",
    "a term field names no term made so far, or a name is 0",
    "wrong sort in T, A, C, cut or ler",
    "term already made",
    "a place used is not on the branch, or cla on no clause",
    "what the rule needs isn't so, freshness apart",
    "w not fresh",
    "a term to be added isn't in the table",
    "an A line or any alternative would pass 1,000 places",
    "over 200 alternatives would wait",
    "input ends with a branch open; line is last line plus 1",
    "reply buffer not 28 bytes; returned by the call, nothing written, before 1",
];
/// That of 21.
const WHEN_21: &str =
    "clause number 0, or neither the last nor the next; a ninth literal in a clause; a 401st C line";

#[test]
fn refusal_numbers_are_the_documents() {
    let constants = constants(HEADER, "tabcheck_refusal");
    assert_eq!(constants[0].0, 0);
    let refusals: Vec<(usize, &str)> = (1..).zip(WHEN).chain([(21, WHEN_21)]).collect();
    assert_eq!(constants[1..], refusals);
}

/// The evaluator's header has 1 to 18 and 21 by including the other.
#[test]
fn two_refusal_numbers_are_the_evaluators() {
    let constants = constants(EVALUATOR_HEADER, "tabeval_refusal");
    let numbers: Vec<usize> = constants.iter().map(|(number, _)| *number).collect();
    assert_eq!(numbers, [0, 19, 20]);
    assert!(EVALUATOR_HEADER.contains("#include \"tabcheck.h\"\n"));
}

#[test]
fn the_seven_numbers_are_in_the_replys_order() {
    let starts = [
        "refusal number",
        "line",
        "T lines",
        "A lines plus clauses",
        "S lines",
        "closings (cls, emp and bck lines)",
        "place",
    ];
    expect_fields(HEADER, "tabcheck_field", &starts);
    assert_eq!(bytes(HEADER, "TABCHECK_REPLY_BYTES"), 4 * starts.len());
}

#[test]
fn the_three_numbers_are_in_the_replys_order() {
    let starts = [
        "refusal number",
        "file that is refused: 1 checker, 2 heap",
        "line",
    ];
    expect_fields(EVALUATOR_HEADER, "tabeval_field", &starts);
    assert_eq!(bytes(EVALUATOR_HEADER, "TABEVAL_REPLY_BYTES"), 12);
}

/// The number that a header defines by this name.
fn bytes(header: &str, name: &str) -> usize {
    let define = format!("#define {name} ");
    let mut values = header.lines().filter_map(|line| line.strip_prefix(&define));
    values.next().expect(name).parse().expect(name)
}

fn expect_fields(header: &'static str, name: &str, starts: &[&str]) {
    let constants = constants(header, name);
    assert_eq!(constants.len(), starts.len());
    for (i, start) in starts.iter().enumerate() {
        assert_eq!(constants[i].0, i);
        assert!(constants[i].1.starts_with(start), "{start}");
    }
}

/// A program of `tests/c`, under a name of the test's own.
fn compiled(source: &str, name: &str) -> PathBuf {
    let source = repository().join(format!("host/tests/c/{source}.c"));
    linked(&source, "checker", name)
}

#[test]
fn a_c_host_gets_every_reply() {
    let program = compiled("caller", "caller");
    runner::expect_replies(|file| {
        let output = run_on(&mut Command::new(&program), "caller.in", file);
        String::from_utf8(output.stdout).unwrap()
    });
}

/// A folder can be opened and not read.
fn expect_status_2_where_reading_fails(program: &Path) {
    let folder = File::open(repository()).unwrap();
    let output = Command::new(program).stdin(folder).output().unwrap();
    assert_eq!(output.status.code(), Some(2));
    assert_eq!(output.stdout, b"");
    let stderr = String::from_utf8(output.stderr).unwrap();
    assert!(stderr.contains("standard input"), "{stderr}");
}

#[test]
fn a_c_host_that_cannot_read_says_so() {
    expect_status_2_where_reading_fails(&compiled("caller", "caller_unread"));
}

/// The program `accept.c` of the page.
#[test]
fn the_c_program_of_the_readme() {
    let (_, rest) = README.split_once("```c\n").unwrap();
    let (text, _) = rest.split_once("```\n").unwrap();
    let source = scratch("accept.c");
    fs::write(&source, text).unwrap();
    let program = linked(&source, "checker", "accept");

    let not_fresh = "refused: number 13\nfirst place that mentions w: ";
    let runs = [
        ("marked: F", String::from("accepted\n"), 0),
        ("marked: no bytes", String::from("refused: number 17\n"), 1),
        ("numbers: 13", format!("{not_fresh}2\n"), 1),
        ("places: of 1,000, 1,000", format!("{not_fresh}1000\n"), 1),
        (
            "places: clause, not split",
            String::from("refused: number 13\n"),
            1,
        ),
    ];
    for (name, said, status) in runs {
        let file = named::file(name);
        let output = run_on(&mut Command::new(&program), "accept.in", &file);
        assert_eq!(String::from_utf8_lossy(&output.stdout), said);
        assert_eq!(output.status.code(), Some(status), "{said}");
    }
    expect_status_2_where_reading_fails(&program);
}

#[test]
fn other_buffers_of_a_c_host_are_left_alone() {
    let output = Command::new(compiled("buffer", "buffer")).output();
    assert_eq!(succeeded(output.unwrap()), "left alone\n");
}

/// What C, or C++ where `plus_plus`, sees of the headers, with no need of a C++
/// compiler.
fn preprocessed(plus_plus: bool) -> String {
    let source = scratch("linkage.c");
    let both = "#include \"tabeval.h\"\n#include \"tabcheck.h\"\n";
    fs::write(&source, both.repeat(2)).unwrap();
    let mut cc = cc();
    if plus_plus {
        cc.arg("-D__cplusplus=201103L");
    }
    let output = cc.args(["-E", "-P"]).arg(source).output();
    succeeded(output.unwrap())
}

#[test]
fn cpp_gets_c_linkage() {
    assert!(!preprocessed(false).contains("extern \"C\""));
    let text = preprocessed(true);
    let blocks: Vec<&str> = text.split("extern \"C\" {").skip(1).collect();
    assert_eq!(blocks.len(), 2);
    for (block, call) in blocks.into_iter().zip(["tabcheck", "tabeval"]) {
        let declaration = format!("uint32_t {call}(");
        assert_eq!(block.matches(&declaration).count(), 1, "{call}");
        assert!(block.trim_end().ends_with('}'), "{call}");
    }
}
