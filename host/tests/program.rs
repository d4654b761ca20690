//! The proved program `tabcheck`, through standard input and output.

mod built;
mod filter;
mod input;
mod named;
mod pipe;
mod process;
mod runner;

use filter::Filter;

const TABCHECK: Filter = Filter {
    name: "tabcheck",
    input: || named::file("marked: F"),
    line: "yes,0,0,4,2,2,1,0\n",
    too_long: "no,1,0,0,0,0,0,0\n",
};

#[test]
fn every_case_gets_its_reply() {
    runner::expect_replies(|file| TABCHECK.line_of("program.in", file));
}

#[test]
fn short_reads_are_continued() {
    TABCHECK.expect_short_reads_continued();
}

#[test]
fn a_long_file_in_odd_pieces() {
    let file = named::file("limits: 60,000 bytes");
    let said = TABCHECK.line_of_pieces(&file);
    assert_eq!(said, "yes,0,0,4,2,4279,10,0\n");
}

#[test]
fn an_empty_pipe() {
    let said = TABCHECK.line_of_pieces(b"");
    assert_eq!(said, "no,17,1,0,0,0,0,0\n");
}

#[test]
fn ten_megabytes_are_not_read() {
    TABCHECK.expect_ten_megabytes_not_read();
}

#[test]
fn the_byte_that_is_too_much_is_answered_at_once() {
    TABCHECK.expect_an_answer_at_once();
}

#[test]
fn no_reply_where_reading_fails() {
    TABCHECK.expect_no_line_where_reading_fails();
}

#[test]
fn a_full_standard_output_is_said() {
    TABCHECK.expect_a_full_output_said();
}

#[test]
fn a_closed_standard_output_is_said() {
    TABCHECK.expect_a_closed_output_said();
}

#[test]
fn the_script_runs_the_program_from_anywhere() {
    TABCHECK.expect_the_script_to_run_from_anywhere();
}
