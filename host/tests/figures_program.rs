//! The proved program `tabfigures`, through standard input and output.

mod built;
mod filter;
mod input;
mod nights;
mod pipe;
mod process;
mod some_nights;

use filter::Filter;
use host::independent_figures::figures;
use some_nights::some_nights;

/// The values 3 and 6.
const TABFIGURES: Filter = Filter {
    name: "tabfigures",
    input: || b"yes,0,0,4,2,3,1,0\nno,13,7,0,0,0,0,2\nyes,0,0,4,3,6,2,0\n".to_vec(),
    line: "3,2,9,2,9,4\n",
    too_long: "1,0\n",
};

#[test]
fn every_night_gets_its_figures() {
    nights::expect_figures(|replies| TABFIGURES.line_of("nights.in", replies));
}

#[test]
fn nights_at_random_get_the_independent_figures() {
    for replies in some_nights() {
        let said = TABFIGURES.line_of("some_nights.in", &replies);
        let text = String::from_utf8_lossy(&replies);
        assert_eq!(said, figures(&replies), "{text}");
    }
}

#[test]
fn short_reads_are_continued() {
    TABFIGURES.expect_short_reads_continued();
}

#[test]
fn long_nights_in_odd_pieces() {
    let full = |night: &nights::Night| night.replies.len() == 60_000;
    let nights: Vec<nights::Night> = nights::all().into_iter().filter(full).collect();
    assert!(nights.len() > 10);
    for night in nights {
        let said = TABFIGURES.line_of_pieces(&night.replies);
        assert_eq!(said, format!("{}\n", night.figures), "{}", night.name);
    }
}

#[test]
fn an_empty_pipe() {
    let said = TABFIGURES.line_of_pieces(b"");
    assert_eq!(said, "0,0,0,0,0,0\n");
}

#[test]
fn ten_megabytes_are_not_read() {
    TABFIGURES.expect_ten_megabytes_not_read();
}

#[test]
fn the_byte_that_is_too_much_is_answered_at_once() {
    TABFIGURES.expect_an_answer_at_once();
}

#[test]
fn no_line_where_reading_fails() {
    TABFIGURES.expect_no_line_where_reading_fails();
}

#[test]
fn a_full_standard_output_is_said() {
    TABFIGURES.expect_a_full_output_said();
}

#[test]
fn a_closed_standard_output_is_said() {
    TABFIGURES.expect_a_closed_output_said();
}

#[test]
fn the_script_runs_the_program_from_anywhere() {
    TABFIGURES.expect_the_script_to_run_from_anywhere();
}
