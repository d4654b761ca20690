//! The night of examples/ is what the checker says of its files, and gets the
//! figures that examples/README.md works out by hand, as README.md has them.

mod built;
mod input;
mod page;
mod process;

use built::{built, reply};
use host::independent_figures;
use input::run_on;
use page::edited;
use process::repository;
use std::fs;
use std::process::Command;

const PAGE: &str = include_str!("../../examples/README.md");
const README: &str = include_str!("../../README.md");
const COMMAND: &str = "./tabfigures < examples/night.replies";

fn example(name: &str) -> String {
    fs::read_to_string(repository().join("examples").join(name)).expect(name)
}

/// What the program says of an input, which is stored under a name of the
/// test's own.
fn said(program: &str, input: &str, test: &str) -> String {
    let mut command = Command::new(built(program));
    let name = format!("night_{test}.in");
    reply(run_on(&mut command, &name, input.as_bytes()))
}

/// The program and the independent figures say this.
fn expect(night: &str, figures: &str, test: &str, about: &str) {
    let said = said("tabfigures", night, test);
    let other = independent_figures::figures(night.as_bytes());
    let figures = format!("{figures}\n");
    assert_eq!([said, other], [figures.clone(), figures], "{about}");
}

#[test]
fn the_night_is_what_the_checker_says() {
    let columns = [
        "Line",
        "File",
        "Reply line",
        "S lines",
        "Squared distance from the mean",
    ];
    let mut night = String::new();
    for (count, [number, file, line, ..]) in (1..).zip(page::rows(PAGE, columns)) {
        assert_eq!(number, count.to_string());
        let line = format!("{line}\n");
        assert_eq!(said("tabcheck", &example(&file), "file"), line, "{file}");
        night += &line;
    }
    assert_eq!(night, example("night.replies"));
}

/// On both pages the command has the figures behind it: after `prints` on one,
/// on the next line of the other.
#[test]
fn the_figures_of_the_night() {
    let night = example("night.replies");
    let mut lines = PAGE.lines().chain(README.lines());
    let mut commands = 0;
    while let Some(line) = lines.next() {
        let figures = match line.trim_start().strip_prefix("$ ") {
            Some(COMMAND) => lines.next().unwrap().trim_start(),
            Some(_) => continue,
            None if line.starts_with(&format!("    {COMMAND}")) => {
                line.split_once("prints ").expect(line).1
            }
            None => continue,
        };
        expect(&night, figures, "whole", line);
        commands += 1;
    }
    assert_eq!(commands, 2);
}

#[test]
fn the_edits_of_the_night() {
    let night = example("night.replies");
    for [edit, _, figures] in page::rows(PAGE, ["Edit", "What becomes of it", "Figures"]) {
        expect(&edited(&night, &edit), &figures, "edited", &edit);
    }
}
