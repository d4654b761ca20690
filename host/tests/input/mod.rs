//! Runs programs on a file as their standard input.

use crate::process::scratch;
use std::fs::{self, File};
use std::process::{Command, Output};

/// What a program does with the file as its standard input. The file is stored
/// under the name.
pub fn run_on(command: &mut Command, name: &str, file: &[u8]) -> Output {
    let path = scratch(name);
    fs::write(&path, file).unwrap();
    let input = File::open(path).unwrap();
    command.stdin(input).output().unwrap()
}
