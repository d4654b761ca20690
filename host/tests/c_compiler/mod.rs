//! Compiles C programs that include the headers.

use crate::process::{repository, scratch};
use std::path::{Path, PathBuf};
use std::process::{Command, Output};

/// A C compiler, with the headers in reach and every warning an error. Rust
/// links with one of this name, so it is there.
pub fn cc() -> Command {
    let mut cc = Command::new("cc");
    cc.args(["-std=c99", "-pedantic", "-Wall", "-Wextra", "-Werror", "-I"]);
    cc.arg(repository().join("include"));
    cc
}

pub fn succeeded(output: Output) -> String {
    let stderr = String::from_utf8_lossy(&output.stderr);
    assert!(output.status.success(), "{stderr}");
    String::from_utf8(output.stdout).unwrap()
}

/// Compiles a program and links it with a library, under a name of the test's
/// own: tests run at the same time, and a program that runs can't be written.
pub fn linked(source: &Path, library: &str, name: &str) -> PathBuf {
    let library = repository().join(format!("target/staticlib/lib{library}.a"));
    let program = scratch(name);
    let mut cc = cc();
    cc.arg(source).arg(library).arg("-o").arg(&program);
    succeeded(cc.output().unwrap());
    program
}
