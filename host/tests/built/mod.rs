//! Programs that are built, and what they say.

use crate::process::repository;
use std::path::PathBuf;
use std::process::Output;

pub fn built(name: &str) -> PathBuf {
    let program = repository().join(format!("crates/{name}/out/{name}"));
    let missing = format!("crates/{name}/out/{name} is missing: run `rt run` in crates/{name}");
    assert!(program.is_file(), "{missing}");
    program
}

/// A program that ran well wrote its reply line and nothing else.
pub fn reply(output: Output) -> String {
    assert_eq!(String::from_utf8_lossy(&output.stderr), "");
    assert!(output.status.success());
    String::from_utf8(output.stdout).unwrap()
}
