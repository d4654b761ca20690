//! C programs that include `tabeval.h` can call the library.

mod c_compiler;
mod heap_cases;
mod process;

use c_compiler::{linked, succeeded};
use process::{repository, scratch};
use std::fs;
use std::path::{Path, PathBuf};
use std::process::{Command, Output};

/// A program of `tests/c`, under a name of the test's own.
fn compiled(source: &str, name: &str) -> PathBuf {
    let source = repository().join(format!("host/tests/c/{source}.c"));
    linked(&source, "evaluator", name)
}

fn run(program: &Path, file: &Path, heap: &Path) -> Output {
    let mut command = Command::new(program);
    command.args([file, heap]).output().unwrap()
}

#[test]
fn a_c_host_gets_every_reply() {
    let program = compiled("evaluator", "evaluator");
    let [file, heap] = ["evaluator.tab", "evaluator.heap"].map(scratch);
    for case in heap_cases::all() {
        fs::write(&file, &case.checker).unwrap();
        fs::write(&heap, &case.heap).unwrap();
        let output = run(&program, &file, &heap);
        let said = String::from_utf8(output.stdout).unwrap();
        assert_eq!(said, format!("{}\n", case.reply), "{}", case.name);
        let status = if case.reply.starts_with("0,") { 0 } else { 1 };
        assert_eq!(output.status.code(), Some(status), "{}", case.name);
    }
}

/// A folder can be opened and not read.
#[test]
fn a_c_host_that_cannot_read_says_so() {
    let program = compiled("evaluator", "evaluator_unread");
    let good = repository().join("examples/class_chain.tab");
    let missing = scratch("no_such_file");
    for bad in [repository(), missing] {
        for (file, heap) in [(&bad, &good), (&good, &bad)] {
            let output = run(&program, file, heap);
            assert_eq!(output.status.code(), Some(2));
            assert_eq!(output.stdout, b"");
            let stderr = String::from_utf8(output.stderr).unwrap();
            assert!(stderr.contains(bad.to_str().unwrap()), "{stderr}");
        }
    }
}

#[test]
fn a_short_buffer_of_a_c_host_is_left_alone() {
    let program = compiled("evaluator_buffer", "evaluator_buffer");
    let output = Command::new(program).output();
    assert_eq!(succeeded(output.unwrap()), "left alone\n");
}
