//! Runs programs whose standard input is a pipe.

use std::io::Write;
use std::process::{Child, ChildStdin, Command, Output, Stdio};
use std::thread;
use std::time::Duration;

/// The program, and the end of a pipe that it reads.
pub fn piped(command: &mut Command) -> (Child, ChildStdin) {
    let mut child = command
        .stdin(Stdio::piped())
        .stdout(Stdio::piped())
        .stderr(Stdio::piped())
        .spawn()
        .unwrap();
    let input = child.stdin.take().unwrap();
    (child, input)
}

/// What the program does with an input that comes so many bytes at a time, with
/// a pause behind each.
pub fn in_pieces(command: &mut Command, input: &[u8], bytes: usize, pause: Duration) -> Output {
    let (child, mut pipe) = piped(command);
    for piece in input.chunks(bytes) {
        pipe.write_all(piece).unwrap();
        thread::sleep(pause);
    }
    drop(pipe);
    child.wait_with_output().unwrap()
}

pub fn byte_by_byte(command: &mut Command, input: &[u8]) -> Output {
    // Time for the program to read a byte alone.
    in_pieces(command, input, 1, Duration::from_millis(1))
}
