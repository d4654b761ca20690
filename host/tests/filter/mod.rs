//! Programs that take standard input to one line on standard output, and what
//! holds for each of them.

use crate::built::{built, reply};
use crate::input::run_on;
use crate::pipe::{byte_by_byte, in_pieces, piped};
use crate::process::repository;
use std::fs::File;
use std::io::{ErrorKind, Read, Write};
use std::process::{Command, Output};
use std::sync::mpsc;
use std::thread;
use std::time::Duration;

pub struct Filter {
    pub name: &'static str,
    /// A short input, and its line.
    pub input: fn() -> Vec<u8>,
    pub line: &'static str,
    /// The line for more than 60,000 bytes.
    pub too_long: &'static str,
}

impl Filter {
    fn command(&self) -> Command {
        Command::new(built(self.name))
    }

    /// The line for an input that is stored under this name.
    pub fn line_of(&self, name: &str, input: &[u8]) -> String {
        reply(run_on(&mut self.command(), name, input))
    }

    /// What comes of the short input. It is stored under a name of the test's
    /// own.
    fn run_on_input(&self, command: &mut Command, test: &str) -> Output {
        let name = format!("{}_{test}.in", self.name);
        run_on(command, &name, &(self.input)())
    }

    /// The line for an input that comes through a pipe in pieces of 977 bytes.
    pub fn line_of_pieces(&self, input: &[u8]) -> String {
        reply(in_pieces(&mut self.command(), input, 977, Duration::ZERO))
    }

    pub fn expect_short_reads_continued(&self) {
        let output = byte_by_byte(&mut self.command(), &(self.input)());
        assert_eq!(reply(output), self.line);
    }

    /// The program answers after 60,001 bytes, so that the pipe breaks long
    /// before all is written.
    pub fn expect_ten_megabytes_not_read(&self) {
        let (child, mut input) = piped(&mut self.command());
        let written = input.write_all(&vec![b'0'; 10_000_000]);
        assert_eq!(written.unwrap_err().kind(), ErrorKind::BrokenPipe);
        assert_eq!(reply(child.wait_with_output().unwrap()), self.too_long);
    }

    /// Nor is the end of the input awaited.
    pub fn expect_an_answer_at_once(&self) {
        let (mut child, mut input) = piped(&mut self.command());
        let mut output = child.stdout.take().unwrap();
        input.write_all(&[b'\n'; 60_001]).unwrap();

        let (sender, receiver) = mpsc::channel();
        thread::spawn(move || {
            let mut said = String::new();
            output.read_to_string(&mut said).unwrap();
            sender.send(said).unwrap();
        });
        let said = receiver.recv_timeout(Duration::from_secs(60));
        drop(input); // ends a program that still reads
        child.wait().unwrap();
        assert_eq!(said.as_deref(), Ok(self.too_long));
    }

    /// Nothing on standard output, and on standard error why.
    fn expect_no_line(&self, output: Output, why: &str) {
        assert_eq!(String::from_utf8_lossy(&output.stdout), "");
        let stderr = String::from_utf8(output.stderr).unwrap();
        assert_eq!(stderr, format!("{}: {why}\n", self.name));
    }

    /// A folder can be opened and not read. There is no line for an input that
    /// wasn't read.
    pub fn expect_no_line_where_reading_fails(&self) {
        let folder = File::open(repository()).unwrap();
        let output = self.command().stdin(folder).output().unwrap();
        self.expect_no_line(output, "standard input can't be read");
    }

    fn expect_unwritten(&self, output: Output) {
        self.expect_no_line(output, "the reply can't be written to standard output");
    }

    /// Every write to this device fails as on a full disk.
    pub fn expect_a_full_output_said(&self) {
        let full = File::options().write(true).open("/dev/full").unwrap();
        let mut command = self.command();
        self.expect_unwritten(self.run_on_input(command.stdout(full), "full"));
    }

    pub fn expect_a_closed_output_said(&self) {
        let mut command = Command::new("sh");
        command
            .args(["-c", "exec \"$0\" >&-"])
            .arg(built(self.name));
        self.expect_unwritten(self.run_on_input(&mut command, "closed"));
    }

    /// Else the script would build the program.
    pub fn expect_the_script_to_run_from_anywhere(&self) {
        built(self.name);
        let script = repository().join(self.name).canonicalize().unwrap();
        let mut command = Command::new(script);
        command.current_dir("/");
        let said = reply(self.run_on_input(&mut command, "anywhere"));
        assert_eq!(said, self.line);
    }
}
