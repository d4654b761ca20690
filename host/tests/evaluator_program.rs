//! The proved program `tabeval`, which takes two file names and prints a line.

mod built;
mod heap_cases;
mod pipe;
mod process;

use built::{built, reply};
use pipe::byte_by_byte;
use process::{repository, scratch};
use std::ffi::OsStr;
use std::fs::{self, File};
use std::os::unix::fs::{symlink, PermissionsExt};
use std::path::{Path, PathBuf};
use std::process::{Command, Output, Stdio};

/// A pair of examples/, and its reply.
const FILE: &str = "examples/class_chain.tab";
const HEAP: &str = "examples/class_chain.heap";
const REPLY: &str = "0,0,0\n";

fn program() -> PathBuf {
    built("tabeval")
}

fn run<S: AsRef<OsStr>>(names: impl IntoIterator<Item = S>) -> Output {
    let mut command = Command::new(program());
    command.args(names).stdin(Stdio::null()).output().unwrap()
}

/// There is no reply to a file that wasn't read, and a message says so.
fn expect_no_reply(output: Output) {
    assert_eq!(String::from_utf8_lossy(&output.stdout), "");
    let stderr = String::from_utf8(output.stderr).unwrap();
    assert!(stderr.starts_with("tabeval: "), "{stderr:?}");
    assert!(stderr.ends_with('\n'), "{stderr:?}");
}

fn good() -> [PathBuf; 2] {
    [FILE, HEAP].map(|name| repository().join(name))
}

#[test]
fn every_pair_gets_its_reply() {
    let [file, heap] = ["program.tab", "program.heap"].map(scratch);
    for case in heap_cases::all() {
        fs::write(&file, &case.checker).unwrap();
        fs::write(&heap, &case.heap).unwrap();
        let said = reply(run([&file, &heap]));
        assert_eq!(said, format!("{}\n", case.reply), "{}", case.name);
    }
}

#[test]
fn two_good_files() {
    assert_eq!(reply(run(good())), REPLY);
}

/// The names are taken from the folder of the caller, through the script too.
#[test]
fn the_script_passes_the_names_on() {
    program();
    let script = repository().join("tabeval").canonicalize().unwrap();
    let mut command = Command::new(script);
    command.current_dir(repository().join("examples"));
    command.args(["class_circle.tab", "./class_chain.heap"]);
    assert_eq!(reply(command.output().unwrap()), "0,0,8\n");
}

#[test]
fn one_file_twice() {
    let [file, heap] = good();
    assert_eq!(reply(run([&file, &file])), "2,2,1\n");
    assert_eq!(reply(run([&heap, &heap])), "2,1,1\n");
}

#[test]
fn too_few_or_too_many_names() {
    let [file, heap] = good();
    expect_no_reply(run::<&str>([]));
    expect_no_reply(run([&file]));
    expect_no_reply(run([&file, &heap, &heap]));
    expect_no_reply(run([&file, &heap, &file, &heap]));
}

/// In place of the first file and in place of the second.
fn expect_bad(bad: &Path) {
    let [file, heap] = good();
    expect_no_reply(run([bad, &heap]));
    expect_no_reply(run([&file, bad]));
    expect_no_reply(run([bad, bad]));
}

#[test]
fn a_missing_file() {
    expect_bad(&scratch("no_such_file"));
    expect_bad(&scratch("no_such_folder").join("file"));
    expect_bad(&repository().join(FILE).join("file"));
    expect_bad(Path::new(""));
}

/// A folder can be opened and not read.
#[test]
fn a_folder_as_a_file() {
    expect_bad(&repository());
    expect_bad(Path::new("/"));
}

#[test]
fn a_link_that_leads_to_itself() {
    let link = scratch("link_to_itself");
    let _ = fs::remove_file(&link);
    symlink(&link, &link).unwrap();
    expect_bad(&link);
}

/// Whoever may read every file, as root may, gets a reply.
#[test]
fn a_file_that_must_not_be_read() {
    let closed = scratch("not_to_be_read.tab");
    let _ = fs::remove_file(&closed);
    fs::copy(repository().join(FILE), &closed).unwrap();
    fs::set_permissions(&closed, fs::Permissions::from_mode(0)).unwrap();
    if File::open(&closed).is_err() {
        expect_bad(&closed);
    } else {
        let [_, heap] = good();
        assert_eq!(reply(run([&closed, &heap])), REPLY);
    }
}

/// A process can open its memory; nothing can be read at its start.
#[test]
fn a_file_that_opens_and_cannot_be_read() {
    expect_bad(Path::new("/proc/self/mem"));
}

/// The path with `./` in it, so often that it has this many bytes.
fn lengthened(path: &Path, bytes: usize) -> PathBuf {
    let path = path.canonicalize().unwrap();
    let text = path.to_str().unwrap();
    let missing = bytes - text.len();
    let slashes = "/".repeat(1 + missing % 2);
    let dots = "./".repeat(missing / 2);
    let long = format!("{slashes}{dots}{}", text.strip_prefix('/').unwrap());
    assert_eq!(long.len(), bytes);
    PathBuf::from(long)
}

/// The system takes paths of up to 4,095 bytes.
#[test]
fn long_paths() {
    let [file, heap] = good();
    for bytes in [1_000, 4_094, 4_095] {
        let [file, heap] = [&file, &heap].map(|path| lengthened(path, bytes));
        assert_eq!(reply(run([file, heap])), REPLY, "{bytes}");
    }
    for bytes in [4_096, 4_097, 10_000, 100_000] {
        expect_bad(&lengthened(&file, bytes));
    }
}

/// A name is any bytes; a dash has no meaning of its own.
#[test]
fn odd_names() {
    let folder = scratch("odd_names");
    let _ = fs::remove_dir_all(&folder);
    fs::create_dir_all(&folder).unwrap();
    let [file, heap] = good();
    for (a, b) in [("-", "--help"), ("two words", "*"), ("Ä\n", "\u{1}")] {
        fs::copy(&file, folder.join(a)).unwrap();
        fs::copy(&heap, folder.join(b)).unwrap();
        let mut command = Command::new(program().canonicalize().unwrap());
        command.current_dir(&folder).args([a, b]);
        assert_eq!(reply(command.output().unwrap()), REPLY, "{a:?} {b:?}");
    }
}

/// The limit and its neighbour above, and a file of which most is not needed.
#[test]
fn long_files() {
    let [file, heap] = good();
    let long = scratch("long_file");
    // One line with no LF, or too many bytes.
    for (bytes, number, line) in [(60_000, 2, 1), (60_001, 1, 0), (10_000_000, 1, 0)] {
        fs::write(&long, vec![b'0'; bytes]).unwrap();
        assert_eq!(reply(run([&long, &heap])), format!("{number},1,{line}\n"));
        assert_eq!(reply(run([&file, &long])), format!("{number},2,{line}\n"));
    }
}

#[test]
fn empty_files() {
    let [file, heap] = good();
    let empty = Path::new("/dev/null");
    assert_eq!(reply(run([empty, &heap])), "0,0,0\n");
    assert_eq!(reply(run([&file, empty])), "3,2,1\n");
    assert_eq!(reply(run([empty, empty])), "3,2,1\n");
}

/// Standard input under its name as a file brings few bytes at each read.
#[test]
fn short_reads_are_continued() {
    let [file, heap] = good();
    let stdin = PathBuf::from("/dev/stdin");
    for (names, piped) in [([&stdin, &heap], &file), ([&file, &stdin], &heap)] {
        let mut command = Command::new(program());
        let input = fs::read(piped).unwrap();
        let output = byte_by_byte(command.args(names), &input);
        assert_eq!(reply(output), REPLY);
    }
}

fn expect_unwritten(output: Output) {
    assert_eq!(output.stdout, b"");
    let stderr = String::from_utf8(output.stderr).unwrap();
    let unwritten = "tabeval: the reply can't be written to standard output\n";
    assert_eq!(stderr, unwritten);
}

/// Every write to this device fails as on a full disk.
#[test]
fn a_full_standard_output_is_said() {
    let full = File::options().write(true).open("/dev/full").unwrap();
    let mut command = Command::new(program());
    expect_unwritten(command.args(good()).stdout(full).output().unwrap());
}

#[test]
fn a_closed_standard_output_is_said() {
    let mut command = Command::new("sh");
    command.args(["-c", "exec \"$0\" \"$@\" >&-"]);
    command.arg(program()).args(good());
    expect_unwritten(command.output().unwrap());
}
