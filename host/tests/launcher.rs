//! The scripts that build and run the programs.

mod input;
mod process;

use input::run_on;
use process::{repository, scratch};
use std::fs;
use std::os::unix::fs::{symlink, PermissionsExt};
use std::path::{Path, PathBuf};
use std::process::{Command, Output};

const SCRIPTS: [&str; 3] = ["tabcheck", "tabeval", "tabfigures"];

/// A repository with nothing but the scripts and the programs' folders. What the
/// scripts call is in `tools`, and so is an `rt` with this text, if any: it runs
/// in a program's folder, and makes the program `$made`.
fn bare_repository(name: &str, rt: Option<&str>) -> PathBuf {
    let root = scratch(name);
    let _ = fs::remove_dir_all(&root);
    let tools = root.join("tools");
    fs::create_dir_all(&tools).unwrap();
    for file in SCRIPTS.into_iter().chain(["launch.sh"]) {
        fs::copy(repository().join(file), root.join(file)).unwrap();
    }
    for script in SCRIPTS {
        fs::create_dir_all(root.join("crates").join(script)).unwrap();
    }
    for tool in ["dirname", "rm", "mkdir", "cat", "chmod"] {
        symlink(found(tool), tools.join(tool)).unwrap();
    }
    if let Some(text) = rt {
        let rt = tools.join("rt");
        fs::write(&rt, format!("#!/bin/sh\nmade=out/${{PWD##*/}}\n{text}\n")).unwrap();
        fs::set_permissions(rt, fs::Permissions::from_mode(0o755)).unwrap();
    }
    root
}

fn found(tool: &str) -> PathBuf {
    let folders = std::env::var_os("PATH").unwrap();
    let mut paths = std::env::split_paths(&folders).map(|folder| folder.join(tool));
    paths.find(|path| path.is_file()).expect(tool)
}

fn run_script(root: &Path, script: &str) -> Output {
    let mut command = Command::new(root.join(script));
    command.args(["two words", "", "*"]);
    command.env("PATH", root.join("tools"));
    let name = format!("{}.in", root.file_name().unwrap().to_str().unwrap());
    run_on(&mut command, &name, b"the file\n")
}

/// The script failed, said why, and gave no reply.
fn expect_failure(output: &Output, script: &str, why: &str) {
    assert!(!output.status.success());
    assert_eq!(output.stdout, b"");
    let stderr = String::from_utf8_lossy(&output.stderr);
    assert!(stderr.starts_with(&format!("{script}: ")), "{stderr}");
    assert!(stderr.contains(why), "{stderr}");
}

#[test]
fn the_script_without_rt() {
    let root = bare_repository("script_without_rt", None);
    for script in SCRIPTS {
        expect_failure(&run_script(&root, script), script, "building it needs rt");
    }
}

/// A program is made whose trial run fails, as `rt run` can end.
#[test]
fn the_script_where_the_build_fails() {
    let rt = "mkdir -p out && : >$made && chmod +x $made && exit 1";
    let root = bare_repository("script_build_fails", Some(rt));
    for script in SCRIPTS {
        expect_failure(&run_script(&root, script), script, "the build failed");
        expect_failure(&run_script(&root, script), script, "the build failed");
    }
}

#[test]
fn the_script_where_nothing_is_built() {
    let root = bare_repository("script_nothing_built", Some("exit 0"));
    for script in SCRIPTS {
        expect_failure(&run_script(&root, script), script, "it is not there");
    }
}

/// The program made here writes its arguments and its input back. What it writes
/// shows that they come through whole, and that the build left the input alone.
#[test]
fn the_script_builds_once() {
    let rt = "echo \"rt $1 $made\" && mkdir -p out && printf '#!/bin/sh\\nprintf \"<%%s>\" \"$@\"\\ncat\\n' >$made && chmod +x $made";
    let root = bare_repository("script_builds_once", Some(rt));
    for script in SCRIPTS {
        let written = "<two words><><*>the file\n";
        let first = run_script(&root, script);
        assert!(first.status.success());
        assert_eq!(String::from_utf8_lossy(&first.stdout), written);
        let stderr = String::from_utf8(first.stderr).unwrap();
        let built = format!("rt run out/{script}\n");
        assert!(stderr.ends_with(&built), "{stderr}");

        let second = run_script(&root, script);
        assert!(second.status.success());
        assert_eq!(String::from_utf8_lossy(&second.stdout), written);
        assert_eq!(second.stderr, b"");
    }
}

/// A script that is called by a relative name works in the folder of its caller,
/// where the files are that its arguments name.
#[test]
fn the_script_stays_in_the_callers_folder() {
    let rt = "mkdir -p out && printf '#!/bin/sh\\npwd\\n' >$made && chmod +x $made";
    let root = bare_repository("script_folder", Some(rt));
    let below = root.join("below").join("further");
    fs::create_dir_all(&below).unwrap();
    for script in SCRIPTS {
        let mut command = Command::new(found("sh"));
        command.args(["-c", "exec \"$0\""]);
        command.arg(Path::new("../..").join(script));
        command.current_dir(&below).env("PATH", root.join("tools"));
        let output = command.output().unwrap();
        let stdout = String::from_utf8(output.stdout).unwrap();
        let folder = below.canonicalize().unwrap();
        assert_eq!(Path::new(stdout.trim_end()), folder);
    }
}
