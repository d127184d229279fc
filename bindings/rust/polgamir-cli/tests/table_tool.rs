//! The script `tools/table`: what it checks before it proves anything, and its exit statuses. A
//! stand-in for `rt` notes that it was called, so that nothing is proved here; the proved program
//! is run where it has been built.

use std::os::unix::fs::PermissionsExt;
use std::path::{Path, PathBuf};
use std::process::{Command, Output};
use std::{env, fs};

/// The repository.
fn top() -> PathBuf {
    Path::new(env!("CARGO_MANIFEST_DIR")).join("../../..")
}

/// A folder with a stand-in for `rt` that leaves the file `called` and ends with a status.
fn stand_in(name: &str, status: i32) -> PathBuf {
    let folder = Path::new(env!("CARGO_TARGET_TMPDIR")).join(name);
    let _ = fs::remove_dir_all(&folder);
    fs::create_dir_all(&folder).expect("a folder");
    let (program, called) = (folder.join("rt"), folder.join("called"));
    let said = "echo 'rt: table proved or not' >&2";
    let text = format!("#!/bin/sh\n{said}\ntouch '{}'\nexit {status}\n", called.display());
    fs::write(&program, text).expect("a program");
    fs::set_permissions(&program, fs::Permissions::from_mode(0o755)).expect("a program to run");
    folder
}

/// Runs the script through a shell, with a redirection, and with the stand-in of a folder in place
/// of `rt`.
fn run(folder: &Path, arguments: &[&str], redirection: &str) -> Output {
    let path = format!("{}:{}", folder.display(), env::var("PATH").expect("a path"));
    let line = format!("exec tools/table \"$@\" {redirection}");
    let mut command = Command::new("sh");
    command.current_dir(top()).env("PATH", path).args(["-c", &line, "sh"]).args(arguments);
    command.output().expect("a shell")
}

#[test]
fn arguments_are_checked_before_anything_is_proved() {
    let folder = stand_in("arguments", 0);
    let wrong = [
        (&[][..], "expected one job, found 0"),
        (&["a", "b"], "expected one job, found 2"),
        (&["jobs/no-such.job"], "jobs/no-such.job cannot be read"),
        (&["jobs"], "jobs cannot be read"),
        (&["sheets/case-c.sheet"], "sheets/case-c.sheet is a set-up sheet"),
    ];
    for (arguments, told) in wrong {
        let output = run(&folder, arguments, "");
        assert_eq!((output.status.code(), output.stdout.len()), (Some(2), 0), "{arguments:?}");
        let text = String::from_utf8_lossy(&output.stderr);
        assert!(text.contains(told), "{arguments:?}: {text}");
    }
    assert_eq!(run(&folder, &["--help"], "").status.code(), Some(0));
    assert!(!folder.join("called").exists());
}

#[test]
fn a_program_that_is_not_proved_is_not_run() {
    let folder = stand_in("not-proved", 1);
    let output = run(&folder, &["jobs/case-c.job"], "");
    assert_eq!((output.status.code(), output.stdout.len()), (Some(2), 0));
    let text = String::from_utf8_lossy(&output.stderr);
    assert!(text.contains("rt: table proved or not\n") && text.contains("could not be proved"), "{text}");
    assert!(folder.join("called").exists());
}

#[test]
fn tables_refusals_and_failed_writes_have_their_statuses() {
    if !top().join("crates/table/out/table").is_file() {
        eprintln!("crates/table/out/table is not built: not tried");
        return;
    }
    let folder = stand_in("statuses", 0);
    for (name, status) in [("case-c", 0), ("too-soon", 1), ("six-axes", 0)] {
        let expected = fs::read_to_string(top().join("jobs").join(name).with_extension("txt")).expect("its text");
        let output = run(&folder, &[&format!("jobs/{name}.job")], "");
        assert_eq!(String::from_utf8_lossy(&output.stdout), expected);
        assert_eq!(output.status.code(), Some(status), "{name}");
    }
    for redirection in [">/dev/full", ">&-"] {
        let output = run(&folder, &["jobs/case-c.job"], redirection);
        assert_eq!(output.status.code(), Some(3), "{redirection}");
        assert!(String::from_utf8_lossy(&output.stderr).contains("the table could not be written"));
    }
    assert_eq!(run(&folder, &["-"], "<jobs/too-soon.job").status.code(), Some(1));
}
