//! Running the command `polgamir`.

use std::fs;
use std::io::Write;
use std::path::Path;
use std::process::{Command, Output, Stdio};

use super::folder;

/// A sheet of the repository.
pub fn sheet(name: &str) -> String {
    folder("sheets").join(name).with_extension("sheet").to_str().expect("a path of letters").into()
}

/// A file for a test to write.
pub fn scratch(name: &str) -> String {
    Path::new(env!("CARGO_TARGET_TMPDIR")).join(name).to_str().expect("a path of letters").into()
}

/// Runs the command with arguments and standard input.
pub fn run_with(arguments: &[&str], input: &[u8]) -> Output {
    let mut child = Command::new(env!("CARGO_BIN_EXE_polgamir"))
        .args(arguments)
        .stdin(Stdio::piped())
        .stdout(Stdio::piped())
        .stderr(Stdio::piped())
        .spawn()
        .expect("the command starts");
    // A command that does not read its input may end before it is written.
    let _ = child.stdin.take().expect("its input").write_all(input);
    child.wait_with_output().expect("the command ends")
}

/// Runs the command with arguments.
pub fn run(arguments: &[&str]) -> Output {
    run_with(arguments, b"")
}

/// Standard output and the exit status.
pub fn printed(output: &Output) -> (String, Option<i32>) {
    (String::from_utf8_lossy(&output.stdout).into(), output.status.code())
}

/// What is said on standard error, of a run that ends with a status and prints nothing.
pub fn told_with(output: &Output, status: i32) -> String {
    assert_eq!(printed(output), (String::new(), Some(status)));
    String::from_utf8_lossy(&output.stderr).into()
}

/// What is said on standard error, of a run that ends with 2 and prints nothing.
pub fn told(output: &Output) -> String {
    told_with(output, 2)
}

/// The numbers that a C program prints, one space between each two: it is compiled and run by a
/// name of its own.
pub fn numbers_of_c(name: &str, text: &str) -> Vec<i64> {
    let (source, program) = (scratch(&format!("{name}.c")), scratch(name));
    fs::write(&source, text).expect("a file");
    let built = Command::new("cc")
        .args(["-std=c99", "-Wall", "-Wextra", "-Wpedantic", "-Werror", "-o", &program, &source])
        .output()
        .expect("a C compiler");
    assert!(built.status.success(), "{}", String::from_utf8_lossy(&built.stderr));
    let said = Command::new(&program).output().expect("the program runs").stdout;
    String::from_utf8_lossy(&said).split(' ').map(|number| number.parse().expect("a number")).collect()
}
