//! The scripts of `tools`: `--help` prints what each does, and does nothing.

use std::os::unix::fs::PermissionsExt;
use std::path::Path;
use std::process::Command;
use std::{env, fs};

/// Programs that a script would start; a stand-in for each notes that it was called.
const STAND_INS: [&str; 7] = ["rt", "cc", "gcc", "ld", "apt-get", "install", "mkdir"];

#[test]
fn help_does_nothing() {
    let top = Path::new(env!("CARGO_MANIFEST_DIR")).join("../../..");
    let folder = Path::new(env!("CARGO_TARGET_TMPDIR")).join("tools-help");
    let _ = fs::remove_dir_all(&folder);
    fs::create_dir_all(&folder).expect("a folder");
    for name in STAND_INS {
        let program = folder.join(name);
        fs::write(&program, format!("#!/bin/sh\ntouch '{}'\n", folder.join("called").display())).expect("a program");
        fs::set_permissions(&program, fs::Permissions::from_mode(0o755)).expect("a program to run");
    }
    let path = format!("{}:{}", folder.display(), env::var("PATH").expect("a path"));
    let tools = fs::read_dir(top.join("tools")).expect("the tools").map(|tool| tool.expect("a tool").path());
    // A file that cannot be started is a part of others.
    let started = tools.filter(|tool| fs::metadata(tool).is_ok_and(|tool| tool.permissions().mode() & 0o111 != 0));
    let mut count = 0;
    for tool in started {
        let name = tool.file_name().expect("a name").to_string_lossy();
        let run = Command::new(&tool).arg("--help").env("PATH", &path).current_dir(&top).output().expect("a script");
        let said = String::from_utf8_lossy(&run.stdout);
        assert_eq!(run.status.code(), Some(0), "{name}: {}", String::from_utf8_lossy(&run.stderr));
        assert!(said.contains(&format!("tools/{name}")), "{name}: {said}");
        assert!(!folder.join("called").exists(), "{name} does something");
        count += 1;
    }
    assert!(count >= 12, "{count} tools");
}
