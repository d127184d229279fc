//! The command `polgamir`: it plans set-up sheets of jobs and tours, draws and reports the plans,
//! turns sheets into job words and back, and reads a pole's sway from a recorded tap.
//!
//! The proved library does the planning; this crate reads, writes and draws. `polgamir --help`
//! lists the commands, `polgamir plan --help` the options of one, and docs/SHEET.md describes the
//! sheet.
//!
//! Exit status: 0 where it did what was asked, 1 where the planner refuses the job, 2 for a wrong
//! sheet, wrong words, wrong usage or a file that cannot be read, 3 where the output cannot be
//! written.

#![deny(unsafe_code)]

mod arguments;
mod command;
mod exact;
mod help;
mod measure;
mod picture;
mod report;
mod row_range;
mod standard_output;
mod tap;
#[cfg(test)]
mod test_axis;
mod verify;

use std::process::ExitCode;

use command::{Done, Failure};

fn main() -> ExitCode {
    let arguments: Vec<_> = std::env::args_os().skip(1).collect();
    match done(&arguments) {
        Ok(status) => ExitCode::from(status),
        Err(failure) => {
            for line in failure.to_string().lines() {
                eprintln!("polgamir: {line}");
            }
            ExitCode::from(failure.status())
        }
    }
}

/// Does what the arguments ask, prints what it gives, and returns the exit status.
fn done(arguments: &[std::ffi::OsString]) -> Result<u8, Failure> {
    let Done { output, notes, status, .. } = command::run(&arguments::Request::read(arguments)?)?;
    standard_output::print(&output).map_err(Failure::of_standard_output)?;
    for note in notes {
        eprintln!("polgamir: {note}");
    }
    Ok(status)
}
