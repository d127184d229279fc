//! What the command line asks for.

mod rest;

use std::ffi::OsString;
use std::fmt;
use std::path::PathBuf;

use crate::command::export::Export;
use crate::help::Page;
use crate::row_range::RowRange;
use crate::tap::Tapped;
use crate::verify::Standing;
use rest::Rest;

/// What is asked for, and where it goes.
#[derive(Debug, PartialEq, Eq)]
pub struct Request {
    /// What is asked for.
    pub task: Task,
    /// The file to write; `None` is standard output.
    pub output: Option<PathBuf>,
}

/// What is asked for.
#[derive(Debug, PartialEq, Eq)]
pub enum Task {
    /// Print a page of the help.
    Help(Page),
    /// Print the version.
    Version,
    /// Plan a job and print its table.
    Plan { job: PathBuf, form: PlanForm, cells: Option<usize>, rows: Option<RowRange> },
    /// Write the words of a job.
    Words { job: PathBuf, bytes: bool },
    /// Write the words of an old job with moving targets in place of flying ones.
    Convert { job: PathBuf, bytes: bool },
    /// Print the sheet of job words; `None` tells bytes from text by itself.
    Show { words: PathBuf, bytes: Option<bool> },
    /// Plan a tour and print its arrivals, and the tables of its legs where they are asked for.
    Tour { sheet: PathBuf, form: TourForm },
    /// Draw the plan of a job or a tour.
    Plot { setup: PathBuf },
    /// Write the report of a job or of a tour, with recorded taps of its poles.
    Report { setup: PathBuf, taps: Vec<TapOf> },
    /// Hold tables to a job.
    Verify { job: PathBuf, tables: Vec<PathBuf>, standing: Standing },
    /// Hold a certificate to its own job.
    VerifyCertificate { file: PathBuf },
    /// Write the certificate of a job.
    Certify { job: PathBuf },
    /// Fit a recorded tap and print the lines of a sheet.
    Tap(Tapped),
}

/// A recorded tap that a report is given.
#[derive(Debug, PartialEq, Eq)]
pub struct TapOf {
    /// The axis that it was recorded for, by number or name; `None` for every axis with a half
    /// period.
    pub axis: Option<String>,
    /// The record.
    pub tapped: Tapped,
}

/// How a table is printed.
#[derive(Debug, Clone, Copy, PartialEq, Eq)]
pub enum TableForm {
    /// Aligned columns in fine steps.
    FineSteps,
    /// Aligned columns in units.
    Units,
    /// The lines of the table program.
    Plain,
}

/// How a plan is printed.
#[derive(Debug, Clone, Copy, PartialEq, Eq)]
pub enum PlanForm {
    /// For a reader: every row, or the first and the last ones.
    Table { form: TableForm, all: bool },
    /// For another program.
    Export(Export),
}

/// How a tour is printed.
#[derive(Debug, Clone, Copy, PartialEq, Eq)]
pub enum TourForm {
    /// For a reader: the arrivals, and the tables of the legs where they are asked for.
    Table { form: TableForm, tables: bool },
    /// For another program.
    Export(Export),
}

/// Why a command line cannot be followed, and the page of the help that says how.
#[derive(Debug)]
pub struct Usage {
    fault: String,
    page: Page,
}

impl Usage {
    /// A fault, of no command yet.
    fn of(fault: impl Into<String>) -> Usage {
        Usage { fault: fault.into(), page: Page::All }
    }
}

impl fmt::Display for Usage {
    fn fmt(&self, f: &mut fmt::Formatter<'_>) -> fmt::Result {
        let (fault, command) = (&self.fault, self.page.command());
        match self.page {
            Page::All => write!(f, "{fault}; `polgamir --help` lists what can be asked"),
            _ => write!(f, "{fault}; `polgamir {command} --help` lists its options"),
        }
    }
}

impl std::error::Error for Usage {}

impl Request {
    /// Reads a command line without the program's own name.
    pub fn read(arguments: &[OsString]) -> Result<Request, Usage> {
        let Some((first, rest)) = arguments.split_first() else {
            return Err(Usage::of(format!("expected {}", Page::commands())));
        };
        match first.to_str() {
            Some("-h" | "--help") => Ok(Request::only(Task::Help(Page::All))),
            Some("-V" | "--version") => Ok(Request::only(Task::Version)),
            Some("help") => Request::help(rest),
            name => match name.and_then(Page::of) {
                Some(page) => Request::of_command(page, rest).map_err(|usage| Usage { page, ..usage }),
                None => Err(unknown(first)),
            },
        }
    }

    /// A request for standard output.
    fn only(task: Task) -> Request {
        Request { task, output: None }
    }

    /// The page of the help that is asked for by `help`, or by `help plan`.
    fn help(rest: &[OsString]) -> Result<Request, Usage> {
        match rest.first() {
            None => Ok(Request::only(Task::Help(Page::All))),
            Some(name) => match name.to_str().and_then(Page::of) {
                Some(page) => Ok(Request::only(Task::Help(page))),
                None => Err(unknown(name)),
            },
        }
    }

    /// What a command is asked for by the arguments after its name.
    fn of_command(page: Page, rest: &[OsString]) -> Result<Request, Usage> {
        let asks_for_help = |argument: &OsString| argument == "-h" || argument == "--help";
        if page == Page::Tap && !rest.iter().any(asks_for_help) {
            return Ok(Request::only(Task::Tap(Tapped::read(rest).map_err(Usage::of)?)));
        }
        let mut rest = Rest::sort(rest)?;
        if rest.flag("-h") || rest.flag("--help") {
            return Ok(Request::only(Task::Help(page)));
        }
        let task = rest.task(page)?;
        let output = rest.output();
        rest.is_spent()?;
        Ok(Request { task, output })
    }
}

/// That there is no such command.
fn unknown(name: &OsString) -> Usage {
    Usage::of(format!("expected {}, found `{}`", Page::commands(), name.to_string_lossy()))
}
