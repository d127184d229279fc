//! The arguments after the command's name, and what each command takes of them.

use std::ffi::OsString;
use std::path::PathBuf;

use polgamir::{LATEST_ARRIVAL, MOST_CELLS};

use super::{PlanForm, TableForm, TapOf, Task, TourForm, Usage};
use crate::command::export::{Export, Quantity};
use crate::help::Page;
use crate::row_range::RowRange;
use crate::tap::Tapped;
use crate::verify::Standing;

/// The arguments after the command's name, sorted into options and files.
#[derive(Default)]
pub struct Rest {
    flags: Vec<String>,
    output: Option<OsString>,
    cells: Option<OsString>,
    first: Option<OsString>,
    rows: Option<OsString>,
    /// Recorded taps, and the options that say how they are read.
    taps: Vec<OsString>,
    reading: Vec<OsString>,
    files: Vec<OsString>,
}

impl Rest {
    /// Sorts arguments. `--` ends the options: what follows are files.
    pub fn sort(arguments: &[OsString]) -> Result<Rest, Usage> {
        let mut rest = Rest::default();
        let mut arguments = arguments.iter();
        while let Some(argument) = arguments.next() {
            match argument.to_str() {
                Some("--") => rest.files.extend(arguments.by_ref().cloned()),
                Some(option @ ("-o" | "--cells" | "--first" | "--rows" | "--tap" | "--rate" | "--column")) => {
                    rest.take_value(option, arguments.next())?
                }
                Some(flag) if flag.starts_with('-') && flag != "-" => rest.flags.push(flag.into()),
                _ => rest.files.push(argument.clone()),
            }
        }
        Ok(rest)
    }

    /// Takes the value of an option.
    fn take_value(&mut self, option: &str, value: Option<&OsString>) -> Result<(), Usage> {
        let Some(value) = value else {
            return Err(Usage::of(format!("expected a value after `{option}`")));
        };
        let place = match option {
            "--tap" => {
                self.taps.push(value.clone());
                return Ok(());
            }
            "--rate" | "--column" => {
                self.reading.extend([option.into(), value.clone()]);
                return Ok(());
            }
            "-o" => &mut self.output,
            "--first" => &mut self.first,
            "--rows" => &mut self.rows,
            _ => &mut self.cells,
        };
        match place.replace(value.clone()) {
            None => Ok(()),
            Some(_) => Err(Usage::of(format!("expected `{option}` once"))),
        }
    }

    /// Takes what a command is asked for.
    pub fn task(&mut self, page: Page) -> Result<Task, Usage> {
        match page {
            Page::Plan => self.plan(),
            Page::Words => self.words(),
            Page::Show => self.show(),
            Page::Convert => self.convert(),
            Page::Tour => self.tour(),
            Page::Plot => self.plot(),
            Page::Report => self.report(),
            Page::Verify => self.verify(),
            Page::Certify => Ok(Task::Certify { job: self.file("sheet")? }),
            Page::All | Page::Tap => Ok(Task::Help(page)),
        }
    }

    /// Takes the file to write; `None` is standard output.
    pub fn output(&mut self) -> Option<PathBuf> {
        self.output.take().filter(|file| file != "-").map(PathBuf::from)
    }

    /// Takes a flag, if it was given.
    pub fn flag(&mut self, name: &str) -> bool {
        let given = self.flags.len();
        self.flags.retain(|flag| flag != name);
        self.flags.len() < given
    }

    /// Takes the one file of a command.
    fn file(&mut self, what: &str) -> Result<PathBuf, Usage> {
        match self.files.as_slice() {
            [] => Err(Usage::of(format!("expected a {what}"))),
            [_, second, ..] => {
                Err(Usage::of(format!("expected one {what}, found also `{}`", second.to_string_lossy())))
            }
            [_] => Ok(self.files.remove(0).into()),
        }
    }

    /// Takes at most one of two flags.
    fn one_of(&mut self, first: &str, second: &str) -> Result<(bool, bool), Usage> {
        match (self.flag(first), self.flag(second)) {
            (true, true) => Err(Usage::of(format!("expected only one of `{first}` and `{second}`"))),
            given => Ok(given),
        }
    }

    /// Takes the number of cells to lend, up to those of the largest table.
    fn cells(&mut self) -> Result<Option<usize>, Usage> {
        let Some(given) = self.cells.take() else {
            return Ok(None);
        };
        let count = given.to_str().and_then(|count| count.parse().ok()).filter(|&count| count <= MOST_CELLS);
        let found = given.to_string_lossy();
        count.map(Some).ok_or_else(|| {
            Usage::of(format!("expected a number from 0 to {MOST_CELLS} after `--cells`, found `{found}`"))
        })
    }

    /// Takes which rows are to be printed. They bring the cells for them, and a C array has all
    /// rows.
    fn rows(&mut self, form: PlanForm) -> Result<Option<RowRange>, Usage> {
        let Some(given) = self.rows.take() else {
            return Ok(None);
        };
        if self.cells.is_some() {
            return Err(Usage::of("expected no `--cells` beside `--rows`, which lends cells for its rows"));
        }
        match form {
            PlanForm::Export(Export::CArray) => {
                return Err(Usage::of("expected no `--rows` beside `--c-array`, which has all rows"));
            }
            PlanForm::Table { all: true, .. } => return Err(Usage::of("expected only one of `--all` and `--rows`")),
            _ => {}
        }
        let found = given.to_string_lossy();
        RowRange::of(&found).map(Some).ok_or_else(|| {
            Usage::of(format!(
                "expected two ticks from 0 to {LATEST_ARRIVAL}, the first not above the second, as `40..55`, after \
                 `--rows`, found `{found}`"
            ))
        })
    }

    /// Takes how a table is to be printed.
    fn form(&mut self) -> Result<TableForm, Usage> {
        Ok(match self.one_of("--plain", "--units")? {
            (true, _) => TableForm::Plain,
            (_, true) => TableForm::Units,
            _ => TableForm::FineSteps,
        })
    }

    /// Takes the form of an export, where one is asked for.
    fn export(&mut self) -> Result<Option<Export>, Usage> {
        let given: Vec<&str> = ["--csv", "--json", "--c-array"].into_iter().filter(|name| self.flag(name)).collect();
        let export = match given.as_slice() {
            [] => return Ok(None),
            [only] => *only,
            [first, second, ..] => return Err(Usage::of(format!("expected only one of `{first}` and `{second}`"))),
        };
        let units = self.flag("--units");
        let quantity = if units { Quantity::Units } else { Quantity::FineSteps };
        match export {
            "--csv" => Ok(Some(Export::Csv(quantity))),
            "--json" => Ok(Some(Export::Json(quantity))),
            _ if units => Err(Usage::of("expected no `--units` beside `--c-array`, which has the table's cells")),
            _ => Ok(Some(Export::CArray)),
        }
    }

    fn plan(&mut self) -> Result<Task, Usage> {
        let form = match self.export()? {
            Some(export) => PlanForm::Export(export),
            None => PlanForm::Table { all: self.flag("--all"), form: self.form()? },
        };
        let rows = self.rows(form)?;
        let cells = self.cells()?;
        Ok(Task::Plan { job: self.file("sheet")?, form, cells, rows })
    }

    fn words(&mut self) -> Result<Task, Usage> {
        let bytes = self.flag("--bytes");
        Ok(Task::Words { job: self.file("sheet")?, bytes })
    }

    fn convert(&mut self) -> Result<Task, Usage> {
        let bytes = self.flag("--bytes");
        Ok(Task::Convert { job: self.file("sheet")?, bytes })
    }

    fn show(&mut self) -> Result<Task, Usage> {
        let bytes = match self.one_of("--bytes", "--hex")? {
            (true, _) => Some(true),
            (_, true) => Some(false),
            _ => None,
        };
        Ok(Task::Show { words: self.file("file of words")?, bytes })
    }

    fn tour(&mut self) -> Result<Task, Usage> {
        let form = match self.export()? {
            Some(export) => TourForm::Export(export),
            None => TourForm::Table { tables: self.flag("--tables"), form: self.form()? },
        };
        Ok(Task::Tour { sheet: self.file("sheet")?, form })
    }

    fn plot(&mut self) -> Result<Task, Usage> {
        match self.output {
            Some(_) => Ok(Task::Plot { setup: self.file("sheet")? }),
            None => Err(Usage::of("expected `-o FILE.svg` for the picture, or `-o -` for standard output")),
        }
    }

    /// Takes the recorded taps, each as `RECORD` or `AXIS=RECORD`.
    fn taps(&mut self) -> Result<Vec<TapOf>, Usage> {
        let reading = std::mem::take(&mut self.reading);
        let taken = std::mem::take(&mut self.taps);
        if taken.is_empty() && !reading.is_empty() {
            return Err(Usage::of(format!("expected `--tap` beside `{}`", reading[0].to_string_lossy())));
        }
        let tap = |given: OsString| {
            let text = given.to_string_lossy();
            // An axis has no dot and no slash in its name here, so that a path with `=` is still a
            // path.
            let (axis, record) = match text.split_once('=').filter(|(axis, _)| !axis.contains(['/', '.'])) {
                Some((axis, record)) => (Some(axis.trim().to_string()), OsString::from(record)),
                None => (None, given.clone()),
            };
            let arguments = [reading.clone(), vec!["--".into(), record]].concat();
            Ok(TapOf { axis, tapped: Tapped::read(&arguments).map_err(Usage::of)? })
        };
        taken.into_iter().map(tap).collect()
    }

    fn report(&mut self) -> Result<Task, Usage> {
        match self.output {
            Some(_) => Ok(Task::Report { taps: self.taps()?, setup: self.file("sheet")? }),
            None => Err(Usage::of("expected `-o FILE.html` for the report, or `-o -` for standard output")),
        }
    }

    /// A certificate alone, or a job and the files of its table.
    fn verify(&mut self) -> Result<Task, Usage> {
        let backwards = self.flag("--backwards");
        let first = match self.first.take() {
            None => None,
            Some(given) => {
                let row = given.to_str().and_then(|row| row.parse().ok()).filter(|row| *row <= LATEST_ARRIVAL);
                let found = given.to_string_lossy();
                let wrong =
                    || Usage::of(format!("expected a row from 0 to {LATEST_ARRIVAL} after `--first`, found `{found}`"));
                Some(row.ok_or_else(wrong)?)
            }
        };
        let mut files: Vec<PathBuf> = self.files.drain(..).map(PathBuf::from).collect();
        match files.len() {
            0 => Err(Usage::of("expected a job and its table, or a certificate")),
            1 if backwards || first.is_some() => Err(Usage::of("expected a table after the job")),
            1 => Ok(Task::VerifyCertificate { file: files.remove(0) }),
            _ => Ok(Task::Verify { job: files.remove(0), tables: files, standing: Standing { backwards, first } }),
        }
    }

    /// Whether every argument has been taken.
    pub fn is_spent(&self) -> Result<(), Usage> {
        let options = [("--cells", &self.cells), ("--first", &self.first), ("--rows", &self.rows)];
        let left = options.iter().find(|(_, value)| value.is_some()).map(|(name, _)| (*name).to_owned());
        let taps = self.taps.iter().map(|_| "--tap".into());
        let reading = self.reading.iter().map(|option| option.to_string_lossy().into_owned());
        match self.flags.iter().cloned().chain(left).chain(taps).chain(reading).next() {
            Some(option) => Err(Usage::of(format!("`{option}` is no option of this command"))),
            None => Ok(()),
        }
    }
}
