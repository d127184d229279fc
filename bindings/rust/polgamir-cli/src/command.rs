//! The commands: what each reads, and what it gives.

pub mod content;
pub mod export;
pub mod files;
pub mod refusal;
mod report;
pub mod shown;
pub mod summary;
pub mod table;
mod tour;
pub mod words;

use std::fmt;
use std::path::Path;

use polgamir::sheet::{Rounded, Setup, Sheet};
use polgamir::{Job, NoWords, Refusal};

use crate::arguments::{PlanForm, Request, TableForm, Task, Usage};
use crate::row_range::RowRange;
use crate::tap::{self, Tap, Tapped};
use crate::{picture, verify};
use export::Source;
use files::{about, FileError};
use refusal::Told;
use shown::Shown;

/// What a command gives, and its exit status: 0, or 1 for a refusal.
pub struct Done {
    /// For the file that is named, or for standard output.
    pub output: Vec<u8>,
    /// What a refusal says to a person, where the output goes to a file.
    pub refusal: String,
    /// What is to be known about it, for standard error.
    pub notes: Vec<String>,
    /// The exit status.
    pub status: u8,
}

impl Done {
    /// Done as asked.
    pub fn well(output: impl Into<Vec<u8>>) -> Done {
        Done { output: output.into(), refusal: String::new(), notes: Vec::new(), status: 0 }
    }

    /// Refused by the planner, in the form that was asked for.
    fn refused(told: &Told, output: impl Into<Vec<u8>>) -> Done {
        Done { output: output.into(), refusal: told.text(), notes: Vec::new(), status: 1 }
    }

    /// Refused by the planner, where its line alone was asked for.
    fn plainly_refused(told: &Told) -> Done {
        let line = told.printed_line.clone() + "\n";
        Done { output: line.clone().into(), refusal: line, notes: Vec::new(), status: 1 }
    }

    /// Refused by the planner, where text was asked for.
    pub fn refused_in_words(told: &Told) -> Done {
        Done::refused(told, told.text())
    }

    /// Not what a file was taken for, in words.
    pub fn differs(text: String) -> Done {
        Done { output: text.clone().into(), refusal: text, notes: Vec::new(), status: 1 }
    }

    /// With what is to be known of the entries that were rounded, before all else.
    fn noting(self, rounded: &[Rounded]) -> Done {
        let notes = rounded.iter().map(Rounded::to_string).chain(self.notes);
        Done { notes: notes.collect(), ..self }
    }
}

/// Why a command cannot be done.
#[derive(Debug)]
pub enum Failure {
    /// The command line cannot be followed.
    Usage(Usage),
    /// A file cannot be read, or holds no job.
    Input(FileError),
    /// The output cannot be written.
    Output(FileError),
}

impl Failure {
    /// The exit status.
    pub fn status(&self) -> u8 {
        match self {
            Failure::Usage(_) | Failure::Input(_) => 2,
            Failure::Output(_) => 3,
        }
    }

    /// Standard output that cannot be written.
    pub fn of_standard_output(cause: impl fmt::Display) -> Failure {
        Failure::Output(FileError { file: "standard output".into(), cause: cause.to_string() })
    }
}

impl fmt::Display for Failure {
    fn fmt(&self, f: &mut fmt::Formatter<'_>) -> fmt::Result {
        match self {
            Failure::Usage(usage) => usage.fmt(f),
            Failure::Input(error) | Failure::Output(error) => error.fmt(f),
        }
    }
}

impl From<Usage> for Failure {
    fn from(usage: Usage) -> Failure {
        Failure::Usage(usage)
    }
}

/// Does what is asked. What was asked for goes to the file that is named, if one is, a refusal too:
/// no older answer stands there then.
pub fn run(request: &Request) -> Result<Done, Failure> {
    if let Task::Tap(tapped @ Tapped { picture: Some(picture), .. }) = &request.task {
        return draw_tap(tapped, picture);
    }
    let Some(file) = &request.output else {
        return done(&request.task).map_err(Failure::Input);
    };
    let done = done(&request.task).map_err(|error| Failure::Input(error.beside_older(file)))?;
    let printed = Done { output: done.refusal.clone().into(), ..done };
    match files::write(file, &done.output) {
        Ok(()) => Ok(printed),
        Err(error) if printed.status == 0 => Err(Failure::Output(error)),
        // The refusal is printed all the same.
        Err(error) => Ok(Done { notes: vec![error.to_string()], status: 3, ..printed }),
    }
}

/// What a task gives.
fn done(task: &Task) -> Result<Done, FileError> {
    match task {
        Task::Help(page) => Ok(Done::well(page.text())),
        Task::Version => Ok(Done::well(concat!("polgamir ", env!("CARGO_PKG_VERSION"), "\n"))),
        Task::Plan { job, form, cells, rows } => {
            let (sheet, source) = (read_job(job)?, Source::of(job));
            let done = match rows {
                None => plan(&source, &sheet, *form, *cells),
                Some(rows) => plan_part(&source, &sheet, *form, *rows).map_err(|cause| about(job, cause))?,
            };
            // The summary, which a part has not, says what was rounded.
            let for_a_reader = matches!(form, PlanForm::Table { form, .. } if *form != TableForm::Plain);
            let summed_up = done.status == 0 && rows.is_none() && for_a_reader;
            Ok(done.noting(if summed_up { &[] } else { sheet.rounded() }))
        }
        Task::Words { job, bytes } => words_of(job, *bytes),
        Task::Convert { job, bytes } => converted(job, *bytes),
        Task::Show { words, bytes } => show(words, *bytes),
        Task::Tour { sheet: file, form } => {
            let sheet = content::tour_of(&files::read(file)?).map_err(|cause| about(file, cause))?;
            Ok(tour::planned(&Source::of(file), &sheet, *form).noting(sheet.rounded()))
        }
        Task::Plot { setup } => plot(setup),
        Task::Report { setup, taps } => report::written(setup, taps),
        Task::Verify { job, tables, standing } => verify::verified(job, tables, *standing),
        Task::VerifyCertificate { file } => verify::verified_certificate(file),
        Task::Certify { job } => verify::certified(job),
        Task::Tap(tapped) => Ok(Done::well(tap::lines(&Source::of(&tapped.record).title, &read_tap(tapped)?))),
    }
}

/// The job of a file: a set-up sheet, or job words, whose sheet has no lines.
fn read_job(file: &Path) -> Result<Sheet, FileError> {
    content::job_of(&files::read(file)?).map_err(|cause| about(file, cause))
}

/// Plans a job and prints its table or its refusal.
fn plan(source: &Source, sheet: &Sheet, form: PlanForm, cells: Option<usize>) -> Done {
    let mut cells = vec![0; cells.unwrap_or(sheet.job.enough_cells())];
    match (polgamir::plan(&sheet.job, &mut cells), form) {
        (Ok(accepted), PlanForm::Table { form, all }) => Done::well(table::print(sheet, &accepted, form, all)),
        (Ok(accepted), PlanForm::Export(export)) => {
            Done::well(export::written(source, sheet, &Shown::whole(&accepted), export))
        }
        (Err(refusal), form) => refused(source, sheet, &refusal, form),
    }
}

/// Plans a job and prints some of its rows or its refusal. Rows past the arrival are not there; a
/// first one past it is an error.
fn plan_part(source: &Source, sheet: &Sheet, form: PlanForm, rows: RowRange) -> Result<Done, String> {
    let mut cells = vec![0; 3 * sheet.job.entered().count() * rows.count()];
    let part = match polgamir::plan_part(&sheet.job, rows.first, &mut cells) {
        Ok(part) => part,
        Err(refusal) => return Ok(refused(source, sheet, &refusal, form)),
    };
    let arrival = part.arrival();
    if arrival < rows.first {
        return Err(format!("expected a first row from 0 to {arrival}, the arrival, after `--rows`, found `{rows}`"));
    }
    let shown = Shown::part(&part);
    Ok(Done::well(match form {
        PlanForm::Table { form, .. } => table::print_part(sheet, &shown, form),
        PlanForm::Export(export) => export::written(source, sheet, &shown, export),
    }))
}

/// The refusal of a job in the form that was asked for.
fn refused(source: &Source, sheet: &Sheet, refusal: &Refusal, form: PlanForm) -> Done {
    let told = refusal::told(sheet, refusal);
    match form {
        PlanForm::Table { form: TableForm::Plain, .. } => Done::plainly_refused(&told),
        PlanForm::Table { .. } => Done::refused_in_words(&told),
        PlanForm::Export(export) => Done::refused(&told, export::refused_job(source, sheet, refusal, export)),
    }
}

/// Writes the words of a job.
fn words_of(file: &Path, bytes: bool) -> Result<Done, FileError> {
    let sheet = read_job(file)?;
    let job_words = sheet.job.to_words().map_err(|error| about(file, no_words(&sheet, &error)))?;
    let done = match bytes {
        true => Done::well(words::bytes_of(&job_words)),
        false => Done::well(words::hexadecimal_of(&job_words)),
    };
    Ok(Done { notes: weights_taken(&sheet), ..done }.noting(sheet.rounded()))
}

/// Writes the converted words of an old job.
fn converted(file: &Path, bytes: bool) -> Result<Done, FileError> {
    let sheet = read_job(file)?;
    let old = sheet.job.to_words().map_err(|error| about(file, no_words(&sheet, &error)))?;
    let done = match polgamir::convert(&old) {
        Ok(converted) if bytes => Done::well(words::bytes_of(&converted)),
        Ok(converted) => Done::well(words::hexadecimal_of(&converted)),
        Err(refusal) => return Ok(Done::refused_in_words(&refusal::told(&sheet, &refusal))),
    };
    let notes = weights_taken(&sheet).into_iter().chain(targets_converted(&sheet));
    Ok(Done { notes: notes.collect(), ..done }.noting(sheet.rounded()))
}

/// What is said of axes whose target was converted: what it is in the words.
fn targets_converted(sheet: &Sheet) -> Vec<String> {
    let tick = sheet.job.arrival.number();
    let flying = sheet.job.entered().filter(|(_, axis)| axis.target.flies());
    let told = flying.map(|(number, _)| {
        let title = sheet.axis_title(number);
        format!("{title}: the words have a moving target, of acceleration 0 at tick {tick}")
    });
    told.collect()
}

/// What is said of axes whose damping was measured: which weight their words have.
fn weights_taken(sheet: &Sheet) -> Vec<String> {
    let measured = sheet.job.entered().filter(|(_, axis)| axis.damping.is_measured());
    let taken = measured.filter_map(|(number, axis)| {
        let (title, weight) = (sheet.axis_title(number), axis.damping.weight()?);
        Some(format!("{title}: the words have weight {weight} for `{}`", axis.damping))
    });
    taken.collect()
}

/// Why a job has no words, with the line that is at fault.
fn no_words(sheet: &Sheet, error: &NoWords) -> String {
    let error = match error {
        NoWords::Number(error) => error,
        NoWords::Damping { axis } => return refusal::damping_lines(sheet, *axis).join("; "),
        NoWords::Windows => {
            let line = sheet.line_of_window(0).or(sheet.line_of_dwell()).unwrap_or(0);
            return format!("line {line}: expected no windows, for job words have none");
        }
        other => return other.to_string(),
    };
    let (least, greatest) = error.kind.range();
    let line = sheet.line_of(error.axis, error.kind).unwrap_or(0);
    let name = error.kind.name();
    format!(
        "line {line}: expected a number from {least} to {greatest} after `{name}`, for its job words, found `{}`",
        error.value
    )
}

/// Prints the set-up sheet of job words.
fn show(file: &Path, bytes: Option<bool>) -> Result<Done, FileError> {
    let job_words = content::words_of(&files::read(file)?, bytes).map_err(|cause| about(file, cause))?;
    let job = Job::from_words(&job_words).map_err(|error| about(file, error))?;
    Ok(Done::well(Sheet::from(job).to_string()))
}

/// Fits a recorded tap.
fn read_tap(tapped: &Tapped) -> Result<Tap, FileError> {
    let content = files::read(&tapped.record)?;
    let text = content::text_of(&content).map_err(|cause| about(&tapped.record, cause))?;
    tap::read(text, tapped.rate(), tapped.column).map_err(|cause| about(&tapped.record, cause))
}

/// Draws a recorded tap; its lines are printed all the same, but where the picture itself is
/// printed.
fn draw_tap(tapped: &Tapped, picture: &Path) -> Result<Done, Failure> {
    let tap = read_tap(tapped).map_err(|error| Failure::Input(error.beside_older(picture)))?;
    let title = Source::of(&tapped.record).title;
    let drawing = tap::drawn(&title, &tap);
    if files::is_standard(picture) {
        return Ok(Done::well(drawing));
    }
    files::write(picture, drawing.as_bytes()).map_err(Failure::Output)?;
    Ok(Done::well(tap::lines(&title, &tap)))
}

/// The entries of a sheet that were rounded.
fn rounded_of(setup: &Setup) -> &[Rounded] {
    match setup {
        Setup::Job(sheet) => sheet.rounded(),
        Setup::Tour(sheet) => sheet.rounded(),
    }
}

/// Draws the plan of a job, or the timeline of a tour; the picture of a refusal says it.
fn plot(file: &Path) -> Result<Done, FileError> {
    let setup = content::setup_of(&files::read(file)?).map_err(|cause| about(file, cause))?;
    let title = Source::of(file).title;
    let drawing = match &setup {
        Setup::Job(sheet) => picture::draw(&title, sheet).map_err(|refusal| refusal::told(sheet, &refusal)),
        Setup::Tour(sheet) => {
            picture::draw_tour(&title, sheet).map_err(|refusal| refusal::told_of_tour(sheet, &refusal))
        }
    };
    let done = match drawing {
        Ok(drawing) => Done::well(drawing),
        Err(told) => Done::refused(&told, picture::draw_refusal(&title, &told)),
    };
    Ok(done.noting(rounded_of(&setup)))
}
