//! The examples of the repository: each job of `jobs/` is its sheet's, and its text is what the
//! table program prints. A tour and a job with windows have a sheet alone.

use std::fs;
use std::path::{Path, PathBuf};

use polgamir::sheet::{Setup, Sheet};
use polgamir::{plan_words, Damping, Job};

/// The cells that the table program lends.
const PROGRAM_CELLS: usize = 8192;

/// The bytes that the table program reads.
const PROGRAM_BYTES: usize = 512;

/// The repository's folder of a name.
fn folder(name: &str) -> PathBuf {
    Path::new(env!("CARGO_MANIFEST_DIR")).join("../../..").join(name)
}

/// The names of the files of a folder with an ending, in order.
fn names(folder_name: &str, ending: &str) -> Vec<String> {
    let entries = fs::read_dir(folder(folder_name)).expect("a folder").map(|entry| entry.expect("an entry").path());
    let ending_is = |path: &PathBuf| path.extension().is_some_and(|extension| extension == ending);
    let stem = |path: PathBuf| path.file_stem().expect("a name").to_str().expect("letters").to_string();
    let mut names: Vec<String> = entries.filter(ending_is).map(stem).collect();
    names.sort();
    names
}

/// The text of a sheet.
fn sheet_text(name: &str) -> String {
    fs::read_to_string(folder("sheets").join(name).with_extension("sheet")).expect("a sheet")
}

/// What the table program prints for words.
fn printed(words: &[u32]) -> String {
    let mut table = [0; PROGRAM_CELLS];
    let accepted = match plan_words(words, &mut table) {
        Ok(accepted) => accepted,
        Err(refusal) => return refusal.printed_line() + "\n",
    };
    let mut text = format!("arrival {}\n", accepted.arrival());
    for row in accepted.rows() {
        let cells: String = row.cells().iter().map(|cell| format!(" {cell}")).collect();
        text += &format!("{}{cells}\n", row.tick());
    }
    text
}

#[test]
fn every_job_is_its_sheets_and_prints_its_text() {
    let jobs = names("jobs", "job");
    let has_words = |name: &String| match sheet_text(name).parse() {
        Ok(Setup::Job(sheet)) => sheet.job.windows.is_none(),
        _ => false,
    };
    assert_eq!(jobs, names("sheets", "sheet").into_iter().filter(has_words).collect::<Vec<_>>());
    assert_eq!(jobs, names("jobs", "txt"));
    assert!(jobs.len() >= 6);
    for name in jobs {
        let sheet = sheet_text(&name);
        let bytes = fs::read(folder("jobs").join(&name).with_extension("job")).expect("a job");
        let text = fs::read_to_string(folder("jobs").join(&name).with_extension("txt")).expect("a text");
        let mut job = sheet.parse::<Sheet>().expect("a good sheet").job;
        let words = job.to_words().expect("numbers that fit");
        for axis in job.axes.iter_mut().flatten() {
            axis.damping = Damping::Weight(axis.damping.weight().expect("a damping"));
        }
        assert_eq!(words.iter().flat_map(|word| word.to_le_bytes()).collect::<Vec<u8>>(), bytes, "{name}");
        assert_eq!(Job::from_words(&words), Ok(job), "{name}");
        assert!(bytes.len() <= PROGRAM_BYTES, "{name}");
        assert_eq!(printed(&words), text, "{name}");
    }
}

/// Every sheet can be read.
#[test]
fn every_sheet_is_a_job_or_a_tour() {
    for name in names("sheets", "sheet") {
        assert!(sheet_text(&name).parse::<Setup>().is_ok(), "{name}");
    }
}

/// Every picture has its sheet.
#[test]
fn every_picture_has_its_sheet() {
    let sheets = names("sheets", "sheet");
    let pictures = names("docs/pictures", "svg");
    assert!(!pictures.is_empty());
    assert!(pictures.iter().all(|name| sheets.contains(name)), "{pictures:?}");
}
