//! A certificate: one file with a job's sheet, words, answer and table, what made it, and the
//! checks of the table, for a quality folder.

use std::fmt::Write;
use std::path::Path;

use polgamir::sheet::Sheet;
use polgamir::Plan;

use super::{checks_of, first_difference, sha256};
use crate::command::files::{self, about, FileError};
use crate::command::{content, refusal, words, Done};

const TITLE: &str = "polgamir certificate 1";

/// What this command was built from. A release says it; another build does not know.
const COMMIT: &str = match option_env!("POLGAMIR_COMMIT") {
    Some(commit) => commit,
    None => "unknown: not built by tools/release",
};
const TOOLCHAIN: &str = match option_env!("POLGAMIR_TOOLCHAIN") {
    Some(toolchain) => toolchain,
    None => "unknown: not built by tools/release",
};

/// The certificate of a job, or its refusal.
pub fn certified(job: &Path) -> Result<Done, FileError> {
    let content = files::read(job)?;
    let sheet = content::job_of(&content).map_err(|cause| about(job, cause))?;
    let setup = content::setup_of(&content).map_err(|cause| about(job, cause))?;
    let entered = content::sheet_text(&content, &setup);
    match sheet.job.plan() {
        Ok(plan) => {
            let body = head() + &body(&entered, &sheet, &plan);
            let sum = sha256::sum(body.as_bytes());
            Ok(Done::well(format!("{body}sha256 {sum}\n")))
        }
        Err(refused) => Ok(Done::refused_in_words(&refusal::told(&sheet, &refused))),
    }
}

/// The first lines: what made the certificate.
fn head() -> String {
    let version = env!("CARGO_PKG_VERSION");
    format!("{TITLE}\nversion {version}\ncommit {COMMIT}\ntoolchain {TOOLCHAIN}\n")
}

/// All that follows from the sheet.
fn body(entered: &str, sheet: &Sheet, plan: &Plan) -> String {
    let mut text = String::from("\nsheet\n");
    for line in entered.lines() {
        let _ = writeln!(text, "| {line}");
    }
    let words = match sheet.job.to_words() {
        Ok(words) => words::hexadecimal_of(&words),
        Err(reason) => format!("none: {reason}\n"),
    };
    let (mask, arrival) = (plan.axes().0, plan.arrival());
    let _ = write!(text, "\nwords\n{words}\nanswer 0 place 0 axes {mask} arrival {arrival}\n\nchecks\n");
    let rows: Vec<Vec<i64>> = plan.rows().map(|row| row.cells().to_vec()).collect();
    for check in checks_of(sheet, &rows) {
        let _ = writeln!(text, "{} {}", if check.holds { "ok" } else { "WRONG" }, check.line);
    }
    text.push_str("\ntable, in fine steps of 1/256 unit\n");
    for (tick, row) in rows.iter().enumerate() {
        let cells: Vec<String> = row.iter().map(i64::to_string).collect();
        let _ = writeln!(text, "{tick} {}", cells.join(" "));
    }
    text
}

/// Holds a certificate to what its sheet gives, planned anew.
pub fn verified(file: &Path) -> Result<Done, FileError> {
    held(file, &files::read(file)?)
}

/// Holds the bytes of a certificate to what its sheet gives.
fn held(file: &Path, content: &[u8]) -> Result<Done, FileError> {
    let text = std::str::from_utf8(content).map_err(|error| about(file, error))?;
    if !text.starts_with(TITLE) {
        return Err(about(
            file,
            "expected a certificate, as `polgamir certify` writes it; a table is verified with its job before it",
        ));
    }
    let sum_at = text.rfind("sha256 ").filter(|at| text[..*at].ends_with('\n'));
    let (whole, said) = match sum_at {
        Some(at) => (&text[..at], text[at..].trim_end().trim_start_matches("sha256 ")),
        None => return Err(about(file, "it is cut off: the last line, `sha256 ..`, is missing")),
    };
    let sum = sha256::sum(whole.as_bytes());
    if sum != said {
        return Err(about(
            file,
            format!("it was changed after it was written: its SHA-256 is {sum}, and it says {said}"),
        ));
    }
    let entered = section(whole, "sheet").ok_or_else(|| about(file, "it has no sheet"))?;
    let entered: String = entered.lines().map(|line| line.strip_prefix("| ").unwrap_or("").to_owned() + "\n").collect();
    let sheet = content::job_of(entered.as_bytes()).map_err(|cause| about(file, format!("its sheet: {cause}")))?;
    let plan = match sheet.job.plan() {
        Ok(plan) => plan,
        Err(refused) => {
            let told = refusal::told(&sheet, &refused).text();
            return Ok(Done::differs(format!("{} does NOT hold: its job has no table.\n{told}", file.display())));
        }
    };
    let certified = whole.find("\n\nsheet\n").map_or("", |at| &whole[at + 1..]);
    let anew = body(&entered, &sheet, &plan);
    let by = whole.lines().nth(1).unwrap_or_default();
    match different(certified, &anew, &sheet, &plan) {
        None => {
            let (arrival, own) = (plan.arrival(), env!("CARGO_PKG_VERSION"));
            let name = file.display();
            Ok(Done::well(format!(
                "{name} holds: sheet, words, answer, checks and rows 0 to {arrival} are those of version {own}, \
                 planned anew; it was written by {by}.\n"
            )))
        }
        Some(difference) => Ok(Done::differs(format!("{} does NOT hold: {difference}.\n", file.display()))),
    }
}

/// The lines of a section, up to the next empty line.
fn section<'t>(text: &'t str, name: &str) -> Option<&'t str> {
    let begin = text.find(&format!("\n\n{name}\n"))? + name.len() + 3;
    let end = text[begin..].find("\n\n").map_or(text.len(), |end| begin + end + 1);
    Some(&text[begin..end])
}

/// The first difference between what is certified and what is planned anew.
fn different(certified: &str, anew: &str, sheet: &Sheet, plan: &Plan) -> Option<String> {
    if certified == anew {
        return None;
    }
    let at = certified.lines().zip(anew.lines()).position(|(certified, anew)| certified != anew);
    let (certified_lines, anew_lines) = (certified.lines().count(), anew.lines().count());
    let Some(at) = at else {
        return Some(format!("it has {certified_lines} lines from `sheet` on, planned anew are {anew_lines}"));
    };
    let (line, wanted) = (certified.lines().nth(at).unwrap_or_default(), anew.lines().nth(at).unwrap_or_default());
    let numbers: Option<Vec<i64>> = line.split(' ').map(|word| word.parse().ok()).collect();
    let in_table = numbers.as_ref().zip(numbers.as_ref().and_then(|numbers| u32::try_from(numbers[0]).ok()));
    let cell =
        in_table.and_then(|(numbers, tick)| first_difference(sheet, tick, &numbers[1..], plan.row(tick)?.cells()));
    Some(cell.unwrap_or_else(|| format!("it says `{line}`, planned anew is `{wanted}`")))
}

#[cfg(test)]
mod tests {
    use super::*;

    const SHEET: &str =
        "arrival 4\naxis 0\n  half period 0\n  weight 128\n  speed limit 10\n  acceleration limit 1\n  \
         start position 0\n  start velocity 0\n  target still\n  target position 1\n";

    /// A certificate whose sum is right and whose table is not the job's: the cell is named.
    #[test]
    fn a_forged_table() {
        let sheet = content::job_of(SHEET.as_bytes()).expect("case C");
        let plan = sheet.job.plan().expect("case C is planned");
        let whole = head() + &body(SHEET, &sheet, &plan);
        let certificate = |whole: &str| format!("{whole}sha256 {}\n", sha256::sum(whole.as_bytes()));
        let said = |whole: &str| {
            let done = held(Path::new("c"), certificate(whole).as_bytes()).expect("readable");
            (String::from_utf8(done.output).expect("text"), done.status)
        };
        assert_eq!(said(&whole).1, 0);
        let (text, status) = said(&whole.replace("\n2 129 85 0\n", "\n2 129 84 0\n"));
        assert!(status == 1 && text.contains("in row 2 the velocity of axis 0 is 84, planned is 85"), "{text}");
        let (text, status) = said(&whole.replace("arrival 4\n\nchecks", "arrival 5\n\nchecks"));
        assert!(status == 1 && text.contains("it says `answer 0 place 0 axes 1 arrival 5`"), "{text}");
    }
}
