//! What a file holds: a set-up sheet, or job words as bytes or as hexadecimal text.

use polgamir::sheet::{Setup, Sheet, SheetErrors, TourSheet};
use polgamir::Job;

use super::words;

/// What a file's content looks like.
#[derive(Debug, Clone, Copy, PartialEq, Eq)]
enum Form {
    /// Job words as bytes. They always have a zero byte, for the first word has two; a text has
    /// none.
    Bytes,
    /// Job words as hexadecimal text: the first word is a number.
    Hexadecimal,
    /// Other text.
    Text,
}

impl Form {
    /// The form of a content.
    fn of(content: &[u8]) -> Form {
        if content.contains(&0) && !is_wide(content) {
            return Form::Bytes;
        }
        match words::from_hexadecimal(first_word(&String::from_utf8_lossy(content))) {
            Ok(words) if !words.is_empty() => Form::Hexadecimal,
            _ => Form::Text,
        }
    }
}

/// Whether a content is text of two bytes for each character, by its byte order mark.
fn is_wide(content: &[u8]) -> bool {
    content.starts_with(&[0xFF, 0xFE]) || content.starts_with(&[0xFE, 0xFF])
}

/// The words of a text's lines, without comments.
fn words_in(text: &str) -> impl Iterator<Item = impl Iterator<Item = &str>> {
    let text = text.strip_prefix('\u{FEFF}').unwrap_or(text);
    let lines = text.lines().map(|line| line.split('#').next().unwrap_or_default().split_whitespace());
    lines.filter(|words| words.clone().next().is_some())
}

/// The first word of a text.
fn first_word(text: &str) -> &str {
    words_in(text).flatten().next().unwrap_or_default()
}

/// The text of a content.
pub fn text_of(content: &[u8]) -> Result<&str, String> {
    match std::str::from_utf8(content) {
        Ok(text) => Ok(text.strip_prefix('\u{FEFF}').unwrap_or(text)),
        Err(_) if is_wide(content) => Err("this is text in utf-16; save it as utf-8".into()),
        Err(error) => Err(error.to_string()),
    }
}

/// What a content asks for: a set-up sheet, of a job or of a tour, or job words.
pub fn setup_of(content: &[u8]) -> Result<Setup, String> {
    let job_words = match Form::of(content) {
        Form::Text => return text_of(content)?.parse().map_err(|error: SheetErrors| error.to_string()),
        Form::Bytes => words::from_bytes(content)?,
        Form::Hexadecimal => words::from_hexadecimal(text_of(content)?)?,
    };
    let job = Job::from_words(&job_words).map_err(|error| error.to_string())?;
    Ok(Setup::Job(Sheet::from(job)))
}

/// The job of a content, a set-up sheet or job words.
pub fn job_of(content: &[u8]) -> Result<Sheet, String> {
    match setup_of(content)? {
        Setup::Job(sheet) => Ok(sheet),
        Setup::Tour(_) => {
            Err("expected a job, found a tour: `polgamir tour` plans it, `polgamir plot` and `polgamir report` show it"
                .into())
        }
    }
}

/// The text of a content's sheet as it was entered, or the sheet that stands for job words.
pub fn sheet_text(content: &[u8], setup: &Setup) -> String {
    match (setup, Form::of(content), text_of(content)) {
        (Setup::Job(sheet), Form::Bytes | Form::Hexadecimal, _) => format!("# The sheet of job words.\n{sheet}"),
        (_, _, text) => text.unwrap_or_default().into(),
    }
}

/// The tour of a content.
pub fn tour_of(content: &[u8]) -> Result<TourSheet, String> {
    match setup_of(content)? {
        Setup::Tour(sheet) => Ok(sheet),
        Setup::Job(_) => Err("expected a tour, with `stop` lines, found a job: `polgamir plan` plans it".into()),
    }
}

/// The job words of a content; where `bytes` is `None`, the content tells by itself whether it is
/// bytes.
pub fn words_of(content: &[u8], bytes: Option<bool>) -> Result<Vec<u32>, String> {
    if bytes.unwrap_or(Form::of(content) == Form::Bytes) {
        return words::from_bytes(content);
    }
    let text = text_of(content)?;
    match other_text(text) {
        None => words::from_hexadecimal(text),
        Some(what) => Err(format!("expected job words, found {what}")),
    }
}

/// What a text is that holds no job words, where it can be told.
fn other_text(text: &str) -> Option<&'static str> {
    let mut first_words = words_in(text).filter_map(|mut words| words.next());
    match first_words.next()?.to_ascii_lowercase().trim_end_matches([':', '=']) {
        "refused" => Some("a printed refusal"),
        "no" if text.trim_end().ends_with(']') => Some("a printed refusal"),
        "total" => Some("a printed tour"),
        "arrival" if has_rows(text) => Some("a printed table"),
        "arrival" | "axis" | "stop" | "window" | "dwell" | "tick" | "unit" => Some(
            "a set-up sheet: `polgamir plan` plans a job, `polgamir tour` a tour, `polgamir words` writes job words",
        ),
        _ => None,
    }
}

/// Whether a text has the rows of a printed table: a heading of columns, or row 0 below the
/// arrival.
fn has_rows(text: &str) -> bool {
    let mut lines = words_in(text).map(|words| words.take(2).collect::<Vec<_>>());
    lines.nth(1).is_some_and(|second| second[0] == "0") || lines.any(|line| line == ["tick", "position"])
}
