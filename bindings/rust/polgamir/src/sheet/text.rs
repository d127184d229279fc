//! The words of a sheet's lines, and errors about them.

use super::SheetError;

/// The signs that editors put in place of a hyphen: minus, en dash, hyphen, hyphen that does not
/// break.
pub const MINUS_SIGNS: [char; 4] = ['\u{2212}', '\u{2013}', '\u{2010}', '\u{2011}'];

/// A whole number, below zero with a hyphen or any other minus sign.
pub fn whole_number(word: &str) -> Option<i64> {
    match word.strip_prefix(MINUS_SIGNS) {
        Some(size) if size.starts_with(|digit: char| digit.is_ascii_digit()) => format!("-{size}").parse().ok(),
        Some(_) => None,
        None => word.parse().ok(),
    }
}

/// A finite number with or without decimals, as a single-precision float.
pub fn decimal(word: &str) -> Option<f32> {
    let number = match word.strip_prefix(MINUS_SIGNS) {
        Some(size) => format!("-{size}").parse::<f32>(),
        None => word.parse(),
    };
    number.ok().filter(|number| number.is_finite())
}

/// An error at a line.
pub fn fault<T>(line: usize, expected: impl Into<String>, found: impl Into<String>) -> Result<T, SheetError> {
    Err(SheetError { line, expected: expected.into(), found: found.into() })
}

/// Words of a line between quotes, or the end of the line.
pub fn quoted(words: &[&str]) -> String {
    match words {
        [] => "the end of the line".into(),
        words => format!("`{}`", words.join(" ")),
    }
}

/// What follows a name of one word or several at the head of a line, in whatever case it is
/// written.
pub fn after<'l, 'w>(words: &'l [&'w str], name: &str) -> Option<&'l [&'w str]> {
    let mut rest = words;
    for part in name.split(' ') {
        match rest {
            [first, others @ ..] if first.eq_ignore_ascii_case(part) => rest = others,
            _ => return None,
        }
    }
    Some(rest)
}
