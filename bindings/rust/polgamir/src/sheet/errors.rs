//! What is wrong with a text that is no set-up sheet.

use std::fmt;

/// What is wrong with a line: what was expected there and what was found.
#[derive(Debug, Clone, PartialEq, Eq)]
pub struct SheetError {
    /// The line, from 1.
    pub line: usize,
    /// What was expected.
    pub expected: String,
    /// What was found instead.
    pub found: String,
}

impl fmt::Display for SheetError {
    fn fmt(&self, f: &mut fmt::Formatter<'_>) -> fmt::Result {
        write!(f, "line {}: expected {}, found {}", self.line, self.expected, self.found)
    }
}

impl std::error::Error for SheetError {}

/// Why a text is no set-up sheet: everything that is wrong with it, in the order of its lines.
/// Printed, each stands on a line of its own.
#[derive(Debug, Clone, PartialEq, Eq)]
pub struct SheetErrors(Vec<SheetError>);

impl SheetErrors {
    /// Errors in whatever order, at least one.
    pub(super) fn new(mut errors: Vec<SheetError>) -> SheetErrors {
        errors.sort_by_key(|error| error.line);
        SheetErrors(errors)
    }

    /// The errors, at least one, in the order of their lines.
    pub fn list(&self) -> &[SheetError] {
        &self.0
    }

    /// The error of the first line that is wrong.
    pub fn first(&self) -> &SheetError {
        &self.0[0]
    }
}

impl fmt::Display for SheetErrors {
    fn fmt(&self, f: &mut fmt::Formatter<'_>) -> fmt::Result {
        for (index, error) in self.0.iter().enumerate() {
            let end = if index == 0 { "" } else { "\n" };
            write!(f, "{end}{error}")?;
        }
        Ok(())
    }
}

impl std::error::Error for SheetErrors {}

impl From<SheetError> for SheetErrors {
    fn from(error: SheetError) -> SheetErrors {
        SheetErrors(vec![error])
    }
}
