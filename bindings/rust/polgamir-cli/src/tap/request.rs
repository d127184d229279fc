//! What is asked of `polgamir tap`.

use std::ffi::{OsStr, OsString};
use std::path::PathBuf;

/// The record to read, and how.
#[derive(Debug, Clone, PartialEq, Eq, Default)]
pub struct Tapped {
    /// The record.
    pub record: PathBuf,
    /// The samples of a second, as they are written: a number above 0.
    pub rate: Option<String>,
    /// The column of the deflections, from 1.
    pub column: Option<usize>,
    /// The file of the picture.
    pub picture: Option<PathBuf>,
}

impl Tapped {
    /// Reads the arguments after `tap`.
    pub fn read(arguments: &[OsString]) -> Result<Tapped, String> {
        let (mut tapped, mut files, mut arguments) = (Tapped::default(), Vec::new(), arguments.iter());
        while let Some(argument) = arguments.next() {
            match argument.to_str() {
                Some("--") => files.extend(arguments.by_ref().cloned()),
                Some(option @ ("-o" | "--rate" | "--column")) => {
                    let value = arguments.next().ok_or(format!("expected a value after `{option}`"))?;
                    tapped.take(option, value)?;
                }
                Some(flag) if flag.starts_with('-') && flag != "-" => {
                    return Err(format!("`{flag}` is no option of this command"))
                }
                _ => files.push(argument.clone()),
            }
        }
        match files.as_slice() {
            [] => Err("expected a record: times and deflections, a line for each sample".into()),
            [record] => Ok(Tapped { record: record.into(), ..tapped }),
            [_, second, ..] => Err(format!("expected one record, found also `{}`", second.to_string_lossy())),
        }
    }

    /// Takes the value of an option, which stands once.
    fn take(&mut self, option: &str, value: &OsStr) -> Result<(), String> {
        let text = value.to_string_lossy();
        let is_given = match option {
            "-o" => self.picture.replace(value.into()).is_some(),
            "--rate" => {
                let rate = text.parse().ok().filter(|rate: &f64| rate.is_finite() && *rate > 0.0);
                rate.ok_or(format!(
                    "expected the samples of a second, a number above 0, after `--rate`, found `{text}`"
                ))?;
                self.rate.replace(text.into_owned()).is_some()
            }
            _ => {
                let column = text.parse().ok().filter(|&column: &usize| column > 0);
                let column = column.ok_or(format!("expected a column, from 1, after `--column`, found `{text}`"))?;
                self.column.replace(column).is_some()
            }
        };
        if is_given {
            Err(format!("expected `{option}` once"))
        } else {
            Ok(())
        }
    }

    /// The samples of a second.
    pub fn rate(&self) -> Option<f64> {
        self.rate.as_ref().and_then(|rate| rate.parse().ok())
    }
}
