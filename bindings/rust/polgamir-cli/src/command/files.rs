//! Files, and what goes wrong with them.

use std::io::Read;
use std::path::Path;
use std::{fmt, fs, io};

/// What went wrong with a file.
#[derive(Debug)]
pub struct FileError {
    /// The file's name.
    pub file: String,
    /// What went wrong; of a sheet a line for each of its lines that is wrong.
    pub cause: String,
}

/// Each line of the cause after the file's name.
impl fmt::Display for FileError {
    fn fmt(&self, f: &mut fmt::Formatter<'_>) -> fmt::Result {
        write!(f, "{}: {}", self.file, self.cause.replace('\n', &format!("\n{}: ", self.file)))
    }
}

impl FileError {
    /// The error, and that a file which was to be written is still an older one, where it is.
    pub fn beside_older(self, output: &Path) -> FileError {
        match output.is_file() {
            true => {
                let cause = format!("{}\n{} is left as it was: it is not of this file", self.cause, output.display());
                FileError { cause, ..self }
            }
            false => self,
        }
    }
}

/// An error about a file that is read.
pub fn about(file: &Path, cause: impl fmt::Display) -> FileError {
    let file = if is_standard(file) { "standard input".into() } else { file.display().to_string() };
    FileError { file, cause: cause.to_string() }
}

/// Whether the name of a file to read stands for standard input.
pub fn is_standard(file: &Path) -> bool {
    file.as_os_str() == "-"
}

/// The bytes of a file or of standard input.
pub fn read(file: &Path) -> Result<Vec<u8>, FileError> {
    let mut bytes = Vec::new();
    let read = match is_standard(file) {
        true => io::stdin().read_to_end(&mut bytes),
        false => fs::File::open(file).and_then(|mut open| open.read_to_end(&mut bytes)),
    };
    match read {
        Ok(_) => Ok(bytes),
        Err(error) => Err(about(file, error)),
    }
}

/// Writes a file.
pub fn write(file: &Path, bytes: &[u8]) -> Result<(), FileError> {
    fs::write(file, bytes).map_err(|error| FileError { file: file.display().to_string(), cause: error.to_string() })
}
