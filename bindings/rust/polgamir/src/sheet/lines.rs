//! The lines of a sheet.

use super::spelling::{is_known, nearest};
use super::text::{fault, quoted};
use super::SheetError;

/// A line that says something, in words.
pub struct Line {
    /// Its number, from 1.
    pub number: usize,
    /// Its words; where its name is misspelt, with the name that was meant.
    words: Vec<String>,
    /// What is wrong where its name is misspelt.
    pub misspelt: Option<SheetError>,
}

impl Line {
    /// The words of a line, or `None` where it says nothing.
    pub fn read(number: usize, text: &str) -> Option<Line> {
        let entry = text.split('#').next().unwrap_or_default();
        let found: Vec<&str> = entry.split(separates).filter(|word| !word.is_empty()).collect();
        if found.is_empty() {
            return None;
        }
        let owned = |words: &[&str]| words.iter().map(|word| word.to_string()).collect::<Vec<_>>();
        let meant = if is_known(&found) { None } else { nearest(&found) };
        match meant {
            None => Some(Line { number, words: owned(&found), misspelt: None }),
            Some((name, count)) => {
                let found_there = format!("{}; did you mean `{name}`?", quoted(&found));
                let misspelt = fault::<()>(number, "the name of an entry", found_there).err();
                let meant: Vec<&str> = name.split(' ').chain(found[count..].iter().copied()).collect();
                Some(Line { number, words: owned(&meant), misspelt })
            }
        }
    }

    /// The words.
    pub fn words(&self) -> Vec<&str> {
        self.words.iter().map(String::as_str).collect()
    }
}

/// Whether a character stands between the words of a line.
fn separates(character: char) -> bool {
    character.is_whitespace() || matches!(character, ':' | '=')
}
