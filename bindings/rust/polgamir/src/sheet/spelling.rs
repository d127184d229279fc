//! Names of entries that are not spelt as a sheet has them.

use super::TargetKind;

/// The names that begin a line, in the order in which they are tried.
pub const NAMES: [&str; 29] = [
    "arrival",
    "window",
    "dwell",
    "tick",
    "unit",
    "axis",
    "stop",
    "half period",
    "period",
    "frequency",
    "swings",
    "weight",
    "shrinks",
    "peaks",
    "second half period",
    "second period",
    "second frequency",
    "second swings",
    "speed limit",
    "acceleration limit",
    "start position",
    "start velocity",
    "target position",
    "target velocity",
    "target acceleration",
    "target tick",
    "target still",
    "target moving",
    "target flying",
];

/// A line whose name is not spelt as a sheet has it: the name that is nearest, and how
/// many words stand in its place.
pub fn nearest(words: &[&str]) -> Option<(&'static str, usize)> {
    let mut found: Option<(usize, &'static str, usize)> = None;
    for name in NAMES {
        for count in 1..=words.len().min(3) {
            let distance = distance(&words[..count].join(" ").to_lowercase(), name);
            if distance <= allowed(name) && found.is_none_or(|(least, ..)| distance < least) {
                found = Some((distance, name, count));
            }
        }
    }
    found.map(|(_, name, count)| (name, count))
}

/// Whether a line begins with a name of a sheet.
pub fn is_known(words: &[&str]) -> bool {
    let begins = |name: &str| super::text::after(words, name).is_some();
    let is_kind = |word: &&str| TargetKind::ALL.iter().any(|kind| word.eq_ignore_ascii_case(kind.name()));
    NAMES.into_iter().any(begins) || begins("target") && words.get(1).is_none_or(is_kind)
}

/// How many letters of a name may be wrong.
fn allowed(name: &str) -> usize {
    match name.len() {
        0..=5 => 1,
        6..=10 => 2,
        _ => 3,
    }
}

/// How many letters are to be put in, left out, changed, or exchanged with their neighbour,
/// to get from one text to another.
fn distance(from: &str, to: &str) -> usize {
    let (from, to): (Vec<char>, Vec<char>) = (from.chars().collect(), to.chars().collect());
    let (mut before, mut last): (Vec<usize>, Vec<usize>) = (Vec::new(), (0..=to.len()).collect());
    for (i, letter) in from.iter().enumerate() {
        let mut row = vec![i + 1];
        for (j, wanted) in to.iter().enumerate() {
            let changed = last[j] + usize::from(letter != wanted);
            let mut least = changed.min(last[j + 1] + 1).min(row[j] + 1);
            if i > 0 && j > 0 && *letter == to[j - 1] && from[i - 1] == *wanted {
                least = least.min(before[j - 1] + 1);
            }
            row.push(least);
        }
        before = std::mem::replace(&mut last, row);
    }
    last[to.len()]
}

#[cfg(test)]
mod tests {
    use super::*;

    #[test]
    fn misspelt_names_have_a_nearest() {
        let named = |line: &str| nearest(&line.split(' ').collect::<Vec<_>>());
        assert_eq!(named("half perod 30"), Some(("half period", 2)));
        assert_eq!(named("halfperiod 30"), Some(("half period", 1)));
        assert_eq!(named("Half-Period 30"), Some(("half period", 1)));
        assert_eq!(named("sepeed limit 3"), Some(("speed limit", 2)));
        assert_eq!(named("weigth 128"), Some(("weight", 1)));
        assert_eq!(named("axsi 0 pan"), Some(("axis", 1)));
        assert_eq!(named("target postion 5"), Some(("target position", 2)));
        assert_eq!(named("second harf period 9"), Some(("second half period", 3)));
        assert_eq!(named("colour red"), None);
    }

    #[test]
    fn letters_are_counted() {
        let counted = [("", "abc"), ("abc", "abc"), ("acb", "abc"), ("kitten", "sitting"), ("ab", "")];
        assert_eq!(counted.map(|(from, to)| distance(from, to)), [3, 0, 1, 3, 2]);
    }

    #[test]
    fn a_target_is_known_by_its_kind() {
        assert!(is_known(&["target", "Still"]) && is_known(&["target"]) && is_known(&["TARGET", "tick", "3"]));
        assert!(!is_known(&["target", "soon"]) && !is_known(&["half", "time"]));
    }
}
