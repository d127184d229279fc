//! Numbers as they are written on a sheet, each with the measure that stands after it.

use super::fraction::Fraction;
use super::text::MINUS_SIGNS;

/// The most characters of a number that has a measure.
const LONGEST: usize = 40;

/// A number, and its measure where it has one: `0.42 s`, `60 degree/s`, `30`.
#[derive(Debug, Clone)]
pub struct Amount {
    /// As it is written, with single spaces.
    pub text: String,
    /// The number as it is written.
    pub digits: String,
    /// What follows the number, in small letters, without spaces around a `/`; empty for ticks and
    /// units.
    pub measure: String,
}

impl Amount {
    /// The amounts that words say, one after the other; `None` where they do not begin with a
    /// number.
    pub fn all(words: &[&str]) -> Option<Vec<Amount>> {
        let mut found: Vec<Amount> = Vec::new();
        for word in words {
            match (split(word), found.last_mut()) {
                (Some((digits, rest)), _) => {
                    found.push(Amount { text: (*word).into(), digits: digits.into(), measure: rest.to_lowercase() })
                }
                (None, Some(last)) => last.go_on(word),
                (None, None) => return None,
            }
        }
        Some(found)
    }

    /// The only amount that words say.
    pub fn only(words: &[&str]) -> Option<Amount> {
        let mut found = Amount::all(words)?;
        found.pop().filter(|_| found.is_empty())
    }

    /// Takes a further word of the measure.
    fn go_on(&mut self, word: &str) {
        self.text = format!("{} {word}", self.text);
        let space = if self.measure.is_empty() { "" } else { " " };
        self.measure = format!("{}{space}{}", self.measure, word.to_lowercase()).replace(" /", "/").replace("/ ", "/");
    }

    /// Whether it has a measure.
    pub fn is_measured(&self) -> bool {
        !self.measure.is_empty()
    }

    /// The number, where it is not too long.
    pub fn number(&self) -> Option<Fraction> {
        number(&self.digits)
    }

    /// The seconds of a time.
    pub fn seconds(&self) -> Option<Fraction> {
        Some(self.number()?.over(&Fraction::whole(seconds_parts(&self.measure)?)))
    }

    /// The number of an amount whose measure is a unit's name with an ending.
    pub fn in_unit(&self, name: &str, endings: &[&str]) -> Option<Fraction> {
        let fits = |ending: &&str| self.measure.strip_suffix(*ending).is_some_and(|found| is_name(found, name));
        endings.iter().any(fits).then(|| self.number()).flatten()
    }
}

/// How many of a measure of time are a second.
pub fn seconds_parts(measure: &str) -> Option<i64> {
    match measure {
        "s" | "sec" | "second" | "seconds" => Some(1),
        "ms" | "millisecond" | "milliseconds" => Some(1000),
        _ => None,
    }
}

/// Whether a word is a number, or begins with one, and what follows it: a sign, digits with or
/// without a point among them, and a power of ten.
pub fn split(word: &str) -> Option<(&str, &str)> {
    let unsigned = word.strip_prefix(['+', '-']).or_else(|| word.strip_prefix(MINUS_SIGNS)).unwrap_or(word);
    let whole = count_digits(unsigned);
    let after = unsigned[whole..].strip_prefix('.').map_or(0, count_digits);
    if whole + after == 0 {
        return None;
    }
    let point = usize::from(unsigned[whole..].starts_with('.'));
    let mut end = word.len() - unsigned.len() + whole + point + after;
    end += power_of_ten(&word[end..]);
    Some(word.split_at(end))
}

/// How many digits a text begins with.
fn count_digits(text: &str) -> usize {
    text.bytes().take_while(u8::is_ascii_digit).count()
}

/// How long the power of ten is that a text begins with: `e-3`, of one digit or two.
fn power_of_ten(text: &str) -> usize {
    let Some(power) = text.strip_prefix(['e', 'E']) else {
        return 0;
    };
    let unsigned = power.strip_prefix(['+', '-']).or_else(|| power.strip_prefix(MINUS_SIGNS)).unwrap_or(power);
    match count_digits(unsigned) {
        digits @ (1 | 2) => text.len() - unsigned.len() + digits,
        _ => 0,
    }
}

/// The number that stands between a sign and a power of ten, where it is not too long.
pub fn number(digits: &str) -> Option<Fraction> {
    if digits.chars().count() > LONGEST {
        return None;
    }
    let plain = digits.replace(MINUS_SIGNS, "-").to_ascii_lowercase();
    let (number, power) = plain.split_once('e').unwrap_or((&plain, "0"));
    let unsigned = number.trim_start_matches(['+', '-']);
    Some(Fraction::read(number.starts_with('-'), unsigned, power.parse().ok()?))
}

/// Whether two names are the same, in whatever case, in the singular or in the
/// plural; `deg` and `°` are degrees.
pub fn is_name(found: &str, name: &str) -> bool {
    singular(found) == singular(name)
}

/// A name in small letters and without the `s` of a plural.
fn singular(name: &str) -> String {
    let name = name.to_lowercase();
    let one = match name.strip_suffix('s') {
        Some(one) if one.chars().count() >= 2 => one,
        _ => &name,
    };
    match one {
        "deg" | "°" | "º" | "˚" => "degree".into(),
        one => one.into(),
    }
}

#[cfg(test)]
mod tests {
    use super::*;

    fn read(words: &[&str]) -> Vec<(String, String)> {
        let found = Amount::all(words).expect("amounts");
        found.into_iter().map(|amount| (amount.text, amount.measure)).collect()
    }

    #[test]
    fn amounts_are_told_apart() {
        let pair = |text: &str, measure: &str| (text.to_string(), measure.to_string());
        assert_eq!(read(&["0.42", "s"]), [pair("0.42 s", "s")]);
        assert_eq!(read(&["20.5°", "-4", "Degrees"]), [pair("20.5°", "°"), pair("-4 Degrees", "degrees")]);
        assert_eq!(read(&["60", "mm", "per", "turn", "/", "s"]), [pair("60 mm per turn / s", "mm per turn/s")]);
        assert_eq!(read(&["1e3s", "5e"]), [pair("1e3s", "s"), pair("5e", "e")]);
        assert!(Amount::all(&["soon", "5"]).is_none());
        assert!(Amount::only(&["5", "6"]).is_none());
        assert!(number(&"1".repeat(40)).is_some() && number(&"1".repeat(41)).is_none());
    }

    #[test]
    fn numbers_begin_words() {
        assert_eq!(split("−3.5deg"), Some(("−3.5", "deg")));
        assert_eq!(split("5."), Some(("5.", "")));
        assert_eq!(split(".5e-2s"), Some((".5e-2", "s")));
        assert_eq!(split("1e100"), Some(("1", "e100")));
        assert_eq!((split("-"), split("."), split("degree"), split("+-1")), (None, None, None, None));
        assert_eq!(number("−.5e−2"), Some(Fraction::read(true, "5", -3)));
    }

    #[test]
    fn names_are_the_same_in_singular_and_plural() {
        for (found, name) in
            [("degrees", "degree"), ("DEG", "degree"), ("°", "Degrees"), ("steps", "step"), ("mm", "MM")]
        {
            assert!(is_name(found, name), "{found} {name}");
        }
        assert!(!is_name("mm", "m") && !is_name("s", "") && !is_name("degree", "grad"));
    }
}
