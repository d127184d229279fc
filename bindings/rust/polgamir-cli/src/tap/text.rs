//! What a record shows, as lines of a sheet with comments.

use super::{Rate, Spread, Tap};
use crate::measure::rounded;

/// The lines of an axis of a sheet: comments that say what was used and what was left out, and
/// the entries with their spread.
pub fn lines(name: &str, tap: &Tap) -> String {
    let comments = [tap.used(name)].into_iter().chain(tap.left_out());
    let mut text: String = comments.map(|line| format!("# {line}\n")).collect();
    let first = &tap.rates[0];
    text += &entry("half period", &first.half_period, " s", "");
    text += &entry("shrinks", &first.ratio, "", "");
    if let Some(second) = tap.rates.get(1) {
        let (value, _, _) = shown(&second.ratio);
        let remark = format!("; its swing shrinks to {value} and is planned as one that does not shrink");
        text += &entry("second half period", &second.half_period, " s", &remark);
    }
    text
}

/// An entry with its spread as a comment.
fn entry(name: &str, spread: &Spread, unit: &str, remark: &str) -> String {
    let (value, low, high) = shown(spread);
    format!("{name:20} {:12} # {low} to {high}{unit}{remark}\n", format!("{value}{unit}"))
}

/// A number, the least and the greatest that it may be, with as many decimals as the spread gives
/// sense to; the ends are rounded outward, and a ratio is not above 1 there.
pub fn shown(spread: &Spread) -> (String, String, String) {
    let Spread { value, within } = *spread;
    let decimals = (1.0 - within.max(1e-9).log10().floor()).clamp(2.0, 10.0) as i32;
    let tens = 10_f64.powi(decimals);
    let text = |number: f64| format!("{number:.*}", decimals as usize);
    let low = ((value - within) * tens).floor() / tens;
    let high = ((value + within) * tens).ceil() / tens;
    (text(value), text(low.max(0.0)), text(high))
}

impl Tap {
    /// What was used.
    fn used(&self, name: &str) -> String {
        let Tap { record, part, .. } = self;
        let count = record.times.len();
        let length = record.times[count - 1];
        let column = match &record.column {
            Some((number, name)) if name.is_empty() => format!(", column {number}"),
            Some((number, name)) => format!(", column {number} ({name})"),
            None => String::new(),
        };
        let swings = |rate: &Rate| format!("{:.1}", rate.swings);
        let swings: Vec<String> = self.rates.iter().map(swings).collect();
        let rates = if self.rates.len() == 2 { "two rates: " } else { "" };
        format!(
            "{name}{column}: {count} samples over {} s. Used: {rates}{} swings there and back, from {} s to {} s. The \
             first goes {} far, the noise {}.",
            digits(length),
            swings.join(" and "),
            digits(part.start),
            digits(self.end()),
            digits(self.fit.swings.iter().map(|swing| swing.size()).sum()),
            digits(self.noise)
        )
    }

    /// What was left out, and why.
    fn left_out(&self) -> Vec<String> {
        let Tap { record, part, .. } = self;
        let last = record.times[record.times.len() - 1];
        let mut told = Vec::new();
        if part.start > 0.0 {
            told.push(format!(
                "Left out: before {} s, where the swing is not yet at its strongest.",
                digits(part.start)
            ));
        }
        if part.clipped > 0 {
            let clipped = part.clipped;
            told.push(format!(
                "Left out: {clipped} samples at the recorder's limit or beside it, where the swing goes further."
            ));
        }
        let end = self.pushed.unwrap_or(last);
        if let Some(time) = self.pushed {
            told.push(format!(
                "Left out: from {} s on, where something else than this swing is seen, as another push.",
                digits(time)
            ));
        }
        if self.end() < end - 2.0 * self.rates[0].half_period.value {
            told.push(format!("Not counted: after {} s, where the swing is below the noise.", digits(self.end())));
        }
        told
    }
}

/// A number in short.
fn digits(value: f64) -> String {
    let places = 3 - value.abs().max(1e-9).log10().floor() as i32;
    rounded(format!("{value:.*}", places.clamp(0, 9) as usize).parse().unwrap_or(value))
}

#[cfg(test)]
mod tests {
    use super::*;

    #[test]
    fn numbers_have_as_many_decimals_as_their_spread_gives_sense_to() {
        let strings = |value, within| {
            let (value, low, high) = shown(&Spread { value, within });
            [value, low, high]
        };
        assert_eq!(strings(0.421_234, 0.000_4), ["0.42123", "0.42083", "0.42164"]);
        assert_eq!(strings(0.5, 0.021), ["0.500", "0.479", "0.521"]);
        assert_eq!(strings(0.01, 0.5), ["0.01", "0.00", "0.51"]);
        assert_eq!(
            (digits(8.0), digits(0.021_234), digits(123_456.0)),
            ("8".into(), "0.02123".into(), "123456".into())
        );
    }
}
