//! From values to places on the page, and the round numbers that stand along an axis.

/// A linear map from values to a coordinate of the page.
#[derive(Debug, Clone, Copy)]
pub struct Scale {
    /// The value that is drawn at `from`.
    pub least: f64,
    /// The value that is drawn at `to`.
    pub greatest: f64,
    /// The coordinate of the least value.
    pub from: f64,
    /// The coordinate of the greatest value.
    pub to: f64,
}

impl Scale {
    /// The coordinate of a value.
    pub fn at(&self, value: f64) -> f64 {
        self.from + (value - self.least) / (self.greatest - self.least) * (self.to - self.from)
    }

    /// Whether a value lies within the scale.
    pub fn shows(&self, value: f64) -> bool {
        (self.least..=self.greatest).contains(&value)
    }

    /// Round values within the scale, at most about `count`, at least `smallest_step` apart.
    pub fn round_values(&self, count: f64, smallest_step: f64) -> Vec<f64> {
        let step = round_step((self.greatest - self.least) / count).max(smallest_step);
        let first = (self.least / step - 1e-9).ceil() as i64;
        let last = (self.greatest / step + 1e-9).floor() as i64;
        (first..=last).map(|index| index as f64 * step).collect()
    }
}

/// The least of 1, 2, 2.5, 5, 10, 20, 25, 50 … (and their tenths, hundredths …) that is not below a
/// step.
pub fn round_step(step: f64) -> f64 {
    let magnitude = 10_f64.powf(step.log10().floor());
    let leading = step / magnitude;
    let rounded = [1.0, 2.0, 2.5, 5.0].into_iter().find(|&round| leading <= round + 1e-9).unwrap_or(10.0);
    rounded * magnitude
}

/// A value of an axis whose values are `step` apart: with as many decimals as the step
/// needs, and commas between thousands.
pub fn label(value: f64, step: f64) -> String {
    let is_whole = |scaled: f64| (scaled - scaled.round()).abs() < 1e-6;
    let decimals = (0..9).find(|&decimals| is_whole(step * 10_f64.powi(decimals))).unwrap_or(9) as usize;
    grouped(&format!("{value:.decimals$}"))
}

/// A quantity in a sentence, with three significant digits and at most three decimals.
pub fn quantity(value: f64) -> String {
    match value.abs() {
        size if size < 1e-9 => "0".into(),
        size if size < 5e-4 => "<0.001".into(),
        size => {
            let decimals = (2.0 - size.log10().floor()).clamp(0.0, 3.0) as usize;
            grouped(&format!("{value:.decimals$}"))
        }
    }
}

/// A printed number with commas between its thousands, and a minus sign in place of a hyphen.
fn grouped(number: &str) -> String {
    let (sign, size) = match number.strip_prefix('-') {
        Some(size) if size.contains(|digit| ('1'..='9').contains(&digit)) => ("−", size),
        Some(size) => ("", size),
        None => ("", number),
    };
    let (whole, decimals) = size.split_at(size.find('.').unwrap_or(size.len()));
    let mut text = String::from(sign);
    for (index, digit) in whole.chars().enumerate() {
        if index > 0 && (whole.len() - index) % 3 == 0 {
            text.push(',');
        }
        text.push(digit);
    }
    text + decimals
}

#[cfg(test)]
mod tests {
    use super::*;

    #[test]
    fn steps_are_round() {
        for (step, round) in [(0.3, 0.5), (1.0, 1.0), (1.2, 2.0), (7.0, 10.0), (2400.0, 2500.0), (0.0026, 0.005)] {
            assert!((round_step(step) - round).abs() < 1e-12, "{step}");
        }
    }

    #[test]
    fn numbers_read_well() {
        assert_eq!(label(1_200_000.0, 1e5), "1,200,000");
        assert_eq!(label(2500.0, 2500.0), "2,500");
        assert_eq!(label(0.25, 0.25), "0.25");
        assert_eq!(label(-0.5, 0.5), "−0.5");
        assert_eq!(label(-0.0, 0.5), "0.0");
        assert_eq!(quantity(0.012345), "0.012");
        assert_eq!(quantity(-1234.5), "−1,234");
        assert_eq!((quantity(0.0), quantity(0.0004)), ("0".into(), "<0.001".into()));
    }

    #[test]
    fn round_values_stay_within() {
        let scale = Scale { least: -3.0, greatest: 11.0, from: 0.0, to: 1.0 };
        assert_eq!(scale.round_values(4.0, 0.0), [0.0, 5.0, 10.0]);
        assert_eq!(scale.round_values(6.0, 0.0), [-2.5, 0.0, 2.5, 5.0, 7.5, 10.0]);
        assert!((scale.at(4.0) - 0.5).abs() < 1e-12);
    }
}
