//! Which rate a record swings at most, roughly: the greatest peak of its spectrum.

use std::f64::consts::PI;

/// The angular frequency in radians per second at which values swing most, of those that swing at
/// least once in the record and at most as often as its samples show; with the values taken at even
/// steps between those that were recorded.
pub fn strongest(times: &[f64], values: &[f64]) -> Option<f64> {
    let (first, last) = (*times.first()?, *times.last()?);
    let count = times.len().clamp(2, 1 << 16);
    let step = (last - first) / (count - 1) as f64;
    let length = (4 * count).next_power_of_two();
    let mut real = evened(times, values, step, count);
    level(&mut real);
    real.resize(length, 0.0);
    let mut imaginary = vec![0.0; length];
    transform(&mut real, &mut imaginary);
    let power = |bin: usize| real[bin].powi(2) + imaginary[bin].powi(2);
    let once = length.div_ceil(count);
    let most = (once..length / 2).max_by(|&one, &other| power(one).total_cmp(&power(other)))?;
    Some(2.0 * PI * most as f64 / (length as f64 * step))
}

/// Values at even steps, on straight lines between those that were recorded.
fn evened(times: &[f64], values: &[f64], step: f64, count: usize) -> Vec<f64> {
    let mut index = 0;
    let at = |time: f64, index: usize| {
        let share = (time - times[index]) / (times[index + 1] - times[index]);
        values[index] + share.clamp(0.0, 1.0) * (values[index + 1] - values[index])
    };
    let mut even = Vec::with_capacity(count);
    for place in 0..count {
        let time = times[0] + place as f64 * step;
        while index + 2 < times.len() && times[index + 1] < time {
            index += 1;
        }
        even.push(at(time, index));
    }
    even
}

/// Takes the straight line of least squares away.
fn level(values: &mut [f64]) {
    let count = values.len() as f64;
    let middle = (count - 1.0) / 2.0;
    let mean = values.iter().sum::<f64>() / count;
    let (mut products, mut squares) = (0.0, 0.0);
    for (index, value) in values.iter().enumerate() {
        let away = index as f64 - middle;
        (products, squares) = (products + away * (value - mean), squares + away * away);
    }
    for (index, value) in values.iter_mut().enumerate() {
        *value -= mean + products / squares * (index as f64 - middle);
    }
}

/// The discrete Fourier transform of a number of values that is a power of two, in place.
fn transform(real: &mut [f64], imaginary: &mut [f64]) {
    let length = real.len();
    let bits = length.trailing_zeros();
    for index in 0..length {
        let turned = index.reverse_bits() >> (usize::BITS - bits);
        if index < turned {
            real.swap(index, turned);
            imaginary.swap(index, turned);
        }
    }
    let mut half = 1;
    while half < length {
        for offset in 0..half {
            let (sine, cosine) = (-PI * offset as f64 / half as f64).sin_cos();
            for low in (offset..length).step_by(2 * half) {
                let high = low + half;
                let (x, y) =
                    (real[high] * cosine - imaginary[high] * sine, real[high] * sine + imaginary[high] * cosine);
                (real[high], imaginary[high]) = (real[low] - x, imaginary[low] - y);
                (real[low], imaginary[low]) = (real[low] + x, imaginary[low] + y);
            }
        }
        half *= 2;
    }
}

#[cfg(test)]
mod tests {
    use super::*;

    #[test]
    fn the_rate_of_a_sine_is_found() {
        let times: Vec<f64> = (0..500).map(|index| index as f64 * 0.01 + 0.002 * f64::from(index % 3)).collect();
        let values: Vec<f64> = times.iter().map(|time| 3.0 * time + 5.0 + (9.0 * time).sin()).collect();
        let found = strongest(&times, &values).expect("a rate");
        assert!((found - 9.0).abs() < 0.2, "{found}");
    }

    /// By hand: 1, 2, 3, 4 transform to 10, −2 + 2i, −2, −2 − 2i.
    #[test]
    fn four_values_are_transformed() {
        let (mut real, mut imaginary) = (vec![1.0, 2.0, 3.0, 4.0], vec![0.0; 4]);
        transform(&mut real, &mut imaginary);
        let close = |found: &[f64], expected: [f64; 4]| {
            found.iter().zip(expected).all(|(one, other)| (one - other).abs() < 1e-12)
        };
        assert!(close(&real, [10.0, -2.0, -2.0, -2.0]) && close(&imaginary, [0.0, 2.0, 0.0, -2.0]));
    }
}
