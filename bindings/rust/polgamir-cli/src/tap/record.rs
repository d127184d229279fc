//! A recorded tap, as a phone or a sensor logs it: lines of numbers.

/// A record: deflections over time.
#[derive(Debug, Clone, PartialEq)]
pub struct Record {
    /// The times in seconds, each above the one before.
    pub times: Vec<f64>,
    /// The deflections, in whatever unit.
    pub values: Vec<f64>,
    /// Which column the deflections stand in, from 1, and its name, where there is a choice.
    pub column: Option<(usize, String)>,
}

/// The least number of samples that a fit can do with.
const LEAST_SAMPLES: usize = 16;

/// Reads a record: a column of times and columns of deflections, of which the one that varies most
/// is taken unless one is asked for; or one column of deflections, so many a second.
pub fn read(text: &str, rate: Option<f64>, column: Option<usize>) -> Result<Record, String> {
    let (heading, rows) = rows(text)?;
    let columns = rows.first().map_or(0, Vec::len);
    let rows = without_repeats(rows, columns > 1);
    if rows.len() < LEAST_SAMPLES {
        return Err(format!("expected at least {LEAST_SAMPLES} samples, found {}", rows.len()));
    }
    let times =
        match (columns, rate) {
            (1, Some(rate)) => (0..rows.len()).map(|index| index as f64 / rate).collect(),
            (1, None) => return Err(
                "expected a time before each deflection, or `--rate` with the samples of a second, found one column"
                    .into(),
            ),
            (_, Some(_)) => return Err(format!("expected one column beside `--rate`, found {columns}")),
            (_, None) => in_order(rows.iter().map(|row| row[0] * time_unit(heading.first())).collect())?,
        };
    let first = usize::from(columns > 1);
    let taken = match column {
        None => widest(&rows, first),
        Some(column) if (first + 1..=columns).contains(&column) => column - 1,
        Some(column) => {
            return Err(format!("expected a column from {} to {columns} after `--column`, found {column}", first + 1))
        }
    };
    let name = heading.get(taken).cloned().unwrap_or_default();
    Ok(Record {
        times,
        values: rows.iter().map(|row| row[taken]).collect(),
        column: (columns > first + 1).then_some((taken + 1, name)),
    })
}

/// The last line before the numbers, in words, and the numbers, as many in each line.
fn rows(text: &str) -> Result<(Vec<String>, Vec<Vec<f64>>), String> {
    let (mut heading, mut rows): (Vec<String>, Vec<Vec<f64>>) = (Vec::new(), Vec::new());
    for (index, line) in text.trim_start_matches('\u{FEFF}').lines().enumerate() {
        let line = line.split('#').next().unwrap_or_default().trim();
        if line.is_empty() {
            continue;
        }
        let fields = fields(line);
        let numbers: Option<Vec<f64>> = fields.iter().map(|field| number(field)).collect();
        match (numbers, rows.first().map(Vec::len)) {
            (Some(numbers), None) => rows.push(numbers),
            (Some(numbers), Some(count)) if numbers.len() == count => rows.push(numbers),
            (None, None) => heading = fields,
            (numbers, Some(count)) => {
                let found = numbers.map_or(format!("`{line}`"), |numbers| numbers.len().to_string());
                return Err(format!("line {}: expected {count} numbers, found {found}", index + 1));
            }
        }
    }
    Ok((heading, rows))
}

/// The fields of a line, between semicolons, tabs, commas or spaces, whichever it has first. Beside
/// semicolons and tabs a comma is a decimal point.
fn fields(line: &str) -> Vec<String> {
    let separator = [';', '\t', ','].into_iter().find(|separator| line.contains(*separator));
    let plain = |field: &str| field.trim().trim_matches('"').trim().to_string();
    let mut fields: Vec<String> = match separator {
        Some(',') => line.split(',').map(plain).collect(),
        Some(separator) => line.split(separator).map(|field| plain(field).replace(',', ".")).collect(),
        None => line.split_whitespace().map(plain).collect(),
    };
    while fields.len() > 1 && fields.last().is_some_and(String::is_empty) {
        fields.pop();
    }
    fields
}

/// A finite number.
fn number(field: &str) -> Option<f64> {
    field.replace('\u{2212}', "-").parse().ok().filter(|number: &f64| number.is_finite())
}

/// The seconds of the unit that the heading of the times names: milliseconds, microseconds and
/// nanoseconds are known, all else is seconds.
fn time_unit(heading: Option<&String>) -> f64 {
    let heading = heading.map(|name| name.to_lowercase()).unwrap_or_default();
    let named = |unit: &str| heading.split(|letter: char| !letter.is_alphanumeric()).any(|word| word == unit);
    match () {
        () if named("ms") || named("milliseconds") => 1e-3,
        () if named("us") || named("µs") || named("microseconds") => 1e-6,
        () if named("ns") || named("nanoseconds") => 1e-9,
        () => 1.0,
    }
}

/// The rows without those whose time is that of the row before, as logs with coarse clocks have
/// them.
fn without_repeats(mut rows: Vec<Vec<f64>>, has_times: bool) -> Vec<Vec<f64>> {
    if has_times {
        rows.dedup_by(|later, earlier| later[0] == earlier[0]);
    }
    rows
}

/// Times from 0 on, each above the one before.
fn in_order(times: Vec<f64>) -> Result<Vec<f64>, String> {
    match times.windows(2).position(|pair| pair[1] <= pair[0]) {
        None => Ok(times.iter().map(|time| time - times[0]).collect()),
        Some(index) => Err(format!(
            "expected times that rise, found {} after {} in sample {}",
            times[index + 1],
            times[index],
            index + 2
        )),
    }
}

/// The column, of those from one on, whose numbers lie furthest apart by their mean square.
fn widest(rows: &[Vec<f64>], first: usize) -> usize {
    let spread = |column: usize| {
        let mean = rows.iter().map(|row| row[column]).sum::<f64>() / rows.len() as f64;
        rows.iter().map(|row| (row[column] - mean).powi(2)).sum::<f64>()
    };
    (first..rows[0].len()).max_by(|&one, &other| spread(one).total_cmp(&spread(other))).unwrap_or(first)
}

#[cfg(test)]
mod tests {
    use super::*;

    fn lines(line: impl Fn(usize) -> String) -> String {
        (0..20).map(|index| line(index) + "\n").collect()
    }

    #[test]
    fn logs_of_many_kinds_are_read() {
        let expected: Vec<f64> = (0..20).map(|index| index as f64 / 50.0).collect();
        let close =
            |record: &Record| record.times.iter().zip(&expected).all(|(one, other)| (one - other).abs() < 1e-12);
        let texts = [
            lines(|index| format!("{},{index}", index as f64 * 0.02)),
            String::from("# a phone\ntime (ms), tilt\n") + &lines(|index| format!("{}, {index}", 5000 + index * 20)),
            String::from("\u{FEFF}t;x\n")
                + &lines(|index| format!("{};{index},0;", format!("{:.2}", index as f64 * 0.02).replace('.', ","))),
            lines(|index| format!("{}\t\"{index}\"", index as f64 * 0.02)),
            lines(|index| format!("{}   {index}", index as f64 * 0.02)),
        ];
        for text in texts {
            let record = read(&text, None, None).expect("a record");
            assert!(close(&record), "{text}");
            assert_eq!((record.values[7], record.column), (7.0, None));
        }
        let single = read(&lines(|index| index.to_string()), Some(50.0), None).expect("a record");
        assert!(close(&single));
    }

    #[test]
    fn the_column_that_varies_most_is_taken() {
        let text = String::from("t,x,y,z\n") + &lines(|index| format!("{index},1,{},2", index * 3));
        let record = read(&text, None, None).expect("a record");
        assert_eq!((record.values[2], record.column), (6.0, Some((3, "y".into()))));
        assert_eq!(read(&text, None, Some(4)).expect("a record").values[2], 2.0);
        assert!(read(&text, None, Some(1)).is_err() && read(&text, None, Some(5)).is_err());
    }

    #[test]
    fn what_is_wrong_is_said() {
        let told = |text: &str, rate| read(text, rate, None).expect_err("no record");
        assert_eq!(told("1,2\n", None), "expected at least 16 samples, found 1");
        assert!(told(&lines(|index| index.to_string()), None).contains("`--rate`"));
        assert_eq!(
            told(&lines(|index| format!("{index} 2")), Some(5.0)),
            "expected one column beside `--rate`, found 2"
        );
        let back = lines(|index| format!("{} 2", if index == 9 { 4 } else { index }));
        assert_eq!(told(&back, None), "expected times that rise, found 4 after 8 in sample 10");
        assert_eq!(told(&lines(|_| "1 2".into()), None), "expected at least 16 samples, found 1");
        let broken = lines(|index| if index == 3 { "3 x".into() } else { format!("{index} 2") });
        assert_eq!(told(&broken, None), "line 4: expected 2 numbers, found `3 x`");
        let short = lines(|index| if index == 3 { "3".into() } else { format!("{index} 2") });
        assert_eq!(told(&short, None), "line 4: expected 2 numbers, found 1");
    }
}
