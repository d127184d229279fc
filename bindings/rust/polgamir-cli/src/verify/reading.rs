//! Reads a table from a file: comma-separated values, JSON, the source of a C array, or the cells
//! as bytes.

use super::json::Json;
use crate::command::table::COLUMNS;

/// A row as it was read: its tick, where the form says one, and its cells.
#[derive(Debug, Clone, PartialEq, Eq)]
pub struct Read {
    /// The row's tick, where the form has it.
    pub tick: Option<u32>,
    /// Position, velocity and acceleration of each axis, in fine steps.
    pub cells: Vec<i64>,
}

/// Why a file has no rows of a job.
#[derive(Debug, Clone, PartialEq, Eq)]
pub enum Fault {
    /// It is a table of other axes than the job's.
    OtherAxes(String),
    /// It cannot be read as a table.
    Unreadable(String),
}

impl From<String> for Fault {
    fn from(fault: String) -> Fault {
        Fault::Unreadable(fault)
    }
}

impl From<&str> for Fault {
    fn from(fault: &str) -> Fault {
        Fault::Unreadable(fault.into())
    }
}

/// The rows of a file, for a job whose axes have these numbers.
pub fn rows(content: &[u8], axes: &[usize]) -> Result<Vec<Read>, Fault> {
    let text = match std::str::from_utf8(content) {
        Ok(text) if !content.contains(&0) => text.strip_prefix('\u{FEFF}').unwrap_or(text),
        _ => return Ok(bytes(content, 3 * axes.len())?),
    };
    let first = text.lines().map(str::trim).find(|line| !line.is_empty() && !line.starts_with('#')).unwrap_or_default();
    if first.starts_with('{') {
        json(text, axes)
    } else if text.contains("int64_t") {
        Ok(c_array(text, 3 * axes.len())?)
    } else if first.trim_start_matches('"').starts_with("tick") {
        csv(text, 3 * axes.len())
    } else {
        Err("expected a table, as `polgamir plan` writes it with --csv, --json or --c-array, or its cells as bytes"
            .into())
    }
}

const IN_UNITS: &str = "these numbers are in units, of which some were rounded: write the table anew without --units";

/// Cells as they lie in memory: 64-bit numbers, the low byte first.
fn bytes(content: &[u8], width: usize) -> Result<Vec<Read>, String> {
    if content.len() % (8 * width) != 0 {
        let rest = content.len() % (8 * width);
        return Err(format!(
            "expected rows of {} bytes, found {} and {rest} bytes more",
            8 * width,
            content.len() / (8 * width)
        ));
    }
    let cell = |bytes: &[u8]| bytes.iter().rev().fold(0_u64, |cell, byte| cell << 8 | u64::from(*byte)) as i64;
    let cells: Vec<i64> = content.chunks_exact(8).map(cell).collect();
    Ok(cells.chunks_exact(width).map(|cells| Read { tick: None, cells: cells.into() }).collect())
}

/// A heading, then a line for each row: the tick and the cells.
fn csv(text: &str, width: usize) -> Result<Vec<Read>, Fault> {
    let mut lines = text.lines().enumerate().filter(|(_, line)| !line.trim().is_empty() && !line.starts_with('#'));
    let heading = lines.next().map_or("", |(_, line)| line);
    if heading.contains(" (") {
        return Err(IN_UNITS.into());
    }
    let fields = heading.split(',').count();
    if fields != width + 1 && fields % 3 == 1 {
        return Err(Fault::OtherAxes(format!("it has {} axes, and the job has {}", fields / 3, width / 3)));
    }
    let rows = lines.map(|(line, text)| csv_row(text, width).map_err(|error| format!("line {}: {error}", line + 1)));
    Ok(rows.collect::<Result<_, String>>()?)
}

fn csv_row(line: &str, width: usize) -> Result<Read, String> {
    let fields: Vec<&str> = line.split(',').map(str::trim).collect();
    if fields.len() != width + 1 {
        return Err(format!("expected a tick and {width} cells, found {} fields", fields.len()));
    }
    let number = |field: &str| -> Result<i64, String> {
        field.parse().map_err(|_| format!("expected a whole number of 64 bits, found `{field}`"))
    };
    let tick = number(fields[0])?;
    let tick = u32::try_from(tick).map_err(|_| format!("expected a tick, found `{tick}`"))?;
    Ok(Read { tick: Some(tick), cells: fields[1..].iter().map(|field| number(field)).collect::<Result<_, _>>()? })
}

/// The object that `--json` writes: for each axis its number and three lists.
fn json(text: &str, axes: &[usize]) -> Result<Vec<Read>, Fault> {
    let object = Json::read(text)?;
    if object.get("refused").is_some() {
        return Err("this is a refusal, and no table".into());
    }
    let Some(Json::List(list)) = object.get("axes") else { return Err("expected `axes`, a list".into()) };
    let numbers: Vec<Option<&Json>> = list.iter().map(|axis| axis.get("axis")).collect();
    let wanted: Vec<Json> = axes.iter().map(|axis| Json::Number(*axis as i64)).collect();
    if numbers != wanted.iter().map(Some).collect::<Vec<_>>() {
        let number = |number: &Option<&Json>| match number {
            Some(Json::Number(number)) => number.to_string(),
            _ => "none".into(),
        };
        let found: Vec<String> = numbers.iter().map(number).collect();
        let wanted: Vec<String> = axes.iter().map(usize::to_string).collect();
        let (found, wanted) = (found.join(", "), wanted.join(", "));
        return Err(Fault::OtherAxes(format!("it has the axes {found}, and the job has {wanted}")));
    }
    if list.iter().any(|axis| axis.get("measures").is_some()) {
        return Err(IN_UNITS.into());
    }
    let mut columns = Vec::new();
    for (axis, number) in list.iter().zip(axes) {
        for column in COLUMNS {
            let cells = axis.get(column).and_then(Json::numbers);
            columns.push(cells.ok_or_else(|| format!("axis {number}: expected `{column}`, a list of whole numbers"))?);
        }
    }
    let count = columns.first().map_or(0, Vec::len);
    if let Some(place) = columns.iter().position(|column| column.len() != count) {
        let (axis, column) = (axes[place / 3], COLUMNS[place % 3]);
        return Err(format!("axis {axis}: expected {count} rows in `{column}`, found {}", columns[place].len()).into());
    }
    let first = match object.get("first_row") {
        Some(Json::Number(first)) => u32::try_from(*first).ok(),
        _ => None,
    };
    let row = |place: usize| Read {
        tick: first.map(|first| first.saturating_add(place as u32)),
        cells: columns.iter().map(|column| column[place]).collect(),
    };
    Ok((0..count).map(row).collect())
}

/// The numbers between the outer braces of the array, a row after the other.
fn c_array(text: &str, width: usize) -> Result<Vec<Read>, String> {
    let after = text.find("int64_t").and_then(|at| text[at..].find('{').map(|brace| at + brace));
    let begin = after.ok_or("expected an array between braces")?;
    let end = text[begin..].find("};").map(|end| begin + end).ok_or("expected `};` at the end of the array")?;
    let line_of = |at: usize| 1 + text[..at].matches('\n').count();
    let mut cells: Vec<i64> = Vec::new();
    for word in text[begin..end]
        .split(|c: char| c == '{' || c == '}' || c == ',' || c.is_whitespace())
        .filter(|w| !w.is_empty())
    {
        let at = word.as_ptr() as usize - text.as_ptr() as usize;
        let cell = word
            .parse()
            .map_err(|_| format!("line {}: expected a whole number of 64 bits, found `{word}`", line_of(at)))?;
        cells.push(cell);
    }
    if cells.len() % width != 0 {
        return Err(format!(
            "expected rows of {width} cells, found {} rows and {} cells more",
            cells.len() / width,
            cells.len() % width
        ));
    }
    Ok(cells.chunks_exact(width).map(|cells| Read { tick: None, cells: cells.into() }).collect())
}
