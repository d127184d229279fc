//! A small writer of HTML.

use crate::picture::svg::{escaped, Stroke};
use crate::picture::Sample;

/// How the page looks: on a screen as wide as a laptop's, on a phone's, and printed on A4.
const STYLE: &str = include_str!("style.css");

/// A whole page.
pub fn page(title: &str, body: &str) -> String {
    format!(
        "<!DOCTYPE html>\n<html lang=\"en\">\n<head>\n<meta charset=\"utf-8\">\n\
         <meta name=\"viewport\" content=\"width=device-width, initial-scale=1\">\n<title>{}</title>\n\
         <style>{STYLE}</style>\n</head>\n<body>\n{body}</body>\n</html>\n",
        escaped(title)
    )
}

/// A section with its heading, which a printer does not break where it fits a page; the body is
/// HTML.
pub fn section(heading: &str, body: &str) -> String {
    format!("<section>\n<h2>{}</h2>\n{body}</section>\n", escaped(heading))
}

/// A section of several pages.
pub fn long_section(heading: &str, body: &str) -> String {
    format!("<section class=\"long\">\n<h2>{}</h2>\n{body}</section>\n", escaped(heading))
}

/// A heading within a section, with what is said of it in smaller letters.
pub fn heading(text: &str, more: &str) -> String {
    match more {
        "" => format!("<h3>{}</h3>\n", escaped(text)),
        more => format!("<h3>{} <span>{}</span></h3>\n", escaped(text), escaped(more)),
    }
}

/// A part of a page that is not to be broken; the body is HTML.
pub fn block(class: &str, body: &str) -> String {
    format!("<div class=\"{class}\">\n{body}</div>\n")
}

/// A paragraph of plain text.
pub fn paragraph(text: &str) -> String {
    format!("<p>{}</p>\n", escaped(text))
}

/// A list of sentences.
pub fn list(sentences: &[String]) -> String {
    let items: String = sentences.iter().map(|text| format!("<li>{}</li>\n", escaped(text))).collect();
    format!("<ul>\n{items}</ul>\n")
}

/// A text as it was written, line by line.
pub fn as_written(text: &str) -> String {
    let lines: Vec<String> = text.lines().map(|line| escaped(&line.replace('\t', "    "))).collect();
    let class = if lines.len() > 40 { " class=\"columns\"" } else { "" };
    format!("<pre{class}>{}</pre>\n", lines.join("\n"))
}

/// A text as it was written, each line with its number.
pub fn numbered(text: &str) -> String {
    let lines: Vec<String> = text
        .lines()
        .enumerate()
        .map(|(index, line)| format!("<i>{}</i>{}", index + 1, escaped(&line.replace('\t', "    "))))
        .collect();
    format!("<pre class=\"numbered\">{}</pre>\n", lines.join("\n"))
}

/// A cell of a table.
pub enum Cell {
    /// A number or a short text, to the right.
    Number(String),
    /// Words, to the left.
    Words(String),
    /// A part of a whole, with a bar, and a number.
    Bar(f64, String),
}

impl Cell {
    /// The cell, with the heading of its column, which stands beside it where the table is narrow.
    fn html(&self, heading: &str) -> String {
        let label = format!(" data-label=\"{}\"", escaped(heading).replace('"', "&quot;"));
        match self {
            Cell::Number(text) => format!("<td{label}>{}</td>", escaped(text)),
            Cell::Words(text) => format!("<td class=\"words\"{label}>{}</td>", escaped(text)),
            Cell::Bar(part, text) => {
                let percent = (100.0 * part).clamp(0.0, 100.0);
                let bar = format!("<span class=\"bar\"><i style=\"width:{percent:.1}%\"></i></span>");
                format!("<td class=\"words\"{label}><span>{bar}{}</span></td>", escaped(text))
            }
        }
    }
}

/// A table with a heading for each column; on a phone each row is a list.
pub fn table(headings: &[&str], rows: &[Vec<Cell>]) -> String {
    table_of(" class=\"stacks\"", "", headings, rows)
}

/// A table of few columns, which fits a phone as it is, with a caption.
pub fn narrow_table(caption: &str, headings: &[&str], rows: &[Vec<Cell>]) -> String {
    table_of("", &format!("<caption>{}</caption>\n", escaped(caption)), headings, rows)
}

fn table_of(class: &str, caption: &str, headings: &[&str], rows: &[Vec<Cell>]) -> String {
    let is_words =
        |column: usize| rows.iter().any(|row| matches!(row.get(column), Some(Cell::Words(_) | Cell::Bar(..))));
    let row = |row: &Vec<Cell>| -> String {
        let cells = row.iter().zip(headings).map(|(cell, heading)| cell.html(heading));
        format!("<tr>{}</tr>\n", cells.collect::<String>())
    };
    let rows_written: String = rows.iter().map(row).collect();
    let headings = headings.iter().enumerate().map(|(column, text)| match is_words(column) {
        true => format!("<th class=\"words\">{}</th>", escaped(text)),
        false => format!("<th>{}</th>", escaped(text)),
    });
    format!(
        "<table{class}>\n{caption}<thead><tr>{}</tr></thead>\n<tbody>\n{rows_written}</tbody>\n</table>\n",
        headings.collect::<String>()
    )
}

/// What lines and areas stand for.
pub fn key(entries: &[(Sample, String)]) -> String {
    let entry = |(sample, name): &(Sample, String)| format!("<span>{}{}</span>\n", drawn(*sample), escaped(name));
    format!("<p class=\"key\">\n{}</p>\n", entries.iter().map(entry).collect::<String>())
}

/// A sample of a line or an area.
fn drawn(sample: Sample) -> String {
    let shape = match sample {
        Sample::Line(Stroke { colour, width, dashes }) => format!(
            "<path d=\"M0 6L28 6\" fill=\"none\" stroke=\"{colour}\" stroke-width=\"{width}\" \
             stroke-dasharray=\"{}\"/>",
            if dashes.is_empty() { "none" } else { dashes }
        ),
        Sample::Area(colour) => {
            format!("<rect x=\"0.5\" y=\"0.5\" width=\"27\" height=\"11\" fill=\"{colour}\" stroke=\"#B4BCC4\"/>")
        }
    };
    format!("<svg viewBox=\"0 0 28 12\" aria-hidden=\"true\">{shape}</svg>")
}

/// The numbers that are read first, each with what it is.
pub fn cards(cards: &[(String, String)]) -> String {
    let card = |(number, what): &(String, String)| {
        format!("<div class=\"card\"><b>{}</b><span>{}</span></div>\n", escaped(number), escaped(what))
    };
    format!("<div class=\"cards\">\n{}</div>\n", cards.iter().map(card).collect::<String>())
}
