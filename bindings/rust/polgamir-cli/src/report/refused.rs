//! The report of a refused job or tour: the refusal in words first, then the sheet
//! with the numbers of its lines.

use polgamir::sheet::Rounded;

use super::html;
use super::told::rounded_entries;
use crate::command::export::VERSION;
use crate::command::refusal::Told;
use crate::picture::svg::escaped;

/// The page of a refusal.
pub fn refused(title: &str, entered: &str, rounded: &[Rounded], told: &Told) -> String {
    let details = details(&told.details);
    let body = [
        format!("<h1>{}</h1>\n<p class=\"sub\">refused; polgamir {VERSION}</p>\n", escaped(title)),
        format!(
            "<div class=\"refusal\">\n<p><b>{}</b></p>\n{}{details}{}</div>\n",
            escaped(&told.sentence),
            html::paragraph(&told.remedy),
            html::paragraph(&format!("{} {}", told.line_told(), told.number_told()))
        ),
        rounded_entries(rounded),
        html::section("The set-up sheet, as entered", &html::numbered(entered)),
        html::section(
            "The planner's answer",
            &html::paragraph(&format!(
                "{}. A refused job has no table: nothing was planned, and nothing written.",
                told.printed_line
            )),
        ),
    ];
    html::page(&format!("{title}: refused"), &body.concat())
}

/// What a refusal is about: lists, each below the line that ends with a colon, where there is one.
fn details(lines: &[String]) -> String {
    let (mut html, mut list) = (String::new(), Vec::new());
    let close = |list: &mut Vec<String>| match std::mem::take(list) {
        items if items.is_empty() => String::new(),
        items => html::list(&items),
    };
    for line in lines {
        match line.ends_with(':') {
            true => html += &(close(&mut list) + &html::paragraph(line)),
            false => list.push(line.trim().into()),
        }
    }
    html + &close(&mut list)
}
