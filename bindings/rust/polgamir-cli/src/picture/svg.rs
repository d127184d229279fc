//! A small writer of SVG.

use std::fmt::Write;

/// Colours that stay apart for readers with a colour weakness (Okabe and Ito's palette), and greys.
pub mod colour {
    /// The plan.
    pub const PLAN: &str = "#0072B2";
    /// The same job without the blend.
    pub const UNBLENDED: &str = "#D55E00";
    /// The target.
    pub const TARGET: &str = "#007F5F";
    /// A proved bound.
    pub const BOUND: &str = "#8A3B71";
    /// Limits.
    pub const LIMIT: &str = "#5A5A5A";
    /// Text and the arrival.
    pub const INK: &str = "#1F2328";
    /// Labels of less weight.
    pub const FAINT_INK: &str = "#57606A";
    /// Grid lines.
    pub const GRID: &str = "#E4E8EC";
    /// Frames of panels.
    pub const FRAME: &str = "#B4BCC4";
    /// The time after arrival.
    pub const AFTER: &str = "#F3F5F8";
    /// The windows of a job.
    pub const WINDOW: &str = "#FCEFC7";
    /// The stay at a stop.
    pub const DWELL: &str = "#E6EDF5";
}

/// How a line is drawn.
#[derive(Debug, Clone, Copy)]
pub struct Stroke {
    /// Its colour.
    pub colour: &'static str,
    /// Its width.
    pub width: f64,
    /// Its dashes, or nothing for an unbroken line.
    pub dashes: &'static str,
}

/// The strokes of a picture, each for one thing.
pub mod stroke {
    use super::{colour, Stroke};

    /// The plan.
    pub const PLAN: Stroke = Stroke { colour: colour::PLAN, width: 1.8, dashes: "" };
    /// The plan after arrival.
    pub const PLAN_AFTER: Stroke = Stroke { width: 1.2, ..PLAN };
    /// The same job without the blend.
    pub const UNBLENDED: Stroke = Stroke { colour: colour::UNBLENDED, width: 1.5, dashes: "6 3" };
    /// The arrival of the same job without the blend.
    pub const UNBLENDED_ARRIVAL: Stroke = Stroke { width: 1.0, dashes: "3 3", ..UNBLENDED };
    /// A proved bound.
    pub const BOUND: Stroke = Stroke { colour: colour::BOUND, width: 1.4, dashes: "2 3" };
    /// The target.
    pub const TARGET: Stroke = Stroke { colour: colour::TARGET, width: 1.5, dashes: "1.5 3" };
    /// Limits.
    pub const LIMIT: Stroke = Stroke { colour: colour::LIMIT, width: 1.0, dashes: "8 3 2 3" };
    /// An arrival.
    pub const ARRIVAL: Stroke = Stroke { colour: colour::INK, width: 1.0, dashes: "" };
    /// One of many arrivals.
    pub const STOP: Stroke = Stroke { colour: colour::FAINT_INK, width: 0.6, dashes: "" };
    /// Grid lines.
    pub const GRID: Stroke = Stroke { colour: colour::GRID, width: 1.0, dashes: "" };
    /// The line of value 0.
    pub const ZERO: Stroke = Stroke { colour: colour::FRAME, width: 1.0, dashes: "" };
}

/// Where a text stands with respect to its coordinates.
#[derive(Debug, Clone, Copy, PartialEq, Eq)]
pub enum Anchor {
    /// It begins there.
    Start,
    /// Its middle is there.
    Middle,
    /// It ends there.
    End,
}

/// How a text is set.
#[derive(Debug, Clone, Copy)]
pub struct Type {
    /// The size of the type.
    pub size: f64,
    /// Whether it is bold.
    pub bold: bool,
    /// Its colour.
    pub colour: &'static str,
}

impl Type {
    /// The title of the picture.
    pub const TITLE: Type = Type { size: 17.0, bold: true, colour: colour::INK };
    /// The heading of an axis.
    pub const HEADING: Type = Type { size: 13.0, bold: true, colour: colour::INK };
    /// Names of panels, legend, caption.
    pub const BODY: Type = Type { size: 11.5, bold: false, colour: colour::INK };
    /// Numbers along the axes.
    pub const LABEL: Type = Type { size: 10.5, bold: false, colour: colour::FAINT_INK };

    /// A width that is enough for a text in the sans serif faces asked for.
    pub fn width_of(&self, text: &str) -> f64 {
        let width: f64 = text.chars().map(character_width).sum();
        width * self.size * if self.bold { 1.12 } else { 1.0 }
    }
}

/// The width of a character by the size of its type, in the widest of the faces asked for.
fn character_width(character: char) -> f64 {
    match character {
        'f' | 'i' | 'j' | 'l' | 'r' | 't' | ' ' | ',' | '.' | ':' | ';' | '\'' | '²' => 0.4,
        'm' | 'w' | 'M' | 'W' | '…' => 1.0,
        'A'..='Z' => 0.72,
        _ => 0.64,
    }
}

/// A drawing under way.
pub struct Drawing {
    elements: String,
    clips: usize,
    /// What the names of its parts begin with, so that several drawings can stand in one page.
    prefix: String,
}

impl Drawing {
    /// A drawing with nothing in it, whose parts have names that begin with a prefix.
    pub fn new(prefix: &str) -> Drawing {
        Drawing { elements: String::new(), clips: 0, prefix: prefix.into() }
    }

    /// The finished file, of a size, with a title and a description for those who cannot see it.
    pub fn finish(self, width: f64, height: f64, title: &str, description: &str) -> String {
        let (title, description, prefix) = (escaped(title), escaped(description), self.prefix);
        format!(
            "<svg xmlns=\"http://www.w3.org/2000/svg\" width=\"{width:.0}\" height=\"{height:.0}\" \
             viewBox=\"0 0 {width:.0} {height:.0}\" role=\"img\" aria-labelledby=\"{prefix}title {prefix}description\" \
             font-family=\"Helvetica, Arial, 'DejaVu Sans', sans-serif\">\n\
             <title id=\"{prefix}title\">{title}</title>\n<desc id=\"{prefix}description\">{description}</desc>\n\
             <rect width=\"100%\" height=\"100%\" fill=\"#FFFFFF\"/>\n{}</svg>\n",
            self.elements
        )
    }

    /// A text at a place.
    pub fn text(&mut self, x: f64, y: f64, anchor: Anchor, set: Type, text: &str) {
        let anchor = match anchor {
            Anchor::Start => "start",
            Anchor::Middle => "middle",
            Anchor::End => "end",
        };
        let weight = if set.bold { " font-weight=\"bold\"" } else { "" };
        let _ = writeln!(
            self.elements,
            "<text x=\"{x:.1}\" y=\"{y:.1}\" font-size=\"{}\"{weight} text-anchor=\"{anchor}\" fill=\"{}\">{}</text>",
            set.size,
            set.colour,
            escaped(text)
        );
    }

    /// A filled rectangle.
    pub fn area(&mut self, x: f64, y: f64, width: f64, height: f64, fill: &str) {
        let _ = writeln!(
            self.elements,
            "<rect x=\"{x:.1}\" y=\"{y:.1}\" width=\"{width:.1}\" height=\"{height:.1}\" fill=\"{fill}\"/>"
        );
    }

    /// The outline of a rectangle.
    pub fn frame(&mut self, x: f64, y: f64, width: f64, height: f64) {
        let _ = writeln!(
            self.elements,
            "<rect x=\"{x:.1}\" y=\"{y:.1}\" width=\"{width:.1}\" height=\"{height:.1}\" fill=\"none\" stroke=\"{}\"/>",
            colour::FRAME
        );
    }

    /// A line through points.
    pub fn line(&mut self, points: &[(f64, f64)], stroke: Stroke) {
        let mut path = String::new();
        for (index, (x, y)) in points.iter().enumerate() {
            let _ = write!(path, "{}{x:.2} {y:.2}", if index == 0 { "M" } else { "L" });
        }
        let dashes = match stroke.dashes {
            "" => String::new(),
            dashes => format!(" stroke-dasharray=\"{dashes}\""),
        };
        let _ = writeln!(
            self.elements,
            "<path d=\"{path}\" fill=\"none\" stroke=\"{}\" stroke-width=\"{}\" stroke-linejoin=\"round\"{dashes}/>",
            stroke.colour, stroke.width
        );
    }

    /// What is drawn by `inside` shows within a rectangle alone.
    pub fn clipped(&mut self, x: f64, y: f64, width: f64, height: f64, inside: impl FnOnce(&mut Drawing)) {
        self.clips += 1;
        let name = format!("{}clip{}", self.prefix, self.clips);
        let _ = writeln!(
            self.elements,
            "<clipPath id=\"{name}\"><rect x=\"{x:.1}\" y=\"{y:.1}\" width=\"{width:.1}\" \
             height=\"{height:.1}\"/></clipPath>\n\
             <g clip-path=\"url(#{name})\">"
        );
        inside(self);
        self.elements.push_str("</g>\n");
    }
}

/// Text with the characters that SVG keeps for itself written out, and without those that it cannot
/// hold.
pub fn escaped(text: &str) -> String {
    let text: String = text.chars().filter(|character| !character.is_control()).collect();
    text.replace('&', "&amp;").replace('<', "&lt;").replace('>', "&gt;")
}
