//! The page: title, legend, the axes' stacks of panels, caption.

use super::panel::{self, Panel, Place, Timeline};
use super::svg::{Anchor, Drawing, Stroke, Type};

/// The margin of the page.
const MARGIN: f64 = 24.0;

/// The room between two stacks of panels that stand side by side.
const BETWEEN: f64 = 28.0;

/// The height of a line of a stack's heading.
const HEADING: f64 = 18.0;

/// The whole picture.
pub struct Page {
    /// The title of the picture.
    pub title: String,
    /// The axes.
    pub stacks: Vec<Stack>,
    /// The number of stacks side by side, and the width of their plots.
    pub columns: (usize, f64),
    /// What each line and each area stands for.
    pub legend: Vec<(&'static str, Sample)>,
    /// What the picture shows, below it.
    pub caption: String,
    /// The ticks that are drawn.
    pub time: Timeline,
}

/// A sample of what a legend tells.
#[derive(Debug, Clone, Copy)]
pub enum Sample {
    /// A line.
    Line(Stroke),
    /// An area of a colour.
    Area(&'static str),
}

/// The number of stacks side by side, and the width of their plots, for the axes of one job.
pub fn columns_for(stacks: usize) -> (usize, f64) {
    match stacks {
        1 => (1, 680.0),
        2 | 4 => (2, 440.0),
        _ => (3, 330.0),
    }
}

/// The panels of one axis, one above the other.
pub struct Stack {
    /// What the axis is called.
    pub title: String,
    /// What pole it stands on.
    pub pole: String,
    /// The panels from the top down.
    pub panels: Vec<Panel>,
}

impl Stack {
    /// The lines of its heading: title and pole beside each other where they
    /// fit, else one below the other.
    fn heading(&self, width: f64) -> Vec<(String, Anchor, Type)> {
        let room = Type::HEADING.width_of(&self.title) + Type::LABEL.width_of(&self.pole) + 12.0;
        let titles = wrapped(&self.title, width, Type::HEADING);
        let titles = titles.into_iter().map(|line| (line, Anchor::Start, Type::HEADING));
        match room <= width {
            true => titles.collect(),
            false => {
                let poles = wrapped(&self.pole, width, Type::LABEL);
                titles.chain(poles.into_iter().map(|line| (line, Anchor::Start, Type::LABEL))).collect()
            }
        }
    }

    /// The height of the heading.
    fn heading_height(&self, width: f64) -> f64 {
        2.0 + HEADING * self.heading(width).len() as f64
    }

    /// The height of the stack below its heading, of plots of a width.
    fn height(&self, width: f64, time: &Timeline) -> f64 {
        let panels = self.panels.iter().enumerate();
        panels.map(|(index, panel)| panel.above(width, time, index == 0) + panel::HEIGHT).sum::<f64>() + panel::BELOW
    }

    /// Draws the stack, its heading at the top, its plots of a width at the left,
    /// and these from another height on.
    fn draw(&self, drawing: &mut Drawing, left: f64, (top, plots): (f64, f64), width: f64, time: &Timeline) {
        let heading = self.heading(width);
        for (index, (line, anchor, set)) in heading.iter().enumerate() {
            drawing.text(left, top + 14.0 + index as f64 * HEADING, *anchor, *set, line);
        }
        if heading.len() == 1 {
            drawing.text(left + width, top + 14.0, Anchor::End, Type::LABEL, &self.pole);
        }
        let mut top = plots;
        for (index, panel) in self.panels.iter().enumerate() {
            top += panel.above(width, time, index == 0);
            let last = index + 1 == self.panels.len();
            panel.draw(drawing, Place { left, top, width }, time, index == 0, last);
            top += panel::HEIGHT;
        }
    }

    /// The pictures of its panels one by one, of a width in all; names begin with a prefix.
    fn pictures(&self, width: f64, time: &Timeline, prefix: &str) -> Vec<String> {
        let picture = |(index, panel): (usize, &Panel)| {
            let mut drawing = Drawing::new(&format!("{prefix}panel{index}"));
            let left = panel.label_width() + 8.0;
            let plot = width - left - 8.0;
            let top = panel.above(plot, time, index == 0) - 6.0;
            panel.draw(&mut drawing, Place { left, top, width: plot }, time, index == 0, true);
            let height = top + panel::HEIGHT + panel::BELOW;
            drawing.finish(width, height, &format!("{}: {}", self.title, panel.name), &panel.remark)
        };
        self.panels.iter().enumerate().map(picture).collect()
    }
}

/// The pictures of an axis for a page: its title, its pole, and its panels one by one.
pub struct AxisPictures {
    /// What the axis is called.
    pub title: String,
    /// What pole it stands on.
    pub pole: String,
    /// The panels.
    pub panels: Vec<String>,
}

impl Page {
    /// The pictures of each axis, panel by panel, of a width; names begin with a prefix.
    pub fn of_each_axis(&self, width: f64, prefix: &str) -> Vec<AxisPictures> {
        let stacks = self.stacks.iter().enumerate();
        let pictures = stacks.map(|(index, stack)| AxisPictures {
            title: stack.title.clone(),
            pole: stack.pole.clone(),
            panels: stack.pictures(width, &self.time, &format!("{prefix}{index}")),
        });
        pictures.collect()
    }

    /// Draws the page as a file of its own.
    pub fn draw(&self) -> String {
        let mut drawing = Drawing::new("");
        drawing.text(MARGIN, MARGIN + 14.0, Anchor::Start, Type::TITLE, &self.title);
        let (width, mut top) = self.draw_stacks(&mut drawing, MARGIN + 30.0);
        for line in wrapped(&self.caption, width - 2.0 * MARGIN, Type::BODY) {
            top += 16.0;
            drawing.text(MARGIN, top, Anchor::Start, Type::BODY, &line);
        }
        drawing.finish(width, top + MARGIN, &self.title, &self.caption)
    }

    /// Draws the legend, from a height on, and the stacks; returns the width of the
    /// page and the height below them.
    fn draw_stacks(&self, drawing: &mut Drawing, top: f64) -> (f64, f64) {
        let (columns, plot_width) = self.columns;
        let labels =
            self.stacks.iter().flat_map(|stack| &stack.panels).map(Panel::label_width).fold(0.0, f64::max) + 8.0;
        let pitch = labels + plot_width + BETWEEN;
        let width = 2.0 * MARGIN + columns as f64 * pitch - BETWEEN;
        let mut top = draw_legend(drawing, top, width, &self.legend) + 14.0;
        let greatest = |heights: &mut dyn Iterator<Item = f64>| heights.fold(0.0, f64::max);
        for row in self.stacks.chunks(columns) {
            let plots = top + greatest(&mut row.iter().map(|stack| stack.heading_height(plot_width)));
            for (column, stack) in row.iter().enumerate() {
                let left = MARGIN + labels + column as f64 * pitch;
                stack.draw(drawing, left, (top, plots), plot_width, &self.time);
            }
            top = plots + greatest(&mut row.iter().map(|stack| stack.height(plot_width, &self.time))) + 12.0;
        }
        (width, top)
    }
}

/// Draws what each line and each area stands for, from a height on, and returns the height below
/// it.
fn draw_legend(drawing: &mut Drawing, top: f64, width: f64, legend: &[(&str, Sample)]) -> f64 {
    const SAMPLE: f64 = 28.0;
    let (mut x, mut y) = (MARGIN, top);
    for &(name, sample) in legend {
        let entry_width = SAMPLE + 6.0 + Type::BODY.width_of(name) + 18.0;
        if x + entry_width > width - MARGIN && x > MARGIN {
            (x, y) = (MARGIN, y + 18.0);
        }
        match sample {
            Sample::Line(stroke) => drawing.line(&[(x, y + 4.0), (x + SAMPLE, y + 4.0)], stroke),
            Sample::Area(colour) => {
                drawing.area(x, y - 2.0, SAMPLE, 12.0, colour);
                drawing.frame(x, y - 2.0, SAMPLE, 12.0);
            }
        }
        drawing.text(x + SAMPLE + 6.0, y + 8.0, Anchor::Start, Type::BODY, name);
        x += entry_width;
    }
    y + 12.0
}

/// A text in lines of a width.
pub fn wrapped(text: &str, width: f64, set: Type) -> Vec<String> {
    let mut lines = vec![String::new()];
    for word in text.split(' ') {
        let line = lines.last_mut().expect("there is a first line");
        if !line.is_empty() && set.width_of(&format!("{line} {word}")) > width {
            lines.push(word.into());
        } else {
            if !line.is_empty() {
                line.push(' ');
            }
            line.push_str(word);
        }
    }
    lines
}
