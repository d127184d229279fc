//! The labels above upright lines: none is left out.

use super::Mark;
use crate::picture::scale::Scale;
use crate::picture::svg::Type;

/// The height of a lane of labels.
pub const LANE: f64 = 13.0;

/// How near upright lines are that share a label, in pixels.
const TOGETHER: f64 = 2.0;

/// How labels are set.
pub const SET: Type = Type { bold: true, ..Type::BODY };

/// A label in its lane.
#[derive(Debug, Clone, PartialEq)]
pub struct Label {
    /// Where its middle is.
    pub middle: f64,
    /// What it says: a mark's label, or the first and the last one's of marks that stand together.
    pub text: String,
    /// Its lane, from 0, the lowest.
    pub lane: usize,
}

/// The labels of marks, each above its line, in as few lanes as they fit.
pub fn placed(marks: &[Mark], across: Scale) -> Vec<Label> {
    let mut free_from: Vec<f64> = Vec::new();
    let mut labels = Vec::new();
    for group in grouped(marks, across) {
        let text = match group {
            [only] => only.label.clone(),
            [first, .., last] => format!("{}–{}", first.label, last.label),
            [] => continue,
        };
        let half = SET.width_of(&text) / 2.0;
        let middle = (across.at(group[0].tick.into()) + across.at(group[group.len() - 1].tick.into())) / 2.0;
        let middle = middle.clamp(across.from + half, (across.to - half).max(across.from + half));
        let lane = free_from.iter().position(|&free| free <= middle - half).unwrap_or(free_from.len());
        if lane == free_from.len() {
            free_from.push(0.0);
        }
        free_from[lane] = middle + half + 3.0;
        labels.push(Label { middle, text, lane });
    }
    labels
}

/// Marks in groups of those whose lines cannot be told apart.
fn grouped(marks: &[Mark], across: Scale) -> Vec<&[Mark]> {
    let at = |mark: &Mark| across.at(mark.tick.into());
    let mut groups = Vec::new();
    let mut rest = marks;
    while let Some(first) = rest.first() {
        let count = rest.iter().take_while(|mark| at(mark) - at(first) < TOGETHER).count();
        let (group, others) = rest.split_at(count);
        groups.push(group);
        rest = others;
    }
    groups
}

#[cfg(test)]
mod tests {
    use super::*;

    fn marks(ticks: &[u32]) -> Vec<Mark> {
        ticks.iter().enumerate().map(|(index, &tick)| Mark { tick, label: index.to_string() }).collect()
    }

    const ACROSS: Scale = Scale { least: 0.0, greatest: 1000.0, from: 0.0, to: 500.0 };

    /// Sixty-four stops keep their labels, and none covers another of its lane.
    #[test]
    fn every_stop_has_its_label() {
        let ticks: Vec<u32> = (0..64).map(|stop| 10 + 15 * stop + stop * stop % 7).collect();
        let labels = placed(&marks(&ticks), ACROSS);
        assert_eq!(labels.len(), 64);
        for (index, label) in labels.iter().enumerate() {
            for other in labels[index + 1..].iter().filter(|other| other.lane == label.lane) {
                let half = (SET.width_of(&label.text) + SET.width_of(&other.text)) / 2.0;
                assert!(other.middle - label.middle >= half, "{label:?} {other:?}");
            }
        }
        assert!(labels.iter().all(|label| label.lane < 4));
    }

    /// Lines that fall together share one label.
    #[test]
    fn lines_that_fall_together_share_a_label() {
        let texts: Vec<String> =
            placed(&marks(&[100, 101, 102, 400]), ACROSS).into_iter().map(|label| label.text).collect();
        assert_eq!(texts, ["0–2", "3"]);
    }
}
