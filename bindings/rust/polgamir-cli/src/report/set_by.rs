//! What sets the arrival of a job, in words.

use polgamir::Arrival;

use super::Report;

impl Report<'_> {
    /// What sets the arrival, in a sentence or two.
    pub fn setter_told(&self) -> String {
        let (found, least) = (self.arrivals.found, self.arrivals.least);
        if self.sheet.job.arrival != Arrival::Earliest {
            return match least {
                Some(least) if least == found => {
                    format!("The sheet asks for tick {found}, the least that suits all axes, {}.", self.set_by(least))
                }
                Some(least) => format!(
                    "The sheet asks for tick {found}; the least that suits all axes is tick {least}, {}.",
                    self.set_by(least)
                ),
                None => format!("The sheet asks for tick {found}."),
            };
        }
        match least {
            Some(least) if least < found => format!(
                "Every axis can arrive at tick {least}, {}; tick {found} is the least after it that suits all axes and \
                 fits a window with its dwell.{}",
                self.set_by(least),
                self.window_told(found - 1)
            ),
            _ if self.arrivals.setting(found).next().is_some() => format!(
                "The arrival is set by {}: tick {found} is the least that it reaches alone.{}",
                self.titles(self.arrivals.setting(found)),
                if self.axes.len() > 1 { " Axes that could be sooner are planned to arrive with it." } else { "" }
            ),
            _ => format!(
                "No axis alone sets the arrival. A head that moves may reach a tick and then none for a while, and \
                 tick {found} is the first that suits all axes, later than each one's own least."
            ),
        }
    }

    /// Which axes set the least arrival of all: those that alone reach no tick before it.
    fn set_by(&self, least: u32) -> String {
        match self.arrivals.setting(least).next() {
            Some(_) => format!("set by {}", self.titles(self.arrivals.setting(least))),
            None => "later than each one's own least".into(),
        }
    }

    /// That a tick fits no window, where it fits none.
    fn window_told(&self, tick: u32) -> String {
        match self.sheet.job.windows.is_some_and(|windows| !windows.fit(tick)) {
            true => format!(" Tick {tick} fits none."),
            false => String::new(),
        }
    }
}
