//! Windows: the ticks in which a job may arrive.

/// A job brings at most this many windows.
pub const MOST_WINDOWS: usize = 32;

/// A window of ticks: from its opening on, and before its closing.
#[repr(C)]
#[derive(Debug, Clone, Copy, PartialEq, Eq, Hash, Default)]
pub struct Window {
    /// The first tick of the window.
    pub opening: u32,
    /// The tick at which it closes, above its opening.
    pub closing: u32,
}

impl Window {
    /// Whether an arrival fits this window with a dwell: it is not before the opening, it is before
    /// the closing, and the dwell ends by then.
    pub const fn holds(&self, arrival: u32, dwell: u32) -> bool {
        self.opening <= arrival && arrival < self.closing && arrival as u64 + dwell as u64 <= self.closing as u64
    }
}

/// The windows that a job brings, and how long the head is to stay in one after its arrival.
///
/// Windows stand in the order of their ticks. They may touch, and do not join: one
/// of them holds arrival and dwell.
///
/// ```
/// use polgamir::{Window, Windows};
///
/// let windows = Windows::new(2, &[Window { opening: 0, closing: 5 }, Window { opening: 5, closing: 9 }]);
/// assert!(windows.fit(3) && !windows.fit(4) && windows.fit(5));
/// ```
#[derive(Debug, Clone, Copy, PartialEq, Eq, Hash)]
pub struct Windows {
    dwell: u32,
    count: usize,
    list: [Window; MOST_WINDOWS],
}

impl Windows {
    /// Windows with a dwell, 0 to 4,096 ticks. Of more than 32 windows the first 32 are kept, and
    /// the number of all: the planner refuses them, as it does an empty list.
    pub fn new(dwell: u32, windows: &[Window]) -> Windows {
        let mut list = [Window::default(); MOST_WINDOWS];
        for (place, &window) in list.iter_mut().zip(windows) {
            *place = window;
        }
        Windows { dwell, count: windows.len(), list }
    }

    /// How long the head is to stay, in ticks.
    pub const fn dwell(&self) -> u32 {
        self.dwell
    }

    /// The number of windows, which may be above 32.
    pub const fn count(&self) -> usize {
        self.count
    }

    /// The windows, at most the first 32.
    pub fn list(&self) -> &[Window] {
        &self.list[..self.count.min(MOST_WINDOWS)]
    }

    /// The room for all 32, with zeros after the last window.
    pub(crate) const fn room(&self) -> [Window; MOST_WINDOWS] {
        self.list
    }

    /// Whether an arrival fits one of the windows.
    pub fn fit(&self, arrival: u32) -> bool {
        self.list().iter().any(|window| window.holds(arrival, self.dwell))
    }
}
