//! What the planner says of the arrivals around that of a job: of each axis alone, without
//! the blend, and one tick earlier.

use polgamir::{Arrival, Axis, AxisRaises, Job};

use crate::picture::without_blend;

/// The arrivals around that of a job.
pub struct Arrivals {
    /// The arrival of the job.
    pub found: u32,
    /// The least common arrival, whatever is asked and whatever the windows.
    pub least: Option<u32>,
    /// The same without the blend.
    pub least_unblended: Option<u32>,
    /// Of each axis.
    pub axes: Vec<OfAxis>,
}

/// The arrivals of one axis.
pub struct OfAxis {
    /// Its number.
    pub number: usize,
    /// Its least arrival when it moves alone.
    pub alone: Option<u32>,
    /// The same without the blend.
    pub alone_unblended: Option<u32>,
    /// Whether it could arrive one tick earlier.
    pub earlier: Earlier,
}

/// Whether an axis could arrive one tick earlier than its job does.
#[derive(Debug, Clone, Copy, PartialEq, Eq)]
pub enum Earlier {
    /// There is no earlier tick.
    NoTick,
    /// It could.
    Could,
    /// It could not; with the raises of one limit alone for which it could, the smaller first.
    CouldNot(AxisRaises),
}

impl Arrivals {
    /// The arrivals around that of an accepted job.
    pub fn of(job: &Job, found: u32) -> Arrivals {
        let mut free = *job;
        (free.arrival, free.windows) = (Arrival::Earliest, None);
        let of_axis = |(number, axis): (usize, &Axis)| {
            let alone = Job::earliest().with_axis(number, *axis);
            OfAxis {
                number,
                alone: alone.arrival_found().ok(),
                alone_unblended: without_blend(&alone).arrival_found().ok(),
                earlier: earlier(number, axis, found - 1),
            }
        };
        Arrivals {
            found,
            least: free.arrival_found().ok(),
            least_unblended: without_blend(&free).arrival_found().ok(),
            axes: job.entered().map(of_axis).collect(),
        }
    }

    /// The axes whose own least arrival is a tick.
    pub fn setting(&self, tick: u32) -> impl Iterator<Item = usize> + '_ {
        self.axes.iter().filter(move |axis| axis.alone == Some(tick)).map(|axis| axis.number)
    }
}

/// Whether an axis reaches a tick, and if not, by which raises it would: the
/// planner's answer to the axis alone.
fn earlier(number: usize, axis: &Axis, tick: u32) -> Earlier {
    if tick == 0 {
        return Earlier::NoTick;
    }
    let raises = Job::arriving_at(tick).with_axis(number, *axis).raises();
    match raises.arrival() {
        Ok(_) => Earlier::Could,
        Err(_) => Earlier::CouldNot(raises.of_axis(number)),
    }
}

#[cfg(test)]
mod tests {
    use super::*;
    use crate::test_axis::unblended as axis;
    use polgamir::{Limit, Raise};

    fn could_not(raises: &[(Limit, u32)]) -> Earlier {
        let raise = |index: usize| raises.get(index).map(|&(limit, by)| Raise { limit, by });
        Earlier::CouldNot(AxisRaises { first: raise(0), second: raise(1) })
    }

    /// The raises that make a tick, by hand: case E by one more of acceleration; then by either
    /// limit, the smaller raise first.
    #[test]
    fn raises_that_would_do() {
        use Limit::{Acceleration, Speed};
        assert_eq!(earlier(0, &axis(10, 1, 0, 4), 3), could_not(&[(Acceleration, 1)]));
        assert_eq!(earlier(0, &axis(2, 1, 0, 9), 6), could_not(&[(Acceleration, 1), (Speed, 1)]));
        assert_eq!(earlier(0, &axis(3, 1, 2, 22), 8), could_not(&[(Speed, 1), (Acceleration, 2)]));
        let blended = Axis { half_period: 3, ..axis(10, 1, 0, 4) };
        assert_eq!(earlier(0, &blended, 3), could_not(&[]));
        assert_eq!(
            (earlier(0, &axis(10, 1, 0, 4), 4), earlier(0, &axis(10, 1, 0, 4), 0)),
            (Earlier::Could, Earlier::NoTick)
        );
    }

    /// One axis twice, the second time on a pole of half period 2, by which it arrives later.
    #[test]
    fn arrivals_alone_and_together() {
        let slow = axis(10, 1, 0, 4);
        let job = Job::earliest().with_axis(0, slow).with_axis(3, Axis { half_period: 2, ..slow });
        let arrivals = Arrivals::of(&job, job.arrival_found().expect("a plan"));
        assert_eq!((arrivals.found, arrivals.least, arrivals.least_unblended), (6, Some(6), Some(4)));
        assert_eq!(arrivals.setting(6).collect::<Vec<_>>(), [3]);
        assert_eq!((arrivals.axes[0].alone, arrivals.axes[1].alone_unblended), (Some(4), Some(4)));
    }
}
