//! Request 2.1: a tour of stops. Each leg is a single typed job from rest to
//! rest that seeks its least arrival.

use super::job::refusal;
use super::{Answer, Axis, Job, Target, LATEST, UNSET};

/// What is common to all legs. Of an axis the start position, the limits and the blend are looked
/// at.
#[derive(Clone, Copy, Debug, PartialEq, Eq)]
pub struct Tour {
    pub mask: u32,
    pub axes: [Axis; 6],
}

/// Where each axis rests, and for how long.
#[derive(Clone, Copy, Debug, PartialEq, Eq)]
pub struct Stop {
    pub positions: [i64; 6],
    pub dwell: u32,
}

/// What a tour returns: its total, or a refusal. The method leaves the other fields of either free.
pub type Toured = Result<u32, Answer>;

pub const MOST_STOPS: usize = 64;

impl Tour {
    /// The job of the leg from positions to positions.
    pub fn leg(&self, from: &[i64; 6], to: &[i64; 6]) -> Job {
        let mut axes = [UNSET; 6];
        for (i, axis) in axes.iter_mut().enumerate() {
            let target = Target::Fixed { position: to[i], velocity: 0 };
            *axis = Axis { start_position: from[i], start_velocity: 0, target, ..self.axes[i] };
        }
        Job { mask: self.mask, asked: 0, axes, windows: None }
    }

    /// Refusal 11: too many stops, or then a dwell that is too long.
    fn refused(stops: &[Stop]) -> Option<Answer> {
        if stops.len() > MOST_STOPS {
            return Some(refusal(11, MOST_STOPS as u64, 0, 0));
        }
        let long = stops.iter().position(|stop| i64::from(stop.dwell) > LATEST)?;
        Some(refusal(11, long as u64, 0, 0))
    }

    /// The arrival at each stop, counted from the tour's start, and the total.
    fn arrivals(&self, stops: &[Stop]) -> Result<(Vec<u32>, u32), Answer> {
        let mut from = self.axes.map(|axis| axis.start_position);
        let mut left = 0;
        let mut arrivals = Vec::new();
        for (place, stop) in stops.iter().enumerate() {
            let leg = self.leg(&from, &stop.positions).arrival_or_refusal();
            let ticks = leg.map_err(|refused| Answer { place: place as u64, ..refused })?;
            arrivals.push(left + ticks);
            left += ticks + stop.dwell;
            from = stop.positions;
        }
        Ok((arrivals, left))
    }

    /// Whether a leg has a long search.
    pub fn searches_past(&self, stops: &[Stop], tick: i64) -> bool {
        let mut from = self.axes.map(|axis| axis.start_position);
        Tour::refused(stops).is_none()
            && stops.iter().any(|stop| {
                let leg = self.leg(&from, &stop.positions);
                from = stop.positions;
                leg.searches_past(tick)
            })
    }

    /// The call: the arrivals of a tour that is not refused are written to the front of the list.
    pub fn plan(&self, stops: &[Stop], list: &mut [u32]) -> Toured {
        if let Some(refused) = Tour::refused(stops) {
            return Err(refused);
        }
        let (arrivals, total) = self.arrivals(stops)?;
        if list.len() < stops.len() {
            return Err(refusal(10, stops.len() as u64, 0, 0));
        }
        list[..stops.len()].copy_from_slice(&arrivals);
        Ok(total)
    }
}

#[cfg(test)]
mod tests {
    use super::*;
    use crate::plain::PLAIN;
    use crate::reference::Damping;

    fn tour(mask: u32, axis: Axis) -> Tour {
        Tour { mask, axes: [axis; 6] }
    }

    fn stop(position: i64, dwell: u32) -> Stop {
        Stop { positions: [position; 6], dwell }
    }

    /// The answer, and the list as it is left.
    fn planned<const N: usize>(tour: Tour, stops: &[Stop], mut list: [u32; N]) -> (Toured, [u32; N]) {
        let toured = tour.plan(stops, &mut list);
        (toured, list)
    }

    const SLOW: Axis = Axis { speed_limit: 1, ..PLAIN };

    #[test]
    fn arrivals_and_total() {
        let there_and_back = [stop(4, 3), stop(0, 5)];
        assert_eq!(planned(tour(1, PLAIN), &there_and_back, [7; 3]), (Ok(16), [4, 11, 7]));
        // A leg of no way takes h + 1.
        let stays = [stop(4, 5), stop(4, 0), stop(0, 7)];
        assert_eq!(planned(tour(1, PLAIN), &stays, [7; 3]), (Ok(21), [4, 10, 14]));
        let swaying = Axis { half_period: 3, ..PLAIN };
        assert_eq!(planned(tour(1, swaying), &[stop(0, 0)], [7]), (Ok(4), [4]));
        assert_eq!(planned(tour(0b100001, PLAIN), &there_and_back, [7; 2]), (Ok(16), [4, 11]));
    }

    #[test]
    fn no_stops_read_nothing() {
        assert_eq!(planned(tour(99, UNSET), &[], []), (Ok(0), []));
        assert_eq!(planned(tour(0, UNSET), &[], [7]), (Ok(0), [7]));
    }

    #[test]
    fn eleven_comes_before_the_legs() {
        assert_eq!(planned(tour(0, PLAIN), &[stop(4, 4_097)], []).0, Err(refusal(11, 0, 0, 0)));
        assert_eq!(planned(tour(0, PLAIN), &[stop(4, 0)], []).0, Err(refusal(1, 0, 0, 0)));
        assert_eq!(planned(tour(1, PLAIN), &[stop(0, 0); 64], [7; 64]).0, Ok(64));
        let mut many = [stop(0, 4_096); 65];
        assert_eq!(planned(tour(1, PLAIN), &many, [7; 65]), (Err(refusal(11, 64, 0, 0)), [7; 65]));
        assert_eq!(planned(tour(1, PLAIN), &many[..64], [7; 64]).0, Ok(64 * 4_097));
        many[3].dwell = 4_097;
        many[9].dwell = u32::MAX;
        assert_eq!(planned(tour(1, PLAIN), &many, [7; 65]).0, Err(refusal(11, 64, 0, 0)));
        assert_eq!(planned(tour(1, PLAIN), &many[..64], [7; 64]).0, Err(refusal(11, 3, 0, 0)));
    }

    #[test]
    fn the_place_is_the_stop() {
        let mut third = tour(4, PLAIN);
        third.axes[2].speed_limit = 0;
        assert_eq!(planned(third, &[stop(4, 0)], [7]), (Err(refusal(4, 0, 0, 0)), [7]));
        let bad_second = [stop(4, 0), stop(1 << 40, 0)];
        assert_eq!(planned(tour(1, PLAIN), &bad_second, [7; 2]), (Err(refusal(6, 1, 0, 0)), [7; 2]));
    }

    #[test]
    fn legs_one_after_the_other_and_the_list_last() {
        let far_then_wrong = [stop(100_000_000, 0), stop(1 << 40, 0)];
        assert_eq!(planned(tour(1, SLOW), &far_then_wrong, [7; 2]).0, Err(refusal(9, 0, 1, 0)));
        let near_then_far = [stop(4, 0), stop(100_000_000, 0)];
        assert_eq!(planned(tour(1, SLOW), &near_then_far, [7]), (Err(refusal(9, 1, 1, 0)), [7]));
        assert_eq!(planned(tour(1, PLAIN), &[stop(4, 0); 2], [7]), (Err(refusal(10, 2, 0, 0)), [7]));
        assert_eq!(planned(tour(1, PLAIN), &[stop(4, 0)], []), (Err(refusal(10, 1, 0, 0)), []));
    }

    /// A leg's arrival is that of its single typed job, which gives its table.
    #[test]
    fn every_leg_is_a_single_typed_job() {
        let tour = tour(0b101, Axis { half_period: 2, damping: Damping::Weight(100), ..PLAIN });
        let stops = [stop(30, 9), stop(-7, 0), stop(-7, 1)];
        let (_, list) = planned(tour, &stops, [0; 3]);
        let (mut from, mut left) = ([0; 6], 0);
        for (stop, arrival) in stops.iter().zip(list) {
            let mut table = vec![0; 1_000];
            let answer = tour.leg(&from, &stop.positions).plan(&mut table);
            assert_eq!((answer.number, left + answer.arrival), (0, arrival));
            (from, left) = (stop.positions, arrival + stop.dwell);
        }
    }
}
