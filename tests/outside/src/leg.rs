//! Rules 4 and 5 of docs/METHOD.md for one axis, by areas.
//!
//! Between its two ramps a clamped velocity list is flat at the cruise. Its sum is therefore the
//! flat rectangle, less what the upper envelope cuts off at either end, plus what the lower
//! envelope adds there. Each of these is a triangle or a trapezium of whole steps, clipped to
//! nothing where a ramp or the flat part is missing.

/// What a velocity list for ticks 0 to `ticks` must meet, in fine steps.
#[derive(Clone, Copy, Debug)]
pub struct Leg {
    /// No velocity exceeds this in size.
    pub limit: i64,
    /// No change of velocity exceeds this in size; at least 1.
    pub slope: i64,
    /// The velocity at tick 0.
    pub first: i64,
    /// The velocity at the last tick.
    pub last: i64,
    /// The last tick, at least 1.
    pub ticks: i64,
    /// The sum of the velocities of ticks 1 to `ticks` - 1.
    pub sum: i64,
}

/// The list that rule 5 chooses.
#[derive(Clone, Copy, Debug)]
pub struct Chosen {
    leg: Leg,
    pub cruise: i64,
    /// The ticks whose velocity is one above its clamped cruise: from
    /// `raised_from` on, `raised` of them.
    raised_from: i64,
    raised: i64,
}

/// The sum over n from `from` to `to` of `height` - `slope` * n, where that is above 0.
fn triangle(height: i64, slope: i64, from: i64, to: i64) -> i64 {
    let to = to.min(height.div_euclid(slope));
    if to < from {
        return 0;
    }
    let count = to - from + 1;
    height * count - slope * ((from + to) * count / 2)
}

fn ceiling(x: i64, by: i64) -> i64 {
    -(-x).div_euclid(by)
}

impl Leg {
    /// The leg with every velocity negated: its upper envelope is this one's lower envelope,
    /// negated.
    fn mirrored(self) -> Leg {
        Leg { first: -self.first, last: -self.last, sum: -self.sum, ..self }
    }

    /// What the two ramps of the upper envelope cut off below `cruise` on ticks 1 to `to`.
    fn cut_off(self, cruise: i64, to: i64) -> i64 {
        // Up to this tick the ramp from the first velocity is the lower of the two.
        let crossing = (self.last - self.first + self.slope * self.ticks).div_euclid(2 * self.slope);
        let rising = triangle(cruise - self.first, self.slope, 1, to.min(crossing));
        let falling = triangle(cruise - self.last, self.slope, self.ticks - to, self.ticks - 1 - crossing);
        rising + falling
    }

    /// The sum over ticks 1 to `to` of `cruise` brought between the envelopes,
    /// for a cruise within the limit.
    pub fn clamped_sum(self, cruise: i64, to: i64) -> i64 {
        cruise * to - self.cut_off(cruise, to) + self.mirrored().cut_off(-cruise, to)
    }

    /// Rule 4: some list of whole velocities meets the leg.
    pub fn has_list(self) -> bool {
        let all = self.ticks - 1;
        self.first.abs() <= self.limit
            && self.last.abs() <= self.limit
            && (self.last - self.first).abs() <= self.slope * self.ticks
            && self.clamped_sum(-self.limit, all) <= self.sum
            && self.sum <= self.clamped_sum(self.limit, all)
    }

    /// Rule 5, for a leg that has a list.
    pub fn chosen(self) -> Chosen {
        let all = self.ticks - 1;
        let (mut cruise, mut beyond) = (-self.limit, self.limit + 1);
        while beyond - cruise > 1 {
            let middle = (cruise + beyond).div_euclid(2);
            if self.clamped_sum(middle, all) <= self.sum {
                cruise = middle;
            } else {
                beyond = middle;
            }
        }
        // A tick rises at cruise + 1 where neither envelope holds it at cruise: from here on,
        // as far as the start's ramps go.
        let free_of_start = ceiling((self.first - cruise).max(cruise + 1 - self.first), self.slope);
        Chosen {
            leg: self,
            cruise,
            raised_from: free_of_start.max(1),
            raised: self.sum - self.clamped_sum(cruise, all),
        }
    }
}

impl Chosen {
    /// The velocity at a tick from 0 to the leg's last.
    pub fn velocity(&self, tick: i64) -> i64 {
        let leg = self.leg;
        if tick == 0 {
            return leg.first;
        }
        if tick == leg.ticks {
            return leg.last;
        }
        let (rise, fall) = (leg.slope * tick, leg.slope * (leg.ticks - tick));
        let upper = leg.limit.min(leg.first + rise).min(leg.last + fall);
        let lower = (-leg.limit).max(leg.first - rise).max(leg.last - fall);
        let raised = self.raised_from <= tick && tick < self.raised_from + self.raised;
        self.cruise.clamp(lower, upper) + i64::from(raised)
    }

    /// The sum of the velocities of ticks 1 to `to`, where `to` is below the leg's last tick.
    pub fn sum(&self, to: i64) -> i64 {
        self.leg.clamped_sum(self.cruise, to) + (to + 1 - self.raised_from).clamp(0, self.raised)
    }
}

#[cfg(test)]
mod tests {
    use super::*;
    use crate::random::Random;
    use std::collections::HashSet;

    /// Every sum over ticks 1 to `ticks` - 1 of a velocity list with the leg's ends and
    /// limits, found by trying all lists.
    fn all_sums(leg: Leg) -> HashSet<i64> {
        let mut reached: HashSet<(i64, i64)> = HashSet::from([(leg.first, 0)]);
        for tick in 1..=leg.ticks {
            let mut next = HashSet::new();
            for (velocity, sum) in reached {
                for v in (velocity - leg.slope).max(-leg.limit)..=(velocity + leg.slope).min(leg.limit) {
                    next.insert((v, if tick < leg.ticks { sum + v } else { sum }));
                }
            }
            reached = next;
        }
        reached.into_iter().filter(|&(v, _)| v == leg.last).map(|(_, sum)| sum).collect()
    }

    /// Rule 5 word for word, tick by tick.
    fn literal(leg: Leg) -> Vec<i64> {
        let clamped = |c: i64, k: i64| {
            let upper = leg.limit.min(leg.first + leg.slope * k).min(leg.last + leg.slope * (leg.ticks - k));
            let lower = (-leg.limit).max(leg.first - leg.slope * k).max(leg.last - leg.slope * (leg.ticks - k));
            c.max(lower).min(upper)
        };
        let sum = |c: i64| (1..leg.ticks).map(|k| clamped(c, k)).sum::<i64>();
        let cruise = (-leg.limit..=leg.limit).rev().find(|&c| sum(c) <= leg.sum).unwrap();
        let mut left = leg.sum - sum(cruise);
        let mut list = vec![leg.first];
        for k in 1..leg.ticks {
            let raise = left > 0 && clamped(cruise + 1, k) > clamped(cruise, k);
            left -= i64::from(raise);
            list.push(clamped(cruise, k) + i64::from(raise));
        }
        list.push(leg.last);
        assert_eq!(left, 0);
        list
    }

    #[test]
    fn a_list_exists_exactly_where_the_areas_say() {
        for limit in 0..=3 {
            for slope in 1..=3 {
                for ticks in 1..=5 {
                    for first in -limit..=limit {
                        for last in -limit..=limit {
                            let leg = Leg { limit, slope, first, last, ticks, sum: 0 };
                            let sums = all_sums(leg);
                            for sum in -limit * ticks - 2..=limit * ticks + 2 {
                                let leg = Leg { sum, ..leg };
                                assert_eq!(leg.has_list(), sums.contains(&sum), "{leg:?}");
                            }
                        }
                    }
                }
            }
        }
    }

    #[test]
    fn the_chosen_list_is_rule_5_word_for_word() {
        let mut random = Random::new(5);
        let mut met = 0;
        while met < 20_000 {
            let limit = random.between(0, 40);
            let slope = random.between(1, 9);
            let ticks = random.between(1, 30);
            let (first, last) = (random.between(-limit, limit), random.between(-limit, limit));
            let sum = random.between(-limit * ticks, limit * ticks);
            let leg = Leg { limit, slope, first, last, ticks, sum };
            if !leg.has_list() {
                continue;
            }
            met += 1;
            let list = literal(leg);
            let chosen = leg.chosen();
            let mut total = 0;
            for k in 0..=ticks {
                assert_eq!(chosen.velocity(k), list[k as usize], "{leg:?} at {k}");
                if 0 < k && k < ticks {
                    total += list[k as usize];
                    assert_eq!(chosen.sum(k), total, "{leg:?} up to {k}");
                }
            }
            assert_eq!(total, sum);
            assert!(list.windows(2).all(|w| (w[1] - w[0]).abs() <= slope), "{leg:?}");
            assert!(list.iter().all(|v| v.abs() <= limit), "{leg:?}");
        }
    }
}
