//! The refusals: a variant for each number, in checking order, each with its
//! sentence. Number 7 is not used.

use std::fmt;

use crate::tour::LONGEST_DWELL;
use crate::windows::MOST_WINDOWS;
use crate::{AXES, LATEST_ARRIVAL};

/// What a call returns besides the table: the numbers of the C interface's answer.
#[derive(Debug, Clone, Copy, PartialEq, Eq, Hash)]
pub(crate) struct Answer {
    pub number: u32,
    pub place: u64,
    pub mask: u32,
    pub arrival: u32,
}

/// A set of axes: bit i stands for axis i.
#[derive(Debug, Clone, Copy, PartialEq, Eq, Hash)]
pub struct AxisMask(pub u32);

impl AxisMask {
    /// Whether no axis is in the set.
    pub const fn is_empty(self) -> bool {
        self.0 == 0
    }

    /// Whether an axis is in the set.
    pub const fn contains(self, axis: usize) -> bool {
        axis < AXES && self.0 >> axis & 1 == 1
    }

    /// The axes of the set, lowest first.
    pub fn axes(self) -> impl Iterator<Item = usize> {
        (0..AXES).filter(move |&axis| self.contains(axis))
    }
}

/// The set as words of a sentence: `axis 0`, `axes 0 and 2`, `axes 0, 1 and 2`.
impl fmt::Display for AxisMask {
    fn fmt(&self, f: &mut fmt::Formatter<'_>) -> fmt::Result {
        let numbers: Vec<String> = self.axes().map(|axis| axis.to_string()).collect();
        match numbers.split_last() {
            None => f.write_str("no axis"),
            Some((only, [])) => write!(f, "axis {only}"),
            Some((last, before)) => write!(f, "axes {} and {last}", before.join(", ")),
        }
    }
}

/// Why a job has no table. A refused call writes nothing.
///
/// As text it is a sentence that speaks of the job's fields:
///
/// ```
/// use polgamir::Refusal;
///
/// assert_eq!(
///     Refusal::Blend { axis: 1 }.to_string(),
///     "refused with 5: on axis 1 `half_period` is outside 0 to 256, or the weight of `damping` outside 1 to 128"
/// );
/// ```
///
/// [`Axis::out_of_range`](crate::Axis::out_of_range) tells which number is at fault in 4, 5, 15
/// and 6.
#[derive(Debug, Clone, Copy, PartialEq, Eq, Hash)]
#[non_exhaustive]
pub enum Refusal {
    /// 1: the mask word is absent, not of kind 1, or its payload is 0 or above 63; of a
    /// [`Job`](crate::Job): it has no axis.
    Mask,
    /// 2: a word is not of a kind allowed next, the end payload is not 0, or
    /// words are lacking or left over.
    Words {
        /// The first such word's index from 0, or the word count where words are lacking.
        index: usize,
    },
    /// 14: a kind 14 payload is outside −64 to 63, or its position fits a single word.
    LongPosition {
        /// The first such word's index from 0.
        index: usize,
    },
    /// 3: the asked arrival is above 4,096.
    AskedArrival,
    /// 4: the speed limit or the acceleration limit is outside its range.
    Limits {
        /// The first such axis.
        axis: usize,
    },
    /// 12: of damping as measured, also when the half period is 0: the first peak is not above
    /// zero, or the ratio is not a number above 0 and at most 1.
    Damping {
        /// The first such axis.
        axis: usize,
    },
    /// 5: the half period or the weight of the damping is outside its range, the weight
    /// also when the half period is 0.
    Blend {
        /// The first such axis.
        axis: usize,
    },
    /// 15: a second half period is outside its range.
    SecondHalfPeriod {
        /// The first such axis.
        axis: usize,
    },
    /// 6: start or target velocity exceeds the speed limit in size, target acceleration exceeds the
    /// acceleration limit in size, target tick exceeds 4,096 in size, or a position is outside
    /// −17,179,869,184 to 17,179,869,183.
    StartOrTarget {
        /// The first such axis.
        axis: usize,
    },
    /// 16: the target accelerates on an axis with a second half period.
    Acceleration {
        /// The first such axis.
        axis: usize,
    },
    /// 17: a fixed target has a velocity that is not 0; the converter
    /// ([`convert`](crate::convert())) refuses it only in a job that seeks the least arrival.
    FlyingTarget {
        /// The first such axis.
        axis: usize,
    },
    /// 13: the window list is empty; there are more than 32 windows, or then the dwell
    /// is above 4,096; then a window's closing is not above its opening, or it opens
    /// before the previous one closes.
    Windows {
        /// 0 for an empty list, 32 for too many windows or too long a dwell, else the first such
        /// window.
        place: usize,
    },
    /// 18: the first candidate of a search is 0 or above 4,097; only
    /// [`Job::search`](crate::Job::search) and [`search_words`](crate::search_words) get it.
    FirstCandidate,
    /// 8: the asked arrival is not reachable for every axis, or fits no window.
    NotReachable {
        /// The axes for which it is not reachable; none where it is for all.
        axes: AxisMask,
    },
    /// 9: no common arrival is asked for and none exists in 1 to 4,096, or none that fits a window.
    NoCommonArrival {
        /// The axes that alone reach none, whatever the windows; perhaps no axis.
        axes: AxisMask,
    },
    /// 10: the lent table has fewer than 3 × axes × (arrival + 1) cells.
    TableTooShort {
        /// The arrival that the table would have had.
        arrival: u32,
    },
    /// 10 of the converter: fewer words are lent than the converted job has.
    WordsTooFew {
        /// How many it has.
        needed: usize,
    },
    /// A number that this crate has no name for, from a library that knows more refusals.
    Other {
        /// The refusal's number.
        number: u32,
        /// The place, as a word's index or an axis.
        place: u64,
        /// The axes named.
        axes: AxisMask,
        /// The arrival named.
        arrival: u32,
    },
}

impl Refusal {
    /// The refusal with the numbers of an answer that is none of acceptance.
    pub(crate) fn from_answer(answer: Answer) -> Refusal {
        let Answer { number, place, mask, arrival } = answer;
        let axes = AxisMask(mask);
        // An axis or the index of a word in a slice: both fit.
        let index = place as usize;
        match number {
            1 => Refusal::Mask,
            2 => Refusal::Words { index },
            3 => Refusal::AskedArrival,
            4 => Refusal::Limits { axis: index },
            5 => Refusal::Blend { axis: index },
            6 => Refusal::StartOrTarget { axis: index },
            8 => Refusal::NotReachable { axes },
            9 => Refusal::NoCommonArrival { axes },
            10 => Refusal::TableTooShort { arrival },
            12 => Refusal::Damping { axis: index },
            13 => Refusal::Windows { place: index },
            14 => Refusal::LongPosition { index },
            15 => Refusal::SecondHalfPeriod { axis: index },
            16 => Refusal::Acceleration { axis: index },
            17 => Refusal::FlyingTarget { axis: index },
            18 => Refusal::FirstCandidate,
            _ => Refusal::Other { number, place, axes, arrival },
        }
    }

    /// The refusal's number.
    pub const fn number(&self) -> u32 {
        match *self {
            Refusal::Mask => 1,
            Refusal::Words { .. } => 2,
            Refusal::AskedArrival => 3,
            Refusal::Limits { .. } => 4,
            Refusal::Blend { .. } => 5,
            Refusal::StartOrTarget { .. } => 6,
            Refusal::NotReachable { .. } => 8,
            Refusal::NoCommonArrival { .. } => 9,
            Refusal::TableTooShort { .. } | Refusal::WordsTooFew { .. } => 10,
            Refusal::Damping { .. } => 12,
            Refusal::Windows { .. } => 13,
            Refusal::LongPosition { .. } => 14,
            Refusal::SecondHalfPeriod { .. } => 15,
            Refusal::Acceleration { .. } => 16,
            Refusal::FlyingTarget { .. } => 17,
            Refusal::FirstCandidate => 18,
            Refusal::Other { number, .. } => number,
        }
    }

    /// The place: a word's index for 2 and 14, 1 for 3, the axis for 4 to 6, 12 and 15
    /// to 17, the window or 32 for 13, the number of words needed for 10 of the
    /// converter, and 0 where no place is named.
    pub const fn place(&self) -> u64 {
        match *self {
            Refusal::Words { index } | Refusal::LongPosition { index } => index as u64,
            Refusal::Windows { place } => place as u64,
            Refusal::WordsTooFew { needed } => needed as u64,
            Refusal::AskedArrival => 1,
            Refusal::Other { place, .. } => place,
            _ => match self.axis() {
                Some(axis) => axis as u64,
                None => 0,
            },
        }
    }

    /// The axis that refusals 4 to 6, 12 and 15 to 17 name.
    pub const fn axis(&self) -> Option<usize> {
        match *self {
            Refusal::Limits { axis }
            | Refusal::Damping { axis }
            | Refusal::Blend { axis }
            | Refusal::SecondHalfPeriod { axis }
            | Refusal::StartOrTarget { axis }
            | Refusal::Acceleration { axis }
            | Refusal::FlyingTarget { axis } => Some(axis),
            _ => None,
        }
    }

    /// The axes that refusals 8 and 9 name; empty for the others.
    pub const fn mask(&self) -> AxisMask {
        match *self {
            Refusal::NotReachable { axes } | Refusal::NoCommonArrival { axes } | Refusal::Other { axes, .. } => axes,
            _ => AxisMask(0),
        }
    }

    /// The arrival that refusal 10 names; 0 for the others.
    pub const fn arrival(&self) -> u32 {
        match *self {
            Refusal::TableTooShort { arrival } | Refusal::Other { arrival, .. } => arrival,
            _ => 0,
        }
    }

    /// The line that the table program prints, as `refused 8 place 0 axes 1 arrival 0`.
    pub fn printed_line(&self) -> String {
        let (number, place, mask, arrival) = (self.number(), self.place(), self.mask().0, self.arrival());
        format!("refused {number} place {place} axes {mask} arrival {arrival}")
    }

    /// What is wrong, without the number.
    fn write_cause(&self, f: &mut fmt::Formatter<'_>) -> fmt::Result {
        match self {
            Refusal::Mask => {
                write!(f, "the axis mask is absent, 0 or above 63: a job has at least one of the axes 0 to 5")
            }
            Refusal::Words { index } => write!(
                f,
                "word {index} is of a kind not allowed there, lacking or left over, or it ends the job with a payload \
                 other than 0"
            ),
            Refusal::LongPosition { index } => write!(
                f,
                "the payload of word {index}, of kind 14, is outside -64 to 63, or its position fits a single word"
            ),
            Refusal::AskedArrival => write!(f, "`arrival` asks for a tick above {LATEST_ARRIVAL}"),
            Refusal::Limits { axis } => write!(
                f,
                "on axis {axis} `speed_limit` is outside 1 to 1048576, or `acceleration_limit` outside 1 to 65536"
            ),
            Refusal::Damping { axis } => write!(
                f,
                "on axis {axis} the first peak of `damping` is not above 0, or its ratio is not a number above 0 and \
                 at most 1"
            ),
            Refusal::Blend { axis } => {
                write!(
                    f,
                    "on axis {axis} `half_period` is outside 0 to 256, or the weight of `damping` outside 1 to 128"
                )
            }
            Refusal::SecondHalfPeriod { axis } => write!(f, "on axis {axis} `second_half_period` is outside 1 to 256"),
            Refusal::StartOrTarget { axis } => write!(
                f,
                "on axis {axis} a `velocity` of `start` or `target` exceeds `speed_limit` in size, the target's \
                 `acceleration` exceeds `acceleration_limit`, its `tick` exceeds 4096, or a `position` is outside \
                 -17179869184 to 17179869183"
            ),
            Refusal::Acceleration { axis } => {
                write!(f, "on axis {axis} the target has an `acceleration`, and the axis a `second_half_period`")
            }
            Refusal::FlyingTarget { axis } => write!(
                f,
                "on axis {axis} `target` is fixed and its `velocity` is not 0: a fixed target is at rest, and one that \
                 moves uniformly is a moving one with `acceleration` 0"
            ),
            Refusal::Windows { place: MOST_WINDOWS } => {
                write!(f, "`windows` has more than {MOST_WINDOWS} windows, or its dwell is above {LONGEST_DWELL}")
            }
            Refusal::Windows { place: 0 } => {
                write!(f, "`windows` is an empty list, or window 0 does not close after it opens")
            }
            Refusal::Windows { place } => {
                let before = place - 1;
                write!(f, "window {place} does not close after it opens, or opens before window {before} closes")
            }
            Refusal::FirstCandidate => {
                write!(f, "the first candidate of the search is 0 or above {}", LATEST_ARRIVAL + 1)
            }
            Refusal::NotReachable { axes } if axes.is_empty() => {
                write!(f, "every axis can arrive at the tick that `arrival` asks for, but it fits no window")
            }
            Refusal::NotReachable { axes } => write!(f, "{axes} cannot arrive at the tick that `arrival` asks for"),
            Refusal::NoCommonArrival { axes } if axes.is_empty() => {
                write!(
                    f,
                    "each axis can arrive, but no tick from 1 to {LATEST_ARRIVAL} suits all of them and the windows, \
                     if any"
                )
            }
            Refusal::NoCommonArrival { axes } => write!(f, "{axes} can arrive at no tick from 1 to {LATEST_ARRIVAL}"),
            Refusal::TableTooShort { arrival } => {
                write!(f, "the arrival is {arrival}, and the lent table has fewer than 3 cells for each axis and row")
            }
            Refusal::WordsTooFew { needed } => write!(f, "the converted job has {needed} words, and fewer are lent"),
            Refusal::Other { number, .. } => {
                write!(f, "the library refuses by a number, {number}, that has no name here")
            }
        }
    }
}

impl fmt::Display for Refusal {
    fn fmt(&self, f: &mut fmt::Formatter<'_>) -> fmt::Result {
        write!(f, "refused with {}: ", self.number())?;
        self.write_cause(f)
    }
}

impl std::error::Error for Refusal {}
