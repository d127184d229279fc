//! Jobs as 32-bit words: the top four bits of a word are its kind, the low 28 its payload.

use std::fmt;

use crate::damping::Damping;
use crate::job::{Arrival, Axis, Job, RestPoint, State, Target};
use crate::refusal::Refusal;
use crate::AXES;

/// What a word of a job holds.
///
/// In order: the mask, the arrival, then for each axis of the mask, lowest first, the eight words
/// from `StartPosition` to `TargetVelocity`, for a pole with a second sway `SecondHalfPeriod` after
/// `SecondWeight`, and for a moving target also `TargetAcceleration` and `TargetTick`; last `End`.
/// A position that its own word cannot hold has a word `HighPosition` just before it.
#[derive(Debug, Clone, Copy, PartialEq, Eq, Hash)]
pub enum WordKind {
    /// Kind 1: which axes take part, bit 0 for axis 0 up to bit 5.
    AxisMask = 1,
    /// Kind 2: 0 for the earliest arrival, or the tick asked for.
    Arrival = 2,
    /// Kind 3: where the head is at tick 0.
    StartPosition = 3,
    /// Kind 4: how fast the head moves at tick 0.
    StartVelocity = 4,
    /// Kind 5: the greatest speed.
    SpeedLimit = 5,
    /// Kind 6: the greatest acceleration.
    AccelerationLimit = 6,
    /// Kind 7: half the period of the sway.
    HalfPeriod = 7,
    /// Kind 8: the blend's second weight.
    SecondWeight = 8,
    /// Kind 9: the position of the target.
    TargetPosition = 9,
    /// Kind 10: the velocity of the target.
    TargetVelocity = 10,
    /// Kind 11: the acceleration of a moving target.
    TargetAcceleration = 11,
    /// Kind 12: the tick at which a moving target's position and velocity hold.
    TargetTick = 12,
    /// Kind 13, after kind 8: half the period of a second sway.
    SecondHalfPeriod = 13,
    /// Kind 14, just before kind 3 or 9: times 2²⁸, and with the following payload read
    /// as unsigned, it is the position.
    HighPosition = 14,
    /// Kind 15: the end of the job, with payload 0.
    End = 15,
}

impl WordKind {
    /// The number in the word's top four bits.
    pub const fn number(self) -> u32 {
        self as u32
    }

    /// Whether the payload is a two's complement number.
    pub const fn is_signed(self) -> bool {
        matches!(self.number(), 3 | 4 | 9..=12 | 14)
    }

    /// The least and the greatest number that a payload of this kind can hold.
    pub const fn payload_range(self) -> (i64, i64) {
        match self.is_signed() {
            true => (-(1 << 27), (1 << 27) - 1),
            false => (0, (1 << 28) - 1),
        }
    }

    /// The least and the greatest number that words can say: of a position in two words, else in
    /// one.
    pub const fn range(self) -> (i64, i64) {
        match self {
            WordKind::StartPosition | WordKind::TargetPosition => (HIGH_LEAST << 28, ((HIGH_GREATEST + 1) << 28) - 1),
            WordKind::HighPosition => (HIGH_LEAST, HIGH_GREATEST),
            _ => self.payload_range(),
        }
    }

    /// What a word of this kind is called, as in `speed limit`.
    pub const fn name(self) -> &'static str {
        match self {
            WordKind::AxisMask => "axis mask",
            WordKind::Arrival => "arrival",
            WordKind::StartPosition => "start position",
            WordKind::StartVelocity => "start velocity",
            WordKind::SpeedLimit => "speed limit",
            WordKind::AccelerationLimit => "acceleration limit",
            WordKind::HalfPeriod => "half period",
            WordKind::SecondWeight => "weight",
            WordKind::TargetPosition => "target position",
            WordKind::TargetVelocity => "target velocity",
            WordKind::TargetAcceleration => "target acceleration",
            WordKind::TargetTick => "target tick",
            WordKind::SecondHalfPeriod => "second half period",
            WordKind::HighPosition => "high part of a position",
            WordKind::End => "end of the job",
        }
    }
}

impl fmt::Display for WordKind {
    fn fmt(&self, f: &mut fmt::Formatter<'_>) -> fmt::Result {
        write!(f, "kind {} ({})", self.number(), self.name())
    }
}

/// Why words are no job: the first word at fault, and what is wrong with it.
#[derive(Debug, Clone, Copy, PartialEq, Eq, Hash)]
pub struct WordError {
    /// The index of the first word at fault, from 0; the number of words where words are lacking.
    pub index: usize,
    /// What is wrong with it.
    pub fault: WordFault,
}

/// What is wrong with a word of a job.
#[derive(Debug, Clone, Copy, PartialEq, Eq, Hash)]
pub enum WordFault {
    /// The mask is 0 or above 63.
    Mask(u32),
    /// The word is of another kind than the one that is due.
    Kind {
        /// The word as it stands.
        found: u32,
        /// The kind that is due.
        due: WordKind,
        /// Other kinds that would do as well.
        or: &'static [WordKind],
    },
    /// The words end where one is due.
    Lacking {
        /// The kind that is due.
        due: WordKind,
    },
    /// The end word's payload is not 0.
    EndPayload(u32),
    /// The word comes after the end of the job.
    LeftOver(u32),
    /// The payload of a word of kind 14 is outside −64 to 63.
    HighPayload(i64),
    /// A word of kind 14 stands before a position that fits a single word.
    FitsOneWord(i64),
}

impl WordError {
    /// The refusal that a call for a table gives to these words: 1 where the mask word is at fault,
    /// 14 where a word of kind 14 has a wrong payload, else 2.
    pub fn refusal(&self) -> Refusal {
        match (self.index, self.fault) {
            (0, _) => Refusal::Mask,
            (index, WordFault::HighPayload(_) | WordFault::FitsOneWord(_)) => Refusal::LongPosition { index },
            (index, _) => Refusal::Words { index },
        }
    }
}

impl fmt::Display for WordError {
    fn fmt(&self, f: &mut fmt::Formatter<'_>) -> fmt::Result {
        write!(f, "word {}: ", self.index)?;
        match self.fault {
            WordFault::Mask(mask) => write!(f, "expected an axis mask from 1 to 63, found {mask}"),
            WordFault::Kind { found, due, or } => {
                write!(f, "expected {due}")?;
                for (index, other) in or.iter().enumerate() {
                    let separator = if index + 1 == or.len() { " or" } else { "," };
                    write!(f, "{separator} {other}")?;
                }
                write!(f, ", found kind {} ({found:08X})", kind_of(found))
            }
            WordFault::Lacking { due } => write!(f, "expected {due}, found no more words"),
            WordFault::EndPayload(payload) => write!(f, "expected payload 0 in the last word, found {payload}"),
            WordFault::LeftOver(found) => write!(f, "expected nothing after the end of the job, found {found:08X}"),
            WordFault::HighPayload(high) => {
                write!(f, "expected {HIGH_LEAST} to {HIGH_GREATEST} in a word of kind 14, found {high}")
            }
            WordFault::FitsOneWord(position) => {
                write!(f, "expected no word of kind 14 before position {position}, which fits a single word")
            }
        }
    }
}

impl std::error::Error for WordError {}

/// Why a job has no words: a number that they cannot hold.
#[derive(Debug, Clone, Copy, PartialEq, Eq, Hash)]
pub struct PayloadError {
    /// The index that the word would have, from 0.
    pub index: usize,
    /// What the word would hold.
    pub kind: WordKind,
    /// The axis, or `None` for the words that belong to the whole job.
    pub axis: Option<usize>,
    /// The number that does not fit.
    pub value: i64,
}

impl fmt::Display for PayloadError {
    fn fmt(&self, f: &mut fmt::Formatter<'_>) -> fmt::Result {
        let (least, greatest) = self.kind.range();
        write!(f, "word {}: ", self.index)?;
        if let Some(axis) = self.axis {
            write!(f, "axis {axis}: ")?;
        }
        let (name, value) = (self.kind.name(), self.value);
        match self.kind {
            WordKind::StartPosition | WordKind::TargetPosition => {
                write!(f, "{name} {value} does not fit its job words, which hold {least} to {greatest}")
            }
            _ => write!(f, "{name} {value} does not fit a job word, which holds {least} to {greatest}"),
        }
    }
}

impl std::error::Error for PayloadError {}

/// Why a job has no words.
#[derive(Debug, Clone, Copy, PartialEq, Eq, Hash)]
#[non_exhaustive]
pub enum NoWords {
    /// A number does not fit its word, or a position its two.
    Number(PayloadError),
    /// The damping as measured has no weight; the planner refuses it with 12.
    Damping {
        /// The first such axis.
        axis: usize,
    },
    /// The job has windows, and words have none.
    Windows,
}

impl From<PayloadError> for NoWords {
    fn from(error: PayloadError) -> NoWords {
        NoWords::Number(error)
    }
}

impl fmt::Display for NoWords {
    fn fmt(&self, f: &mut fmt::Formatter<'_>) -> fmt::Result {
        match self {
            NoWords::Number(error) => error.fmt(f),
            NoWords::Damping { axis } => write!(f, "axis {axis}: the damping as measured has no weight"),
            NoWords::Windows => f.write_str("the job has windows, and job words have none"),
        }
    }
}

impl std::error::Error for NoWords {}

impl Job {
    /// The words of this job.
    ///
    /// Words hold the damping as a weight: where it was measured they have the weight that the
    /// planner works out from it ([`Damping::weight`]), and the table is the same. Values that a
    /// word can hold but that the planner refuses, as a weight of 129, are written as they stand. A
    /// position has one spelling: one word where it fits, else two.
    ///
    /// # Errors
    ///
    /// Windows, which words do not have; else the first axis whose damping as measured
    /// has no weight; else the first number that does not fit the 28 bits of its word,
    /// or as a position its two words.
    pub fn to_words(&self) -> Result<Vec<u32>, NoWords> {
        if self.windows.is_some() {
            return Err(NoWords::Windows);
        }
        if let Some((axis, _)) = self.entered().find(|(_, axis)| axis.damping.weight().is_none()) {
            return Err(NoWords::Damping { axis });
        }
        let mut words = Vec::new();
        push(&mut words, WordKind::AxisMask, None, self.mask().into())?;
        push(&mut words, WordKind::Arrival, None, self.arrival.number().into())?;
        for (number, axis) in self.entered() {
            for (kind, value) in axis.entries() {
                push_entry(&mut words, kind, number, value)?;
            }
        }
        push(&mut words, WordKind::End, None, 0)?;
        Ok(words)
    }

    /// The job that words hold.
    ///
    /// Only what refusals 1, 2 and 14 speak of is looked at; whether the numbers can be
    /// planned is the planner's to say.
    ///
    /// # Errors
    ///
    /// The first word that is not of a kind allowed there, that is lacking or left over, or
    /// whose mask or end payload is wrong; else the first word of kind 14 whose payload is
    /// wrong or whose position fits a single word.
    pub fn from_words(words: &[u32]) -> Result<Job, WordError> {
        let mut reader = Reader { words, index: 0, misspelled: None };
        let mask = reader.mask()?;
        let arrival = Arrival::from(reader.unsigned(WordKind::Arrival)?);
        let mut job = Job { arrival, ..Job::earliest() };
        let mut previous_is_fixed = false;
        for number in (0..AXES).filter(|number| mask >> number & 1 == 1) {
            let axis = reader.axis(previous_is_fixed)?;
            previous_is_fixed = matches!(axis.target, Target::Fixed(_));
            job.axes[number] = Some(axis);
        }
        reader.end(previous_is_fixed)?;
        match reader.misspelled {
            Some(error) => Err(error),
            None => Ok(job),
        }
    }
}

impl Axis {
    /// The numbers of the axis in the order of its words, each with what it is. The weight is that
    /// of the damping, and is left out where the damping as measured has none; so is a second half
    /// period where the pole has none.
    pub fn entries(&self) -> impl Iterator<Item = (WordKind, i64)> {
        let (position, velocity, moving) = match self.target {
            Target::Fixed(RestPoint { position, velocity }) => (position, velocity, None),
            Target::Moving(State { position, velocity, acceleration, tick }) => {
                (position, velocity, Some([(WordKind::TargetAcceleration, acceleration), (WordKind::TargetTick, tick)]))
            }
        };
        let always = [
            (WordKind::StartPosition, self.start.position),
            (WordKind::StartVelocity, self.start.velocity),
            (WordKind::SpeedLimit, self.speed_limit.into()),
            (WordKind::AccelerationLimit, self.acceleration_limit.into()),
            (WordKind::HalfPeriod, self.half_period.into()),
        ];
        let weight = self.damping.weight().map(|weight| (WordKind::SecondWeight, weight.into()));
        let second = self.second_half_period.map(|ticks| (WordKind::SecondHalfPeriod, ticks.into()));
        let target = [(WordKind::TargetPosition, position), (WordKind::TargetVelocity, velocity)];
        always.into_iter().chain(weight).chain(second).chain(target).chain(moving.into_iter().flatten())
    }
}

/// Appends the words of a number of an axis: two for a position that does not fit one.
fn push_entry(words: &mut Vec<u32>, kind: WordKind, axis: usize, value: i64) -> Result<(), PayloadError> {
    let (least, greatest) = kind.range();
    let is_position = matches!(kind, WordKind::StartPosition | WordKind::TargetPosition);
    if is_position && !fits_one_word(value) && (least..=greatest).contains(&value) {
        push(words, WordKind::HighPosition, Some(axis), value >> 28)?;
        words.push(kind.number() << 28 | (value as u32 & PAYLOAD));
        return Ok(());
    }
    push(words, kind, Some(axis), value)
}

/// Appends the word of a kind with a payload, where the payload fits.
fn push(words: &mut Vec<u32>, kind: WordKind, axis: Option<usize>, value: i64) -> Result<(), PayloadError> {
    let (least, greatest) = kind.payload_range();
    if value < least || value > greatest {
        return Err(PayloadError { index: words.len(), kind, axis, value });
    }
    // In range, so the low 28 bits of the two's complement number are the payload.
    words.push(kind.number() << 28 | (value as u32 & PAYLOAD));
    Ok(())
}

/// The least and the greatest payload of a word of kind 14.
const HIGH_LEAST: i64 = -64;
const HIGH_GREATEST: i64 = 63;

/// Whether a position fits a single word.
const fn fits_one_word(position: i64) -> bool {
    -(1 << 27) <= position && position < 1 << 27
}

/// The bits of a word's payload.
const PAYLOAD: u32 = (1 << 28) - 1;

/// The number in a word's top four bits.
const fn kind_of(word: u32) -> u32 {
    word >> 28
}

/// The words of a job with the index of the one to read next, and the first
/// word of kind 14 that is wrong.
struct Reader<'w> {
    words: &'w [u32],
    index: usize,
    misspelled: Option<WordError>,
}

impl Reader<'_> {
    /// A fault of the word to read next.
    fn fault<T>(&self, fault: WordFault) -> Result<T, WordError> {
        Err(WordError { index: self.index, fault })
    }

    /// Whether the word to read next is there and of a kind.
    fn next_is(&self, kind: WordKind) -> bool {
        self.words.get(self.index).is_some_and(|&word| kind_of(word) == kind.number())
    }

    /// The payload of the next word, which is to be of a kind; `or` are kinds
    /// that could have stood there too.
    fn payload(&mut self, due: WordKind, or: &'static [WordKind]) -> Result<u32, WordError> {
        match self.words.get(self.index) {
            None => self.fault(WordFault::Lacking { due }),
            Some(&found) if kind_of(found) != due.number() => self.fault(WordFault::Kind { found, due, or }),
            Some(&word) => {
                self.index += 1;
                Ok(word & PAYLOAD)
            }
        }
    }

    /// The next word's payload as a number from 0 up.
    fn unsigned(&mut self, due: WordKind) -> Result<u32, WordError> {
        self.payload(due, &[])
    }

    /// The next word's payload as a two's complement number.
    fn signed(&mut self, due: WordKind) -> Result<i64, WordError> {
        self.payload(due, &[]).map(sign_extended)
    }

    /// A position: its word, or one of kind 14 and then its word; `or` are kinds
    /// that could have stood there too.
    fn position(&mut self, due: WordKind, or: &'static [WordKind]) -> Result<i64, WordError> {
        if !self.next_is(WordKind::HighPosition) {
            return self.payload(due, or).map(sign_extended);
        }
        let index = self.index;
        let high = self.signed(WordKind::HighPosition)?;
        let position = (high << 28) + i64::from(self.unsigned(due)?);
        let fault = match (HIGH_LEAST..=HIGH_GREATEST).contains(&high) {
            false => Some(WordFault::HighPayload(high)),
            true if fits_one_word(position) => Some(WordFault::FitsOneWord(position)),
            true => None,
        };
        self.misspelled = self.misspelled.or(fault.map(|fault| WordError { index, fault }));
        Ok(position)
    }

    /// The axis mask, 1 to 63.
    fn mask(&mut self) -> Result<u32, WordError> {
        let mask = self.unsigned(WordKind::AxisMask)?;
        if mask == 0 || mask >> AXES != 0 {
            return Err(WordError { index: 0, fault: WordFault::Mask(mask) });
        }
        Ok(mask)
    }

    /// The words of one axis. After one whose target is so far a fixed one, a
    /// word of kind 11 could stand too.
    fn axis(&mut self, previous_is_fixed: bool) -> Result<Axis, WordError> {
        let or: &[WordKind] = match previous_is_fixed {
            true => &[WordKind::TargetAcceleration, WordKind::HighPosition],
            false => &[WordKind::HighPosition],
        };
        let position = self.position(WordKind::StartPosition, or)?;
        let start = RestPoint { position, velocity: self.signed(WordKind::StartVelocity)? };
        let speed_limit = self.unsigned(WordKind::SpeedLimit)?;
        let acceleration_limit = self.unsigned(WordKind::AccelerationLimit)?;
        let half_period = self.unsigned(WordKind::HalfPeriod)?;
        let damping = Damping::Weight(self.unsigned(WordKind::SecondWeight)?);
        let second_half_period = self.second_half_period()?;
        let target = self.target(second_half_period.is_some())?;
        Ok(Axis { start, speed_limit, acceleration_limit, half_period, damping, second_half_period, target })
    }

    /// The second half period, where a word of kind 13 says one.
    fn second_half_period(&mut self) -> Result<Option<u32>, WordError> {
        if !self.next_is(WordKind::SecondHalfPeriod) {
            return Ok(None);
        }
        self.unsigned(WordKind::SecondHalfPeriod).map(Some)
    }

    /// The words of a target; it moves where a word of kind 11 follows its velocity. Where no
    /// second half period stands before them, a word of kind 13 could stand too.
    fn target(&mut self, after_second: bool) -> Result<Target, WordError> {
        let or: &[WordKind] = match after_second {
            true => &[WordKind::HighPosition],
            false => &[WordKind::SecondHalfPeriod, WordKind::HighPosition],
        };
        let position = self.position(WordKind::TargetPosition, or)?;
        let velocity = self.signed(WordKind::TargetVelocity)?;
        if !self.next_is(WordKind::TargetAcceleration) {
            return Ok(Target::Fixed(RestPoint { position, velocity }));
        }
        let acceleration = self.signed(WordKind::TargetAcceleration)?;
        let tick = self.signed(WordKind::TargetTick)?;
        Ok(Target::Moving(State { position, velocity, acceleration, tick }))
    }

    /// The end word, with payload 0 and nothing after it.
    fn end(&mut self, previous_is_fixed: bool) -> Result<(), WordError> {
        let or: &[WordKind] = if previous_is_fixed { &[WordKind::TargetAcceleration] } else { &[] };
        let payload = self.payload(WordKind::End, or)?;
        if payload != 0 {
            self.index -= 1;
            return self.fault(WordFault::EndPayload(payload));
        }
        match self.words.get(self.index) {
            None => Ok(()),
            Some(&word) => self.fault(WordFault::LeftOver(word)),
        }
    }
}

/// A 28-bit two's complement payload as a number.
const fn sign_extended(payload: u32) -> i64 {
    ((payload << 4) as i32 >> 4) as i64
}
