//! Jobs as words: refusals 1, 2 and 14, and the call with job words.

use super::job::refusal;
use super::{Answer, Axis, Damping, Job, Order, Target, UNSET};

/// The word of a kind with a payload, of which 28 bits are kept.
pub fn word(kind: u32, payload: i64) -> u32 {
    kind << 28 | (payload as u32 & 0x0FFF_FFFF)
}

/// A payload read as two's complement of 28 bits.
fn signed(payload: u32) -> i64 {
    i64::from((payload << 4) as i32 >> 4)
}

/// Whether a position has its spelling in a single word.
pub fn fits_a_word(position: i64) -> bool {
    (-(1 << 27)..1 << 27).contains(&position)
}

/// Job words, read one after the other.
struct Reader<'a> {
    words: &'a [u32],
    at: usize,
    /// The index of the first word of kind 14 that refusal 14 is about.
    misspelled: Option<usize>,
}

impl Reader<'_> {
    fn refused(&self) -> Answer {
        refusal(2, self.at as u64, 0, 0)
    }

    fn next_is(&self, kind: u32) -> bool {
        self.at < self.words.len() && self.words[self.at] >> 28 == kind
    }

    fn unsigned(&mut self, kind: u32) -> Result<u32, Answer> {
        if !self.next_is(kind) {
            return Err(self.refused());
        }
        self.at += 1;
        Ok(self.words[self.at - 1] & 0x0FFF_FFFF)
    }

    fn signed(&mut self, kind: u32) -> Result<i64, Answer> {
        self.unsigned(kind).map(signed)
    }

    /// A position: a word of its kind, alone or just after one of kind 14 (request 2.8).
    fn position(&mut self, kind: u32) -> Result<i64, Answer> {
        if !self.next_is(14) {
            return self.signed(kind);
        }
        let long = self.at;
        let high = self.signed(14)?;
        let position = (high << 28) + i64::from(self.unsigned(kind)?);
        if !(-64..=63).contains(&high) || fits_a_word(position) {
            self.misspelled.get_or_insert(long);
        }
        Ok(position)
    }

    /// A word that may be left out.
    fn optional(&mut self, kind: u32) -> Result<Option<u32>, Answer> {
        self.next_is(kind).then(|| self.unsigned(kind)).transpose()
    }

    fn target(&mut self) -> Result<Target, Answer> {
        let position = self.position(9)?;
        let velocity = self.signed(10)?;
        if self.next_is(11) {
            let acceleration = self.signed(11)?;
            Ok(Target::Moving { position, velocity, acceleration, tick: self.signed(12)? })
        } else {
            Ok(Target::Fixed { position, velocity })
        }
    }

    /// An axis, its words in the order of the fields.
    fn axis(&mut self) -> Result<Axis, Answer> {
        Ok(Axis {
            start_position: self.position(3)?,
            start_velocity: self.signed(4)?,
            speed_limit: self.unsigned(5)?,
            acceleration_limit: self.unsigned(6)?,
            half_period: self.unsigned(7)?,
            damping: Damping::Weight(self.unsigned(8)?),
            second: self.optional(13)?,
            target: self.target()?,
        })
    }

    fn end(&mut self) -> Result<(), Answer> {
        if !self.next_is(15) || self.words[self.at] & 0x0FFF_FFFF != 0 {
            return Err(self.refused());
        }
        self.at += 1;
        if self.at < self.words.len() {
            Err(self.refused())
        } else {
            Ok(())
        }
    }
}

/// The job that words hold, or the refusal by 1, 2 or 14.
pub fn decode(words: &[u32]) -> Result<Job, Answer> {
    let mut reader = Reader { words, at: 0, misspelled: None };
    let mask = reader.unsigned(1).map_err(|_| refusal(1, 0, 0, 0))?;
    if !(1..=63).contains(&mask) {
        return Err(refusal(1, 0, 0, 0));
    }
    let asked = reader.unsigned(2)?;
    let mut axes = [UNSET; 6];
    for (i, axis) in axes.iter_mut().enumerate() {
        if mask >> i & 1 == 1 {
            *axis = reader.axis()?;
        }
    }
    reader.end()?;
    match reader.misspelled {
        Some(index) => Err(refusal(14, index as u64, 0, 0)),
        None => Ok(Job { mask, asked, axes, windows: None }),
    }
}

/// The call with job words, for rows in either order.
pub fn plan_words_in(order: Order, words: &[u32], table: &mut [i64]) -> Answer {
    match decode(words) {
        Ok(job) => job.plan_checked(order, table),
        Err(refused) => refused,
    }
}

/// The call with job words.
pub fn plan_words(words: &[u32], table: &mut [i64]) -> Answer {
    plan_words_in(Order::Forwards, words, table)
}

#[cfg(test)]
mod tests {
    use super::*;
    use crate::jobs::words;
    use crate::plain::{one, to};

    /// Case C's words with the target position in two words.
    fn long_target(high: i64, low: i64) -> Vec<u32> {
        let mut list = words(&one(to(0)));
        list.splice(8..9, [word(14, high), word(9, low)]);
        list
    }

    fn target(list: &[u32]) -> Result<i64, (u32, u64)> {
        decode(list).map(|job| job.axes[0].target.position()).map_err(|Answer { number, place, mask, arrival }| {
            assert_eq!((mask, arrival), (0, 0));
            (number, place)
        })
    }

    #[test]
    fn positions_in_two_words() {
        let refused = Err((14, 8));
        assert_eq!(target(&long_target(0, 1 << 27)), Ok(1 << 27));
        assert_eq!(target(&long_target(0, (1 << 27) - 1)), refused);
        assert_eq!(target(&long_target(-1, (1 << 27) - 1)), Ok(-(1 << 27) - 1));
        assert_eq!(target(&long_target(-1, 1 << 27)), refused);
        assert_eq!(target(&long_target(63, (1 << 28) - 1)), Ok((1 << 34) - 1));
        assert_eq!(target(&long_target(-64, 0)), Ok(-(1 << 34)));
        assert_eq!(target(&long_target(64, 0)), refused);
        assert_eq!(target(&long_target(-65, 0)), refused);
        assert_eq!(target(&long_target(-(1 << 27), 5)), refused);
        assert_eq!(target(&long_target((1 << 27) - 1, 5)), refused);
        assert_eq!(target(&words(&one(to(-(1 << 27))))), Ok(-(1 << 27)));
    }

    #[test]
    fn where_fourteen_stands() {
        // A wrong word after a word of kind 14 is refused by 2, and so is a
        // word of kind 14 elsewhere or twice.
        let mut wrong = long_target(64, 0);
        wrong[9] = word(10, 0);
        assert_eq!(target(&wrong), Err((2, 9)));
        for at in [1, 3, 4, 5, 6, 7, 8, 10, 11] {
            let mut stray = long_target(1, 0);
            stray.insert(at, word(14, 1));
            assert_eq!(target(&stray), Err((2, at as u64 + u64::from(at == 8))), "{at}");
        }
        // After all of 2, before 3; the first such word is the place.
        let mut short = long_target(64, 0);
        short.pop();
        assert_eq!(target(&short), Err((2, 11)));
        let mut late = long_target(64, 0);
        late[1] = word(2, 4_097);
        assert_eq!(target(&late), Err((14, 8)));
        late.splice(2..3, [word(14, 0), word(3, 0)]);
        assert_eq!(target(&late), Err((14, 2)));
    }

    #[test]
    fn a_second_half_period_in_words() {
        let with = |second: Option<u32>| one(Axis { second, ..to(1 << 27) });
        let list = words(&with(Some(7)));
        assert_eq!(list[7..11], [word(8, 128), word(13, 7), word(14, 0), word(9, 1 << 27)]);
        assert_eq!(decode(&list).unwrap().axes[0].second, Some(7));
        assert_eq!(decode(&words(&with(None))).unwrap().axes[0].second, None);
        // In no other place, and once only.
        for at in (1..=list.len() - 1).filter(|&at| at != 8) {
            let mut stray = list.clone();
            stray.insert(at, word(13, 7));
            assert_eq!(target(&stray), Err((2, at as u64)), "{at}");
        }
        let answer = plan_words(&words(&with(Some(0))), &mut []);
        assert_eq!((answer.number, answer.place), (15, 0));
    }

    /// Every position has one spelling, of one word where that is enough.
    #[test]
    fn one_spelling() {
        let ends = [0, 1 << 27, 1 << 28, 1 << 33, 1 << 34].map(|end: i64| [end - 1, end, -end - 1, -end]);
        for position in ends.into_iter().flatten().filter(|p| (-(1 << 34)..1 << 34).contains(p)) {
            let list = words(&one(to(position)));
            assert_eq!(list.len(), 11 + usize::from(!fits_a_word(position)), "{position}");
            assert_eq!(target(&list), Ok(position));
        }
    }
}
