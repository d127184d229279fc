//! Request 2.11: flying fixed targets go, and old job words are converted.

use super::job::refusal;
use super::words::word;
use super::{decode, Answer};

/// The words of the converted job: after the target velocity of each fixed target that flies stand
/// an acceleration of 0 and the asked arrival as its tick. All other words are copied.
fn converted(words: &[u32], asked: u32) -> Vec<u32> {
    let mut list = Vec::new();
    for (i, &one) in words.iter().enumerate() {
        list.push(one);
        let flies = one >> 28 == 10 && one & 0x0FFF_FFFF != 0;
        if flies && words[i + 1] >> 28 != 11 {
            list.extend([word(11, 0), word(12, i64::from(asked))]);
        }
    }
    list
}

/// The call: how many words it writes to the front of the lent ones, or a refusal. The method
/// leaves mask and arrival of an accepted conversion free.
pub fn convert(words: &[u32], lent: &mut [u32]) -> Result<usize, Answer> {
    let job = decode(words)?;
    // A job that asks for an arrival has a conversion, whether its targets fly or not.
    let refused = if job.asked == 0 { job.refused() } else { job.refused_by_old_rules() };
    if let Some(refused) = refused {
        return Err(refused);
    }
    let list = converted(words, job.asked);
    if lent.len() < list.len() {
        return Err(refusal(10, list.len() as u64, 0, 0));
    }
    lent[..list.len()].copy_from_slice(&list);
    Ok(list.len())
}

#[cfg(test)]
mod tests {
    use super::*;
    use crate::jobs::{self, Reach};
    use crate::plain::{asked, flying, job, one, passing, to};
    use crate::random::Random;
    use crate::reference::{plan_words, Axis, Job};

    fn whole(job: &Job) -> Result<Vec<u32>, Answer> {
        let mut lent = [7; 100];
        let count = convert(&jobs::words(job), &mut lent)?;
        assert!(lent[count..].iter().all(|&word| word == 7));
        Ok(lent[..count].to_vec())
    }

    #[test]
    fn f_and_g_are_kept_as_converted_jobs() {
        for tick in [1, 2, 38, 39] {
            let new = asked(one(passing(10, i64::from(tick))), tick);
            assert_eq!(whole(&asked(one(flying(10)), tick)), Ok(jobs::words(&new)));
            assert_eq!(new.plan(&mut [0; 120]).number, if tick == 1 || tick == 39 { 0 } else { 8 });
        }
        let g = asked(job(&[passing(10, 39), to(1)]), 39);
        assert_eq!(whole(&asked(job(&[flying(10), to(1)]), 39)), Ok(jobs::words(&g)));
        assert_eq!(g.plan(&mut [0; 240]).number, 0);
    }

    #[test]
    fn the_lent_words_come_last() {
        let f = jobs::words(&asked(one(flying(10)), 2));
        let mut lent = [7; 14];
        assert_eq!(convert(&f, &mut lent[..13]), Ok(13));
        assert_eq!(lent[13], 7);
        let mut short = [7; 12];
        assert_eq!(convert(&f, &mut short), Err(refusal(10, 13, 0, 0)));
        assert_eq!(short, [7; 12]);
        assert_eq!(convert(&jobs::words(&one(to(1))), &mut [7; 10]), Err(refusal(10, 11, 0, 0)));
    }

    #[test]
    fn seventeen() {
        let refused = |job: Job| job.plan(&mut [0; 300]);
        assert_eq!(refused(one(flying(10))), refusal(17, 0, 0, 0));
        assert_eq!(refused(asked(one(flying(10)), 1)), refusal(17, 0, 0, 0));
        assert_eq!(refused(asked(job(&[to(1), flying(10), flying(30)]), 2)), refusal(17, 1, 0, 0));
        let bad_velocity = Axis { start_velocity: 11, ..to(1) };
        assert_eq!(refused(job(&[flying(10), bad_velocity])), refusal(6, 1, 0, 0));
        let accelerating = Axis { second: Some(1), ..crate::plain::after(0, 0, 1, 0) };
        assert_eq!(refused(job(&[flying(10), accelerating])), refusal(16, 1, 0, 0));
        // In a conversion only where the least arrival is sought.
        assert_eq!(whole(&one(flying(10))), Err(refusal(17, 0, 0, 0)));
        assert_eq!(whole(&asked(job(&[flying(10), bad_velocity]), 5)), Err(refusal(6, 1, 0, 0)));
        assert_eq!(whole(&job(&[flying(10), accelerating])), Err(refusal(16, 1, 0, 0)));
    }

    #[test]
    fn jobs_that_are_copied() {
        let long = Axis { second: Some(3), ..to(1 << 30) };
        for job in [one(to(4)), job(&[to(4), long]), one(passing(10, 5)), asked(job(&[passing(10, 5), long]), 9)] {
            assert_eq!(whole(&job), Ok(jobs::words(&job)));
        }
    }

    /// An old job and its conversion have one answer and one table under the old rules; a converted
    /// job has the same under the rules that hold.
    #[test]
    fn equal_tables_under_the_old_rules() {
        let mut random = Random::new(48);
        let mut accepted = 0;
        for _ in 0..3_000 {
            let old = jobs::old_job(&mut random, Reach::Near);
            let Ok(words) = whole(&old) else { continue };
            let mut tables = [[0; 1_000]; 3];
            let want = old.plan_by_old_rules(&mut tables[0]);
            assert_eq!(decode(&words).unwrap().plan_by_old_rules(&mut tables[1]), want);
            assert_eq!(plan_words(&words, &mut tables[2]), want);
            assert!(tables[0] == tables[1] && tables[0] == tables[2], "{old:?}");
            accepted += usize::from(want.number == 0 && old.set().any(|(_, axis)| axis.target.flies()));
        }
        assert!(accepted > 300, "{accepted}");
    }
}
