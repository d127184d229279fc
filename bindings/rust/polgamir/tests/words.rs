//! Job words: to and from jobs, and the exact word that is at fault.

mod common;

use common::{case_c, field_axis, Random, CASE_C_WORDS};
use polgamir::{
    plan_words, Axis, Job, NoWords, PayloadError, Refusal, RestPoint, Target, WordError, WordFault, WordKind,
};

#[test]
fn case_c_has_the_printed_words() {
    assert_eq!(case_c().to_words().expect("small numbers"), CASE_C_WORDS);
    assert_eq!(Job::from_words(&CASE_C_WORDS), Ok(case_c()));
}

#[test]
fn words_come_back_as_the_same_job() {
    let mut random = Random(0xD00D_F00D_1234_5678);
    for _ in 0..5000 {
        let job = random.any_job();
        let words = job.to_words().expect("numbers that fit");
        assert_eq!(Job::from_words(&words), Ok(job));
    }
}

/// The reader and the planner agree on which words are no job, and on the word at fault.
#[test]
fn damaged_words_are_told_as_the_planner_tells_them() {
    let mut random = Random(0x0BAD_0BAD_0BAD_0BAD);
    let mut faults = 0;
    for _ in 0..20000 {
        let mut words = random.any_job().to_words().expect("numbers that fit");
        for _ in 0..random.between(0, 2) {
            damage(&mut words, &mut random);
        }
        let planned = plan_words(&words, &mut []);
        match Job::from_words(&words) {
            Err(error) => {
                assert_eq!(planned, Err(error.refusal()), "{words:08X?}");
                faults += 1;
            }
            Ok(job) => {
                let refused =
                    matches!(planned, Err(Refusal::Mask | Refusal::Words { .. } | Refusal::LongPosition { .. }));
                assert!(!refused, "{words:08X?}");
                assert_eq!(job.to_words().as_ref(), Ok(&words), "a job has one spelling");
            }
        }
    }
    assert!(faults > 5000, "{faults}");
}

/// Changes, takes away or adds a word.
fn damage(words: &mut Vec<u32>, random: &mut Random) {
    let at = random.between(0, words.len() as i64 - 1) as usize;
    match random.between(1, 5) {
        1 => words.truncate(at),
        2 => words.insert(at, random.bits() as u32),
        3 => words.push(random.bits() as u32),
        4 => {
            words.remove(at);
        }
        _ => words[at] ^= 1 << random.between(0, 31),
    }
    if words.is_empty() {
        words.push(random.bits() as u32);
    }
}

/// The error of case C's words after a change.
fn error_after(change: impl FnOnce(&mut Vec<u32>)) -> WordError {
    let mut words = CASE_C_WORDS.to_vec();
    change(&mut words);
    Job::from_words(&words).expect_err("words that are no job")
}

#[test]
fn each_fault_has_its_index_and_its_sentence() {
    let told = |change: fn(&mut Vec<u32>)| error_after(change).to_string();
    assert_eq!(told(Vec::clear), "word 0: expected kind 1 (axis mask), found no more words");
    assert_eq!(told(|words| words[0] = 0x10000040), "word 0: expected an axis mask from 1 to 63, found 64");
    assert_eq!(told(|words| words[4] = 0x60000001), "word 4: expected kind 5 (speed limit), found kind 6 (60000001)");
    assert_eq!(
        told(|words| words[10] = 0xC0000000),
        "word 10: expected kind 15 (end of the job) or kind 11 (target acceleration), found kind 12 (C0000000)"
    );
    assert_eq!(told(|words| words.truncate(10)), "word 10: expected kind 15 (end of the job), found no more words");
    assert_eq!(told(|words| words[10] = 0xF0000002), "word 10: expected payload 0 in the last word, found 2");
    assert_eq!(told(|words| words.push(7)), "word 11: expected nothing after the end of the job, found 00000007");
    assert_eq!(error_after(|words| words.push(7)).fault, WordFault::LeftOver(7));
}

/// Refusal 14 comes after all of 2, and names the first word of kind 14 that is wrong.
#[test]
fn long_positions_have_their_faults() {
    let told = |change: fn(&mut Vec<u32>)| {
        let error = error_after(change);
        (error.refusal(), error.to_string())
    };
    assert_eq!(
        told(|words| words.insert(8, 0xE000_0000)),
        (
            Refusal::LongPosition { index: 8 },
            "word 8: expected no word of kind 14 before position 1, which fits a single word".into()
        )
    );
    assert_eq!(
        told(|words| {
            words.insert(8, 0xE000_0000);
            words.insert(2, 0xEFFF_FFBF);
        }),
        (Refusal::LongPosition { index: 2 }, "word 2: expected -64 to 63 in a word of kind 14, found -65".into())
    );
    assert_eq!(
        told(|words| {
            words.insert(8, 0xE000_0040);
            words[10] = 0xB000_0000;
        }),
        (Refusal::Words { index: 10 }, "word 10: expected kind 10 (target velocity), found kind 11 (B0000000)".into())
    );
    assert_eq!(
        told(|words| words[8] = 0xA000_0000).1,
        "word 8: expected kind 9 (target position), kind 13 (second half period) or kind 14 (high part of a position), \
         found kind 10 (A0000000)"
    );
    assert_eq!(
        told(|words| {
            words[0] = 0x1000_0003;
            words[10] = 0xC000_0000;
        })
        .1,
        "word 10: expected kind 3 (start position), kind 11 (target acceleration) or kind 14 (high part of a \
         position), found kind 12 (C0000000)"
    );
}

/// The words of a position at rest, and the position of the words: one word where it fits, else
/// two, of which the second is unsigned.
#[test]
fn a_position_has_one_spelling() {
    for (position, high, low) in [
        (-134_217_728, None, 0x0800_0000),
        (134_217_727, None, 0x07FF_FFFF),
        (134_217_728, Some(0x0000_0000), 0x0800_0000),
        (-134_217_729, Some(0x0FFF_FFFF), 0x07FF_FFFF),
        (268_435_456, Some(0x0000_0001), 0),
        (17_179_869_183, Some(0x0000_003F), 0x0FFF_FFFF),
        (-17_179_869_184, Some(0x0FFF_FFC0), 0),
    ] {
        let axis = Axis { start: RestPoint { position, velocity: 0 }, ..field_axis(Target::still(position)) };
        let spelled = |kind: u32| high.map(|high| 0xE000_0000 | high).into_iter().chain([kind << 28 | low]);
        let between = CASE_C_WORDS[3..8].iter().copied();
        let words: Vec<u32> = [0x1000_0001, 0x2000_0000]
            .into_iter()
            .chain(spelled(3))
            .chain(between)
            .chain(spelled(9))
            .chain([0xA000_0000, 0xF000_0000])
            .collect();
        let job = Job::earliest().with_axis(0, axis);
        assert_eq!(job.to_words().as_ref(), Ok(&words));
        assert_eq!(Job::from_words(&words), Ok(job));
        let mut table = [0; 6];
        let landed = plan_words(&words, &mut table).map(|plan| plan.row(1).and_then(|row| row.axis(0)));
        assert_eq!(landed.map(|motion| motion.map(|motion| motion.position)), Ok(Some(256 * position)));
    }
}

#[test]
fn numbers_that_do_not_fit_have_no_words() {
    let axis = field_axis(Target::still(1 << 34));
    let error = Job::earliest().with_axis(2, axis).to_words().expect_err("a position past 35 bits");
    let kind = WordKind::TargetPosition;
    assert_eq!(error, NoWords::Number(PayloadError { index: 8, kind, axis: Some(2), value: 1 << 34 }));
    assert_eq!(
        error.to_string(),
        "word 8: axis 2: target position 17179869184 does not fit its job words, which hold -17179869184 to 17179869183"
    );

    let axis = Axis { speed_limit: 1 << 28, ..field_axis(Target::still(-(1 << 27))) };
    let error = Job::earliest().with_axis(0, axis).to_words().expect_err("a limit past 28 bits");
    assert!(matches!(error, NoWords::Number(PayloadError { index: 4, kind: WordKind::SpeedLimit, .. })));

    let error = Job::arriving_at(1 << 28).to_words().expect_err("an arrival past 28 bits");
    assert!(matches!(error, NoWords::Number(PayloadError { index: 1, kind: WordKind::Arrival, axis: None, .. })));
}
