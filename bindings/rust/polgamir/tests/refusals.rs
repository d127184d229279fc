//! The refusals' sentences, and the line of the set-up sheet that each leads to.

mod common;

use common::{field_axis, Random};
use polgamir::sheet::SheetLine;
use polgamir::{Arrival, Axis, AxisMask, Job, Refusal, Target, WordKind};

/// Every refusal in checking order, with its printed line and its sheet line.
fn all() -> [(Refusal, &'static str, SheetLine); 20] {
    use SheetLine::{EnterLimits, EnterStartAndTarget, ReadTheArrival, ReadTheRefusal, TapThePole};
    [
        (Refusal::Mask, "refused 1 place 0 axes 0 arrival 0", EnterLimits),
        (Refusal::Words { index: 7 }, "refused 2 place 7 axes 0 arrival 0", ReadTheRefusal),
        (Refusal::LongPosition { index: 9 }, "refused 14 place 9 axes 0 arrival 0", ReadTheRefusal),
        (Refusal::AskedArrival, "refused 3 place 1 axes 0 arrival 0", ReadTheArrival),
        (Refusal::Limits { axis: 2 }, "refused 4 place 2 axes 0 arrival 0", EnterLimits),
        (Refusal::Damping { axis: 3 }, "refused 12 place 3 axes 0 arrival 0", TapThePole),
        (Refusal::Blend { axis: 0 }, "refused 5 place 0 axes 0 arrival 0", TapThePole),
        (Refusal::SecondHalfPeriod { axis: 4 }, "refused 15 place 4 axes 0 arrival 0", TapThePole),
        (Refusal::StartOrTarget { axis: 5 }, "refused 6 place 5 axes 0 arrival 0", EnterStartAndTarget),
        (Refusal::Acceleration { axis: 1 }, "refused 16 place 1 axes 0 arrival 0", EnterStartAndTarget),
        (Refusal::FlyingTarget { axis: 3 }, "refused 17 place 3 axes 0 arrival 0", EnterStartAndTarget),
        (Refusal::Windows { place: 0 }, "refused 13 place 0 axes 0 arrival 0", ReadTheArrival),
        (Refusal::Windows { place: 2 }, "refused 13 place 2 axes 0 arrival 0", ReadTheArrival),
        (Refusal::Windows { place: 32 }, "refused 13 place 32 axes 0 arrival 0", ReadTheArrival),
        (Refusal::FirstCandidate, "refused 18 place 0 axes 0 arrival 0", ReadTheRefusal),
        (Refusal::NotReachable { axes: AxisMask(0) }, "refused 8 place 0 axes 0 arrival 0", ReadTheArrival),
        (Refusal::NotReachable { axes: AxisMask(0b100101) }, "refused 8 place 0 axes 37 arrival 0", ReadTheArrival),
        (Refusal::NoCommonArrival { axes: AxisMask(0b10) }, "refused 9 place 0 axes 2 arrival 0", EnterStartAndTarget),
        (Refusal::NoCommonArrival { axes: AxisMask(0) }, "refused 9 place 0 axes 0 arrival 0", EnterStartAndTarget),
        (Refusal::TableTooShort { arrival: 4 }, "refused 10 place 0 axes 0 arrival 4", ReadTheArrival),
    ]
}

/// The sentence of each of them.
const SENTENCES: [&str; 20] = [
    "refused with 1: the axis mask is absent, 0 or above 63: a job has at least one of the axes 0 to 5",
    "refused with 2: word 7 is of a kind not allowed there, lacking or left over, or it ends the job with a payload \
     other than 0",
    "refused with 14: the payload of word 9, of kind 14, is outside -64 to 63, or its position fits a single word",
    "refused with 3: `arrival` asks for a tick above 4096",
    "refused with 4: on axis 2 `speed_limit` is outside 1 to 1048576, or `acceleration_limit` outside 1 to 65536",
    "refused with 12: on axis 3 the first peak of `damping` is not above 0, or its ratio is not a number above 0 and \
     at most 1",
    "refused with 5: on axis 0 `half_period` is outside 0 to 256, or the weight of `damping` outside 1 to 128",
    "refused with 15: on axis 4 `second_half_period` is outside 1 to 256",
    "refused with 6: on axis 5 a `velocity` of `start` or `target` exceeds `speed_limit` in size, the target's \
     `acceleration` exceeds `acceleration_limit`, its `tick` exceeds 4096, or a `position` is outside -17179869184 to \
     17179869183",
    "refused with 16: on axis 1 the target has an `acceleration`, and the axis a `second_half_period`",
    "refused with 17: on axis 3 `target` is fixed and its `velocity` is not 0: a fixed target is at rest, and one \
     that moves uniformly is a moving one with `acceleration` 0",
    "refused with 13: `windows` is an empty list, or window 0 does not close after it opens",
    "refused with 13: window 2 does not close after it opens, or opens before window 1 closes",
    "refused with 13: `windows` has more than 32 windows, or its dwell is above 4096",
    "refused with 18: the first candidate of the search is 0 or above 4097",
    "refused with 8: every axis can arrive at the tick that `arrival` asks for, but it fits no window",
    "refused with 8: axes 0, 2 and 5 cannot arrive at the tick that `arrival` asks for",
    "refused with 9: axis 1 can arrive at no tick from 1 to 4096",
    "refused with 9: each axis can arrive, but no tick from 1 to 4096 suits all of them and the windows, if any",
    "refused with 10: the arrival is 4, and the lent table has fewer than 3 cells for each axis and row",
];

#[test]
fn sentences_speak_of_fields() {
    for ((refusal, printed, line), sentence) in all().into_iter().zip(SENTENCES) {
        assert_eq!(refusal.printed_line(), printed);
        assert_eq!(SheetLine::after(&refusal), line);
        assert_eq!(refusal.to_string(), sentence);
    }
}

#[test]
fn every_number_of_a_job_has_its_case() {
    let mut numbers: Vec<u32> = all().iter().map(|(refusal, ..)| refusal.number()).collect();
    numbers.dedup();
    assert_eq!(numbers, [1, 2, 14, 3, 4, 12, 5, 15, 6, 16, 17, 13, 18, 8, 9, 10]);
}

#[test]
fn sets_of_axes_read_as_words() {
    let told = |mask| AxisMask(mask).to_string();
    assert_eq!(
        [told(0), told(8), told(9), told(63)],
        ["no axis", "axis 3", "axes 0 and 3", "axes 0, 1, 2, 3, 4 and 5"]
    );
    assert!(AxisMask(0).is_empty() && AxisMask(4).contains(2) && !AxisMask(4).contains(64));
}

#[test]
fn every_sheet_line_says_what_it_catches() {
    for line in SheetLine::ALL {
        assert!(!line.text().is_empty() && !line.catches().is_empty());
    }
}

/// The first of the refusals 4, 12, 5, 15 and 6 that a job's ranges call for, and its axis.
fn called_for(job: &Job) -> Option<Refusal> {
    let of = |number: u32| {
        let at_fault = |axis: &Axis| axis.out_of_range().any(|fault| fault.refusal_number() == number);
        job.entered().find(|(_, axis)| at_fault(axis)).map(|(axis, _)| axis)
    };
    let limits = of(4).map(|axis| Refusal::Limits { axis });
    let unmeasured = job.entered().find(|(_, axis)| axis.damping.weight().is_none());
    let limits = limits.or(unmeasured.map(|(axis, _)| Refusal::Damping { axis }));
    let blend = of(5).map(|axis| Refusal::Blend { axis });
    let second = of(15).map(|axis| Refusal::SecondHalfPeriod { axis });
    limits.or(blend).or(second).or(of(6).map(|axis| Refusal::StartOrTarget { axis }))
}

/// The ranges are the planner's: it refuses with 4, 5, 15 or 6 exactly where a number is
/// outside its range, at that axis.
#[test]
fn the_planner_keeps_the_same_ranges() {
    let mut random = Random(0x4A6E_5EED_0000_0011);
    let mut refused = [0; 16];
    for round in 0..20000 {
        let mut job = random.plannable_job();
        job.arrival = Arrival::from(1);
        for axis in job.axes.iter_mut().flatten() {
            if round % 4 == 0 {
                put_at_an_end(axis, &mut random);
            }
        }
        let called_for = called_for(&job);
        if let Some(refusal) = called_for {
            refused[refusal.number() as usize] += 1;
            assert_eq!(job.arrival_found(), Err(refusal), "{job:?}");
        } else if let Err(refusal) = job.arrival_found() {
            assert!(![4, 5, 15, 6].contains(&refusal.number()), "{job:?}");
        }
    }
    assert!([4, 5, 15, 6].iter().all(|&number: &usize| refused[number] > 100), "{refused:?}");
}

/// Sets one number of an axis to an end of its range, or one past it.
fn put_at_an_end(axis: &mut Axis, random: &mut Random) {
    let entries: Vec<_> = axis.entries().map(|(entry, _)| entry).collect();
    let entry = entries[random.between(0, entries.len() as i64 - 1) as usize];
    let (least, greatest) = axis.range_of(entry).into_inner();
    let past = random.between(0, 1);
    let value = if random.once_in(2) { greatest + past } else { least - past };
    match (entry, &mut axis.target) {
        (WordKind::StartPosition, _) => axis.start.position = value,
        (WordKind::TargetPosition, Target::Fixed(point)) => point.position = value,
        (WordKind::TargetPosition, Target::Moving(state)) => state.position = value,
        _ => put_by_words(axis, &entries, entry, value),
    }
}

/// Sets a number of an axis whose numbers have one word each, where the number fits its word.
fn put_by_words(axis: &mut Axis, entries: &[WordKind], entry: WordKind, value: i64) {
    let job = Job::earliest().with_axis(0, *axis);
    let mut words = job.to_words().expect("numbers that fit");
    let index = 2 + entries.iter().position(|&other| other == entry).expect("an entry of the axis");
    words[index] = entry.number() << 28 | (value as u32 & 0x0FFF_FFFF);
    let (low, high) = entry.payload_range();
    if (low..=high).contains(&value) {
        *axis = Job::from_words(&words).expect("the same kinds").axes[0].expect("axis 0");
    }
}

#[test]
fn positions_past_the_range_are_at_fault() {
    let axis = field_axis(Target::still(i64::MIN));
    let faults: Vec<_> = axis.out_of_range().collect();
    assert_eq!(faults.len(), 1);
    assert_eq!((faults[0].value, faults[0].refusal_number()), (i64::MIN, 6));
    assert_eq!(faults[0].range, -17_179_869_184..=17_179_869_183);
}
