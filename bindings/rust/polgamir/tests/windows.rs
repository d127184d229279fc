//! Windows. The expected values are those of request 2.5 and its readings; 'B4' is the
//! field cases' axis on its way to 4.

mod common;

use common::{changed_case_c, field_axis, Random};
use polgamir::sheet::Sheet;
use polgamir::{Arrival, Axis, AxisMask, Job, NoWords, Refusal, Target, Window, Windows};

/// Windows by their opening and closing ticks.
fn windows_of(ticks: &[(u32, u32)]) -> Vec<Window> {
    ticks.iter().map(|&(opening, closing)| Window { opening, closing }).collect()
}

/// What B4 gets with windows and a dwell.
fn b4(asked: u32, dwell: u32, ticks: &[(u32, u32)]) -> Result<u32, Refusal> {
    let job =
        Job::arriving_at(asked).with_axis(0, field_axis(Target::still(4))).with_windows(dwell, &windows_of(ticks));
    let found = job.arrival_found();
    assert_eq!(job.plan().map(|plan| plan.arrival()), found);
    found
}

/// Refusal 8 with a mask.
fn not_reachable(mask: u32) -> Result<u32, Refusal> {
    Err(Refusal::NotReachable { axes: AxisMask(mask) })
}

/// Refusal 9 with a mask.
fn none(mask: u32) -> Result<u32, Refusal> {
    Err(Refusal::NoCommonArrival { axes: AxisMask(mask) })
}

/// Refusal 13 with a place.
fn wrong(place: usize) -> Result<u32, Refusal> {
    Err(Refusal::Windows { place })
}

#[test]
fn the_least_arrival_fits_a_window() {
    assert_eq!(b4(0, 2, &[(0, 5), (5, 9)]), Ok(5));
    assert_eq!(b4(0, 0, &[(0, 4)]), none(0));
    assert_eq!(b4(0, 2, &[(0, 6)]), Ok(4));
    assert_eq!(b4(0, 3, &[(0, 6), (100, u32::MAX)]), Ok(100));
    assert_eq!(b4(0, 4096, &[(0, u32::MAX)]), Ok(4));
    assert_eq!(b4(0, 1, &[(1, 2)]), none(0));
    assert_eq!(b4(0, 0, &[(4096, 4097)]), Ok(4096));
    assert_eq!(b4(0, 0, &[(4097, u32::MAX)]), none(0));
    let slow = Axis { speed_limit: 1, ..field_axis(Target::still(100_000_000)) };
    let job = Job::earliest().with_axis(0, field_axis(Target::still(4))).with_axis(1, slow);
    assert_eq!(job.with_windows(0, &windows_of(&[(1, 2)])).arrival_found(), none(2));
}

#[test]
fn an_asked_arrival_fits_a_window_too() {
    assert_eq!(b4(4, 0, &[(4, 5)]), Ok(4));
    assert_eq!(b4(3, 0, &[(7, 9)]), not_reachable(1));
    assert_eq!(b4(4, 0, &[(7, 9)]), not_reachable(0));
    assert_eq!(b4(8, 1, &[(7, 9)]), Ok(8));
    assert_eq!(b4(8, 2, &[(7, 9)]), not_reachable(0));
}

#[test]
fn wrong_windows_are_refused_in_their_order() {
    let many: Vec<(u32, u32)> = (0..33).map(|k| (2 * k, 2 * k + 1)).collect();
    assert_eq!(b4(0, 0, &[]), wrong(0));
    assert_eq!(b4(0, 5000, &[]), wrong(0));
    assert_eq!(b4(0, 0, &many), wrong(32));
    assert_eq!(b4(0, 0, &many[..32]), Ok(4));
    assert_eq!(b4(0, 4097, &[(0, 9)]), wrong(32));
    assert_eq!(b4(0, 4097, &[(5, 2)]), wrong(32));
    assert_eq!(b4(0, 0, &[(5, 2)]), wrong(0));
    assert_eq!(b4(0, 0, &[(5, 5)]), wrong(0));
    assert_eq!(b4(0, 0, &[(0, 5), (4, 9)]), wrong(1));
    assert_eq!(b4(0, 0, &[(0, 5), (5, 9), (9, 9), (3, 1)]), wrong(2));
    assert_eq!(b4(3, 0, &[]), wrong(0), "13 before 8");
    assert_eq!(b4(4097, 0, &[]), Err(Refusal::AskedArrival), "3 before 13");
}

#[test]
fn a_job_without_windows_is_planned_as_before() {
    let job = Job::earliest().with_axis(0, field_axis(Target::still(4)));
    assert_eq!((job.windows, job.arrival_found()), (None, Ok(4)));
    let open = job.with_windows(0, &windows_of(&[(0, u32::MAX)]));
    assert_eq!(open.plan(), job.plan());
    assert_ne!(open, job);
}

#[test]
fn any_number_of_windows_may_come_in() {
    let windows = windows_of(&(0..40).map(|k| (10 * k, 10 * k + 9)).collect::<Vec<_>>());
    let kept = Windows::new(3, &windows);
    assert_eq!((kept.dwell(), kept.count(), kept.list()), (3, 40, &windows[..32]));
    assert_eq!((Windows::new(3, &[]).count(), Windows::new(3, &[]).list()), (0, &[][..]));
    assert_eq!(Windows::new(3, &windows[..5]), Windows::new(3, &windows[..5]));
    assert!(kept.fit(6) && !kept.fit(7) && !kept.fit(9) && kept.fit(10));
    let last = Window { opening: u32::MAX - 1, closing: u32::MAX };
    assert!(last.holds(u32::MAX - 1, 1) && !last.holds(u32::MAX - 1, u32::MAX));
}

/// The arrival with windows is the first that the same job without them can be
/// asked for and that a window holds.
#[test]
fn windows_only_leave_out_arrivals() {
    let mut random = Random(0x0025_0000_71D0_0013);
    let (mut accepted, mut refused) = (0, 0);
    for _ in 0..60 {
        let mut job = random.plannable_job();
        job.arrival = Arrival::Earliest;
        let mut tick = 0;
        let mut ticks = Vec::new();
        for _ in 0..random.between(1, 6) {
            let opening = tick + random.small(80) as u32;
            tick = opening + random.between(1, 60) as u32;
            ticks.push((opening, tick));
        }
        let dwell = random.small(30) as u32;
        let with_windows = job.with_windows(dwell, &windows_of(&ticks));
        let fits = |arrival: u32| {
            ticks
                .iter()
                .any(|&(opening, closing)| opening <= arrival && arrival < closing && arrival + dwell <= closing)
        };
        let reaches = |arrival: u32| asked_for(job, arrival).arrival_found().is_ok();
        match (job.arrival_found(), (1..=tick).find(|&arrival| fits(arrival) && reaches(arrival))) {
            (Ok(_), Some(arrival)) => assert_eq!(with_windows.arrival_found(), Ok(arrival), "{with_windows:?}"),
            (Ok(_), None) => assert_eq!(with_windows.arrival_found(), none(0), "{with_windows:?}"),
            (refusal, _) => assert_eq!(with_windows.arrival_found(), refusal, "{with_windows:?}"),
        }
        match with_windows.arrival_found() {
            Ok(_) => accepted += 1,
            Err(_) => refused += 1,
        }
    }
    assert!(accepted > 10 && refused > 10, "{accepted} {refused}");
}

/// A job that asks for an arrival.
fn asked_for(mut job: Job, arrival: u32) -> Job {
    job.arrival = Arrival::from(arrival);
    job
}

#[test]
fn words_have_no_windows() {
    let job = Job::earliest().with_axis(0, field_axis(Target::still(4)));
    assert!(job.to_words().is_ok());
    assert_eq!(job.with_windows(0, &windows_of(&[(0, 9)])).to_words(), Err(NoWords::Windows));
    assert_eq!(job.with_windows(0, &[]).to_words(), Err(NoWords::Windows));
    assert_eq!(NoWords::Windows.to_string(), "the job has windows, and job words have none");
}

#[test]
fn sheets_have_windows_and_a_dwell() {
    let text = changed_case_c("arrival 4", "arrival 4\ndwell 2\nwindow 0 5\nWindow: 5 9");
    let sheet: Sheet = text.parse().expect("a good sheet");
    assert_eq!(sheet.job.windows, Some(Windows::new(2, &windows_of(&[(0, 5), (5, 9)]))));
    assert_eq!((sheet.line_of_dwell(), sheet.line_of_window(1), sheet.line_of_window(2)), (Some(4), Some(6), None));
    assert_eq!(sheet.to_string().parse::<Sheet>().expect("a written sheet").job, sheet.job);
    let empty: Sheet = changed_case_c("arrival 4", "arrival 4\ndwell 2").parse().expect("a good sheet");
    assert_eq!(empty.job.windows, Some(Windows::new(2, &[])));
    assert_eq!(empty.to_string().parse::<Sheet>().expect("a written sheet").job, empty.job);

    let told_of = |lines: &str| {
        let told = changed_case_c("arrival 4", &format!("arrival 4\n{lines}")).parse::<Sheet>();
        told.expect_err("a wrong sheet").to_string()
    };
    assert_eq!(told_of("window 3 9"), "line 4: expected `dwell` beside `window`, found none on the sheet");
    assert_eq!(
        told_of("dwell 1\nwindow 3"),
        "line 5: expected an opening and a closing, both ticks from 0 to 4294967295 or both seconds as in `0.4 s 1.2 \
         s`, after `window`, found `3`"
    );
    assert_eq!(
        told_of("dwell"),
        "line 4: expected a whole number of ticks from 0 to 4096, or seconds as in `0.5 s`, after `dwell`, found the \
         end of the line"
    );
    assert_eq!(told_of("dwell 1\ndwell 2"), "line 5: expected one `dwell`, found another beside that of line 4");
}
