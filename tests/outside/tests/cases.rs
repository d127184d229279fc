//! The field cases and the traps of docs/METHOD.md, and jobs that its text decides where it is
//! easily misread, with the method's own numbers: the library and the reference both give them,
//! from typed values and from words.

use outside::jobs;
use outside::library;
use outside::plain::{after, asked, flying, job, one, passing, to, PLAIN};
use outside::reference::{self, Answer, Axis, Damping, Job, Windows, UNSET};

/// The answer of all four calls, which agree, and the first axis's rows where it is accepted.
fn outcome(job: Job, cells: usize) -> (Answer, Vec<[i64; 3]>) {
    let tables = &mut [vec![7; cells], vec![7; cells], vec![7; cells], vec![7; cells]];
    let answers = [
        library::plan_typed(&job, &mut tables[0]),
        library::plan_words(&jobs::words(&job), &mut tables[1]),
        job.plan(&mut tables[2]),
        reference::plan_words(&jobs::words(&job), &mut tables[3]),
    ];
    assert!(answers.iter().all(|answer| *answer == answers[0]), "{answers:?}");
    assert!(tables.iter().all(|table| *table == tables[0]));
    let answer = answers[0];
    let mut rows = Vec::new();
    if answer.number == 0 {
        let width = 3 * answer.mask.count_ones() as usize;
        rows =
            tables[0].chunks(width).take(answer.arrival as usize + 1).map(|row| row[..3].try_into().unwrap()).collect();
    }
    (answer, rows)
}

fn arrival(job: Job) -> u32 {
    let (answer, _) = outcome(job, 2_000);
    assert_eq!((answer.number, answer.place, answer.mask), (0, 0, job.mask));
    answer.arrival
}

fn refused(job: Job) -> (u32, u64, u32, u32) {
    let (answer, _) = outcome(job, 2_000);
    (answer.number, answer.place, answer.mask, answer.arrival)
}

fn column(job: Job, which: usize) -> Vec<i64> {
    outcome(job, 2_000).1.iter().map(|row| row[which]).collect()
}

fn positions(job: Job) -> Vec<i64> {
    column(job, 0)
}

fn velocities(job: Job) -> Vec<i64> {
    column(job, 1)
}

fn accelerations(job: Job) -> Vec<i64> {
    column(job, 2)
}

#[test]
fn field_cases() {
    let a = one(Axis { start_position: 5, ..to(5) });
    assert_eq!(outcome(a, 6).1, [[1280, 0, 0], [1280, 0, 0]]);
    let b = one(to(4));
    assert_eq!(positions(b), [0, 128, 512, 896, 1024]);
    let c = asked(one(to(1)), 4);
    assert_eq!(outcome(c, 15).1, [[0, 0, 86], [43, 86, -1], [129, 85, 0], [214, 85, -85], [256, 0, 0]]);
    let d = one(Axis { half_period: 1, ..to(1) });
    assert_eq!(positions(d), [0, 64, 192, 256]);
    assert_eq!(velocities(d), [0, 128, 128, 0]);
    assert_eq!(accelerations(d), [128, 0, -128, 0]);
    assert_eq!(refused(asked(b, 3)), (8, 0, 1, 0));
    let f = |tick: u32| asked(one(passing(10, i64::from(tick))), tick);
    assert_eq!(arrival(f(1)), 1);
    assert_eq!(refused(f(2)), (8, 0, 1, 0));
    assert_eq!(refused(f(38)), (8, 0, 1, 0));
    assert_eq!(arrival(f(39)), 39);
    assert_eq!(arrival(one(to(1))), 2);
    assert_eq!(arrival(asked(job(&[passing(10, 39), to(1)]), 39)), 39);
    let h = one(after(0, 1, 0, 0));
    assert_eq!(velocities(h), [0, 256, 384, 256]);
    assert_eq!(library::plan_words(&[], &mut []).number, 1);
    assert_eq!(library::plan_words(&[0x1000_0040], &mut []).number, 1);
    assert_eq!(library::plan_words(&[0x1000_003F], &mut []), Answer { number: 2, place: 1, mask: 0, arrival: 0 });
    assert_eq!(outcome(c, 14).0, Answer { number: 10, place: 0, mask: 0, arrival: 4 });
    assert_eq!(refused(one(Axis { damping: Damping::Weight(129), ..to(1) })), (5, 0, 0, 0));
    assert_eq!(refused(one(Axis { speed_limit: 1, ..to(100_000_000) })), (9, 0, 1, 0));
}

#[test]
fn the_words_of_case_c() {
    assert_eq!(jobs::words(&asked(one(to(1)), 4)), jobs::CASE_C);
    let bytes: Vec<u8> = jobs::CASE_C.iter().flat_map(|word| word.to_le_bytes()).collect();
    let text = "arrival 4\n0 0 0 86\n1 43 86 -1\n2 129 85 0\n3 214 85 -85\n4 256 0 0\n";
    assert_eq!(reference::printed(&bytes), text);
}

#[test]
fn traps_of_this_trade() {
    let f = |tick: u32| asked(one(passing(30, i64::from(tick))), tick);
    assert_eq!(arrival(f(3)), 3);
    assert_eq!(refused(f(36)), (8, 0, 1, 0));
    assert_eq!(arrival(f(37)), 37);
    assert_eq!(positions(asked(one(Axis { half_period: 1, ..to(1) }), 54))[1], 1);
}

#[test]
fn easily_misread() {
    // The speed limit holds for the planned velocity at landing and at arrival.
    let wide = Axis { acceleration_limit: 2, half_period: 1, ..after(0, 0, 1, 0) };
    assert_eq!(refused(asked(one(wide), 10)), (8, 0, 1, 0));
    // One axis that fails is enough.
    assert_eq!(refused(asked(job(&[passing(10, 2), to(1)]), 2)), (8, 0, 1, 0));
    // N > h even when nothing moves.
    assert_eq!(arrival(one(Axis { start_position: 5, half_period: 1, ..to(5) })), 2);
    // A fixed target that flies becomes a moving one with its tick at the asked arrival.
    let passing =
        |tick: u32| asked(one(Axis { start_velocity: 1, half_period: 4, ..after(8, 1, 0, tick.into()) }), tick);
    assert_eq!(refused(passing(6)), (8, 0, 1, 0));
    assert_eq!(arrival(passing(7)), 7);
    // Half units of a moving target are kept.
    assert_eq!(outcome(one(after(0, 0, 1, 0)), 6).1, [[0, 0, 256], [128, 256, 256]]);
    // Halves go away from zero, and rule 5 is not mirrored.
    let back = asked(one(to(-1)), 4);
    assert_eq!(velocities(back), [0, -85, -85, -86, 0]);
    assert_eq!(positions(back), [0, -43, -128, -213, -256]);
    // A moving target is carried back before its tick.
    assert_eq!(arrival(one(after(10, 1, 0, 10))), 3);
    // By number, then by axis.
    let two = job(&[Axis { half_period: 300, ..to(1) }, Axis { speed_limit: 0, ..to(1) }]);
    assert_eq!(refused(two), (4, 1, 0, 0));
    // The place is the axis's number, not its rank.
    let mut third = Job { mask: 4, ..one(UNSET) };
    third.axes[2] = Axis { speed_limit: 0, ..to(1) };
    assert_eq!(refused(third), (4, 2, 0, 0));
    // Each axis alone arrives, and never both at once.
    assert_eq!(refused(job(&[after(0, 0, 1, 0), to(1000)])), (9, 0, 0, 0));
    // A typed asked arrival above 4,096 names word 1 all the same.
    assert_eq!(refused(asked(one(to(1)), 4_097)), (3, 1, 0, 0));
    // The first offender is the end word, before what is left over.
    let mut words = jobs::words(&one(to(1)));
    *words.last_mut().unwrap() += 1;
    words.push(0);
    let wanted = Answer { number: 2, place: 10, mask: 0, arrival: 0 };
    assert_eq!(library::plan_words(&words, &mut []), wanted);
    assert_eq!(reference::plan_words(&words, &mut []), wanted);
}

/// Request 2.8.
#[test]
fn positions_past_28_bits() {
    let (least, greatest) = (-(1 << 34), (1 << 34) - 1);
    for start in [least, -(1 << 27) - 2, -(1 << 27), (1 << 27) - 4, (1 << 27) - 2, 1 << 27, greatest - 4] {
        let b = one(Axis { start_position: start, ..to(start + 4) });
        assert_eq!(positions(b), [0, 128, 512, 896, 1024].map(|step| 256 * start + step));
    }
    // The longest way: L ticks fewer by L / M than there are.
    let fast = |start_position: i64, position: i64| {
        one(Axis { start_position, speed_limit: 1 << 20, acceleration_limit: 1 << 16, ..to(position) })
    };
    let way = (4_096 - 16) << 20;
    for (start, side) in [(least, 1), (greatest, -1)] {
        let table = &mut vec![0; 3 * 4_097];
        let answer = library::plan_typed(&fast(start, start + side * way), table);
        assert_eq!(answer, Answer { number: 0, place: 0, mask: 1, arrival: 4_096 });
        assert_eq!((table[0], table[3 * 4_096]), (256 * start, 256 * (start + side * way)));
        assert_eq!(refused(fast(start, start + side * (way + 1))), (9, 0, 1, 0));
    }
    for position in [least - 1, greatest + 1] {
        for axis in [to(position), Axis { start_position: position, ..PLAIN }] {
            let answer = library::plan_typed(&one(axis), &mut [0; 300]);
            assert_eq!((answer.number, answer.place), (6, 0));
        }
    }
}

/// Request 2.9.
#[test]
fn poles_with_a_second_sway() {
    let both = one(Axis { half_period: 1, damping: Damping::Weight(100), second: Some(2), ..to(1) });
    let rows = [[0, 0, 78], [39, 78, -28], [103, 50, 28], [167, 78, -28], [231, 50, -50], [256, 0, 0]];
    assert_eq!(outcome(both, 18).1, rows);
    assert_eq!(outcome(both, 17).0, Answer { number: 10, place: 0, mask: 0, arrival: 5 });
    // Cells are rounded once, on the grid of 1/512 unit also where h is 0.
    assert_eq!(outcome(asked(one(Axis { second: Some(1), ..to(1) }), 5), 18).1[1], [21, 43, 43]);
    // Arrival exceeds h + h₂, also where nothing moves.
    let still = one(Axis { half_period: 256, second: Some(256), ..to(0) });
    assert_eq!(refused(asked(still, 512)), (8, 0, 1, 0));
    assert_eq!(arrival(asked(still, 513)), 513);
    // A head that moves starts as it moved before tick 0.
    let passing = Axis { start_velocity: 2, second: Some(2), ..after(2, 2, 0, 1) };
    assert_eq!(outcome(one(passing), 12).1, [[0, 512, 0], [512, 512, 0], [1024, 512, 0], [1536, 512, 0]]);
    // 15 after 5 and before 6; 16 after 6, also where h is 0 or B is 128; both by number, then by
    // axis.
    for (second, number) in [(0, 15), (1, 0), (256, 0), (257, 15)] {
        assert_eq!(outcome(one(Axis { second: Some(second), ..to(1) }), 2_000).0.number, number);
    }
    let swaying = Axis { second: Some(0), ..to(1) };
    assert_eq!(refused(job(&[swaying, Axis { half_period: 257, ..to(1) }])), (5, 1, 0, 0));
    assert_eq!(refused(job(&[Axis { start_velocity: 11, ..to(1) }, swaying])), (15, 1, 0, 0));
    let chasing = Axis { second: Some(1), ..after(0, 0, 1, 0) };
    assert_eq!(refused(one(chasing)), (16, 0, 0, 0));
    assert_eq!(refused(one(Axis { half_period: 1, ..chasing })), (16, 0, 0, 0));
    assert_eq!(refused(job(&[chasing, Axis { start_velocity: 11, ..to(1) }])), (6, 1, 0, 0));
    assert_eq!(refused(asked(job(&[to(1), chasing]), 1)), (16, 1, 0, 0));
}

/// Request 2.11.
#[test]
fn flying_fixed_targets_go() {
    let f = one(flying(10));
    assert_eq!(refused(f), (17, 0, 0, 0));
    for tick in [1, 2, 38, 39] {
        assert_eq!(refused(asked(f, tick)), (17, 0, 0, 0));
    }
    assert_eq!(refused(job(&[to(1), flying(10), flying(30)])), (17, 1, 0, 0));
    // After 6 and 16, before 13 and 8.
    assert_eq!(refused(job(&[flying(10), Axis { start_velocity: 11, ..to(1) }])), (6, 1, 0, 0));
    assert_eq!(refused(job(&[flying(10), Axis { second: Some(1), ..after(0, 0, 1, 0) }])), (16, 1, 0, 0));
    let windowed = Job { windows: Some(Windows::new(0, &[])), ..f };
    assert_eq!(library::plan_typed(&windowed, &mut []).number, 17);
    // A fixed target at rest and a moving one are as they were, also where the latter goes on
    // uniformly.
    assert_eq!(arrival(one(after(10, 0, 0, 7))), arrival(one(to(10))));
}

/// Case C's words, asked for tick 1, with other words for the start and the target position.
fn spelled(start: &[u32], target: &[u32]) -> Vec<u32> {
    let c = jobs::CASE_C;
    [&c[..1], &[jobs::word(2, 1)], start, &c[3..8], target, &c[9..]].concat()
}

/// A position has one spelling only.
#[test]
fn spellings_of_a_position() {
    let half = 1 << 27;
    let long = |kind, high, low| [jobs::word(14, high), jobs::word(kind, low)];
    for (high, low, position) in [
        (0, half, half),
        (-1, half - 1, -half - 1),
        (63, 2 * half - 1, (1 << 34) - 1),
        (-64, 0, -(1 << 34)),
        (1, 0, 2 * half),
        (-2, 2 * half - 1, -2 * half - 1),
    ] {
        let mut table = [7; 6];
        let answer = library::plan_words(&spelled(&long(3, high, low), &long(9, high, low)), &mut table);
        assert_eq!(answer, Answer { number: 0, place: 0, mask: 1, arrival: 1 });
        assert_eq!(table, [256 * position, 0, 0, 256 * position, 0, 0]);
    }
    let short = |kind| [jobs::word(kind, 0)];
    for (high, low) in [(0, half - 1), (0, 0), (-1, half), (64, 0), (-65, 0), (-half, 0), (half - 1, 0)] {
        let refused = |start: &[u32], target: &[u32]| {
            let answer = library::plan_words(&spelled(start, target), &mut []);
            assert_eq!((answer.mask, answer.arrival), (0, 0));
            (answer.number, answer.place)
        };
        assert_eq!(refused(&long(3, high, low), &short(9)), (14, 2));
        assert_eq!(refused(&short(3), &long(9, high, low)), (14, 8));
        assert_eq!(refused(&long(3, 1, 0), &long(9, high, low)), (14, 9));
        // A wrong word after it is refused by 2.
        assert_eq!(refused(&short(3), &long(10, high, low)), (2, 9));
        assert_eq!(refused(&long(14, high, low), &short(9)), (2, 3));
    }
}
