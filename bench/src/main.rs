//! Nanoseconds for a plan, for the search for its arrival and for a row and axis, of the static
//! library and of plain Rust with the same formulas, in one run; beside them also the engine by
//! ticks, in plain Rust. Plain Rust makes the same call, with the job by value in the header's
//! layout; where it lends a typed job instead, that stands beside it.
//!
//!     cargo run --release --offline             all tables
//!     cargo run --release --offline -- parts    that of rows in parts alone
//!
//! Every time is processor time, the least of some batches; a difference is that of the fastest
//! round. The batches of all sides alternate, and each round of them runs at another depth of the
//! stack, whose beginning the system draws by lot for each process: a copy takes longer where it
//! falls across lines of the cache. One table is lent to all calls and is not cleared between them:
//! an accepted call writes every cell of its table, whatever stood there.

mod budgets;
mod call;
mod parts;
mod plain;
mod raises;
mod searches;

use std::hint::black_box;

use outside::library::{self, laid_out};
use outside::reference::{Answer, Axis, Damping, Job, Order, Stop, Target, Tour, UNSET};
use plain::Engine;

/// An axis from rest to rest.
fn axis(speed_limit: u32, acceleration_limit: u32, half_period: u32, second_weight: u32, position: i64) -> Axis {
    let target = Target::Fixed { position, velocity: 0 };
    let damping = Damping::Weight(second_weight);
    Axis { speed_limit, acceleration_limit, half_period, damping, target, ..UNSET }
}

fn one(axis: Axis) -> Job {
    let mut axes = [UNSET; 6];
    axes[0] = axis;
    Job { mask: 1, asked: 0, axes, windows: None }
}

/// Six axes whose own least arrivals are 3,960 to 4,000.
fn six() -> [Axis; 6] {
    [
        axis(1_000, 1, 40, 128, 2_950_000),
        axis(2_000, 2, 256, 100, 5_428_000),
        axis(500, 5, 0, 128, 1_950_000),
        axis(33_000, 700, 80, 128, 127_144_200),
        axis(30_000, 20_000, 12, 90, 119_440_000),
        axis(7_000, 9, 120, 128, 21_435_554),
    ]
}

/// The processor time of this thread in nanoseconds: what other programs take
/// of the processor does not count.
fn now() -> f64 {
    #[repr(C)]
    struct Time {
        seconds: i64,
        nanoseconds: i64,
    }
    extern "C" {
        fn clock_gettime(clock: i32, time: *mut Time) -> i32;
    }
    const THREAD_PROCESSOR_TIME: i32 = 3;
    let mut time = Time { seconds: 0, nanoseconds: 0 };
    assert_eq!(unsafe { clock_gettime(THREAD_PROCESSOR_TIME, &mut time) }, 0);
    time.seconds as f64 * 1e9 + time.nanoseconds as f64
}

/// The times of some calls in one round, in nanoseconds a call: of the library, of plain Rust and
/// of plain Rust with the job lent.
type Round<const N: usize> = [[f64; 3]; N];

/// Makes a call some frames further down the stack.
#[inline(never)]
fn deeper<T>(frames: usize, call: &mut dyn FnMut() -> T) -> T {
    let frame = black_box([0u8; 16]);
    let result = if frames == 0 { call() } else { deeper(frames - 1, call) };
    black_box(frame);
    result
}

/// The rounds of some calls. A call is a job and how many cells it is lent. The batches of all
/// calls alternate, so that a disturbance does not fall on one of them alone.
fn rounds<const N: usize>(calls: [(&Job, usize); N]) -> Vec<Round<N>> {
    let mut table = vec![0; 3 * 6 * 4_097];
    let counts = calls.map(|(job, cells)| once(job, &mut table[..cells]).map(|took| (1e7 / took).ceil() as usize));
    let count = if counts.as_flattened().contains(&1) { 15 } else { 41 };
    let mut round = || {
        std::array::from_fn(|i| {
            let (job, cells) = calls[i];
            let lent = &mut table[..cells];
            let laid_out = laid_out(job, 0);
            let [own, other] = counts[i];
            let proved = batch(own, || library::plan_c_job(laid_out, black_box(&mut *lent)).arrival);
            let plain = batch(other, || call::plan(laid_out, black_box(&mut *lent)).arrival);
            let lending = batch(other, || plain::plan(job, Engine::Areas, black_box(&mut *lent)).arrival);
            [proved, plain, lending]
        })
    };
    (0..count).map(|depth| deeper(depth, &mut round)).collect()
}

/// The least time of each call.
fn time<const N: usize>(calls: [(&Job, usize); N]) -> Round<N> {
    let rounds = rounds(calls);
    let least = |i: usize, side: usize| rounds.iter().map(|round| round[i][side]).fold(f64::INFINITY, f64::min);
    std::array::from_fn(|i| std::array::from_fn(|side| least(i, side)))
}

/// The round of one side in which the calls took least in all: a difference of least times may
/// join rounds of different speed.
fn fastest<const N: usize>(rounds: impl Iterator<Item = [f64; N]>) -> [f64; N] {
    rounds.min_by(|a, b| a.iter().sum::<f64>().total_cmp(&b.iter().sum())).expect("there are rounds")
}

/// The times of one call of the library and of one of plain Rust, after which both must have given
/// the same answer and the same cells: each side's batches are sized by its own.
fn once(job: &Job, lent: &mut [i64]) -> [f64; 2] {
    let start = now();
    let answer = library::plan_typed(job, lent);
    let took = now() - start;
    let written = lent.to_vec();
    lent.fill(0);
    let laid_out = laid_out(job, 0);
    let start = now();
    let plain = call::plan(laid_out, lent);
    let other = now() - start;
    assert_eq!(plain, answer);
    let cells = if answer.number == 0 { cells_of(job, answer.arrival) } else { 0 };
    assert!(lent[..cells] == written[..cells], "the two sides write different cells");
    [took, other]
}

fn batch(calls: usize, mut call: impl FnMut() -> u32) -> f64 {
    let start = now();
    for _ in 0..calls {
        black_box(call());
    }
    (now() - start) / calls as f64
}

fn cells_of(job: &Job, arrival: u32) -> usize {
    3 * job.count() * (arrival as usize + 1)
}

/// The time of one plain call with the engine by ticks, which must give this answer.
fn by_ticks(job: &Job, lent: &mut [i64], answer: Answer) -> f64 {
    let start = now();
    let given = plain::plan(job, Engine::Ticks, lent);
    let took = now() - start;
    assert_eq!(given, answer);
    took
}

/// Prints the line of a whole call, and answers its arrival.
fn whole(name: &str, job: &Job) -> u32 {
    let mut table = vec![0; 3 * 6 * 4_097];
    let answer = library::plan_typed(job, &mut table);
    let [[proved, plain, lending]] = time([(job, table.len())]);
    let took = by_ticks(job, &mut table, answer);
    let rows = answer.arrival + 1;
    println!("| {name} | {rows} rows | {proved:.0} | {plain:.0} | {:.2} | {lending:.0} | {took:.0} |", proved / plain);
    answer.arrival
}

/// Prints what the search for the least arrival takes: the job with one cell too few, which stops
/// before it chooses velocities; a job that is refused by 9 is a search and nothing else.
fn search(name: &str, job: &Job) {
    let mut table = vec![0; 3 * 6 * 4_097];
    let answer = library::plan_typed(&Job { asked: 0, ..*job }, &mut table);
    let cells = if answer.number == 0 { cells_of(job, answer.arrival) - 1 } else { 0 };
    let [[proved, plain, _]] = time([(job, cells)]);
    let stopped = if answer.number == 0 { Answer { number: 10, mask: 0, ..answer } } else { answer };
    let took = by_ticks(job, &mut table[..cells], stopped);
    let what = if answer.number == 0 { format!("arrival {}", answer.arrival) } else { "refused 9".to_string() };
    println!("| {name} | {what} | {proved:.0} | {plain:.0} | {:.2} | {took:.0} |", proved / plain);
}

/// Prints what a row and axis takes, from the choice of the velocities on: an asked
/// job less the same job with too few cells, which stops before it chooses or
/// writes, by the rows and axes written.
fn by_row(name: &str, job: &Job, arrival: u32) {
    let asked = Job { asked: arrival, ..*job };
    let cells = cells_of(job, arrival);
    let rounds = rounds([(&asked, cells), (&asked, cells - 1)]);
    let count = (cells / 3) as f64;
    let written = |[accepted, refused]: [f64; 2]| (accepted - refused) / count;
    let proved = written(fastest(rounds.iter().map(|round| round.map(|times| times[0]))));
    let plain = written(fastest(rounds.iter().map(|round| round.map(|times| times[1]))));
    println!("| {name} | {} rows | {proved:.1} | {plain:.1} | {:.2} |", arrival + 1, proved / plain);
}

/// Prints the same of the library with the rows from tick 0 on and from arrival backwards, after
/// the rows of both were compared.
fn in_either_order(name: &str, job: &Job, arrival: u32) {
    let asked = Job { asked: arrival, ..*job };
    let cells = cells_of(job, arrival);
    let mut table = vec![0; cells];
    let mut rows = |order| {
        library::plan_filled_in(order, &asked, 0, &mut table);
        table.chunks_exact(3 * job.count()).map(<[i64]>::to_vec).collect::<Vec<_>>()
    };
    assert!(
        rows(Order::Forwards).iter().eq(rows(Order::Backwards).iter().rev()),
        "the two orders write different rows"
    );
    let calls = 1_000_000 / cells + 1;
    let mut timed = |order, cells| {
        batch(calls, || library::plan_filled_in(order, &asked, 0, black_box(&mut table[..cells])).arrival)
    };
    let mut round =
        || [timed(Order::Forwards, cells), timed(Order::Backwards, cells), timed(Order::Forwards, cells - 1)];
    let rounds: Vec<[f64; 3]> = (0..41).map(|_| round()).collect();
    let written = |[accepted, refused]: [f64; 2]| 3.0 * (accepted - refused) / cells as f64;
    let forwards = written(fastest(rounds.iter().map(|round| [round[0], round[2]])));
    let backwards = written(fastest(rounds.iter().map(|round| [round[1], round[2]])));
    println!("| {name} | {} rows | {forwards:.1} | {backwards:.1} | {:.2} |", arrival + 1, backwards / forwards);
}

/// A tour of 64 stops of six axes. The legs take about 60 ticks each.
fn many_stops() -> (Tour, Vec<Stop>) {
    let axes = six().map(|axis| Axis { speed_limit: 1_000, acceleration_limit: 20, half_period: 12, ..axis });
    let stop =
        |i: i64| Stop { positions: std::array::from_fn(|axis| (i % 2) * (9_000 + 500 * axis as i64)), dwell: 50 };
    (Tour { mask: 63, axes }, (1..=64).map(stop).collect())
}

/// The plain answers to the legs of a tour one after the other, with no table lent: the last
/// arrival.
fn plain_tour(tour: &Tour, stops: &[Stop]) -> u32 {
    let mut from = [0; 6];
    let mut tick = 0;
    for stop in stops {
        tick += plain::plan(&tour.leg(&from, &stop.positions), Engine::Areas, &mut []).arrival + stop.dwell;
        from = stop.positions;
    }
    tick
}

/// Prints the line of a tour. Both sides must give the same total.
fn tour(name: &str) {
    let (tour, stops) = many_stops();
    let mut arrivals = [0; 64];
    let total = library::plan_tour(&tour, &stops, &mut arrivals).expect("the tour is accepted");
    assert_eq!(plain_tour(&tour, &stops), total);
    let rounds: Vec<(f64, f64)> = (0..41)
        .map(|_| {
            let proved = batch(20, || library::plan_tour(&tour, &stops, black_box(&mut arrivals)).unwrap_or(0));
            (proved, batch(20, || plain_tour(&tour, black_box(&stops))))
        })
        .collect();
    let least = |side: fn(&(f64, f64)) -> f64| rounds.iter().map(side).min_by(f64::total_cmp).unwrap_or(f64::NAN);
    let (proved, plain) = (least(|times| times.0), least(|times| times.1));
    println!("| {name} | total {total} | {proved:.0} | {plain:.0} | {:.2} |", proved / plain);
}

/// Prints the line of the raises for an asked arrival. Both sides must give the same.
fn raise(name: &str, job: &Job) {
    let laid_out = laid_out(job, 0);
    assert_eq!(raises::returned(library::raises_c_job(laid_out)), raises::plain(job));
    let rounds: Vec<(f64, f64)> = (0..41)
        .map(|_| {
            let proved = batch(500, || library::raises_c_job(black_box(laid_out)).axes[0].first.by);
            (proved, batch(500, || black_box(raises::plain(black_box(job)))[0][0].1))
        })
        .collect();
    let least = |side: fn(&(f64, f64)) -> f64| rounds.iter().map(side).min_by(f64::total_cmp).unwrap_or(f64::NAN);
    let (proved, plain) = (least(|times| times.0), least(|times| times.1));
    println!("| {name} | asked {} | {proved:.0} | {plain:.0} | {:.2} |", job.asked, proved / plain);
}

/// Prints the searches: of the jobs whose whole calls are timed, and of jobs that are made for a
/// long one.
fn search_table(short: &Job, long: &Job, wide: &Job, never: &Job) {
    println!("| least arrival, search alone | outcome | library, ns | plain Rust, ns | ratio | by ticks, ns |");
    println!("|---|---|---|---|---|---|");
    search("one axis, short", short);
    search("one axis, long", long);
    search("six axes", wide);
    search("one axis out of reach", never);
    search("six axes out of reach", &searches::out_of_reach());
    search("six axes that lead each other on", &searches::in_turns());
    search("six axes, 32 windows", &searches::in_windows(*wide));
    search("six axes out of reach, 32 windows", &searches::in_windows(searches::out_of_reach()));
    search("one target that accelerates, out of reach", &searches::accelerating(1));
    search("six targets that accelerate, out of reach", &searches::accelerating(6));
    search("longest found at random, no target accelerating", &searches::longest_steady());
    search("longest found at random, targets that accelerate", &searches::longest_accelerating());
    println!();
}

fn main() {
    let words: Vec<String> = std::env::args().skip(1).collect();
    match words.iter().map(String::as_str).collect::<Vec<_>>()[..] {
        [] => all_tables(),
        ["parts"] => parts::table(),
        ["parts", "names"] => parts::names(),
        ["parts", case, kind, count] => match (case.parse(), count.parse()) {
            (Ok(case), Ok(count)) => parts::calls(case, kind, count),
            _ => eprintln!("expected the number of a case and of calls"),
        },
        _ => eprintln!("expected nothing, `parts`, `parts names`, or `parts CASE part|whole COUNT`"),
    }
}

fn all_tables() {
    let short = one(axis(10, 1, 4, 100, 56));
    let long = one(axis(100, 1, 40, 128, 185_900));
    let wide = Job { mask: 63, asked: 0, axes: six(), windows: None };
    let never = one(axis(1, 1, 0, 128, 100_000_000));
    let follow = Target::Moving { position: 0, velocity: 0, acceleration: 1, tick: 0 };
    let finer = one(Axis { target: follow, ..axis(10_000, 5, 40, 100, 0) });
    let jointed = one(Axis { second: Some(15), ..axis(100, 1, 40, 128, 185_900) });
    let wide_jointed = Job { axes: six().map(|axis| Axis { second: Some(15), ..axis }), ..wide };

    // The first second or two of a process run slower here, and are not counted.
    time([(&short, 60), (&long, 6_000)]);
    println!("| a job, whole call | outcome | library, ns | plain Rust, ns | ratio | job lent, ns | by ticks, ns |");
    println!("|---|---|---|---|---|---|---|");
    let short_arrival = whole("one axis, short, least arrival", &short);
    let long_arrival = whole("one axis, long, least arrival", &long);
    let wide_arrival = whole("six axes, least arrival", &wide);
    whole("one axis, short, asked arrival", &Job { asked: short_arrival, ..short });
    whole("one axis, long, asked arrival", &Job { asked: long_arrival, ..long });
    whole("six axes, asked arrival", &Job { asked: wide_arrival, ..wide });
    whole("one axis, long, finer grid, asked arrival", &Job { asked: long_arrival, ..finer });
    let jointed_arrival = whole("one axis, long, second sway, least arrival", &jointed);
    whole("one axis, long, second sway, asked arrival", &Job { asked: jointed_arrival, ..jointed });
    let wide_jointed_arrival = whole("six axes, second sways, least arrival", &wide_jointed);
    println!();
    println!("| a tour | outcome | library, ns | plain Rust, ns | ratio |");
    println!("|---|---|---|---|---|");
    tour("64 stops, six axes");
    println!();
    println!("| raises for an asked arrival | outcome | library, ns | plain Rust, ns | ratio |");
    println!("|---|---|---|---|---|");
    raise("one axis", &Job { asked: long_arrival - 100, ..long });
    raise("six axes, most with both raises", &Job { asked: 3_950, ..wide });
    raise("six axes without a raise", &Job { asked: 300, ..wide });
    println!();
    search_table(&short, &long, &wide, &never);
    budgets::table();
    parts::table();
    println!("| velocities and rows, by row and axis | outcome | library, ns | plain Rust, ns | ratio |");
    println!("|---|---|---|---|---|");
    let planned = [
        ("one axis, short", &short, short_arrival),
        ("one axis, long", &long, long_arrival),
        ("six axes", &wide, wide_arrival),
        ("one axis, finer grid", &finer, long_arrival),
        ("one axis, second sway", &jointed, jointed_arrival),
        ("six axes, second sways", &wide_jointed, wide_jointed_arrival),
    ];
    for (name, job, arrival) in planned {
        by_row(name, job, arrival);
    }
    println!();
    println!("| the library's rows, by row and axis | outcome | forwards, ns | backwards, ns | ratio |");
    println!("|---|---|---|---|---|");
    for (name, job, arrival) in &planned[..4] {
        in_either_order(name, job, *arrival);
    }
}
