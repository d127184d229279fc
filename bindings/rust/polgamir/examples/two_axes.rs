//! Pan and tilt from one stem to the next on a swaying pole: the arrival, the first rows,
//! and the approach read backwards.
//!
//!     cargo run --release --example two_axes

use polgamir::{Axis, Damping, Job, Refusal, RestPoint, Row, Target};

fn main() -> Result<(), Refusal> {
    // One unit is a hundredth of a degree, one tick is 20 ms.
    let pan = Axis {
        start: RestPoint { position: -350, velocity: 0 },
        speed_limit: 40,
        acceleration_limit: 2,
        half_period: 30,
        damping: Damping::Ratio(0.8), // each swing is four fifths of the one before
        second_half_period: None,     // the pole swings at one rate
        target: Target::still(2050),
    };
    let tilt = Axis {
        start: RestPoint { position: 420, velocity: 0 },
        speed_limit: 25,
        acceleration_limit: 1,
        half_period: 27,
        damping: Damping::Peaks { first: 32.0, second: 24.5 }, // two peaks of the swing
        second_half_period: None,
        target: Target::still(-430),
    };
    let plan = Job::earliest().with_axis(0, pan).with_axis(1, tilt).plan()?;
    println!("pan and tilt arrive together at tick {}", plan.arrival());
    println!("the first rows:");
    plan.rows().take(3).for_each(print);
    println!("the last rows, from arrival backwards:");
    plan.rows().rev().take(3).for_each(print);
    Ok(())
}

/// Prints a row in units.
fn print(row: Row) {
    print!("  tick {:3}", row.tick());
    for (axis, motion) in row.axes() {
        print!("   axis {axis}: {:10.3} {:8.3}", motion.position_in_units(), motion.velocity_in_units());
    }
    println!();
}
