//! Planning into memory that is lent, as a controller does: nothing is allocated by
//! the call, and a refusal says why.
//!
//!     cargo run --release --example lent_table

use polgamir::{cells_needed, plan, Axis, Damping, Job, Refusal, RestPoint, State, Target, LATEST_ARRIVAL};

/// Room for the largest table of one axis.
const CELLS: usize = cells_needed(1, LATEST_ARRIVAL);

fn main() {
    let mut table = [0; CELLS];
    let carriage = State { position: 9000, velocity: 150, acceleration: 1, tick: 0 };
    let pan = Axis {
        start: RestPoint { position: 0, velocity: 0 },
        speed_limit: 600,
        acceleration_limit: 12,
        half_period: 16,
        damping: Damping::NONE,
        second_half_period: None,
        target: Target::Moving(carriage),
    };
    for asked in [60, 93] {
        let job = Job::arriving_at(asked).with_axis(0, pan);
        match plan(&job, &mut table) {
            Ok(accepted) => println!("tick {asked}: {} rows", accepted.rows().len()),
            Err(Refusal::NotReachable { axes }) => println!("tick {asked}: {axes} cannot be there"),
            Err(refusal) => println!("tick {asked}: {refusal}"),
        }
    }
}
