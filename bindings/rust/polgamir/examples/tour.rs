//! A tour over three stems and back: when the head is at each, and how long the way to it is.
//!
//!     cargo run --release --example tour

use polgamir::{Damping, Stop, Tour, TourAxis, TourRefusal};

fn main() -> Result<(), TourRefusal> {
    // One unit is a hundredth of a degree, one tick is 20 ms.
    let damping = Damping::Ratio(0.8);
    let second_half_period = None; // the pole swings at one rate
    let pan =
        TourAxis { start: -350, speed_limit: 40, acceleration_limit: 2, half_period: 30, damping, second_half_period };
    let tilt =
        TourAxis { start: 420, speed_limit: 25, acceleration_limit: 1, half_period: 27, damping, second_half_period };
    let tour = Tour::new().with_axis(0, pan).with_axis(1, tilt);
    let stops = [(2050, -430, 50), (3900, -380, 50), (7400, -510, 80), (-350, 420, 0)];
    let stops = stops.map(|(pan, tilt, dwell)| Stop { positions: [pan, tilt, 0, 0, 0, 0], dwell });

    // The list of arrivals is lent, as a controller does.
    let mut arrivals = [0; 4];
    let total = tour.plan(&stops, &mut arrivals)?;
    for (index, arrival) in arrivals.iter().enumerate() {
        // A leg is a job of its own, whose plan is the leg's table.
        let job = tour.leg(&stops, index).expect("a leg to each stop");
        let plan = job.plan().map_err(|refusal| TourRefusal::Leg { stop: index, refusal })?;
        println!("stop {index}: tick {arrival:3}, after a leg of {} ticks", plan.arrival());
    }
    println!("back after {total} ticks");
    Ok(())
}
