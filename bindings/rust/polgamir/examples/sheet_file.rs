//! Reads a set-up sheet from a file, plans it, and says which numbers are at fault where it is
//! refused.
//!
//!     cargo run --release --example sheet_file ../../../sheets/pan-tilt-stem.sheet

use std::error::Error;

use polgamir::sheet::Sheet;

fn main() -> Result<(), Box<dyn Error>> {
    let file = std::env::args().nth(1).ok_or("expected the file of a set-up sheet")?;
    let sheet: Sheet = std::fs::read_to_string(file)?.parse()?;
    for (number, axis) in sheet.job.entered() {
        for fault in axis.out_of_range() {
            println!(
                "{}: {} {} is outside {:?}",
                sheet.axis_title(number),
                fault.entry.name(),
                fault.value,
                fault.range
            );
        }
    }
    match sheet.job.plan() {
        Err(refusal) => println!("{refusal}"),
        Ok(plan) => {
            println!("arrival {}", plan.arrival());
            for row in &plan {
                println!("{} {:?}", row.tick(), row.cells());
            }
        }
    }
    Ok(())
}
