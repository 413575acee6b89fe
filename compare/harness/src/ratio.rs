//! Says how the compared call's time on one sheet stands to the Rust's.

use crate::call::Schedule;
use crate::timing::{Rounds, Time, shown, times};

/// Prints the times and their ratios.
pub fn print(schedule: Schedule, bytes: &[u8], rounds: usize) -> Result<(), String> {
    let t = times(schedule, &[bytes], Rounds::Count(rounds))?;
    let least = |time: Time| shown(time.least);
    let ratio = |other: Time| t.ours.least / other.least;
    println!("schedule {}, with the sheet's reading {}, ours {}", least(t.rust), least(t.with_reading), least(t.ours));
    println!("ratio {:.3}, with the sheet's reading {:.3}", ratio(t.rust), ratio(t.with_reading));
    Ok(())
}
