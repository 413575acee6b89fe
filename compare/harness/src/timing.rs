//! Times the Rust's `schedule` and the compared call on the same sheets in one run, their rounds interleaved.

use std::hint::black_box;
use std::time::Instant;

use crate::call::{Memory, Schedule};
use crate::oracle::Lent;
use crate::project::project;
use crate::read::read;

/// How long a sheet is timed.
#[derive(Debug, Clone, Copy)]
pub enum Rounds {
    /// As many rounds, each of one call of each sort.
    Count(usize),
    /// About so long for each sort of call, the shorter ones running more often a round.
    Seconds(f64),
}

/// The least and the median of many rounds, in seconds a call.
#[derive(Debug, Clone, Copy)]
pub struct Time {
    pub least: f64,
    pub median: f64,
}

/// The times on one sheet, or on several in turn.
#[derive(Debug, Clone, Copy)]
pub struct Times {
    /// Of the Rust's `schedule` on a ready `Project`.
    pub rust: Time,
    /// Of the same from the sheet's bytes on.
    pub with_reading: Time,
    /// Of the compared call, which always reads.
    pub ours: Time,
    pub rounds: usize,
}

/// The shortest time that is taken, so that asking for the time weighs nothing.
const SHORTEST: f64 = 20e-6;
const FEWEST: usize = 3;

/// A sort of call with its times.
struct Timed<'a> {
    run: Box<dyn FnMut() + 'a>,
    sheets: usize,
    /// Calls that are timed together, and how often they are a round.
    batch: usize,
    burst: usize,
    seconds: Vec<f64>,
}

impl<'a> Timed<'a> {
    /// Each call takes the next of so many sheets, so that all are timed alike and none is called twice in a row.
    /// What a call leaves is handed on so that it isn't optimised away; dropping it belongs to its time.
    fn new<T>(sheets: usize, mut run: impl FnMut(usize) -> T + 'a) -> Timed<'a> {
        let mut next = 0;
        let run = move || {
            drop(black_box(run(next)));
            next = (next + 1) % sheets;
        };
        Timed { run: Box::new(run), sheets, batch: sheets, burst: 1, seconds: Vec::new() }
    }

    /// Seconds a call.
    fn once(&mut self) -> f64 {
        let begun = Instant::now();
        (0..self.batch).for_each(|_| (self.run)());
        begun.elapsed().as_secs_f64() / self.batch as f64
    }

    fn round(&mut self) {
        for _ in 0..self.burst {
            let seconds = self.once();
            self.seconds.push(seconds);
        }
    }

    /// Sets how many calls are timed together; gives how long those take.
    fn settle(&mut self) -> f64 {
        // The first call also warms the machine up; where it is long, that doesn't matter.
        let first = self.once();
        let call = if first < 0.1 { self.once() } else { first };
        self.batch = ((SHORTEST / call.max(1e-9)).ceil() as usize).max(1).next_multiple_of(self.sheets);
        call * self.batch as f64
    }

    fn time(mut self) -> Time {
        self.seconds.sort_unstable_by(f64::total_cmp);
        let at = |k: usize| self.seconds.get(k).copied().unwrap_or_default();
        Time { least: at(0), median: at(self.seconds.len() / 2) }
    }
}

/// Times all three on the sheets, one after the other; the lent memory isn't cleared between calls.
pub fn times(schedule: Schedule, sheets: &[&[u8]], rounds: Rounds) -> Result<Times, String> {
    let (mut made, mut activities, mut links) = (Vec::new(), 0, 0);
    for bytes in sheets {
        let sheet = read(bytes).map_err(|row| format!("refused by row {row}: nothing to time"))?;
        if sheet.calendars.iter().any(|c| c.week.is_empty()) {
            return Err("refused by row 5: nothing to time".into());
        }
        made.push(project(&sheet));
        (activities, links) = (activities.max(sheet.activities.len()), links.max(sheet.links.len()));
    }
    let count = sheets.len();
    let mut memory = Memory::zeros(&Lent::need(activities, links));
    let mut timed = [
        Timed::new(count, |k| mkperth_sched::schedule(&made[k])),
        Timed::new(count, |k| read(sheets[k]).map(|s| mkperth_sched::schedule(&project(&s)))),
        Timed::new(count, |k| memory.call(schedule, sheets[k])),
    ];
    let rounds = match rounds {
        Rounds::Count(count) => count,
        Rounds::Seconds(each) => {
            let lasts = timed.each_mut().map(Timed::settle);
            let longest = lasts.into_iter().fold(0.0, f64::max);
            // Two of the longest in a row, so that each sort finds the caches as it left them.
            let rounds = FEWEST.max((each / (2.0 * longest)) as usize);
            for (t, lasts) in timed.iter_mut().zip(lasts) {
                t.burst = 1.max((each / rounds as f64 / lasts).round() as usize);
            }
            rounds
        }
    };
    (0..rounds).for_each(|_| timed.iter_mut().for_each(Timed::round));
    let [rust, with_reading, ours] = timed.map(Timed::time);
    Ok(Times { rust, with_reading, ours, rounds })
}

/// Seconds for a reader.
pub fn shown(seconds: f64) -> String {
    let (number, unit) = if seconds < 1e-3 { (seconds * 1e6, "µs") } else { (seconds * 1e3, "ms") };
    format!("{number:.*} {unit}", if number < 10.0 { 2 } else { usize::from(number < 100.0) })
}
